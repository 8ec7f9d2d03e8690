/* Wrong calls, each refused by its number, and changing nothing; and the layout of the structs. */
#include "h263rps.h"

#include <stddef.h>
#include <stdio.h>
#include <string.h>

static int wrong;

static void want(const char *what, uint32_t got, uint32_t wanted) {
    if (got == wanted) return;
    printf("%s: %u, not %u\n", what, (unsigned)got, (unsigned)wanted);
    wrong = 1;
}

enum { SIZE = 18432 };

static uint8_t picture[SIZE], shown[SIZE], room[1400];
static h263rps_params params;
static h263rps_answer answer;
static h263rps_coded coded;
static h263rps_reply reply;
static size_t count;

/* Each field by its offset, and what the library writes there. */
static void layout(void) {
    h263rps_params filled;
    want("size of statistics", sizeof(h263rps_statistics), 25 * 8);
    want("size of an end", sizeof(h263rps_end), 2 * sizeof(void *) + sizeof(h263rps_statistics));
    want("size of the parameters", sizeof(h263rps_params), 32);
    want("size of a message", sizeof(h263rps_message), 6);
    want("size of an answer", sizeof(h263rps_answer), 32);
    want("size of a picture", sizeof(h263rps_coded), 16);
    want("size of a reply", sizeof(h263rps_reply), 8);
    want("size of what is lent", sizeof(h263rps_lent), 2 * sizeof(void *));
    want("its length", offsetof(h263rps_lent, length), sizeof(void *));
    memset(&filled, 0xAA, sizeof filled);
    want("defaults", h263rps_defaults(H263RPS_CIF, &filled), H263RPS_OK);
    want("its size", filled.size, sizeof filled);
    want("format", filled.format, H263RPS_CIF);
    want("quant", filled.quant, 8);
    want("keep", filled.keep, 64);
    want("radius", filled.radius, 7);
    want("messages", filled.messages, 1);
    want("limit", filled.limit, 1400);
    want("slots", filled.slots, 16);
    want("lead", filled.lead, 3);
    want("clock", filled.clock, H263RPS_STANDARD_CLOCK);
    want("target", filled.target, 0);
    want("no format", h263rps_defaults(4, &filled), H263RPS_BAD_PARAMS);
    want("sizes",
         (uint32_t)(h263rps_picture_size(0) + h263rps_picture_size(1) + h263rps_picture_size(2) +
                    h263rps_picture_size(3) + h263rps_picture_size(4)),
         18432 + 38016 + 152064);
}

static uint32_t start(int receives, h263rps_end *end, const h263rps_params *asked,
                      uint32_t *fault) {
    return receives ? h263rps_receiver_start(end, asked, fault)
                    : h263rps_sender_start(end, asked, fault);
}

/* Each parameter one out of its range. */
static void parameters(int receives) {
    uint32_t fault = 77;
    h263rps_end end = {0};
#define BAD(field, value, number) \
    do { \
        h263rps_params asked = params; \
        asked.field = value; \
        want(#field, start(receives, &end, &asked, &fault), H263RPS_BAD_PARAMS); \
        want(#field " is told", fault, number); \
        want(#field ": empty", end.kind, 0); \
    } while (0)
    BAD(size, 28, H263RPS_PARAM_SIZE);
    BAD(size, 36, H263RPS_PARAM_SIZE);
    BAD(format, 0, H263RPS_PARAM_FORMAT);
    BAD(format, 4, H263RPS_PARAM_FORMAT);
    BAD(clock, 2, H263RPS_PARAM_CLOCK);
    BAD(quant, 0, H263RPS_PARAM_QUANT);
    BAD(quant, 32, H263RPS_PARAM_QUANT);
    BAD(keep, 65, H263RPS_PARAM_KEEP);
    BAD(radius, 16, H263RPS_PARAM_RADIUS);
    BAD(limit, 1199, H263RPS_PARAM_LIMIT);
    BAD(slots, 1, H263RPS_PARAM_SLOTS);
    BAD(lead, 15, H263RPS_PARAM_LEAD);
    BAD(messages, 3, H263RPS_PARAM_MESSAGES);
    BAD(target, 1000000, H263RPS_PARAM_TARGET);
#undef BAD
    want("no fault wanted", start(receives, &end, &params, NULL), H263RPS_OK);
    fault = 77;
    want("started", start(receives, &end, &params, &fault), H263RPS_STARTED);
    want("fault is left", fault, 77);
    want("finish", receives ? h263rps_receiver_finish(&end) : h263rps_sender_finish(&end), 0);
    want("empty", end.kind == 0 && end.at == NULL, 1);
    want("null", start(receives, NULL, &params, NULL), H263RPS_NULL);
    want("null", start(receives, &end, NULL, NULL), H263RPS_NULL);
}

/* Each call of a receiver answers `status`. */
static void receiver_calls(h263rps_end *end, uint32_t status) {
    h263rps_lent lent = {room, 77};
    uint32_t pictures = 77;
    h263rps_statistics statistics = {77};
    memset(&answer, 0xAA, sizeof answer);
    memset(shown, 0xAA, SIZE);
    want("packet", h263rps_receiver_packet(end, "abc", 3, &answer), status);
    want("play", h263rps_receiver_play(end, shown, SIZE, &answer), status);
    want("play lent", h263rps_receiver_play_lent(end, &lent, &answer), status);
    want("shown", h263rps_receiver_shown(end, &lent), status);
    want("played", h263rps_receiver_played(end, &pictures), status);
    want("reset", h263rps_receiver_reset(end, 1048577), status);
    want("statistics", h263rps_receiver_statistics(end, &statistics), status);
    want("finish", h263rps_receiver_finish(end), status);
    want("counts are left", statistics.packets == 77, 1);
    want("the number is left", pictures, 77);
    want("answer is left", answer.kind, 0xAAAAAAAA);
    want("picture is left", shown[0], 0xAA);
    want("nothing is lent", lent.samples == room && lent.length == 77, 1);
}

static const h263rps_pace paced = {1000, 8000, 0, 1000, 1000, 0};

static void sender_calls(h263rps_end *end, uint32_t status) {
    memset(&coded, 0xAA, sizeof coded);
    memset(&reply, 0xAA, sizeof reply);
    uint32_t pictures = 77;
    h263rps_statistics statistics = {77};
    count = 77;
    want("code", h263rps_sender_code(end, picture, SIZE, NULL, 0, &coded), status);
    want("packet", h263rps_sender_packet(end, 0, room, sizeof room, &count), status);
    want("feedback", h263rps_sender_feedback(end, "abc", 3, &reply), status);
    want("target", h263rps_sender_target(end, 1000000), status);
    want("quantiser", h263rps_sender_quant(end, 32), status);
    want("pace", h263rps_pace_next(&paced, end, &pictures), status);
    want("forget", h263rps_sender_forget(end), status);
    want("reset", h263rps_sender_reset(end, 1000000), status);
    want("sent", h263rps_sender_sent(end, &pictures), status);
    want("known", h263rps_sender_known(end, &pictures), status);
    want("statistics", h263rps_sender_statistics(end, &statistics), status);
    want("finish", h263rps_sender_finish(end), status);
    want("counts are left", statistics.packets == 77, 1);
    want("the number is left", pictures, 77);
    want("picture is left", coded.number, 0xAAAAAAAA);
    want("reply is left", reply.kind, 0xAAAAAAAA);
    want("count is left", (uint32_t)count, 77);
}

/* What is lent is the picture that is shown, where it was copied from, and stays until the next
 * call. */
static void lent_pictures(h263rps_end *end) {
    h263rps_lent lent = {NULL, 77}, again = {NULL, 77}, raw = {room, 77};
    want("null", h263rps_receiver_shown(NULL, &lent), H263RPS_NULL);
    want("null", h263rps_receiver_shown(end, NULL), H263RPS_NULL);
    want("null", h263rps_receiver_play_lent(NULL, &lent, &answer), H263RPS_NULL);
    want("null", h263rps_receiver_play_lent(end, NULL, &answer), H263RPS_NULL);
    want("null", h263rps_receiver_play_lent(end, &lent, NULL), H263RPS_NULL);
    want("shown", h263rps_receiver_shown(end, &lent), H263RPS_OK);
    want("all of it", (uint32_t)lent.length, SIZE);
    want("grey", lent.samples[0] == 128 && lent.samples[SIZE - 1] == 128, 1);
    want("play lent", h263rps_receiver_play_lent(end, &lent, &answer), H263RPS_OK);
    want("held", answer.kind, H263RPS_HELD);
    want("the second", answer.number, 1);
    want("its length", (uint32_t)lent.length, SIZE);
    want("a message", answer.message.length, 3);
    want("shown", h263rps_receiver_shown(end, &again), H263RPS_OK);
    want("one place", again.samples == lent.samples && again.length == SIZE, 1);
    want("the raw call", h263rps_raw_receiver_shown(end, &raw), H263RPS_OK);
    want("its place", raw.samples == lent.samples, 1);
    want("its length", (uint32_t)raw.length, SIZE);
    want("play", h263rps_receiver_play(end, shown, SIZE, &answer), H263RPS_OK);
    want("shown", h263rps_receiver_shown(end, &lent), H263RPS_OK);
    want("the copied one", memcmp(lent.samples, shown, SIZE), 0);
}

/* Packets that were refused for their bytes, and pictures that were held. */
static void counts_of_receiver(h263rps_end *end, uint32_t packets, uint32_t bytes,
                               uint32_t pictures) {
    h263rps_statistics is,
        wanted = {packets, bytes, {0, 0, 0, 0, 0, packets}, {packets}, {0, 0, pictures}, {0}, {0}};
    want("null", h263rps_receiver_statistics(end, NULL), H263RPS_NULL);
    want("null", h263rps_receiver_statistics(NULL, &is), H263RPS_NULL);
    want("statistics", h263rps_receiver_statistics(end, &is), H263RPS_OK);
    want("counts", memcmp(&is, &wanted, sizeof is), 0);
}

/* Pictures that were coded intra and by the one before, messages that were noted and none. */
static void counts_of_sender(h263rps_end *end) {
    h263rps_statistics is, wanted = {0, 0, {0}, {0}, {0}, {1, 1}, {1, 0, 1}};
    want("null", h263rps_sender_statistics(end, NULL), H263RPS_NULL);
    want("null", h263rps_sender_statistics(NULL, &is), H263RPS_NULL);
    want("statistics", h263rps_sender_statistics(end, &is), H263RPS_OK);
    wanted.packets = is.packets;
    wanted.bytes = is.bytes;
    want("counts", memcmp(&is, &wanted, sizeof is), 0);
}

static void receiver(void) {
    h263rps_end end = {0};
    receiver_calls(&end, H263RPS_NOT_STARTED);
    want("start", h263rps_receiver_start(&end, &params, NULL), H263RPS_OK);
    sender_calls(&end, H263RPS_OTHER_END);
    want("null", h263rps_receiver_packet(NULL, "abc", 3, &answer), H263RPS_NULL);
    want("null", h263rps_receiver_packet(&end, NULL, 3, &answer), H263RPS_NULL);
    want("null", h263rps_receiver_packet(&end, "abc", 3, NULL), H263RPS_NULL);
    want("null", h263rps_receiver_play(&end, NULL, SIZE, &answer), H263RPS_NULL);
    want("null", h263rps_receiver_finish(NULL), H263RPS_NULL);
    want("long", h263rps_receiver_packet(&end, "abc", SIZE_MAX, &answer), H263RPS_TOO_LONG);
    want("no bytes", h263rps_receiver_packet(&end, NULL, 0, &answer), H263RPS_OK);
    want("refused", answer.kind, H263RPS_REFUSED);
    want("short", answer.fault, H263RPS_BYTES_SHORT);
    want("of no bytes", answer.at, 0);
    want("no number", answer.number, 0);
    want("no message", answer.message.length, 0);
    want("short room", h263rps_receiver_play(&end, shown, SIZE - 1, &answer), H263RPS_WRONG_LENGTH);
    want("no room", h263rps_receiver_play(&end, NULL, 0, &answer), H263RPS_WRONG_LENGTH);
    counts_of_receiver(&end, 1, 0, 0);
    want("play", h263rps_receiver_play(&end, shown, SIZE, &answer), H263RPS_OK);
    counts_of_receiver(&end, 1, 0, 1);
    want("held", answer.kind, H263RPS_HELD);
    want("grey", shown[0] == 128 && shown[SIZE - 1] == 128, 1);
    want("a message", answer.message.length, 3);
    lent_pictures(&end);
    want("finish", h263rps_receiver_finish(&end), H263RPS_OK);
    want("all zeros", end.counted.packets == 0 && end.counted.played[2] == 0, 1);
    receiver_calls(&end, H263RPS_NOT_STARTED);
}

/* A receiver that begins at a number: the greatest, and one above it. */
static void joining(void) {
    h263rps_end end = {0};
    uint32_t fault = 77, pictures = 77;
    want("start", h263rps_receiver_start_at(&end, &params, 1048577, &fault), H263RPS_BAD_PARAMS);
    want("the number is told", fault, H263RPS_PARAM_NUMBER);
    want("empty", end.kind, 0);
    want("null", h263rps_receiver_start_at(NULL, &params, 0, &fault), H263RPS_NULL);
    want("null", h263rps_receiver_start_at(&end, NULL, 0, &fault), H263RPS_NULL);
    want("start", h263rps_receiver_start_at(&end, &params, 1048576, NULL), H263RPS_OK);
    want("started", h263rps_receiver_start_at(&end, &params, 0, NULL), H263RPS_STARTED);
    want("null", h263rps_receiver_played(&end, NULL), H263RPS_NULL);
    want("null", h263rps_receiver_reset(NULL, 0), H263RPS_NULL);
    want("played", h263rps_receiver_played(&end, &pictures), H263RPS_OK);
    want("all", pictures, 1048576);
    want("the end", h263rps_receiver_play(&end, shown, SIZE, &answer), H263RPS_ENDED);
    want("finish", h263rps_receiver_finish(&end), H263RPS_OK);
}

/* A message of each length beside an empty place: three bytes are one, and no other length is. */
static void messages(void) {
    h263rps_end end = {0};
    h263rps_message back[4] = {{{9, 9, 9, 9, 9}, 0}};
    want("start", h263rps_sender_start(&end, &params, NULL), H263RPS_OK);
    want("four empty ones", h263rps_sender_code(&end, picture, SIZE, back, 4, &coded), H263RPS_OK);
    for (unsigned length = 0; length < 256; length++) {
        h263rps_message ack = {{0xC0, 0x04, 0x00, 0, 0}, (uint8_t)length};
        back[2] = ack;
        want("a message", h263rps_sender_code(&end, picture, SIZE, back, 4, &coded),
             length == 0 || length == 3 ? H263RPS_OK : H263RPS_BAD_MESSAGES);
    }
    h263rps_message flagged = {{0xE0, 0x04, 0x00, 0x80, 0x80}, 5};
    back[3] = flagged;
    want("five bytes", h263rps_sender_code(&end, picture, SIZE, back + 3, 1, &coded), H263RPS_OK);
    want("finish", h263rps_sender_finish(&end), H263RPS_OK);
}

/* Another SSRC and payload type: of a packet of a sender, and back. */
static void labels(void) {
    h263rps_end end = {0};
    uint8_t kept[1400];
    memset(room, 0xAA, sizeof room);
    want("short", h263rps_packet_label(room, 11, 1, 2), H263RPS_WRONG_LENGTH);
    want("payload type", h263rps_packet_label(room, 12, 1, 128), H263RPS_BAD_PARAMS);
    want("null", h263rps_packet_label(NULL, 12, 1, 2), H263RPS_NULL);
    for (size_t i = 0; i < sizeof room; i++) want("untouched", room[i], 0xAA);
    want("start", h263rps_sender_start(&end, &params, NULL), H263RPS_OK);
    want("code", h263rps_sender_code(&end, picture, SIZE, NULL, 0, &coded), H263RPS_OK);
    want("packet", h263rps_sender_packet(&end, 0, room, sizeof room, &count), H263RPS_OK);
    memcpy(kept, room, count);
    want("label", h263rps_packet_label(room, count, 0xFEDCBA98, 127), H263RPS_OK);
    for (size_t i = 0; i < count; i++) {
        static const uint8_t source[4] = {0xFE, 0xDC, 0xBA, 0x98};
        int is_source = i >= 8 && i < 12;
        want("label", room[i],
             i == 1      ? (kept[1] & 0x80u) | 127u
             : is_source ? source[i - 8]
                         : kept[i]);
    }
    want("back", h263rps_packet_label(room, 12, H263RPS_SSRC, H263RPS_PAYLOAD_TYPE), H263RPS_OK);
    want("as it was", memcmp(room, kept, count), 0);
    want("finish", h263rps_sender_finish(&end), H263RPS_OK);
}

static void sender(void) {
    uint32_t quant = 77;
    h263rps_end end = {0};
    h263rps_message back[5] = {{{0xC0, 0x04, 0x00, 0, 0}, 3}};
    sender_calls(&end, H263RPS_NOT_STARTED);
    want("start", h263rps_sender_start(&end, &params, NULL), H263RPS_OK);
    receiver_calls(&end, H263RPS_OTHER_END);
    for (int i = 1; i < 5; i++) back[i] = back[0];
    want("no picture", h263rps_sender_packet(&end, 0, room, sizeof room, &count),
         H263RPS_NO_PACKET);
    want("short", h263rps_sender_code(&end, picture, SIZE - 1, NULL, 0, &coded),
         H263RPS_WRONG_LENGTH);
    want("five", h263rps_sender_code(&end, picture, SIZE, back, 5, &coded), H263RPS_BAD_MESSAGES);
    back[1].bytes[0] = 0;
    want("none", h263rps_sender_code(&end, picture, SIZE, back, 2, &coded), H263RPS_BAD_MESSAGES);
    want("null", h263rps_sender_code(&end, picture, SIZE, NULL, 1, &coded), H263RPS_NULL);
    want("null", h263rps_sender_code(&end, NULL, SIZE, NULL, 0, &coded), H263RPS_NULL);
    want("long", h263rps_sender_code(&end, picture, SIZE, back, SIZE_MAX, &coded),
         H263RPS_TOO_LONG);
    want("code", h263rps_sender_code(&end, picture, SIZE, back, 1, &coded), H263RPS_OK);
    want("the first", coded.number == 0 && coded.intra == 1 && coded.reference == 0, 1);
    want("a packet", coded.packets > 0, 1);
    want("short room", h263rps_sender_packet(&end, 0, room, 10, &count), H263RPS_SHORT_ROOM);
    want("no room", h263rps_sender_packet(&end, 0, NULL, 0, &count), H263RPS_SHORT_ROOM);
    want("the last", h263rps_sender_packet(&end, coded.packets, room, sizeof room, &count),
         H263RPS_NO_PACKET);
    want("packet", h263rps_sender_packet(&end, 0, room, sizeof room, &count), H263RPS_OK);
    want("feedback", h263rps_sender_feedback(&end, "abc", 3, &reply), H263RPS_OK);
    want("no message", reply.kind, H263RPS_NO_MESSAGE);
    want("its kind", reply.fault, H263RPS_MESSAGE_KIND);
    want("feedback", h263rps_sender_feedback(&end, back[0].bytes, 3, &reply), H263RPS_OK);
    want("noted", reply.kind == H263RPS_NOTED && reply.fault == 0, 1);
    want("packet", h263rps_sender_packet(&end, 0, room, sizeof room, &count), H263RPS_OK);
    want("code", h263rps_sender_code(&end, picture, SIZE, NULL, 0, &coded), H263RPS_OK);
    want("the second", coded.number == 1 && coded.intra == 0 && coded.reference == 0, 1);
    counts_of_sender(&end);
    want("too great a target", h263rps_sender_target(&end, 1000000), H263RPS_BAD_PARAMS);
    want("the greatest", h263rps_sender_target(&end, 999999), H263RPS_OK);
    want("null", h263rps_sender_target(NULL, 0), H263RPS_NULL);
    want("no quantiser", h263rps_sender_quant(&end, 0), H263RPS_BAD_PARAMS);
    want("too coarse", h263rps_sender_quant(&end, 32), H263RPS_BAD_PARAMS);
    want("far too coarse", h263rps_sender_quant(&end, 257), H263RPS_BAD_PARAMS);
    want("the coarsest", h263rps_sender_quant(&end, 31), H263RPS_OK);
    want("null", h263rps_sender_quant(NULL, 8), H263RPS_NULL);
    want("null", h263rps_pace_next(NULL, &end, &quant), H263RPS_NULL);
    want("null", h263rps_pace_next(&paced, NULL, &quant), H263RPS_NULL);
    want("null", h263rps_pace_next(&paced, &end, NULL), H263RPS_NULL);
    want("nothing is written", quant, 77);
    want("pace", h263rps_pace_next(&paced, &end, &quant), H263RPS_OK);
    want("the finest", quant, 2);
    want("null", h263rps_sender_forget(NULL), H263RPS_NULL);
    want("null", h263rps_sender_reset(NULL, 0), H263RPS_NULL);
    want("null", h263rps_sender_sent(&end, NULL), H263RPS_NULL);
    want("null", h263rps_sender_known(&end, NULL), H263RPS_NULL);
    want("finish", h263rps_sender_finish(&end), H263RPS_OK);
    sender_calls(&end, H263RPS_NOT_STARTED);
}

/* A pace that is refused stays as it is. */
static void paces(void) {
    h263rps_pace pace = paced;
    want("no format", h263rps_pace_start(&pace, 0, 1000, 8000), H263RPS_BAD_PARAMS);
    want("no target", h263rps_pace_start(&pace, H263RPS_CIF, 0, 8000), H263RPS_BAD_PARAMS);
    want("great", h263rps_pace_start(&pace, H263RPS_CIF, 1000000, 8000), H263RPS_BAD_PARAMS);
    want("no target", h263rps_pace_target(&pace, 0, 8000), H263RPS_BAD_PARAMS);
    want("great", h263rps_pace_target(&pace, 1000000, 8000), H263RPS_BAD_PARAMS);
    want("as it was", memcmp(&pace, &paced, sizeof pace), 0);
    want("null", h263rps_pace_start(NULL, H263RPS_CIF, 1000, 8000), H263RPS_NULL);
    want("null", h263rps_pace_target(NULL, 1000, 8000), H263RPS_NULL);
    want("null", h263rps_pace_coded(NULL, &coded, 8, 1000), H263RPS_NULL);
    want("null", h263rps_pace_coded(&pace, NULL, 8, 1000), H263RPS_NULL);
    want("the greatest", h263rps_pace_start(&pace, H263RPS_CIF, 999999, UINT32_MAX), H263RPS_OK);
    want("as asked", pace.target == 999999 && pace.room == UINT32_MAX && pace.level == 0, 1);
}

int main(void) {
    layout();
    want("version", h263rps_version(), H263RPS_VERSION);
    want("defaults", h263rps_defaults(H263RPS_SUB_QCIF, &params), H263RPS_OK);
    parameters(0);
    parameters(1);
    receiver();
    joining();
    sender();
    paces();
    messages();
    labels();
    if (!wrong) printf("each wrong call is refused by its number\n");
    return wrong;
}
