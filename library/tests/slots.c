/* The library's own functions, h263rps_raw_NAME, over a slot that is empty, holds the other end, or
 * holds the one meant: each refusal with all that it leaves alone, and a call that works. Each test
 * prints its name and how many values it compared. */
#include "h263rps.h"

#include <stdio.h>
#include <string.h>

enum { SIZE = 18432, ROOM = 1400 };

static int wrong;
static uint32_t compared;

static void is(const char *what, uint64_t got, uint64_t wanted) {
    compared++;
    if (got == wanted) return;
    printf("%s: %llu, not %llu\n", what, (unsigned long long)got, (unsigned long long)wanted);
    wrong = 1;
}

/* Compares numbers, each by its place. */
static void are(const char *what, const uint32_t *got, const uint32_t *wanted, int count) {
    char place[64];
    for (int i = 0; i < count; i++) {
        snprintf(place, sizeof place, "%s, %d", what, i);
        is(place, got[i], wanted[i]);
    }
}

#define ARE(what, got, ...) \
    do { \
        const uint32_t wanted_[] = {__VA_ARGS__}; \
        are(what, got, wanted_, (int)(sizeof wanted_ / sizeof *wanted_)); \
    } while (0)

static const h263rps_params asked = {.size = 32,
                                     .format = 1,
                                     .quant = 8,
                                     .keep = 64,
                                     .radius = 7,
                                     .messages = 1,
                                     .limit = 1400,
                                     .slots = 16,
                                     .lead = 3};
static const h263rps_answer untouched = {77, 77, 77, 77, 77, 77, {{7, 7, 7, 7, 7}, 7}};
static const uint8_t ack_0[3] = {0xC0, 0x04, 0x00}, three[3] = {1, 2, 3};
static const uint8_t one = 77;
static uint8_t picture[SIZE];

/* What is answered to a loan, how many samples are lent, and the first. */
static void lent(const char *what, h263rps_end *slot, uint32_t status, uint32_t length,
                 uint32_t first) {
    h263rps_lent loan = {&one, 1};
    is(what, h263rps_raw_receiver_shown(slot, &loan), status);
    is(what, loan.length, length);
    is(what, loan.samples[0], first);
}

/* What a receiver's functions answer, and the kind of the last answer. */
static void receiver_calls(h263rps_end *slot, uint32_t got[5]) {
    h263rps_answer answer = untouched;
    h263rps_lent loan = {&one, 1};
    uint8_t room[4] = {9, 9, 9, 9};
    got[0] = h263rps_raw_receiver_packet(slot, three, 3, &answer);
    got[1] = h263rps_raw_receiver_play(slot, room, 4, &answer);
    got[2] = h263rps_raw_receiver_shown(slot, &loan);
    got[3] = h263rps_raw_receiver_finish(slot);
    got[4] = answer.kind;
}

/* What a sender's functions answer, and the kind of the last reply. */
static void sender_calls(h263rps_end *slot, uint32_t got[5]) {
    h263rps_reply reply = {77, 77};
    h263rps_coded coded = {0, 0, 0, 0};
    const h263rps_message none = {{0}, 0};
    uint8_t room[4] = {9, 9, 9, 9};
    size_t count = 0;
    got[0] = h263rps_raw_sender_code(slot, three, 3, &none, 0, &coded);
    got[1] = h263rps_raw_sender_packet(slot, 0, room, 4, &count);
    got[2] = h263rps_raw_sender_feedback(slot, ack_0, 3, &reply);
    got[3] = h263rps_raw_sender_finish(slot);
    got[4] = reply.kind;
}

/* What the functions that steer a sender answer, a target that is too great first, and how many
 * pictures were coded; and what a receiver has played. */
static void steering_calls(h263rps_end *slot, uint32_t got[9]) {
    uint32_t sent = 77, known = 77, played = 77;
    got[0] = h263rps_raw_sender_target(slot, 1000000);
    got[1] = h263rps_raw_sender_target(slot, 999999);
    got[2] = h263rps_raw_sender_forget(slot);
    got[3] = h263rps_raw_sender_sent(slot, &sent);
    got[4] = sent;
    got[5] = h263rps_raw_sender_known(slot, &known);
    got[6] = known;
    got[7] = h263rps_raw_receiver_played(slot, &played);
    got[8] = played;
}

/* What the resets answer, and what is counted then. */
static void resets(h263rps_end *slot, uint32_t got[6]) {
    got[4] = got[5] = 77;
    got[0] = h263rps_raw_sender_reset(slot, 1000000);
    got[1] = h263rps_raw_sender_reset(slot, 999999);
    got[2] = h263rps_raw_receiver_reset(slot, 1048577);
    got[3] = h263rps_raw_receiver_reset(slot, 1048576);
    h263rps_raw_sender_sent(slot, &got[4]);
    h263rps_raw_receiver_played(slot, &got[5]);
}

/* ---- one end ------------------------------------------------------------------------------- */

static void steering(void) {
    h263rps_end slot = {0};
    uint32_t fault = 77, got[9];
    steering_calls(&slot, got);
    ARE("empty", got, 1, 1, 1, 1, 77, 1, 77, 1, 77);
    is("start", h263rps_raw_sender_start(&slot, &asked, &fault), 0);
    steering_calls(&slot, got);
    ARE("a sender", got, 4, 0, 0, 0, 0, 0, 0, 3, 77);
    h263rps_raw_sender_finish(&slot);
}

static void a_call_begins_anew(void) {
    h263rps_end slot = {0};
    uint32_t fault = 77, got[6];
    resets(&slot, got);
    ARE("empty", got, 1, 1, 1, 1, 77, 77);
    is("start", h263rps_raw_sender_start(&slot, &asked, &fault), 0);
    resets(&slot, got);
    ARE("a sender", got, 4, 0, 3, 3, 0, 77);
    is("finish", h263rps_raw_sender_finish(&slot), 0);
    is("start", h263rps_raw_receiver_start(&slot, &asked, &fault), 0);
    resets(&slot, got);
    ARE("a receiver", got, 3, 3, 4, 0, 77, 1048576);
    h263rps_raw_receiver_finish(&slot);
}

static void a_receiver_at_a_number(void) {
    h263rps_end slot = {0};
    h263rps_answer answer = untouched;
    uint32_t fault = 77, got[9];
    is("late", h263rps_raw_receiver_start_at(&slot, &asked, 1048577, &fault), 4);
    is("its fault", fault, 11);
    is("the last", h263rps_raw_receiver_start_at(&slot, &asked, 1048576, &fault), 0);
    is("no fault", fault, 11);
    steering_calls(&slot, got);
    ARE("a receiver", got, 3, 3, 3, 3, 77, 3, 77, 0, 1048576);
    is("next", h263rps_raw_receiver_next(&slot, &answer), 6);
    is("again", h263rps_raw_receiver_start_at(&slot, &asked, 5, &fault), 2);
    is("no fault", fault, 11);
    h263rps_raw_receiver_finish(&slot);
}

static void an_empty_slot(void) {
    h263rps_end slot = {0};
    uint32_t got[5];
    receiver_calls(&slot, got);
    ARE("as a receiver", got, 1, 1, 1, 1, 77);
    sender_calls(&slot, got);
    ARE("as a sender", got, 1, 1, 1, 1, 77);
}

static void the_other_end(void) {
    h263rps_end slot = {0};
    h263rps_answer answer = untouched;
    uint32_t fault = 77, got[5];
    is("start", h263rps_raw_sender_start(&slot, &asked, &fault), 0);
    is("started", h263rps_raw_receiver_start(&slot, &asked, &fault), 2);
    receiver_calls(&slot, got);
    ARE("a sender as a receiver", got, 3, 3, 3, 3, 77);
    is("next", h263rps_raw_receiver_next(&slot, &answer), 3);
    lent("shown", &slot, 3, 1, 77);
    /* a length that is wrong, no packet, a message about a picture that was not sent */
    sender_calls(&slot, got);
    ARE("a sender", got, 7, 9, 0, 0, 1);
    is("start", h263rps_raw_receiver_start(&slot, &asked, &fault), 0);
    sender_calls(&slot, got);
    ARE("a receiver as a sender", got, 3, 3, 3, 3, 77);
    /* a packet that is refused, and a room that is too short */
    receiver_calls(&slot, got);
    ARE("a receiver", got, 0, 7, 0, 0, 5);
    is("no fault", fault, 77);
}

/* What both starts answer these parameters, and the fault of the second. */
static void starts(const h263rps_params *params, uint32_t got[3]) {
    h263rps_end slot = {0};
    got[2] = 77;
    got[0] = h263rps_raw_sender_start(&slot, params, &got[2]);
    got[1] = h263rps_raw_receiver_start(&slot, params, &got[2]);
    if (got[0] == 0) h263rps_raw_sender_finish(&slot);
}

/* Parameters whose first fault is the one of this number. With two at once the size comes first. */
static h263rps_params faulty(uint32_t fault) {
    h263rps_params params = asked;
    switch (fault) {
    case 1: params.quant = 32; break;
    case 2: params.keep = 0; break;
    case 3: params.radius = 16; break;
    case 4: params.limit = 9001; break;
    case 5: params.slots = 65; break;
    case 6: params.lead = 15; break;
    case 7: params.messages = 0; break;
    case 8: params.format = 4; break;
    case 9: params.clock = 2; break;
    case 10: params.target = 1000000; break;
    case 15: params.pace = 2; break;
    default: params.size = 28, params.format = 4;
    }
    return params;
}

static void parameters(void) {
    static const uint32_t faults[] = {1, 2, 3, 4, 5, 6, 7, 8, 9, 10, 12, 15};
    h263rps_params params;
    uint32_t got[5];
    for (int i = 0; i < 12; i++) {
        params = faulty(faults[i]);
        starts(&params, got);
        ARE("a fault", got, 4, 4, faults[i]);
    }
    params = asked;
    params.quant = 0;
    is("no format", h263rps_raw_defaults(0, &params), 4);
    is("left alone", params.quant, 0);
    is("defaults", h263rps_raw_defaults(1, &params), 0);
    starts(&params, got);
    ARE("started", got, 0, 2, 77);
    is("size", params.size, 32);
    is("quant", params.quant, 8);
    is("limit", params.limit, 1400);
    is("target", params.target, 0);
    for (uint32_t format = 0; format < 5; format++) got[format] = h263rps_raw_picture_size(format);
    ARE("sizes", got, 0, 18432, 38016, 152064, 0);
    is("version", h263rps_raw_version(), H263RPS_VERSION);
}

/* ---- both ends ----------------------------------------------------------------------------- */

/* A picture of a sender goes to a receiver: whether anything is refused, what its last packet is
 * answered, how it is shown, and whether it is intra. A wrong number or reference is a refusal,
 * too. */
static void sent(h263rps_end *sender, h263rps_end *receiver, uint32_t got[4]) {
    const h263rps_message none = {{0}, 0};
    h263rps_coded coded = {0, 0, 0, 0};
    h263rps_answer heard = untouched;
    h263rps_reply reply = {77, 77};
    uint8_t room[ROOM];
    size_t count = 0;
    uint32_t number;
    got[0] = h263rps_raw_sender_code(sender, picture, SIZE, &none, 0, &coded);
    for (uint32_t i = 0; i < coded.packets; i++) {
        got[0] |= h263rps_raw_sender_packet(sender, i, room, ROOM, &count);
        got[0] |= h263rps_raw_receiver_packet(receiver, room, count, &heard);
    }
    got[0] |=
        h263rps_raw_sender_feedback(sender, heard.message.bytes, heard.message.length, &reply);
    got[1] = heard.kind;
    number = heard.number;
    got[0] |= h263rps_raw_receiver_play(receiver, picture, SIZE, &heard);
    got[2] = heard.kind;
    got[3] = coded.intra;
    if (number != coded.number || heard.number != coded.number) got[0] = 98;
    if (heard.predicted == coded.intra || heard.reference != coded.reference) got[0] = 99;
}

static void start_both(h263rps_end *sender, h263rps_end *receiver) {
    uint32_t fault = 77;
    memset(picture, 128, SIZE);
    is("start", h263rps_raw_sender_start(sender, &asked, &fault), 0);
    is("start", h263rps_raw_receiver_start(receiver, &asked, &fault), 0);
}

static void a_call(void) {
    h263rps_end sender = {0}, receiver = {0};
    h263rps_answer answer = untouched;
    uint32_t got[4];
    start_both(&sender, &receiver);
    sent(&sender, &receiver, got);
    ARE("the first", got, 0, 1, 0, 1);
    is("its first sample", picture[0], 128);
    sent(&sender, &receiver, got);
    ARE("the second", got, 0, 1, 0, 0);
    lent("shown", &receiver, 0, SIZE, 128);
    /* on request the third is intra, and the fourth refers to it */
    is("forget", h263rps_raw_sender_forget(&sender), 0);
    sent(&sender, &receiver, got);
    ARE("the third", got, 0, 1, 0, 1);
    sent(&sender, &receiver, got);
    ARE("the fourth", got, 0, 1, 0, 0);
    lent("shown", &receiver, 0, SIZE, 128);
    /* nothing came of the fifth */
    is("next", h263rps_raw_receiver_next(&receiver, &answer), 0);
    is("held", answer.kind, 2);
    is("its number", answer.number, 4);
    is("its message", answer.message.length, 3);
    lent("shown", &receiver, 0, SIZE, 128);
    h263rps_raw_sender_finish(&sender);
    h263rps_raw_receiver_finish(&receiver);
}

/* ---- the start of a packet ----------------------------------------------------------------- */

/* What the first packet of a sender's next picture says, with these messages in its header: the
 * status. */
static uint32_t begun(h263rps_end *sender, const h263rps_message *messages, size_t count,
                      h263rps_start *start) {
    h263rps_coded coded = {0, 0, 0, 0};
    uint8_t room[ROOM];
    size_t length = 0;
    uint32_t refused = h263rps_raw_sender_code(sender, picture, SIZE, messages, count, &coded);
    memset(start, 77, sizeof *start);
    refused |= h263rps_raw_sender_packet(sender, 0, room, ROOM, &length);
    return refused | h263rps_raw_packet_start(room, length, start);
}

static void numbers_of(const h263rps_start *start, uint32_t got[6]) {
    got[0] = start->format;
    got[1] = start->clock;
    got[2] = start->temporal_reference;
    got[3] = start->intra;
    got[4] = start->reference;
    got[5] = start->count;
}

static void lengths_of(const h263rps_start *start, uint32_t got[4]) {
    for (int i = 0; i < 4; i++) got[i] = start->messages[i].length;
}

static void starts_of_packets(void) {
    static const uint8_t wanted[4][5] = {{0xC0, 0x04}, {0xE0, 0x04, 0x00, 0xC0, 0x80}};
    const h263rps_message said[2] = {{{0xC0, 0x04}, 3}, {{0xE0, 0x04, 0x00, 0xC0, 0x80}, 5}};
    h263rps_end sender = {0};
    h263rps_reply reply = {77, 77};
    h263rps_start start, kept;
    uint32_t fault = 77, got[6];
    memset(picture, 128, SIZE);
    is("start", h263rps_raw_sender_start(&sender, &asked, &fault), 0);
    is("the first", begun(&sender, said, 0, &start), 0);
    numbers_of(&start, got);
    ARE("its numbers", got, 1, 0, 0, 1, 0, 0);
    lengths_of(&start, got);
    ARE("its messages", got, 0, 0, 0, 0);
    is("feedback", h263rps_raw_sender_feedback(&sender, ack_0, 3, &reply), 0);
    /* the second refers to the first, and has two messages, of three bytes and of five */
    is("the second", begun(&sender, said, 2, &start), 0);
    numbers_of(&start, got);
    ARE("its numbers", got, 1, 0, 1, 0, 0, 2);
    lengths_of(&start, got);
    ARE("its messages", got, 3, 5, 0, 0);
    for (int i = 0; i < 4; i++)
        is("a message's bytes", memcmp(start.messages[i].bytes, wanted[i], 5) == 0, 1);
    memset(&start, 77, sizeof start);
    kept = start;
    is("three bytes", h263rps_raw_packet_start(three, 3, &start), 13);
    is("its numbers stay", memcmp(&start, &kept, offsetof(h263rps_start, messages)) == 0, 1);
    is("its messages stay", memcmp(start.messages, kept.messages, sizeof start.messages) == 0, 1);
    h263rps_raw_sender_finish(&sender);
}

/* ---- counts, and messages for a header ------------------------------------------------------ */

/* What a receiver's statistics and a sender's are answered. */
static void told(const char *what, h263rps_end *slot, h263rps_statistics *counted,
                 uint32_t receiver, uint32_t sender) {
    memset(counted, 0, sizeof *counted);
    counted->packets = 77;
    is(what, h263rps_raw_receiver_statistics(slot, counted), receiver);
    is(what, h263rps_raw_sender_statistics(slot, counted), sender);
}

#define COUNTS(what, got, ...) \
    do { \
        const uint64_t wanted_[] = {__VA_ARGS__}; \
        for (size_t i_ = 0; i_ < sizeof wanted_ / sizeof *wanted_; i_++) \
            is(what, (got)[i_], wanted_[i_]); \
    } while (0)

static void counts(void) {
    h263rps_end sender = {0}, receiver = {0};
    h263rps_statistics out, back;
    h263rps_answer answer = untouched;
    uint32_t got[4];
    told("empty", &sender, &out, 1, 1);
    is("left alone", out.packets, 77);
    start_both(&sender, &receiver);
    for (int i = 0; i < 3; i++) {
        sent(&sender, &receiver, got);
        is("a picture", got[0], 0);
    }
    /* bytes that are no packet, and a picture of which nothing came */
    is("no packet", h263rps_raw_receiver_packet(&receiver, three, 3, &answer), 0);
    is("next", h263rps_raw_receiver_next(&receiver, &answer), 0);
    told("a sender", &sender, &out, 3, 0);
    told("a receiver", &receiver, &back, 0, 3);
    COUNTS("coded", out.coded, 1, 2, 0, 0, 0, 0);
    COUNTS("noted", out.noted, 3, 0, 0);
    COUNTS("heard", back.heard, 0, 3, 0, 0, 0, 1);
    COUNTS("faults", back.faults, 1, 0, 0, 0, 0);
    COUNTS("played", back.played, 3, 0, 1);
    is("packets", back.packets, out.packets + 1);
    is("bytes", back.bytes, out.bytes + 3);
    h263rps_raw_sender_finish(&sender);
    h263rps_raw_receiver_finish(&receiver);
}

static void messages_for_a_header(void) {
    /* an empty place, and then an acknowledgement of so many bytes */
    static const uint32_t rows[8][2] = {{0, 0}, {1, 8}, {2, 8}, {3, 0},
                                        {4, 8}, {5, 8}, {6, 8}, {200, 8}};
    h263rps_end sender = {0};
    h263rps_coded coded;
    uint32_t fault = 77;
    memset(picture, 128, SIZE);
    is("start", h263rps_raw_sender_start(&sender, &asked, &fault), 0);
    for (int i = 0; i < 8; i++) {
        const h263rps_message places[2] = {{{7, 7, 7, 7, 7}, 0},
                                           {{0xC0, 0x04}, (uint8_t)rows[i][0]}};
        is("code", h263rps_raw_sender_code(&sender, picture, SIZE, places, 2, &coded), rows[i][1]);
    }
    h263rps_raw_sender_finish(&sender);
}

/* ---- beside a sender ----------------------------------------------------------------------- */

static const h263rps_bounds bounds = {1800, 60, 999999, 8, 100000000};

/* What is answered to a question for a packet: the status, and how many bytes are lent. */
static void found(const char *what, h263rps_end *slot, uint16_t sequence, uint32_t status,
                  size_t length) {
    h263rps_lent loan = {&one, 1};
    is(what, h263rps_raw_repeats_find(slot, sequence, &loan), status);
    is(what, loan.length, length);
}

/* What a line says: its rate, what is wanted, its target and its quantiser, and whether it has
 * room. */
static void said_by(h263rps_end *slot, uint32_t got[6]) {
    for (int i = 1; i < 6; i++) got[i] = 77;
    got[0] = h263rps_raw_line_rate(slot, &got[1]);
    h263rps_raw_line_wanted(slot, &got[2]);
    h263rps_raw_line_target(slot, &got[3]);
    h263rps_raw_line_quant(slot, &got[4]);
    h263rps_raw_line_has_room(slot, 5, &got[5]);
}

static void packets_in_a_slot(void) {
    static const uint8_t packet[13] = {128, 96, 255, 255, 0, 0, 0, 0, 72, 50, 54, 51, 7};
    h263rps_end slot = {0};
    uint32_t got[6];
    is("keep", h263rps_raw_repeats_keep(&slot, packet, 13), 1);
    found("find", &slot, 65535, 1, 1);
    is("none", h263rps_raw_repeats_start(&slot, 0, 13), 4);
    is("too long", h263rps_raw_repeats_start(&slot, 3, 65508), 4);
    is("start", h263rps_raw_repeats_start(&slot, 3, 13), 0);
    is("again", h263rps_raw_repeats_start(&slot, 3, 13), 2);
    is("keep", h263rps_raw_repeats_keep(&slot, packet, 13), 0);
    found("kept", &slot, 65535, 0, 13);
    found("another", &slot, 7, 0, 0);
    said_by(&slot, got);
    ARE("no line", got, 3, 77, 77, 77, 77, 77);
    is("no line", h263rps_raw_line_finish(&slot), 3);
    is("finish", h263rps_raw_repeats_finish(&slot), 0);
    is("again", h263rps_raw_repeats_finish(&slot), 1);
}

static void a_line_in_a_slot(void) {
    h263rps_end slot = {0};
    h263rps_bounds still = bounds;
    uint32_t got[6];
    still.period = 0;
    said_by(&slot, got);
    ARE("empty", got, 1, 77, 77, 77, 77, 77);
    is("no period", h263rps_raw_line_start(&slot, &still, 0), 4);
    is("start", h263rps_raw_line_start(&slot, &bounds, 0), 0);
    said_by(&slot, got);
    ARE("at its start", got, 0, 18000, 1800, 1800, 8, 1);
    is("sent", h263rps_raw_line_sent(&slot, 0, 18000, 1, 0), 0);
    is("told", h263rps_raw_line_told(&slot, 1, 1, 4), 0);
    said_by(&slot, got);
    ARE("after a picture", got, 0, 18000, 60, 10285, 11, 0);
    found("no packets", &slot, 7, 3, 1);
    is("finish", h263rps_raw_line_finish(&slot), 0);
    is("told", h263rps_raw_line_told(&slot, 1, 1, 4), 1);
}

/* ---- a session ------------------------------------------------------------------------------ */

static const h263rps_timing timing = {30000, 1001, 100100000};

/* What is answered to three bytes, which are no packet, from any stream and then where one alone is
 * taken; to a play; to what is missing, an end, and a beginning anew. */
static void session_calls(h263rps_session *slot, uint32_t got[11]) {
    h263rps_arrived arrived;
    h263rps_turn turn;
    h263rps_nack nack = {77, 77, 77};
    memset(&arrived, 77, sizeof arrived);
    memset(&turn, 77, sizeof turn);
    arrived.verdict = arrived.cause = turn.plays = 77;
    got[0] = h263rps_raw_session_arrival(slot, three, 3, 5, &arrived);
    got[1] = arrived.verdict;
    got[2] = arrived.cause;
    got[3] = h263rps_raw_session_play(slot, 6, &turn);
    got[4] = turn.plays;
    arrived.cause = 77;
    got[5] = h263rps_raw_session_arrival_of(slot, 7, three, 3, 6, &arrived);
    got[6] = arrived.cause;
    got[7] = h263rps_raw_session_missing(slot, 50, 6, &nack);
    got[8] = nack.asks;
    got[9] = h263rps_raw_session_bye(slot, 7, 6);
    got[10] = h263rps_raw_session_reset(slot, 6);
}

/* What is answered to the other questions. */
static void questions(h263rps_session *slot, uint32_t got[5]) {
    h263rps_session_counts counted;
    uint64_t due = 77;
    got[4] = 77;
    got[0] = h263rps_raw_session_due(slot, &due);
    got[1] = h263rps_raw_session_source(slot, 0, &got[4]);
    got[2] = h263rps_raw_session_source(slot, 3, &got[4]);
    got[3] = h263rps_raw_session_statistics(slot, &counted);
}

/* What is answered to a loan, and how many samples are lent. */
static void session_lent(h263rps_session *slot, uint32_t status, size_t length) {
    h263rps_lent loan = {&one, 1};
    is("shown", h263rps_raw_session_shown(slot, &loan), status);
    is("shown", loan.length, length);
}

static void an_empty_slot_has_no_session(void) {
    h263rps_session slot = {0};
    uint32_t got[11];
    session_calls(&slot, got);
    ARE("calls", got, 1, 77, 77, 1, 77, 1, 77, 1, 77, 1, 1);
    questions(&slot, got);
    ARE("questions", got, 1, 1, 1, 1, 77);
    session_lent(&slot, 1, 1);
    is("finish", h263rps_raw_session_finish(&slot), 1);
}

static void a_session_in_a_slot(void) {
    h263rps_session slot = {0};
    h263rps_timing still = timing, late = timing;
    uint32_t fault = 77, got[11];
    still.rate = 0;
    late.wait = 100100001;
    is("no rate", h263rps_raw_session_start(&slot, &asked, &still, &fault), 4);
    is("its fault", fault, 13);
    is("too long a wait", h263rps_raw_session_start(&slot, &asked, &late, &fault), 4);
    is("its fault", fault, 14);
    is("start", h263rps_raw_session_start(&slot, &asked, &timing, &fault), 0);
    is("no fault", fault, 14);
    session_calls(&slot, got);
    ARE("calls", got, 0, 0, 2, 0, 0, 0, 2, 0, 0, 0, 0);
    questions(&slot, got);
    ARE("questions", got, 0, 14, 14, 0, 77);
    session_lent(&slot, 0, SIZE);
    is("again", h263rps_raw_session_start(&slot, &asked, &timing, &fault), 2);
    is("finish", h263rps_raw_session_finish(&slot), 0);
    is("again", h263rps_raw_session_finish(&slot), 1);
}

/* A group's next picture: the status, whether it is intra, its reference. */
static void group_coded(h263rps_group *slot, uint32_t got[3]) {
    h263rps_coded coded = {77, 77, 77, 77};
    got[0] = h263rps_raw_group_code(slot, picture, SIZE, NULL, 0, &coded);
    got[1] = coded.intra;
    got[2] = coded.reference;
}

/* An ACK of picture 0 by the receiver at a place: the status, and the reply. */
static void group_said(h263rps_group *slot, uint32_t receiver, uint32_t got[2]) {
    h263rps_reply reply = {77, 77};
    got[0] = h263rps_raw_group_feedback(slot, receiver, ack_0, 3, &reply);
    got[1] = reply.kind;
}

/* Who is waited for, and what the next picture refers to. */
static void group_stands(h263rps_group *slot, uint32_t got[3]) {
    got[1] = 77;
    got[2] = 77;
    got[0] = h263rps_raw_group_waiting_for(slot, &got[1]);
    h263rps_raw_group_reference(slot, &got[2]);
}

static void a_group_in_a_slot(void) {
    h263rps_group slot = {0};
    h263rps_params bad = asked;
    uint32_t fault = 77, got[3];
    bad.slots = 1;
    group_coded(&slot, got);
    ARE("empty", got, 1, 77, 77);
    is("too few slots", h263rps_raw_group_start(&slot, &bad, &fault), 4);
    is("start", h263rps_raw_group_start(&slot, &asked, &fault), 0);
    is("again", h263rps_raw_group_start(&slot, &asked, &fault), 2);
    is("place 16", h263rps_raw_group_join(&slot, 16), 4);
    is("place 15", h263rps_raw_group_join(&slot, 15), 0);
    group_said(&slot, 16, got);
    ARE("place 16 says", got, 4, 77);
    group_said(&slot, 3, got);
    ARE("nobody says", got, 15, 77);
    group_coded(&slot, got);
    ARE("the first picture", got, 0, 1, 0);
    group_stands(&slot, got);
    ARE("it is waited for", got, 0, 15, UINT32_MAX);
    group_said(&slot, 15, got);
    ARE("it has it", got, 0, 0);
    group_stands(&slot, got);
    ARE("nobody is waited for", got, 0, UINT32_MAX, 0);
    group_coded(&slot, got);
    ARE("the second picture", got, 0, 0, 0);
    is("quantiser 32", h263rps_raw_group_quant(&slot, 32), 4);
    is("finish", h263rps_raw_group_finish(&slot), 0);
    is("again", h263rps_raw_group_finish(&slot), 1);
}

static void test(const char *name, void (*body)(void)) {
    compared = 0;
    body();
    printf("%s: %u values\n", name, (unsigned)compared);
}

#define TEST(name) test(#name, name)

int main(void) {
    TEST(steering);
    TEST(a_call_begins_anew);
    TEST(a_receiver_at_a_number);
    TEST(an_empty_slot);
    TEST(the_other_end);
    TEST(parameters);
    TEST(a_call);
    TEST(starts_of_packets);
    TEST(counts);
    TEST(messages_for_a_header);
    TEST(packets_in_a_slot);
    TEST(a_line_in_a_slot);
    TEST(an_empty_slot_has_no_session);
    TEST(a_session_in_a_slot);
    TEST(a_group_in_a_slot);
    if (!wrong) printf("each function answers an empty slot and either end as it must\n");
    return wrong;
}
