/* One sender for several receivers: what each of them shows, that a group of one is a sender, and wrong calls. */
#include "h263rps.h"

#include <stdio.h>
#include <string.h>

static int wrong;

static void want(const char *what, uint32_t got, uint32_t wanted) {
    if (got == wanted) return;
    printf("%s: %u, not %u\n", what, (unsigned)got, (unsigned)wanted);
    wrong = 1;
}

enum { SIZE = 18432, ROOM = 1400, MOST = 64, MEMBERS = 3, PICTURES = 150, TRIP = 3 };

static h263rps_params params;

/* A picture of its own for each number, with much detail. */
static const uint8_t *picture(uint32_t number) {
    static uint8_t samples[SIZE];
    uint32_t state = 1 + number * 7919;
    for (int i = 0; i < SIZE; i++) {
        state = state * 1664525 + 1013904223;
        samples[i] = (uint8_t)(64 + (i + 3 * number) % 64 + (state >> 27));
    }
    return samples;
}

/* A picture that was coded, with its packets. */
struct made {
    h263rps_coded coded;
    size_t lengths[MOST];
    uint8_t packets[MOST][ROOM];
};

static void code(h263rps_group *group, uint32_t number, struct made *made) {
    memset(made, 0, sizeof *made);
    want("code", h263rps_group_code(group, picture(number), SIZE, NULL, 0, &made->coded), 0);
    want("its number", made->coded.number, number);
    for (uint32_t i = 0; i < made->coded.packets && i < MOST; i++)
        want("packet", h263rps_group_packet(group, i, made->packets[i], ROOM, &made->lengths[i]),
             0);
}

/* An acknowledgement of one of the first 256 pictures: TR and RTR are its number. */
static uint32_t acknowledge(h263rps_group *group, uint32_t receiver, uint32_t number,
                            h263rps_reply *reply) {
    uint32_t bits = 3u << 22 | number << 11 | 1u << 10 | number;
    uint8_t message[3] = {(uint8_t)(bits >> 16), (uint8_t)(bits >> 8), (uint8_t)bits};
    return h263rps_group_feedback(group, receiver, message, 3, reply);
}

/* ---- three receivers, each of which loses packets of its own ---------------------------------- */

/* A receiver, and what it says until the group hears it. */
static struct member {
    h263rps_end end;
    uint32_t joined, exact, whole, state;
    uint8_t shown[SIZE];
    h263rps_message said[TRIP][MOST];
    uint32_t count[TRIP];
} members[MEMBERS], own;

static void say(struct member *member, uint32_t number, const h263rps_message *message) {
    uint32_t at = number % TRIP;
    if (message->length && member->count[at] < MOST)
        member->said[at][member->count[at]++] = *message;
}

/* A picture comes, but for the packets that are lost: one in `loss` hundredths. Where all of them came
 * it is shown exactly, and as it is shown where none was lost. */
static void hears(struct member *member, const struct made *made, uint32_t loss) {
    h263rps_answer answer;
    uint32_t lost = 0, number = made->coded.number;
    for (uint32_t i = 0; i < made->coded.packets; i++) {
        member->state = member->state * 1664525 + 1013904223;
        if ((member->state >> 16) % 100 < loss) {
            lost++;
            continue;
        }
        want("a packet is heard",
             h263rps_receiver_packet(&member->end, made->packets[i], made->lengths[i], &answer), 0);
        say(member, number, &answer.message);
    }
    want("play", h263rps_receiver_play(&member->end, member->shown, SIZE, &answer), 0);
    want("the number that is played", answer.number, number);
    say(member, number, &answer.message);
    if (answer.kind == H263RPS_EXACT) {
        member->exact++;
        want("an exact picture", memcmp(member->shown, own.shown, SIZE), 0);
    }
    if (!lost) {
        member->whole++;
        want("a whole picture is exact", answer.kind, H263RPS_EXACT);
    }
}

/* What was said a round trip ago comes back. */
static void comes_back(h263rps_group *group, uint32_t receiver, uint32_t number, uint32_t wanted) {
    struct member *member = &members[receiver];
    uint32_t at = number % TRIP;
    h263rps_reply reply;
    for (uint32_t i = 0; i < member->count[at]; i++)
        want("feedback",
             h263rps_group_feedback(group, receiver, member->said[at][i].bytes,
                                    member->said[at][i].length, &reply),
             wanted);
    member->count[at] = 0;
}

static void joins(h263rps_group *group, uint32_t receiver) {
    struct member *member = &members[receiver];
    want("sent", h263rps_group_sent(group, &member->joined), 0);
    want("join", h263rps_group_join(group, receiver), 0);
    member->state = 77 + receiver;
    want("start", h263rps_receiver_start_at(&member->end, &params, member->joined, NULL), 0);
}

/* One loses nothing, one a packet in 20, one a packet in 7; the last one joins later, leaves, and joins
 * again as a new one. */
static void three(void) {
    static const uint32_t loss[MEMBERS] = {0, 5, 15};
    static struct made made;
    h263rps_group group = {0};
    h263rps_statistics counted;
    uint32_t waits = 0, intra = 0;
    want("start", h263rps_group_start(&group, &params, NULL), 0);
    want("the sender's own", h263rps_receiver_start(&own.end, &params, NULL), 0);
    joins(&group, 0);
    joins(&group, 1);
    for (uint32_t n = 0; n < PICTURES; n++) {
        if (n == 20 || n == 100) joins(&group, 2);
        if (n == 80) {
            want("leave", h263rps_group_leave(&group, 2), 0);
            want("finish", h263rps_receiver_finish(&members[2].end), 0);
        }
        for (uint32_t k = 0; k < MEMBERS; k++)
            comes_back(&group, k, n, n >= 80 && n < 100 && k == 2 ? H263RPS_NO_RECEIVER : 0);
        want("waiting for", h263rps_group_waiting_for(&group, &waits), 0);
        code(&group, n, &made);
        intra += made.coded.intra;
        if (waits != H263RPS_NOBODY) want("intra while one is waited for", made.coded.intra, 1);
        if (n == 20 || n == 100) want("who is waited for", waits, 2);
        if (n == 80) want("nobody is waited for", waits, H263RPS_NOBODY);
        hears(&own, &made, 0);
        for (uint32_t k = 0; k < MEMBERS; k++)
            if (members[k].end.kind) hears(&members[k], &made, loss[k]);
    }
    want("all of the first", members[0].exact, PICTURES);
    want("the others lose some", members[1].exact < PICTURES && members[2].exact < 110, 1);
    want("what is whole is exact",
         members[1].exact == members[1].whole && members[2].exact == members[2].whole, 1);
    want("most are predicted", intra < PICTURES / 4, 1);
    want("statistics", h263rps_group_statistics(&group, &counted), 0);
    want("pictures that were intra", (uint32_t)counted.coded[0], intra);
    printf("of %d pictures, %u intra: %u, %u and %u of 110 are exact\n", PICTURES, intra,
           members[0].exact, members[1].exact, members[2].exact);
    want("finish", h263rps_group_finish(&group), 0);
    for (int k = 0; k < MEMBERS; k++) want("finish", h263rps_receiver_finish(&members[k].end), 0);
    want("finish", h263rps_receiver_finish(&own.end), 0);
}

/* ---- a group of one, which is a sender -------------------------------------------------------- */

/* Both code the same pictures, are told the same, follow the same targets and quantisers; some
 * messages are lost, some are late. Each packet is the same, byte for byte. */
static void one(void) {
    static struct made made;
    static uint8_t packet[ROOM];
    h263rps_group group = {0};
    h263rps_end sender = {0}, receiver = {0};
    h263rps_coded coded;
    h263rps_answer answer;
    h263rps_reply reply, other;
    h263rps_statistics counted, as_sender;
    size_t length;
    uint32_t state = 5;
    h263rps_message said[TRIP][2] = {{{{0}, 0}}};
    want("start", h263rps_group_start(&group, &params, NULL), 0);
    want("start", h263rps_sender_start(&sender, &params, NULL), 0);
    want("start", h263rps_receiver_start(&receiver, &params, NULL), 0);
    want("join", h263rps_group_join(&group, 7), 0);
    for (uint32_t n = 0; n < PICTURES; n++) {
        if (n == 40)
            want("target",
                 h263rps_group_target(&group, 1200) | h263rps_sender_target(&sender, 1200), 0);
        if (n == 80)
            want("quantiser", h263rps_group_quant(&group, 20) | h263rps_sender_quant(&sender, 20),
                 0);
        for (int i = 0; i < 2; i++) {
            h263rps_message *back = &said[n % TRIP][i];
            if (!back->length) continue;
            want("feedback", h263rps_group_feedback(&group, 7, back->bytes, back->length, &reply),
                 0);
            want("feedback", h263rps_sender_feedback(&sender, back->bytes, back->length, &other),
                 0);
            want("one reply", reply.kind == other.kind && reply.fault == other.fault, 1);
            back->length = 0;
        }
        code(&group, n, &made);
        want("code", h263rps_sender_code(&sender, picture(n), SIZE, NULL, 0, &coded), 0);
        want("one picture", memcmp(&coded, &made.coded, sizeof coded), 0);
        for (uint32_t i = 0; i < coded.packets; i++) {
            want("packet", h263rps_sender_packet(&sender, i, packet, ROOM, &length), 0);
            want("one length", length == made.lengths[i], 1);
            want("one packet", memcmp(packet, made.packets[i], length), 0);
            state = state * 1664525 + 1013904223;
            if (state >> 28 < 2) continue;
            want("heard", h263rps_receiver_packet(&receiver, packet, length, &answer), 0);
            if (answer.message.length && state >> 24 & 7) said[n % TRIP][0] = answer.message;
        }
        want("play", h263rps_receiver_play(&receiver, members[0].shown, SIZE, &answer), 0);
        if (answer.message.length) said[n % TRIP][1] = answer.message;
    }
    want("statistics", h263rps_group_statistics(&group, &counted), 0);
    want("statistics", h263rps_sender_statistics(&sender, &as_sender), 0);
    want("one count", memcmp(&counted, &as_sender, sizeof counted), 0);
    want("predicted", counted.coded[0] < PICTURES / 4, 1);
    want("finish",
         h263rps_group_finish(&group) | h263rps_sender_finish(&sender) |
             h263rps_receiver_finish(&receiver),
         0);
}

/* ---- who has what, by hand -------------------------------------------------------------------- */

/* A picture that one lacks is no reference; who leaves frees what the others have; who joins has nothing
 * of what came before. */
static void by_hand(void) {
    static struct made made;
    h263rps_group group = {0};
    h263rps_reply reply;
    uint32_t waits = 77;
    want("start", h263rps_group_start(&group, &params, NULL), 0);
    code(&group, 0, &made);
    code(&group, 1, &made);
    want("with nobody there by the one before", !made.coded.intra && made.coded.reference == 0, 1);
    want("join", h263rps_group_join(&group, 0) | h263rps_group_join(&group, 15), 0);
    code(&group, 2, &made);
    want("intra for who joins", made.coded.intra, 1);
    want("an earlier one", acknowledge(&group, 0, 1, &reply), 0);
    want("is noted", reply.kind, H263RPS_NOTED);
    want("waiting for", h263rps_group_waiting_for(&group, &waits), 0);
    want("but counts for nothing", waits, 0);
    want("the first has it", acknowledge(&group, 0, 2, &reply), 0);
    want("waiting for", h263rps_group_waiting_for(&group, &waits), 0);
    want("the last", waits, 15);
    code(&group, 3, &made);
    want("intra", made.coded.intra, 1);
    want("the last has it", acknowledge(&group, 15, 2, &reply), 0);
    want("the first has the next", acknowledge(&group, 0, 3, &reply), 0);
    code(&group, 4, &made);
    want("what both have", !made.coded.intra && made.coded.reference == 2, 1);
    want("leave", h263rps_group_leave(&group, 15), 0);
    code(&group, 5, &made);
    want("what the first has", !made.coded.intra && made.coded.reference == 3, 1);
    want("who left", acknowledge(&group, 15, 5, &reply), H263RPS_NO_RECEIVER);
    want("leave again", h263rps_group_leave(&group, 15), 0);
    want("join again", h263rps_group_join(&group, 0), 0);
    code(&group, 6, &made);
    want("a new one has nothing", made.coded.intra, 1);
    want("finish", h263rps_group_finish(&group), 0);
}

/* ---- wrong calls ------------------------------------------------------------------------------ */

static uint8_t shown[SIZE], room[ROOM];

/* Each call of an empty one. */
static void not_started(h263rps_group *group) {
    h263rps_coded coded;
    h263rps_reply reply;
    h263rps_statistics statistics = {77};
    uint32_t count = 77;
    size_t length = 77;
    memset(&coded, 0xAA, sizeof coded);
    memset(&reply, 0xAA, sizeof reply);
    want("join", h263rps_group_join(group, 16), H263RPS_NOT_STARTED);
    want("leave", h263rps_group_leave(group, 16), H263RPS_NOT_STARTED);
    want("code", h263rps_group_code(group, shown, SIZE, NULL, 0, &coded), H263RPS_NOT_STARTED);
    want("packet", h263rps_group_packet(group, 0, room, ROOM, &length), H263RPS_NOT_STARTED);
    want("feedback", h263rps_group_feedback(group, 16, "abc", 3, &reply), H263RPS_NOT_STARTED);
    want("waiting for", h263rps_group_waiting_for(group, &count), H263RPS_NOT_STARTED);
    want("target", h263rps_group_target(group, 1000000), H263RPS_NOT_STARTED);
    want("quantiser", h263rps_group_quant(group, 32), H263RPS_NOT_STARTED);
    want("sent", h263rps_group_sent(group, &count), H263RPS_NOT_STARTED);
    want("statistics", h263rps_group_statistics(group, &statistics), H263RPS_NOT_STARTED);
    want("finish", h263rps_group_finish(group), H263RPS_NOT_STARTED);
    want("nothing is written",
         count == 77 && length == 77 && statistics.packets == 77 && coded.number == 0xAAAAAAAA &&
             reply.kind == 0xAAAAAAAA,
         1);
}

static void null(h263rps_group *group) {
    h263rps_coded coded;
    h263rps_reply reply;
    uint32_t count = 0;
    size_t length = 0;
    want("null", h263rps_group_start(NULL, &params, NULL), H263RPS_NULL);
    want("null", h263rps_group_start(group, NULL, NULL), H263RPS_NULL);
    want("null", h263rps_group_join(NULL, 0) & h263rps_group_leave(NULL, 0), H263RPS_NULL);
    want("null", h263rps_group_code(NULL, shown, SIZE, NULL, 0, &coded), H263RPS_NULL);
    want("null", h263rps_group_code(group, NULL, SIZE, NULL, 0, &coded), H263RPS_NULL);
    want("null", h263rps_group_code(group, shown, SIZE, NULL, 1, &coded), H263RPS_NULL);
    want("null", h263rps_group_code(group, shown, SIZE, NULL, 0, NULL), H263RPS_NULL);
    want("null", h263rps_group_packet(NULL, 0, room, ROOM, &length), H263RPS_NULL);
    want("null", h263rps_group_packet(group, 0, NULL, ROOM, &length), H263RPS_NULL);
    want("null", h263rps_group_packet(group, 0, room, ROOM, NULL), H263RPS_NULL);
    want("null", h263rps_group_feedback(NULL, 0, "abc", 3, &reply), H263RPS_NULL);
    want("null", h263rps_group_feedback(group, 0, NULL, 3, &reply), H263RPS_NULL);
    want("null", h263rps_group_feedback(group, 0, "abc", 3, NULL), H263RPS_NULL);
    want("null", h263rps_group_waiting_for(NULL, &count), H263RPS_NULL);
    want("null", h263rps_group_waiting_for(group, NULL), H263RPS_NULL);
    want("null", h263rps_group_target(NULL, 0) & h263rps_group_quant(NULL, 8), H263RPS_NULL);
    want("null", h263rps_group_sent(NULL, &count) & h263rps_group_sent(group, NULL), H263RPS_NULL);
    want("null", h263rps_group_statistics(group, NULL), H263RPS_NULL);
    want("null", h263rps_group_finish(NULL), H263RPS_NULL);
    want("long", h263rps_group_code(group, shown, SIZE_MAX, NULL, 0, &coded), H263RPS_TOO_LONG);
    want("long", h263rps_group_packet(group, 0, room, SIZE_MAX, &length), H263RPS_TOO_LONG);
    want("long", h263rps_group_feedback(group, 0, "abc", SIZE_MAX, &reply), H263RPS_TOO_LONG);
}

static void wrong_calls(void) {
    h263rps_group group = {0};
    h263rps_params asked = params;
    h263rps_message back[5] = {{{0xC0, 0x04, 0x00, 0, 0}, 3}};
    h263rps_coded coded;
    h263rps_reply reply = {9, 9};
    uint32_t fault = 77, count = 77;
    size_t length;
    want("size of a group", sizeof group, sizeof(h263rps_end));
    not_started(&group);
    asked.limit = 1199;
    want("start", h263rps_group_start(&group, &asked, &fault), H263RPS_BAD_PARAMS);
    want("the limit is told", fault, H263RPS_PARAM_LIMIT);
    want("empty", group.kind, 0);
    fault = 77;
    want("start", h263rps_group_start(&group, &params, &fault), H263RPS_OK);
    want("started", h263rps_group_start(&group, &params, &fault), H263RPS_STARTED);
    want("fault is left", fault, 77);
    null(&group);
    want("no picture", h263rps_group_packet(&group, 0, room, ROOM, &length), H263RPS_NO_PACKET);
    for (uint32_t place = 16; place; place *= 3) {
        want("no place", h263rps_group_join(&group, place), H263RPS_BAD_PARAMS);
        want("no place", h263rps_group_leave(&group, place), H263RPS_BAD_PARAMS);
        want("no place", h263rps_group_feedback(&group, place, "abc", 3, &reply),
             H263RPS_BAD_PARAMS);
        if (place > UINT32_MAX / 3) break;
    }
    want("nobody there", h263rps_group_feedback(&group, 3, "abc", 3, &reply), H263RPS_NO_RECEIVER);
    want("no reply", reply.kind == 9 && reply.fault == 9, 1);
    want("waiting for", h263rps_group_waiting_for(&group, &count), H263RPS_OK);
    want("nobody", count, H263RPS_NOBODY);
    want("join", h263rps_group_join(&group, 3), H263RPS_OK);
    want("feedback", h263rps_group_feedback(&group, 3, "abc", 3, &reply), H263RPS_OK);
    want("no message", reply.kind == H263RPS_NO_MESSAGE && reply.fault == H263RPS_MESSAGE_KIND, 1);
    want("no bytes", h263rps_group_feedback(&group, 3, NULL, 0, &reply), H263RPS_OK);
    want("no message", reply.fault, H263RPS_MESSAGE_LENGTH);
    for (int i = 1; i < 5; i++) back[i] = back[0];
    want("short", h263rps_group_code(&group, shown, SIZE - 1, NULL, 0, &coded),
         H263RPS_WRONG_LENGTH);
    want("five", h263rps_group_code(&group, shown, SIZE, back, 5, &coded), H263RPS_BAD_MESSAGES);
    back[1].bytes[0] = 0;
    want("none", h263rps_group_code(&group, shown, SIZE, back, 2, &coded), H263RPS_BAD_MESSAGES);
    want("long", h263rps_group_code(&group, shown, SIZE, back, SIZE_MAX, &coded), H263RPS_TOO_LONG);
    want("code", h263rps_group_code(&group, shown, SIZE, back, 1, &coded), H263RPS_OK);
    want("the first", coded.number == 0 && coded.intra == 1, 1);
    want("short room", h263rps_group_packet(&group, 0, room, 10, &length), H263RPS_SHORT_ROOM);
    want("the last", h263rps_group_packet(&group, coded.packets, room, ROOM, &length),
         H263RPS_NO_PACKET);
    want("packet", h263rps_group_packet(&group, 0, room, ROOM, &length), H263RPS_OK);
    want("too great a target", h263rps_group_target(&group, 1000000), H263RPS_BAD_PARAMS);
    want("no quantiser", h263rps_group_quant(&group, 0), H263RPS_BAD_PARAMS);
    want("too coarse", h263rps_group_quant(&group, 32), H263RPS_BAD_PARAMS);
    want("far too coarse", h263rps_group_quant(&group, 257), H263RPS_BAD_PARAMS);
    want("finish", h263rps_group_finish(&group), H263RPS_OK);
    want("all zeros", group.kind == 0 && group.counted.packets == 0, 1);
    not_started(&group);
}

int main(void) {
    want("defaults", h263rps_defaults(H263RPS_SUB_QCIF, &params), H263RPS_OK);
    params.pace = H263RPS_FOLLOWS; /* as a group does */
    params.radius = 3;
    by_hand();
    three();
    one();
    wrong_calls();
    want("its text", strcmp(h263rps_status_text(H263RPS_NO_RECEIVER), "no status") == 0, 0);
    if (!wrong)
        printf(
            "what each receiver of a group shows is the sender's own, and a group of one is a sender\n");
    return wrong;
}
