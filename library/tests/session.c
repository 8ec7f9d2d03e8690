/* A session: the layout of its structs, wrong calls, each refused by its number, and calls in made
 * time: with a loss, a repeat, a pause, a stranger and junk, and with a loss that comes again, a
 * stream that ends, and a beginning anew. */
#include "h263rps.h"

#include <stddef.h>
#include <stdio.h>
#include <string.h>

static int wrong;

static void want(const char *what, uint64_t got, uint64_t wanted) {
    if (got == wanted) return;
    printf("%s: %llu, not %llu\n", what, (unsigned long long)got, (unsigned long long)wanted);
    wrong = 1;
}

enum { SIZE = 18432, PICTURES = 90, LOST = 30, PAUSE = 60 };

static const uint64_t second = 1000000000, wait = 60000000, way = 20000000;
static uint8_t picture[SIZE], room[9001];
static h263rps_params params;
static h263rps_arrived arrived;
static h263rps_turn turn;
static h263rps_nack nack;
static h263rps_session_counts counts;
static uint64_t due;

static void layout(void) {
    want("size of a session", sizeof(h263rps_session), 2 * sizeof(void *));
    want("size of its timing", sizeof(h263rps_timing), 16);
    want("its wait", offsetof(h263rps_timing, wait), 8);
    want("size of the answer to a datagram", sizeof(h263rps_arrived), 56);
    want("its answer", offsetof(h263rps_arrived, answer), 24);
    want("size of the answer to a play", sizeof(h263rps_turn), 44);
    want("its answer", offsetof(h263rps_turn, answer), 12);
    want("size of the counts", sizeof(h263rps_session_counts), 10 * 8);
    want("size of what is asked for", sizeof(h263rps_nack), 8);
    want("its mask", offsetof(h263rps_nack, following), 6);
}

static void starts(void) {
    h263rps_session it = {0};
    uint32_t fault = 77;
    want("start", h263rps_session_start(&it, &params, 0, 1, wait, &fault), H263RPS_BAD_PARAMS);
    want("no pictures", fault, H263RPS_PARAM_RATE);
    want("start", h263rps_session_start(&it, &params, 30000, 4097, wait, &fault),
         H263RPS_BAD_PARAMS);
    want("too many seconds", fault, H263RPS_PARAM_RATE);
    want("start", h263rps_session_start(&it, &params, 30000, 1001, 100100001, &fault),
         H263RPS_BAD_PARAMS);
    want("too long a wait", fault, H263RPS_PARAM_WAIT);
    params.lead = 63;
    want("start", h263rps_session_start(&it, &params, 0, 1, wait, &fault), H263RPS_BAD_PARAMS);
    want("the parameters come first", fault, H263RPS_PARAM_LEAD);
    params.lead = 3;
    want("empty", it.kind == 0 && it.at == NULL, 1);
    want("start", h263rps_session_start(&it, &params, 30000, 1001, 100100000, &fault), H263RPS_OK);
    want("a fault that stays", fault, H263RPS_PARAM_LEAD);
    want("start", h263rps_session_start(&it, &params, 30000, 1001, wait, NULL), H263RPS_STARTED);
    want("finish", h263rps_session_finish(&it), H263RPS_OK);
    want("empty", it.kind == 0 && it.at == NULL, 1);
    want("finish", h263rps_session_finish(&it), H263RPS_NOT_STARTED);
}

static void refusals(h263rps_session *it, uint32_t why) {
    h263rps_lent lent = {0};
    uint32_t source = 5;
    memset(&arrived, 0xAA, sizeof arrived);
    want("arrival", h263rps_session_arrival(it, room, 9, 0, &arrived), why);
    want("arrival", h263rps_session_arrival_of(it, 7, room, 9, 0, &arrived), why);
    want("nothing is said", arrived.verdict, 0xAAAAAAAA);
    nack.asks = 5;
    want("missing", h263rps_session_missing(it, 0, 0, &nack), why);
    want("nothing is asked for", nack.asks, 5);
    want("bye", h263rps_session_bye(it, 7, 0), why);
    want("reset", h263rps_session_reset(it, 0), why);
    want("play", h263rps_session_play(it, 0, &turn), why);
    want("due", h263rps_session_due(it, &due), why);
    want("shown", h263rps_session_shown(it, &lent), why);
    want("nothing is lent", lent.samples == NULL, 1);
    want("source", h263rps_session_source(it, H263RPS_FOLLOWED, &source), why);
    want("none is named", source, 5);
    want("statistics", h263rps_session_statistics(it, &counts), why);
    want("finish", h263rps_session_finish(it), why);
}

static void nulls(void) {
    h263rps_session it = {0};
    want("null", h263rps_session_start(NULL, &params, 30, 1, wait, NULL), H263RPS_NULL);
    want("null", h263rps_session_start(&it, NULL, 30, 1, wait, NULL), H263RPS_NULL);
    want("null", h263rps_session_arrival(&it, NULL, 1, 0, &arrived), H263RPS_NULL);
    want("null", h263rps_session_arrival(&it, room, 1, 0, NULL), H263RPS_NULL);
    want("long", h263rps_session_arrival(&it, room, (size_t)PTRDIFF_MAX + 1, 0, &arrived),
         H263RPS_TOO_LONG);
    want("null", h263rps_session_arrival_of(&it, 7, NULL, 1, 0, &arrived), H263RPS_NULL);
    want("null", h263rps_session_arrival_of(&it, 7, room, 1, 0, NULL), H263RPS_NULL);
    want("long", h263rps_session_arrival_of(&it, 7, room, (size_t)PTRDIFF_MAX + 1, 0, &arrived),
         H263RPS_TOO_LONG);
    want("null", h263rps_session_missing(&it, 0, 0, NULL), H263RPS_NULL);
    want("null", h263rps_session_missing(NULL, 0, 0, &nack), H263RPS_NULL);
    want("null", h263rps_session_bye(NULL, 7, 0), H263RPS_NULL);
    want("null", h263rps_session_reset(NULL, 0), H263RPS_NULL);
    want("null", h263rps_session_play(&it, 0, NULL), H263RPS_NULL);
    want("null", h263rps_session_due(&it, NULL), H263RPS_NULL);
    want("null", h263rps_session_shown(&it, NULL), H263RPS_NULL);
    want("null", h263rps_session_source(&it, 0, NULL), H263RPS_NULL);
    want("null", h263rps_session_statistics(&it, NULL), H263RPS_NULL);
    refusals(&it, H263RPS_NOT_STARTED);
}

/* ---- a call in made time ------------------------------------------------------------------- */

static h263rps_session session;
static h263rps_end sender;
static int marks[3], last = -1, rivals;

static void send_back(const h263rps_message *message) {
    h263rps_reply reply;
    if (message->length) h263rps_sender_feedback(&sender, message->bytes, message->length, &reply);
}

static void play_until(uint64_t now) {
    h263rps_lent shown = {0};
    while (!h263rps_session_play(&session, now, &turn) && turn.plays) {
        want("its source", turn.source, turn.run == H263RPS_FOLLOWED ? 7 : 8);
        if (turn.run != H263RPS_FOLLOWED) continue;
        send_back(&turn.answer.message);
        want("its number", turn.answer.number, (uint64_t)++last);
        marks[turn.answer.kind]++;
        want("shown", h263rps_session_shown(&session, &shown), H263RPS_OK);
        want("its length", shown.length, SIZE);
    }
}

static void come(const void *bytes, size_t length, uint64_t now) {
    do {
        want("arrival", h263rps_session_arrival(&session, bytes, length, now, &arrived),
             H263RPS_OK);
        rivals += (int)arrived.rival;
        if (arrived.source == 7) send_back(&arrived.answer.message);
        play_until(now);
    } while (arrived.verdict == H263RPS_AHEAD);
}

static void capture(unsigned n, uint64_t at) {
    h263rps_coded coded;
    uint32_t stamp = (uint32_t)(at / 1000 * 9 / 100);
    size_t count;
    memset(picture, (int)(40 + n), sizeof picture);
    want("code", h263rps_sender_code(&sender, picture, SIZE, NULL, 0, &coded), H263RPS_OK);
    want("packet", h263rps_sender_packet(&sender, 0, room, sizeof room, &count), H263RPS_OK);
    h263rps_packet_label(room, count, 7, 96);
    for (int i = 0; i < 4; i++) room[4 + i] = (uint8_t)(stamp >> (24 - 8 * i));
    if (n == LOST) return;
    come(room, count, at + way);
    want("heard", arrived.verdict, H263RPS_HEARD);
    want("completed", arrived.answer.kind, H263RPS_COMPLETED);
    come(room, count, at + way);
    want("a repeat", arrived.answer.kind, H263RPS_REPEAT);
    h263rps_packet_label(room, count, 8, 96);
    come(room, count, at + way);
    want("a stranger is dropped", arrived.verdict, H263RPS_DROPPED);
    want("its cause", arrived.cause, H263RPS_OTHER_STREAM);
    come("junk", 4, at + way);
    want("junk", arrived.verdict == H263RPS_DROPPED && arrived.cause == H263RPS_MALFORMED, 1);
}

static void call(void) {
    uint32_t source = 0;
    uint64_t at = 5 * second;
    want("start", h263rps_sender_start(&sender, &params, NULL), H263RPS_OK);
    want("start", h263rps_session_start(&session, &params, 30, 1, wait, NULL), H263RPS_OK);
    want("source", h263rps_session_source(&session, H263RPS_FOLLOWED, &source), H263RPS_NO_STREAM);
    want("due", h263rps_session_due(&session, &due), H263RPS_OK);
    want("never", due, H263RPS_NEVER);
    for (unsigned n = 0; n < PICTURES; n++) {
        if (n == PAUSE) at += 10 * second;
        play_until(at + way - 1);
        capture(n, at);
        want("due", h263rps_session_due(&session, &due), H263RPS_OK);
        at += second / 30;
    }
    want("due at its capture, the way and the wait", due <= at - second / 30 + way + wait, 1);
    play_until(at + second);
    want("all were played", (uint64_t)last, PICTURES - 1);
    want("exact", (uint64_t)marks[H263RPS_EXACT], PICTURES - 1);
    want("held", (uint64_t)marks[H263RPS_HELD], 1);
    want("rivals", rivals >= 3 && rivals <= 4, 1);
    want("source", h263rps_session_source(&session, H263RPS_FOLLOWED, &source), H263RPS_OK);
    want("it", source, 7);
    want("source", h263rps_session_source(&session, 3, &source), H263RPS_NO_STREAM);
    want("long", h263rps_session_arrival(&session, room, 9001, at, &arrived), H263RPS_OK);
    want("its cause", arrived.cause, H263RPS_LONG);
    want("statistics", h263rps_session_statistics(&session, &counts), H263RPS_OK);
    want("taken", counts.taken, 2 * (PICTURES - 1));
    want("long ones", counts.dropped[H263RPS_LONG], 1);
    want("malformed ones", counts.dropped[H263RPS_MALFORMED], PICTURES - 1);
    want("of another stream", counts.dropped[H263RPS_OTHER_STREAM], PICTURES - 1);
    want("no cause", counts.dropped[0], 0);
    want("exact", counts.played[H263RPS_EXACT], PICTURES - 1);
    want("held", counts.played[H263RPS_HELD], 1);
    want("finish", h263rps_session_finish(&session), H263RPS_OK);
    want("finish", h263rps_sender_finish(&sender), H263RPS_OK);
    refusals(&session, H263RPS_NOT_STARTED);
}

/* ---- what is asked for, an end, and a beginning anew ---------------------------------------- */

enum { AGAIN = 10, SECONDS = 30 };

/* The packet of the next picture, of this stream, captured then. */
static size_t packet_of(uint32_t source, uint64_t at) {
    h263rps_coded coded;
    uint32_t stamp = (uint32_t)(at / 1000 * 9 / 100);
    size_t count;
    want("code", h263rps_sender_code(&sender, picture, SIZE, NULL, 0, &coded), H263RPS_OK);
    want("packet", h263rps_sender_packet(&sender, 0, room, sizeof room, &count), H263RPS_OK);
    h263rps_packet_label(room, count, source, 96);
    for (int i = 0; i < 4; i++) room[4 + i] = (uint8_t)(stamp >> (24 - 8 * i));
    return count;
}

static void missing(uint64_t round_trip, uint64_t now, uint32_t asks, unsigned packet) {
    memset(&nack, 0xAA, sizeof nack);
    want("missing", h263rps_session_missing(&session, round_trip, now, &nack), H263RPS_OK);
    want("asks", nack.asks, asks);
    want("for it", nack.packet, packet);
    want("and no others", nack.following, 0);
}

static uint32_t come_of(uint32_t source, size_t length, uint64_t now) {
    want("arrival", h263rps_session_arrival_of(&session, source, room, length, now, &arrived),
         H263RPS_OK);
    return arrived.verdict;
}

/* What is played of the stream that is followed no more. */
static void play_all(uint64_t now, int exact) {
    int played = 0;
    while (!h263rps_session_play(&session, now, &turn) && turn.plays)
        played += turn.source == 7 && turn.answer.kind == H263RPS_EXACT;
    want("exact", (uint64_t)played, (uint64_t)exact);
}

/* The other pictures of a second, of which one is lost, asked for, and comes again. */
static uint64_t second_of(uint64_t at) {
    static uint8_t kept[9001];
    size_t length, count = 0;
    for (unsigned n = 0; n < SECONDS; n++, at += second / 30) {
        length = packet_of(7, at);
        if (n == AGAIN) {
            count = length;
            memcpy(kept, room, count);
            continue;
        }
        want("heard", come_of(7, length, at + way), H263RPS_HEARD);
        if (n != AGAIN + 1) missing(0, at + way, 0, 0);
        if (n != AGAIN + 1) continue;
        /* Its picture is due a wait after it would have come, and what is asked for may be of the
         * next one. */
        missing(wait + 1, at + way, 0, 0);
        missing(wait / 3, at + way, 1, (unsigned)kept[2] << 8 | kept[3]);
        missing(wait / 3, at + way, 0, 0);
        memcpy(room, kept, count);
        want("heard again", come_of(7, count, at + way + second / 1000), H263RPS_HEARD);
        want("completed", arrived.answer.kind, H263RPS_COMPLETED);
        missing(0, at + way + second / 1000, 0, 0);
    }
    return at;
}

static void repair(void) {
    uint32_t source = 0;
    uint64_t at = 5 * second;
    size_t length;
    h263rps_lent shown = {0};
    want("start", h263rps_sender_start(&sender, &params, NULL), H263RPS_OK);
    params.lead = 62, params.slots = 64;
    want("start", h263rps_session_start(&session, &params, 30, 1, wait, NULL), H263RPS_OK);
    missing(0, at, 0, 0);
    at = second_of(at);
    /* Another stream, which isn't the one of a call that knows its own. */
    length = packet_of(8, at);
    want("dropped", come_of(7, length, at), H263RPS_DROPPED);
    want("its cause", arrived.cause, H263RPS_OTHER_STREAM);
    want("no rival", arrived.rival, 0);
    want("dropped", come_of(8, length, at), H263RPS_DROPPED);
    want("a rival", arrived.rival, 1);
    /* A bye of that one changes nothing, one of the followed stream lets it in. */
    want("bye", h263rps_session_bye(&session, 8, at), H263RPS_OK);
    want("dropped", come_of(8, length, at), H263RPS_DROPPED);
    want("bye", h263rps_session_bye(&session, 7, at), H263RPS_OK);
    h263rps_sender_forget(&sender);
    length = packet_of(8, at);
    want("heard", come_of(8, length, at), H263RPS_HEARD);
    want("source", h263rps_session_source(&session, H263RPS_FOLLOWED, &source), H263RPS_OK);
    want("it", source, 8);
    play_all(at + wait, SECONDS);
    want("source", h263rps_session_source(&session, H263RPS_FORMER, &source), H263RPS_OK);
    want("the one before", source, 7);
    /* Anew: no stream, nothing due, a grey picture, and the same counts. */
    want("reset", h263rps_session_reset(&session, at), H263RPS_OK);
    for (uint32_t run = 0; run < 3; run++)
        want("source", h263rps_session_source(&session, run, &source), H263RPS_NO_STREAM);
    want("due", h263rps_session_due(&session, &due), H263RPS_OK);
    want("never", due, H263RPS_NEVER);
    want("shown", h263rps_session_shown(&session, &shown), H263RPS_OK);
    want("grey", shown.samples[0], 128);
    want("statistics", h263rps_session_statistics(&session, &counts), H263RPS_OK);
    want("taken", counts.taken, SECONDS + 1);
    want("of another stream", counts.dropped[H263RPS_OTHER_STREAM], 3);
    h263rps_sender_forget(&sender);
    length = packet_of(9, at);
    want("heard", come_of(9, length, at), H263RPS_HEARD);
    want("source", h263rps_session_source(&session, H263RPS_FOLLOWED, &source), H263RPS_OK);
    want("it", source, 9);
    want("finish", h263rps_session_finish(&session), H263RPS_OK);
    want("finish", h263rps_sender_finish(&sender), H263RPS_OK);
}

int main(void) {
    want("defaults", h263rps_defaults(H263RPS_SUB_QCIF, &params), H263RPS_OK);
    layout();
    starts();
    nulls();
    call();
    repair();
    if (!wrong) printf("a session does what it is told\n");
    return wrong;
}
