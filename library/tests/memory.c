/* Each request for memory refused in turn: start answers NO_MEMORY and keeps nothing. After start
 * none is made, nor by a reset. Linked with --wrap for malloc, realloc and free. */
#include "h263rps.h"

#include <stdio.h>
#include <stdlib.h>

static long asked, refused = -1, held;

void *__real_malloc(size_t n);
void *__real_realloc(void *p, size_t n);
void __real_free(void *p);

void *__wrap_malloc(size_t n) {
    void *p = asked++ == refused ? NULL : __real_malloc(n);
    if (p) held++;
    return p;
}

void *__wrap_realloc(void *q, size_t n) {
    void *p = asked++ == refused ? NULL : __real_realloc(q, n);
    if (!q && p) held++;
    return p;
}

void __wrap_free(void *p) {
    if (p) held--;
    __real_free(p);
}

static uint8_t picture[152064], room[1400];

static uint32_t start(int receives, h263rps_end *end, const h263rps_params *params) {
    return receives ? h263rps_receiver_start(end, params, NULL)
                    : h263rps_sender_start(end, params, NULL);
}

/* How many requests a start makes, each refused in turn; -1 where that isn't NO_MEMORY. */
static long requests_of(int receives, const h263rps_params *params) {
    for (refused = 0;; refused++) {
        h263rps_end end = {0};
        asked = held = 0;
        uint32_t status = start(receives, &end, params);
        if (status == H263RPS_OK) {
            if (receives) h263rps_receiver_finish(&end);
            else h263rps_sender_finish(&end);
            return held ? -1 : asked;
        }
        if (status != H263RPS_NO_MEMORY || held || end.kind || end.at) return -1;
    }
}

/* The same of a session. */
static long requests_of_session(const h263rps_params *params) {
    for (refused = 0;; refused++) {
        h263rps_session session = {0};
        asked = held = 0;
        uint32_t status = h263rps_session_start(&session, params, 30, 1, 100000000, NULL);
        if (status == H263RPS_OK) {
            h263rps_session_finish(&session);
            return held ? -1 : asked;
        }
        if (status != H263RPS_NO_MEMORY || held || session.kind || session.at) return -1;
    }
}

/* The same of repeats, and of a line; and -1 where a later call makes one. */
static long requests_of_repeats(void) {
    for (refused = 0;; refused++) {
        h263rps_repeats repeats = {0};
        h263rps_lent lent;
        asked = held = 0;
        uint32_t status = h263rps_repeats_start(&repeats, 5, 1400);
        if (status == H263RPS_OK) {
            long made = asked;
            for (unsigned n = 0; n < 100; n++) {
                room[3] = (uint8_t)n;
                if (h263rps_repeats_keep(&repeats, room, 1400 - n)) return -1;
                if (h263rps_repeats_find(&repeats, (uint16_t)n, &lent) || !lent.length) return -1;
            }
            h263rps_repeats_finish(&repeats);
            return held || asked != made ? -1 : made;
        }
        if (status != H263RPS_NO_MEMORY || held || repeats.end.kind || repeats.end.at) return -1;
    }
}

static long requests_of_line(void) {
    const h263rps_bounds bounds = {1800, 60, 9000, 8, 33366667};
    for (refused = 0;; refused++) {
        h263rps_line line = {0};
        uint32_t target;
        asked = held = 0;
        uint32_t status = h263rps_line_start(&line, &bounds, 0);
        if (status == H263RPS_OK) {
            long made = asked;
            for (uint32_t n = 0; n < 1000; n++) {
                if (h263rps_line_sent(&line, n, 900 + n, 2, n * 33366667ull)) return -1;
                if (h263rps_line_told(&line, n, n % 9, n * 33366667ull + 30000000)) return -1;
                if (h263rps_line_target(&line, &target)) return -1;
            }
            h263rps_line_finish(&line);
            return held || asked != made ? -1 : made;
        }
        if (status != H263RPS_NO_MEMORY || held || line.end.kind || line.end.at) return -1;
    }
}

/* The same of a group, in which receivers join and leave; and -1 where a later call makes one. */
static long requests_of_group(const h263rps_params *params) {
    for (refused = 0;; refused++) {
        h263rps_group group = {0};
        h263rps_coded coded;
        h263rps_reply reply;
        uint32_t waits;
        asked = held = 0;
        uint32_t status = h263rps_group_start(&group, params, NULL);
        if (status == H263RPS_OK) {
            long made = asked;
            for (uint32_t n = 0; n < 40; n++) {
                if (h263rps_group_join(&group, n % 16)) return -1;
                if (h263rps_group_code(&group, picture, sizeof picture, NULL, 0, &coded)) return -1;
                if (h263rps_group_feedback(&group, n % 16, "abc", 3, &reply)) return -1;
                if (h263rps_group_waiting_for(&group, &waits)) return -1;
                if (n % 3 && h263rps_group_leave(&group, n % 16)) return -1;
            }
            h263rps_group_finish(&group);
            return held || asked != made ? -1 : made;
        }
        if (status != H263RPS_NO_MEMORY || held || group.kind || group.at) return -1;
    }
}

/* What a session asks for once it is started: 50 pictures of a sender come and are played. */
static long later_of_session(h263rps_end *sender, const h263rps_params *params) {
    h263rps_session session = {0};
    h263rps_arrived arrived;
    h263rps_turn turn;
    h263rps_nack nack;
    h263rps_coded coded;
    size_t count;
    long played = 0;
    if (h263rps_session_start(&session, params, 30, 1, 0, NULL)) return -1;
    asked = 0;
    for (uint64_t n = 0, now = 1; n < 50; n++, now += 33333333) {
        uint32_t stamp = (uint32_t)(3000 * n);
        if (h263rps_sender_code(sender, picture, sizeof picture, NULL, 0, &coded)) return -1;
        for (uint32_t i = 0; i < coded.packets; i++) {
            if (h263rps_sender_packet(sender, i, room, sizeof room, &count)) return -1;
            for (int k = 0; k < 4; k++) room[4 + k] = (uint8_t)(stamp >> (24 - 8 * k));
            if (h263rps_session_arrival(&session, room, count, now, &arrived)) return -1;
        }
        if (h263rps_session_missing(&session, 0, now, &nack)) return -1;
        while (!h263rps_session_play(&session, now + 2000000, &turn) && turn.plays) played++;
        if (n == 48 && h263rps_session_bye(&session, H263RPS_SSRC, now)) return -1;
    }
    if (h263rps_session_reset(&session, 0)) return -1;
    h263rps_session_finish(&session);
    return played < 48 ? -1 : asked;
}

/* A call of this many pictures, each shown exactly: 0, or where it went wrong. */
static int call(h263rps_end *sender, h263rps_end *receiver, unsigned pictures) {
    h263rps_answer answer;
    h263rps_coded coded;
    h263rps_reply reply;
    size_t count;
    for (unsigned n = 0; n < pictures; n++) {
        for (size_t i = 0; i < sizeof picture; i++)
            picture[i] = (uint8_t)(i * 7 + n * 3 + (i * i >> 5));
        if (h263rps_sender_code(sender, picture, sizeof picture, NULL, 0, &coded)) return 2;
        for (uint32_t i = 0; i < coded.packets; i++) {
            if (h263rps_sender_packet(sender, i, room, sizeof room, &count)) return 3;
            if (h263rps_receiver_packet(receiver, room, count, &answer)) return 3;
        }
        if (h263rps_sender_feedback(sender, answer.message.bytes, answer.message.length, &reply))
            return 4;
        if (h263rps_receiver_play(receiver, picture, sizeof picture, &answer)) return 5;
        if (answer.kind != H263RPS_EXACT) return 6;
    }
    return 0;
}

int main(void) {
    h263rps_params params;
    h263rps_end sender = {0}, receiver = {0};
    int status;
    h263rps_defaults(H263RPS_CIF, &params);
    long by_sender = requests_of(0, &params), by_receiver = requests_of(1, &params);
    long by_session = requests_of_session(&params);
    long by_repeats = requests_of_repeats(), by_line = requests_of_line();
    long by_group = requests_of_group(&params);
    refused = -1;
    if (start(0, &sender, &params) || start(1, &receiver, &params)) return 1;
    asked = 0;
    status = call(&sender, &receiver, 50);
    if (status) return status;
    if (h263rps_sender_reset(&sender, 0) || h263rps_receiver_reset(&receiver, 0)) return 7;
    status = call(&sender, &receiver, 10);
    if (status) return status;
    long later = asked;
    if (h263rps_sender_reset(&sender, 0)) return 8;
    long of_session = later_of_session(&sender, &params);
    h263rps_sender_finish(&sender);
    h263rps_receiver_finish(&receiver);
    printf("requests for memory: a sender's start %ld, a receiver's %ld, 50 pictures, a reset and "
           "10 more then %ld; a session's start %ld, 50 pictures then %ld; of repeats %ld, of a "
           "line %ld, of a group %ld\n",
           by_sender, by_receiver, later, by_session, of_session, by_repeats, by_line, by_group);
    if (by_repeats < 1 || by_line < 1 || by_group < 1) return 9;
    return by_sender < 1 || by_receiver < 1 || later || by_session < 1 || of_session;
}
