/* Times: speed FRAMES [copied]. The video is the made one in CIF. First all
 * pictures are coded and heard, and their packets and messages kept. Then a sender alone codes
 * them, and its packets are taken out; then a receiver alone hears them, and plays each, lent or
 * copied. Each frame is made at one place just before its time begins. At last both
 * ends take turns, picture by picture, as in a call. Times are in microseconds a picture, but that
 * of a packet that is refused, which is in nanoseconds. */
#define _POSIX_C_SOURCE 200809L

#include "h263rps.h"

#include <stdio.h>
#include <stdlib.h>
#include <string.h>
#include <time.h>

enum { WIDTH = 352, HEIGHT = 288, SIZE = WIDTH * HEIGHT * 3 / 2, LIMIT = 1400, REFUSALS = 1000000 };

typedef struct packet {
    uint8_t *bytes;
    size_t length;
} packet;

static uint8_t *samples, *shown, room[LIMIT];
static packet *packets;
static size_t *first; /* of each picture, and how many there are in all */
static h263rps_message *messages;
static h263rps_params params;
static int copied;

/* The distance of v modulo 128 from 64 (docs/FORMATS.md, "Made input"). */
static int ridge(size_t v) {
    return abs((int)(v % 128) - 64);
}

/* Makes frame n of the video. */
static void make(size_t n) {
    uint8_t *at = samples;
    for (size_t y = 0; y < HEIGHT; y++)
        for (size_t x = 0; x < WIDTH; x++)
            *at++ = (uint8_t)(60 + ridge(x + 2 * n) + ridge(2 * y + 2 * n));
    for (size_t y = 0; y < HEIGHT / 2; y++)
        for (size_t x = 0; x < WIDTH / 2; x++) *at++ = (uint8_t)(96 + ridge(x + n));
    for (size_t y = 0; y < HEIGHT / 2; y++)
        for (size_t x = 0; x < WIDTH / 2; x++) *at++ = (uint8_t)(160 - ridge(y + n));
}

static double now(void) {
    struct timespec t;
    clock_gettime(CLOCK_MONOTONIC, &t);
    return (double)t.tv_sec + 1e-9 * (double)t.tv_nsec;
}

static void must(uint32_t status) {
    if (status == H263RPS_OK) return;
    fprintf(stderr, "speed: %s\n", h263rps_status_text(status));
    exit(1);
}

static void *memory(size_t length) {
    void *p = calloc(length, 1);
    if (!p) exit(1);
    return p;
}

static h263rps_end sender_of(void) {
    h263rps_end end = {0};
    must(h263rps_sender_start(&end, &params, NULL));
    return end;
}

static h263rps_end receiver_of(void) {
    h263rps_end end = {0};
    must(h263rps_receiver_start(&end, &params, NULL));
    return end;
}

static void hand_back(h263rps_end *sender, const h263rps_message *message) {
    h263rps_reply reply;
    must(h263rps_sender_feedback(sender, message->bytes, message->length, &reply));
}

/* Plays, and tells whether the picture is the sender's. */
static int play(h263rps_end *receiver) {
    h263rps_answer answer;
    h263rps_lent lent;
    if (copied) must(h263rps_receiver_play(receiver, shown, SIZE, &answer));
    else must(h263rps_receiver_play_lent(receiver, &lent, &answer));
    return answer.kind == H263RPS_EXACT;
}

/* Codes and hears each picture, and keeps what went over the wire. */
static void record(size_t count) {
    h263rps_end sender = sender_of(), receiver = receiver_of();
    size_t all = 0, most = 0;
    for (size_t n = 0; n < count; n++) {
        h263rps_coded coded;
        make(n);
        must(h263rps_sender_code(&sender, samples, SIZE, NULL, 0, &coded));
        first[n] = all;
        for (uint32_t i = 0; i < coded.packets; i++) {
            h263rps_answer answer;
            packet kept;
            must(h263rps_sender_packet(&sender, i, room, LIMIT, &kept.length));
            kept.bytes = (uint8_t *)memory(kept.length);
            memcpy(kept.bytes, room, kept.length);
            must(h263rps_receiver_packet(&receiver, kept.bytes, kept.length, &answer));
            if (answer.message.length) messages[n] = answer.message;
            if (all == most) {
                most = 2 * most + 64;
                packets = (packet *)realloc(packets, most * sizeof *packets);
                if (!packets) exit(1);
            }
            packets[all++] = kept;
        }
        hand_back(&sender, &messages[n]);
        play(&receiver);
    }
    first[count] = all;
    must(h263rps_sender_finish(&sender));
    must(h263rps_receiver_finish(&receiver));
}

static double send(size_t count) {
    h263rps_end sender = sender_of();
    double sum = 0;
    for (size_t n = 0; n < count; n++) {
        h263rps_coded coded;
        size_t length;
        make(n);
        double begin = now();
        must(h263rps_sender_code(&sender, samples, SIZE, NULL, 0, &coded));
        for (uint32_t i = 0; i < coded.packets; i++)
            must(h263rps_sender_packet(&sender, i, room, LIMIT, &length));
        sum += now() - begin;
        hand_back(&sender, &messages[n]);
    }
    must(h263rps_sender_finish(&sender));
    return sum;
}

static double receive(size_t count, size_t *exact) {
    h263rps_end receiver = receiver_of();
    h263rps_answer answer;
    double sum = 0;
    for (size_t n = 0; n < count; n++) {
        double begin = now();
        for (size_t i = first[n]; i < first[n + 1]; i++)
            must(h263rps_receiver_packet(&receiver, packets[i].bytes, packets[i].length, &answer));
        int is_exact = play(&receiver);
        sum += now() - begin;
        *exact += is_exact;
    }
    must(h263rps_receiver_finish(&receiver));
    return sum;
}

/* A call in memory: both ends, picture by picture. */
static double in_turn(size_t count) {
    h263rps_end sender = sender_of(), receiver = receiver_of();
    double sum = 0;
    for (size_t n = 0; n < count; n++) {
        h263rps_answer answer;
        h263rps_coded coded;
        size_t length;
        make(n);
        double begin = now();
        must(h263rps_sender_code(&sender, samples, SIZE, NULL, 0, &coded));
        for (uint32_t i = 0; i < coded.packets; i++) {
            must(h263rps_sender_packet(&sender, i, room, LIMIT, &length));
            must(h263rps_receiver_packet(&receiver, room, length, &answer));
        }
        hand_back(&sender, &answer.message);
        play(&receiver);
        sum += now() - begin;
    }
    must(h263rps_sender_finish(&sender));
    must(h263rps_receiver_finish(&receiver));
    return sum;
}

/* A packet of three bytes, which is refused. */
static double refuse(void) {
    h263rps_end receiver = receiver_of();
    h263rps_answer answer;
    double begin = now();
    for (int i = 0; i < REFUSALS; i++) must(h263rps_receiver_packet(&receiver, "abc", 3, &answer));
    double sum = now() - begin;
    must(h263rps_receiver_finish(&receiver));
    return sum;
}

int main(int argc, char **argv) {
    if (argc < 2 || argc > 3) return 2;
    size_t count = strtoul(argv[1], NULL, 10), bytes = 0, exact = 0;
    if (!count) return 2;
    copied = argc == 3 && !strcmp(argv[2], "copied");
    samples = (uint8_t *)memory(SIZE);
    shown = (uint8_t *)memory(SIZE);
    first = (size_t *)memory((count + 1) * sizeof *first);
    messages = (h263rps_message *)memory(count * sizeof *messages);
    must(h263rps_defaults(H263RPS_CIF, &params));
    record(count);
    for (size_t i = 0; i < first[count]; i++) bytes += packets[i].length;
    double sending = send(count), receiving = receive(count, &exact), turns = in_turn(count);
    double each = 1e6 / (double)count;
    printf("Cif frames %zu bytes %zu exact %zu send %.1f receive %.1f call %.1f in_turn %.1f "
           "refused_ns %.1f\n",
           count, bytes / count, exact, each * sending, each * receiving,
           each * (sending + receiving), each * turns, 1e9 * refuse() / REFUSALS);
    return 0;
}
