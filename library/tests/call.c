/* A call in memory over a trace: call IN.y4m TRACE OUT.yuv FORMAT QUANT LIMIT. It shows what
 * `h263rps call` shows; each second picture is lent, and the others are copied. Lines of the trace:
 * S, D n.i, D n.*, P, B k. */
#include "h263rps.h"

#include <stdio.h>
#include <stdlib.h>
#include <string.h>
#include <time.h>

typedef struct text {
    uint8_t *bytes;
    size_t length;
} text;

enum { MOST = 1 << 16 };

static text packets[MOST], messages[MOST];
static size_t packet_count, message_count, first[MOST + 1];

static void must(const char *name, uint32_t status) {
    if (status == H263RPS_OK) return;
    fprintf(stderr, "%s: %s\n", name, h263rps_status_text(status));
    exit(1);
}

/* Keeps a copy of bytes. */
static void keep(text *texts, size_t *count, const uint8_t *bytes, size_t length) {
    text kept;
    kept.bytes = (uint8_t *)malloc(length);
    kept.length = length;
    if (!kept.bytes || *count == MOST) exit(2);
    memcpy(kept.bytes, bytes, length);
    texts[(*count)++] = kept;
}

static void keep_message(const h263rps_message *message) {
    if (message->length) keep(messages, &message_count, message->bytes, message->length);
}

static void let_go(text *texts, size_t count) {
    for (size_t i = 0; i < count; i++) free(texts[i].bytes);
}

/* The next frame of a Y4M file. */
static void next_frame(FILE *in, uint8_t *picture, size_t size) {
    char line[256];
    if (!fgets(line, sizeof line, in) || fread(picture, 1, size, in) != size) {
        fprintf(stderr, "the video ends\n");
        exit(1);
    }
}

int main(int argc, char **argv) {
    char line[256];
    if (argc != 7) return 2;
    FILE *in = fopen(argv[1], "rb"), *trace = fopen(argv[2], "rb"), *out = fopen(argv[3], "wb");
    uint32_t format = (uint32_t)atoi(argv[4]);
    size_t size = h263rps_picture_size(format);
    h263rps_params params;
    must("defaults", h263rps_defaults(format, &params));
    params.quant = (uint8_t)atoi(argv[5]);
    params.limit = (uint32_t)atoi(argv[6]);
    uint8_t *picture = (uint8_t *)malloc(size), *room = (uint8_t *)malloc(params.limit);
    h263rps_end sender = {0}, receiver = {0};
    unsigned pictures = 0, played = 0, marks[3] = {0}, refused = 0;
    /* what both ends must have counted */
    h263rps_statistics sent = {0}, received = {0}, counted;
    if (!in || !trace || !out || !picture || !room || !fgets(line, sizeof line, in)) return 2;
    clock_t begin = clock();
    must("start", h263rps_sender_start(&sender, &params, NULL));
    must("start", h263rps_receiver_start(&receiver, &params, NULL));
    while (fgets(line, sizeof line, trace)) {
        h263rps_answer answer;
        h263rps_coded coded;
        h263rps_reply reply;
        long k = atol(line + 1);
        if (line[0] == 'S') {
            next_frame(in, picture, size);
            must("code", h263rps_sender_code(&sender, picture, size, NULL, 0, &coded));
            for (uint32_t i = 0; i < coded.packets; i++) {
                size_t count;
                must("packet", h263rps_sender_packet(&sender, i, room, params.limit, &count));
                keep(packets, &packet_count, room, count);
                sent.packets++;
                sent.bytes += count;
            }
            uint32_t back = coded.intra ? 0 : coded.number - coded.reference;
            sent.coded[back < 4 ? back : back < 8 ? 4 : 5]++;
            first[++pictures] = packet_count;
        } else if (line[0] == 'D') {
            const char *dot = strchr(line, '.');
            size_t from = first[k], to = first[k + 1];
            if (dot && dot[1] != '*') {
                from += (size_t)atol(dot + 1);
                if (from < to) to = from + 1;
            }
            for (; from < to; from++) {
                const text *packet = &packets[from];
                must("packet",
                     h263rps_receiver_packet(&receiver, packet->bytes, packet->length, &answer));
                refused += answer.kind == H263RPS_REFUSED;
                received.packets++;
                received.bytes += packet->length;
                received.heard[answer.kind]++;
                if (answer.kind == H263RPS_REFUSED)
                    received.faults[answer.fault <= H263RPS_OVERLAP ? answer.fault : 0]++;
                keep_message(&answer.message);
            }
        } else if (line[0] == 'P') {
            h263rps_lent shown = {picture, size};
            if (played % 2) {
                must("play", h263rps_receiver_play_lent(&receiver, &shown, &answer));
            } else {
                must("play", h263rps_receiver_play(&receiver, picture, size, &answer));
            }
            if (answer.number != played++ || shown.length != size) return 3;
            marks[answer.kind]++;
            received.played[answer.kind]++;
            keep_message(&answer.message);
            fwrite(shown.samples, 1, shown.length, out);
        } else if (line[0] == 'B') {
            const text *message = &messages[k];
            must("feedback",
                 h263rps_sender_feedback(&sender, message->bytes, message->length, &reply));
            sent.noted[reply.kind]++;
        }
    }
    must("statistics", h263rps_sender_statistics(&sender, &counted));
    if (memcmp(&counted, &sent, sizeof sent)) return 4;
    must("statistics", h263rps_receiver_statistics(&receiver, &counted));
    if (memcmp(&counted, &received, sizeof received)) return 5;
    printf("pictures %u packets %zu exact %u patched %u held %u refused %u messages %zu "
           "seconds %.3f\n",
           pictures, packet_count, marks[0], marks[1], marks[2], refused, message_count,
           (double)(clock() - begin) / CLOCKS_PER_SEC);
    must("finish", h263rps_sender_finish(&sender));
    must("finish", h263rps_receiver_finish(&receiver));
    let_go(packets, packet_count);
    let_go(messages, message_count);
    free(picture);
    free(room);
    fclose(in);
    fclose(trace);
    return fclose(out) != 0;
}
