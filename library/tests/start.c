/* The start of a packet: of each packet of a sender's pictures, in both clocks, with as many
 * messages as a header holds; of bytes that are none; and the struct's layout. */
#include "h263rps.h"

#include <stddef.h>
#include <stdio.h>
#include <string.h>

static int wrong;

static void want(const char *what, uint32_t got, uint32_t wanted) {
    if (got == wanted) return;
    printf("%s: %u, not %u\n", what, (unsigned)got, (unsigned)wanted);
    wrong = 1;
}

enum { SIZE = 38016, ROOM = 1200 };

static uint8_t picture[SIZE];

static void layout(void) {
    want("size", sizeof(h263rps_start), 48);
    want("clock", offsetof(h263rps_start, clock), 4);
    want("temporal reference", offsetof(h263rps_start, temporal_reference), 8);
    want("intra", offsetof(h263rps_start, intra), 12);
    want("reference", offsetof(h263rps_start, reference), 16);
    want("count", offsetof(h263rps_start, count), 20);
    want("messages", offsetof(h263rps_start, messages), 24);
}

/* Bytes that begin no packet change nothing. */
static void none(void) {
    h263rps_start start, kept;
    memset(&start, 0xAA, sizeof start);
    kept = start;
    want("null", h263rps_packet_start("abc", 3, NULL), H263RPS_NULL);
    want("null", h263rps_packet_start(NULL, 3, &start), H263RPS_NULL);
    want("long", h263rps_packet_start("abc", SIZE_MAX, &start), H263RPS_TOO_LONG);
    want("no bytes", h263rps_packet_start(NULL, 0, &start), H263RPS_NO_START);
    want("three bytes", h263rps_packet_start("abc", 3, &start), H263RPS_NO_START);
    want("zeros", h263rps_packet_start(picture, 1000, &start), H263RPS_NO_START);
    want("left alone", memcmp(&start, &kept, sizeof start), 0);
    want("its text", strcmp(h263rps_status_text(H263RPS_NO_START), "no start of a packet"), 0);
}

/* An acknowledgement of a picture: TR and RTR are its number by the clock. */
static h263rps_message acknowledgement(uint32_t reference) {
    uint32_t bits = 3u << 22 | reference << 11 | 1u << 10 | reference;
    h263rps_message message = {{(uint8_t)(bits >> 16), (uint8_t)(bits >> 8), (uint8_t)bits, 0, 0},
                               3};
    return message;
}

/* Each packet of 300 pictures tells of its own picture and has the messages that were handed over:
 * 0 to 4, some of them of five bytes. Each picture is acknowledged, so that the next one refers to
 * it. */
static void pictures(uint32_t clock, uint32_t period) {
    static const h263rps_message LONG = {{0xE0, 0x04, 0x00, 0xC0, 0x80}, 5};
    h263rps_params params;
    h263rps_end sender = {0};
    uint32_t packets = 0;
    want("defaults", h263rps_defaults(H263RPS_QCIF, &params), H263RPS_OK);
    params.clock = clock;
    params.limit = ROOM;
    params.quant = 2;
    want("start", h263rps_sender_start(&sender, &params, NULL), H263RPS_OK);
    for (uint32_t number = 0; number < 300; number++) {
        h263rps_message back[4] = {acknowledgement(number % period), LONG, acknowledgement(7),
                                   LONG};
        h263rps_coded coded;
        h263rps_reply reply;
        for (uint32_t i = 0; i < SIZE; i++)
            picture[i] = (uint8_t)(128 + (i * i + 31 * number) % 64);
        want("code", h263rps_sender_code(&sender, picture, SIZE, back, number % 5, &coded), 0);
        for (uint32_t i = 0; i < coded.packets; i++, packets++) {
            uint8_t room[ROOM];
            size_t length;
            h263rps_start start;
            memset(&start, 0xAA, sizeof start);
            want("packet", h263rps_sender_packet(&sender, i, room, ROOM, &length), 0);
            want("its start", h263rps_packet_start(room, length, &start), H263RPS_OK);
            want("format", start.format, H263RPS_QCIF);
            want("clock", start.clock, clock);
            want("temporal reference", start.temporal_reference, number % period);
            want("intra", start.intra, coded.intra);
            want("reference", start.reference, coded.reference % period);
            want("count", start.count, number % 5);
            for (uint32_t k = 0; k < 4; k++) {
                h263rps_message nothing = {{0, 0, 0, 0, 0}, 0};
                want("a message",
                     memcmp(&start.messages[k], k < number % 5 ? &back[k] : &nothing,
                            sizeof nothing),
                     0);
            }
            want("cut", h263rps_packet_start(room, 20, &start), H263RPS_NO_START);
        }
        h263rps_message back_again = acknowledgement(number % period);
        want("feedback", h263rps_sender_feedback(&sender, back_again.bytes, 3, &reply), 0);
        want("noted", reply.kind, H263RPS_NOTED);
    }
    want("several packets a picture", packets > 600, 1);
    printf("clock %u: the starts of %u packets\n", (unsigned)clock, (unsigned)packets);
    want("finish", h263rps_sender_finish(&sender), H263RPS_OK);
}

int main(void) {
    layout();
    none();
    pictures(H263RPS_STANDARD_CLOCK, 256);
    pictures(H263RPS_CUSTOM_CLOCK, 1024);
    return wrong;
}
