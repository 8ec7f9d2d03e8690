/* A call in memory: a made picture moves, the packets of one are lost, and the next is exact again.
 *
 *     cc -Iinclude example.c build/libh263rps.a -o example && ./example
 */
#include "h263rps.h"

#include <stdio.h>
#include <stdlib.h>

enum { PICTURES = 6, LOST = 2, SIZE = 38016 };

static uint8_t captured[SIZE], packet[1400];

/* Ends the program where a call was refused. */
static void must(const char *name, uint32_t status) {
    if (status == H263RPS_OK) return;
    fprintf(stderr, "%s: %s\n", name, h263rps_status_text(status));
    exit(1);
}

/* A grey picture with a lighter bar, two columns further right in each. */
static void capture(unsigned n) {
    for (size_t i = 0; i < SIZE; i++) captured[i] = 128;
    for (unsigned y = 40; y < 100; y++)
        for (unsigned x = 0; x < 32; x++) captured[176 * y + 20 + 2 * n + x] = 200;
}

/* How far a sample that is shown is from the captured one at most. */
static unsigned most_off(const uint8_t *shown) {
    int most = 0;
    for (size_t i = 0; i < SIZE; i++) {
        int off = abs(shown[i] - captured[i]);
        if (off > most) most = off;
    }
    return (unsigned)most;
}

/* Sends what the receiver says back to the sender. */
static void hand_back(h263rps_end *sender, const h263rps_message *message) {
    h263rps_reply reply;
    if (message->length)
        must("feedback", h263rps_sender_feedback(sender, message->bytes, message->length, &reply));
}

int main(void) {
    static const char *const marks[] = {"exact", "patched", "held"};
    h263rps_end sender = {0}, receiver = {0};
    h263rps_params params;
    must("defaults", h263rps_defaults(H263RPS_QCIF, &params));
    must("start", h263rps_sender_start(&sender, &params, NULL));
    must("start", h263rps_receiver_start(&receiver, &params, NULL));
    for (unsigned n = 0; n < PICTURES; n++) {
        h263rps_coded coded;
        h263rps_answer answer;
        h263rps_lent shown = {0};
        capture(n);
        must("code", h263rps_sender_code(&sender, captured, SIZE, NULL, 0, &coded));
        for (uint32_t i = 0; i < coded.packets; i++) {
            size_t count;
            must("packet", h263rps_sender_packet(&sender, i, packet, sizeof packet, &count));
            if (n == LOST) continue;
            must("packet", h263rps_receiver_packet(&receiver, packet, count, &answer));
            hand_back(&sender, &answer.message);
        }
        must("play", h263rps_receiver_play_lent(&receiver, &shown, &answer));
        hand_back(&sender, &answer.message);
        printf("picture %u: %u packets, ", (unsigned)coded.number, (unsigned)coded.packets);
        if (coded.intra) printf("intra");
        else printf("from picture %u", (unsigned)coded.reference);
        printf(", shown %s, at most %u off\n", marks[answer.kind], most_off(shown.samples));
    }
    must("finish", h263rps_sender_finish(&sender));
    must("finish", h263rps_receiver_finish(&receiver));
    return 0;
}
