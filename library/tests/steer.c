/* A sender that is steered, a receiver that joins, and a call that begins anew: what the line, a
 * request for an intra picture, a new viewer and the next call ask of both ends. */
#include "h263rps.h"

#include <stdio.h>
#include <string.h>

static int wrong;

static void want(const char *what, uint32_t got, uint32_t wanted) {
    if (got == wanted) return;
    printf("%s: %u, not %u\n", what, (unsigned)got, (unsigned)wanted);
    wrong = 1;
}

enum { SIZE = 18432, ROOM = 1400, MOST = 64 };

static uint8_t shown[SIZE];
static h263rps_params params;

/* A picture of its own for each number, with much detail. */
static const uint8_t *picture(uint32_t number) {
    static uint8_t samples[SIZE];
    uint32_t state = 1 + number * 7919;
    for (int i = 0; i < SIZE; i++) {
        state = state * 1664525 + 1013904223;
        samples[i] = (uint8_t)(64 + (i + 3 * number) % 64 + (state >> 27));
    }
    return samples;
}

/* A picture that was coded, with its packets. */
struct made {
    h263rps_coded coded;
    size_t lengths[MOST], bytes;
    uint8_t packets[MOST][ROOM];
};

static void code(h263rps_end *sender, uint32_t number, struct made *made) {
    memset(made, 0, sizeof *made);
    want("code", h263rps_sender_code(sender, picture(number), SIZE, NULL, 0, &made->coded), 0);
    want("its number", made->coded.number, number);
    for (uint32_t i = 0; i < made->coded.packets && i < MOST; i++) {
        want("packet", h263rps_sender_packet(sender, i, made->packets[i], ROOM, &made->lengths[i]),
             0);
        made->bytes += made->lengths[i];
    }
}

/* An acknowledgement of one of the first 256 pictures: TR and RTR are its number. */
static void acknowledge(h263rps_end *sender, uint32_t number) {
    uint32_t bits = 3u << 22 | number << 11 | 1u << 10 | number;
    uint8_t message[3] = {(uint8_t)(bits >> 16), (uint8_t)(bits >> 8), (uint8_t)bits};
    h263rps_reply reply;
    want("feedback", h263rps_sender_feedback(sender, message, 3, &reply), 0);
    want("noted", reply.kind, H263RPS_NOTED);
}

/* After a forget each picture is intra until a later one is acknowledged, also where the
 * acknowledgement of an earlier one is late. */
static void forgetting(void) {
    static struct made made;
    h263rps_end sender = {0};
    uint32_t pictures = 0;
    want("start", h263rps_sender_start(&sender, &params, NULL), 0);
    code(&sender, 0, &made);
    acknowledge(&sender, 0);
    code(&sender, 1, &made);
    want("predicted", made.coded.intra, 0);
    want("forget", h263rps_sender_forget(&sender), 0);
    want("the packets stay",
         h263rps_sender_packet(&sender, 0, made.packets[0], ROOM, &made.lengths[0]), 0);
    code(&sender, 2, &made);
    want("intra on request", made.coded.intra, 1);
    acknowledge(&sender, 1);
    code(&sender, 3, &made);
    want("a late acknowledgement", made.coded.intra, 1);
    acknowledge(&sender, 2);
    code(&sender, 4, &made);
    want("predicted again", made.coded.intra, 0);
    want("from the intra picture", made.coded.reference, 2);
    want("sent", h263rps_sender_sent(&sender, &pictures), 0);
    want("five", pictures, 5);
    /* 0 and 1 were forgotten, and nothing is known of 3 and 4 */
    want("known", h263rps_sender_known(&sender, &pictures), 0);
    want("one", pictures, 1);
    acknowledge(&sender, 4);
    want("known", h263rps_sender_known(&sender, &pictures), 0);
    want("two", pictures, 2);
    want("finish", h263rps_sender_finish(&sender), 0);
}

/* A target that is set before the first picture is that of the parameters, byte for byte. */
static void same_target(uint16_t pace) {
    static struct made one, other;
    h263rps_params with = params, without = params;
    h263rps_end first = {0}, second = {0};
    with.pace = without.pace = pace;
    with.target = 1000;
    want("start", h263rps_sender_start(&first, &with, NULL), 0);
    want("start", h263rps_sender_start(&second, &without, NULL), 0);
    want("target", h263rps_sender_target(&second, 1000), 0);
    for (uint32_t number = 0; number < 6; number++) {
        code(&first, number, &one);
        code(&second, number, &other);
        want("the same packets", memcmp(one.packets, other.packets, sizeof one.packets), 0);
    }
    want("finish", h263rps_sender_finish(&first), 0);
    want("finish", h263rps_sender_finish(&second), 0);
}

/* A target that is followed and comes later makes pictures smaller, from the next one on, and none
 * gives the first quantiser back. */
static void later_target(void) {
    static struct made made;
    h263rps_params with = params;
    h263rps_end sender = {0};
    size_t before, after;
    with.pace = H263RPS_FOLLOWS;
    want("start", h263rps_sender_start(&sender, &with, NULL), 0);
    code(&sender, 0, &made);
    before = made.bytes;
    want("target", h263rps_sender_target(&sender, 500), 0);
    code(&sender, 1, &made);
    after = made.bytes;
    want("fewer bytes", 2 * after < before, 1);
    want("no target", h263rps_sender_target(&sender, 0), 0);
    code(&sender, 2, &made);
    want("as many bytes as before", 10 * made.bytes > 9 * before, 1);
    printf("bytes of pictures: %u, then with a target of 500 %u, then with none %u\n",
           (unsigned)before, (unsigned)after, (unsigned)made.bytes);
    want("finish", h263rps_sender_finish(&sender), 0);
}

/* A receiver that joins after 700 pictures, in the third period of picture numbers: once it is
 * there the sender forgets, and the next picture is shown exactly. */
static void joining(void) {
    static struct made made;
    h263rps_end sender = {0}, receiver = {0};
    h263rps_answer answer;
    h263rps_reply reply;
    uint32_t pictures = 0, last = H263RPS_TAKEN;
    want("start", h263rps_sender_start(&sender, &params, NULL), 0);
    for (uint32_t number = 0; number < 700; number++) code(&sender, number, &made);
    want("sent", h263rps_sender_sent(&sender, &pictures), 0);
    want("start at", h263rps_receiver_start_at(&receiver, &params, pictures, NULL), 0);
    want("forget", h263rps_sender_forget(&sender), 0);
    for (uint32_t number = 700; number < 703; number++) {
        code(&sender, number, &made);
        want("the first is intra", made.coded.intra, number == 700);
        for (uint32_t i = 0; i < made.coded.packets; i++) {
            want("packet",
                 h263rps_receiver_packet(&receiver, made.packets[i], made.lengths[i], &answer), 0);
            last = answer.kind;
        }
        want("completed", last, H263RPS_COMPLETED);
        want("feedback",
             h263rps_sender_feedback(&sender, answer.message.bytes, answer.message.length, &reply),
             0);
        want("noted", reply.kind, H263RPS_NOTED);
        want("play", h263rps_receiver_play(&receiver, shown, SIZE, &answer), 0);
        want("exact", answer.kind, H263RPS_EXACT);
    }
    want("played", h263rps_receiver_played(&receiver, &pictures), 0);
    want("of the call", pictures, 703);
    want("finish", h263rps_receiver_finish(&receiver), 0);
    want("finish", h263rps_sender_finish(&sender), 0);
}

/* A picture is coded, its packets are heard and acknowledged, and it is shown exactly. */
static void pass(h263rps_end *sender, h263rps_end *receiver, uint32_t number, struct made *made) {
    h263rps_answer answer;
    h263rps_reply reply;
    code(sender, number, made);
    for (uint32_t i = 0; i < made->coded.packets; i++)
        want("packet",
             h263rps_receiver_packet(receiver, made->packets[i], made->lengths[i], &answer), 0);
    want("completed", answer.kind == H263RPS_COMPLETED && answer.number == number, 1);
    want("feedback",
         h263rps_sender_feedback(sender, answer.message.bytes, answer.message.length, &reply), 0);
    want("play", h263rps_receiver_play(receiver, shown, SIZE, &answer), 0);
    want("exact", answer.kind == H263RPS_EXACT && answer.number == number, 1);
    want("predicted", answer.predicted, !made->coded.intra);
    want("its reference", answer.reference, made->coded.reference);
}

/* A quantiser that is told is that of the parameters, byte for byte, and a target ends it. */
static void told_quantiser(void) {
    static struct made one, other;
    h263rps_params with = params;
    h263rps_end first = {0}, second = {0};
    with.quant = 20;
    want("start", h263rps_sender_start(&first, &with, NULL), 0);
    want("start", h263rps_sender_start(&second, &params, NULL), 0);
    want("quantiser", h263rps_sender_quant(&second, 20), 0);
    for (uint32_t number = 0; number < 4; number++) {
        code(&first, number, &one);
        code(&second, number, &other);
        want("the same packets", memcmp(one.packets, other.packets, sizeof one.packets), 0);
    }
    want("quantiser", h263rps_sender_quant(&first, params.quant), 0);
    want("target", h263rps_sender_target(&second, 0), 0);
    code(&first, 4, &one);
    code(&second, 4, &other);
    want("the parameters' again", memcmp(one.packets, other.packets, sizeof one.packets), 0);
    want("finish", h263rps_sender_finish(&first), 0);
    want("finish", h263rps_sender_finish(&second), 0);
}

/* Pictures of a pace keep to its target once the first ones are made good, by a number of bytes that
 * is less than a picture's; with a greater target they are finer. */
static void fitting(void) {
    enum { PICTURES = 40, FIRST = 10 };
    static struct made made;
    uint32_t coarse = 0;
    for (uint32_t target = 800; target <= 3200; target *= 2) {
        h263rps_end sender = {0};
        h263rps_pace pace;
        uint32_t quant = 0, all = 0, quants = 0;
        want("start", h263rps_sender_start(&sender, &params, NULL), 0);
        want("pace", h263rps_pace_start(&pace, params.format, target, 4 * target), 0);
        for (uint32_t number = 0; number < PICTURES; number++) {
            want("next", h263rps_pace_next(&pace, &sender, &quant), 0);
            code(&sender, number, &made);
            want("coded", h263rps_pace_coded(&pace, &made.coded, quant, (uint32_t)made.bytes), 0);
            acknowledge(&sender, number);
            if (number < FIRST) continue;
            all += (uint32_t)made.bytes;
            quants += quant;
        }
        printf("target %u: %u bytes a picture, quantiser %u\n", (unsigned)target,
               (unsigned)(all / (PICTURES - FIRST)), (unsigned)(quants / (PICTURES - FIRST)));
        want("no more", all < (PICTURES - FIRST + 1) * target, 1);
        want("no less", all > (PICTURES - FIRST - 1) * target, 1);
        want("finer", coarse == 0 || quants < coarse, 1);
        coarse = quants;
        want("finish", h263rps_sender_finish(&sender), 0);
    }
}

/* Codes the next picture by a sender that fits a target and by one with a pace beside it: they have
 * the same packets. */
static void fit_both(h263rps_end *fits, h263rps_end *other, h263rps_pace *pace, uint32_t number) {
    static struct made one, two;
    uint32_t quant = 0;
    want("next", h263rps_pace_next(pace, other, &quant), 0);
    code(fits, number, &one);
    code(other, number, &two);
    want("coded", h263rps_pace_coded(pace, &two.coded, quant, (uint32_t)two.bytes), 0);
    want("as the pace beside it", memcmp(one.packets, two.packets, sizeof one.packets), 0);
    if (number == 4) return;
    acknowledge(fits, number);
    acknowledge(other, number);
}

/* A sender that fits its target has the packets of one with a pace beside it, whose room is 30
 * targets: with another target later, after a quantiser that it was told, and in a call anew. */
static void fitting_itself(void) {
    enum { PICTURES = 16 };
    h263rps_params with = params;
    h263rps_end fits = {0}, other = {0};
    h263rps_pace pace;
    with.target = 900;
    want("start", h263rps_sender_start(&fits, &with, NULL), 0);
    want("start", h263rps_sender_start(&other, &params, NULL), 0);
    want("pace", h263rps_pace_start(&pace, params.format, 900, 27000), 0);
    for (uint32_t number = 0; number < PICTURES; number++) {
        if (number == 10) {
            want("target", h263rps_sender_target(&fits, 2000), 0);
            want("redirect", h263rps_pace_target(&pace, 2000, 60000), 0);
        }
        fit_both(&fits, &other, &pace, number);
    }
    /* A quantiser ends it, and the next target begins one anew. */
    want("quant", h263rps_sender_quant(&fits, 9), 0);
    want("target", h263rps_sender_target(&fits, 1200), 0);
    want("pace", h263rps_pace_start(&pace, params.format, 1200, 36000), 0);
    fit_both(&fits, &other, &pace, PICTURES);
    want("reset", h263rps_sender_reset(&fits, 900) | h263rps_sender_reset(&other, 0), 0);
    want("pace", h263rps_pace_start(&pace, params.format, 900, 27000), 0);
    for (uint32_t number = 0; number < 4; number++) fit_both(&fits, &other, &pace, number);
    want("finish", h263rps_sender_finish(&fits) | h263rps_sender_finish(&other), 0);
}

/* A call that begins anew has the packets of the first one, byte for byte, and its counts begin at
 * 0; a number or a target out of its range changes nothing. */
static void beginning_anew(void) {
    enum { PICTURES = 4 };
    static struct made first[PICTURES], again;
    h263rps_end sender = {0}, receiver = {0};
    h263rps_statistics counted;
    size_t length;
    want("start", h263rps_sender_start(&sender, &params, NULL), 0);
    want("start", h263rps_receiver_start(&receiver, &params, NULL), 0);
    for (uint32_t number = 0; number < PICTURES; number++)
        pass(&sender, &receiver, number, &first[number]);
    want("target", h263rps_sender_target(&sender, 500), 0);
    pass(&sender, &receiver, PICTURES, &again);
    want("a great target", h263rps_sender_reset(&sender, 1000000), H263RPS_BAD_PARAMS);
    want("a late number", h263rps_receiver_reset(&receiver, 1048577), H263RPS_BAD_PARAMS);
    pass(&sender, &receiver, PICTURES + 1, &again);
    want("reset", h263rps_sender_reset(&sender, params.target), 0);
    want("reset", h263rps_receiver_reset(&receiver, 0), 0);
    want("no packets", h263rps_sender_packet(&sender, 0, shown, SIZE, &length), H263RPS_NO_PACKET);
    want("statistics", h263rps_sender_statistics(&sender, &counted), 0);
    want("no pictures", (uint32_t)counted.coded[0], 0);
    want("statistics", h263rps_receiver_statistics(&receiver, &counted), 0);
    want("no packets", (uint32_t)counted.packets, 0);
    for (uint32_t number = 0; number < PICTURES; number++) {
        pass(&sender, &receiver, number, &again);
        want("the same packets", memcmp(&first[number], &again, sizeof again), 0);
    }
    want("finish", h263rps_receiver_finish(&receiver), 0);
    want("finish", h263rps_sender_finish(&sender), 0);
}

int main(void) {
    want("defaults", h263rps_defaults(H263RPS_SUB_QCIF, &params), 0);
    forgetting();
    same_target(H263RPS_FITS);
    same_target(H263RPS_FOLLOWS);
    later_target();
    told_quantiser();
    fitting();
    fitting_itself();
    joining();
    beginning_anew();
    if (!wrong) printf("a sender is steered, a receiver joins, and a call begins anew\n");
    return wrong;
}
