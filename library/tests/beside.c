/* What stands beside a sender: the packets that it sent last, what follows its line, and the messages
 * of datagrams. The layout of structs, wrong calls, each refused by its number, and what is told. */
#include "h263rps.h"

#include <stdio.h>
#include <string.h>

static int wrong;

static void want(const char *what, uint64_t got, uint64_t wanted) {
    if (got == wanted) return;
    printf("%s: %llu, not %llu\n", what, (unsigned long long)got, (unsigned long long)wanted);
    wrong = 1;
}

enum { LONG = 40 };

static uint8_t packet[LONG + 1];
static h263rps_repeats repeats;
static h263rps_line line;
static h263rps_end sender;
static h263rps_lent lent;

static void layout(void) {
    want("size of repeats", sizeof(h263rps_repeats), sizeof(h263rps_end));
    want("size of a line", sizeof(h263rps_line), sizeof(h263rps_end));
    want("size of bounds", sizeof(h263rps_bounds), 20);
}

/* ---- repeats ------------------------------------------------------------------------------- */

static void keep(uint32_t sequence, size_t length, int last) {
    packet[2] = (uint8_t)(sequence >> 8);
    packet[3] = (uint8_t)sequence;
    packet[length - 1] = (uint8_t)last;
    want("keep", h263rps_repeats_keep(&repeats, packet, length), H263RPS_OK);
}

/* The last byte of what is found, with its length before it. */
static uint32_t found(uint16_t sequence) {
    want("find", h263rps_repeats_find(&repeats, sequence, &lent), H263RPS_OK);
    if (!lent.length) return 0;
    want("its number", (uint64_t)lent.samples[2] << 8 | lent.samples[3], sequence);
    return (uint32_t)lent.length << 8 | lent.samples[lent.length - 1];
}

static void repeats_refuse(uint32_t why) {
    lent.samples = packet;
    lent.length = 3;
    want("keep", h263rps_repeats_keep(&repeats, packet, 20), why);
    want("find", h263rps_repeats_find(&repeats, 7, &lent), why);
    want("nothing is lent", lent.samples == packet && lent.length == 3, 1);
    want("finish", h263rps_repeats_finish(&repeats), why);
}

static void repeats_start(void) {
    want("no packets", h263rps_repeats_start(&repeats, 0, LONG), H263RPS_BAD_PARAMS);
    want("too many", h263rps_repeats_start(&repeats, 65537, LONG), H263RPS_BAD_PARAMS);
    want("too short", h263rps_repeats_start(&repeats, 5, 11), H263RPS_BAD_PARAMS);
    want("too long", h263rps_repeats_start(&repeats, 5, 65508), H263RPS_BAD_PARAMS);
    want("empty", repeats.end.kind == 0 && repeats.end.at == NULL, 1);
    want("null", h263rps_repeats_start(NULL, 5, LONG), H263RPS_NULL);
    want("null", h263rps_repeats_keep(&repeats, NULL, 1), H263RPS_NULL);
    want("long", h263rps_repeats_keep(&repeats, packet, (size_t)PTRDIFF_MAX + 1), H263RPS_TOO_LONG);
    want("null", h263rps_repeats_find(&repeats, 1, NULL), H263RPS_NULL);
    want("null", h263rps_repeats_finish(NULL), H263RPS_NULL);
    repeats_refuse(H263RPS_NOT_STARTED);
}

static void repeats_keep(void) {
    uint32_t count;
    want("start", h263rps_repeats_start(&repeats, 5, LONG), H263RPS_OK);
    want("start", h263rps_repeats_start(&repeats, 5, LONG), H263RPS_STARTED);
    want("another end", h263rps_sender_sent(&repeats.end, &count), H263RPS_OTHER_END);
    want("another end", h263rps_raw_line_rate(&repeats.end, &count), H263RPS_OTHER_END);
    want("none yet", found(0), 0);
    for (uint32_t n = 0; n < 12; n++) keep((65530 + n) & 65535, 12 + n % 8, (int)n + 1);
    /* the last eight, over the end of the numbers */
    for (uint32_t n = 0; n < 12; n++)
        want("found", found((uint16_t)(65530 + n)), n < 4 ? 0 : (12 + n % 8) << 8 | (n + 1));
    keep(3, LONG, 77);
    want("again", found(3), LONG << 8 | 77);
    keep(3, LONG + 1, 78);
    want("too long", found(3), LONG << 8 | 77);
    want("keep", h263rps_repeats_keep(&repeats, packet, 11), H263RPS_OK);
    want("keep", h263rps_repeats_keep(&repeats, NULL, 0), H263RPS_OK);
    want("too short", found(3), LONG << 8 | 77);
    want("never sent", found(20000), 0);
    want("finish", h263rps_repeats_finish(&repeats), H263RPS_OK);
    want("empty", repeats.end.kind == 0 && repeats.end.at == NULL, 1);
    repeats_refuse(H263RPS_NOT_STARTED);
}

/* ---- the line ------------------------------------------------------------------------------ */

static const h263rps_bounds bounds = {1800, 60, 999999, 8, 100000000};

static void line_refuses(uint32_t why) {
    uint32_t told = 5;
    want("sent", h263rps_line_sent(&line, 0, 1, 1, 0), why);
    want("told", h263rps_line_told(&line, 0, 1, 0), why);
    want("has room", h263rps_line_has_room(&line, 0, &told), why);
    want("rate", h263rps_line_rate(&line, &told), why);
    want("wanted", h263rps_line_wanted(&line, &told), why);
    want("target", h263rps_line_target(&line, &told), why);
    want("quant", h263rps_line_quant(&line, &told), why);
    want("nothing is told", told, 5);
    want("finish", h263rps_line_finish(&line), why);
}

static void refused_bounds(uint32_t first, uint32_t least, uint32_t most, uint32_t finest,
                           uint32_t period) {
    const h263rps_bounds it = {first, least, most, finest, period};
    want("bounds", h263rps_line_start(&line, &it, 0), H263RPS_BAD_PARAMS);
}

static void line_start(void) {
    refused_bounds(1800, 0, 999999, 8, 1);
    refused_bounds(59, 60, 999999, 8, 1);
    refused_bounds(1800, 60, 1799, 8, 1);
    refused_bounds(1800, 60, 1000000, 8, 1);
    refused_bounds(1800, 60, 999999, 0, 1);
    refused_bounds(1800, 60, 999999, 32, 1);
    refused_bounds(1800, 60, 999999, 8, 0);
    want("null", h263rps_line_start(&line, NULL, 0), H263RPS_NULL);
    want("null", h263rps_line_start(NULL, &bounds, 0), H263RPS_NULL);
    want("null", h263rps_line_has_room(&line, 0, NULL), H263RPS_NULL);
    want("null", h263rps_line_rate(&line, NULL), H263RPS_NULL);
    line_refuses(H263RPS_NOT_STARTED);
}

static const uint64_t ms = 1000000;

static uint32_t number_by(uint32_t (*call)(h263rps_line *, uint32_t *)) {
    uint32_t number = 0;
    want("a number", call(&line, &number), H263RPS_OK);
    return number;
}

static uint32_t has_room(uint64_t now) {
    uint32_t has = 5;
    want("has room", h263rps_line_has_room(&line, now, &has), H263RPS_OK);
    return has;
}

/* Ten pictures a second of 1,800 bytes in two packets; of the last eight one is whole, so that three
 * eighths of the rate are left, after a pause of 200 ms. */
static void line_loses(void) {
    uint32_t told;
    want("start", h263rps_line_start(&line, &bounds, 0), H263RPS_OK);
    want("start", h263rps_line_start(&line, &bounds, 0), H263RPS_STARTED);
    want("another end", h263rps_raw_repeats_keep(&line.end, packet, 20), H263RPS_OTHER_END);
    want("another end", h263rps_receiver_played(&line.end, &told), H263RPS_OTHER_END);
    want("too many packets", h263rps_line_sent(&line, 0, 1, 65536, 0), H263RPS_BAD_PARAMS);
    want("the first rate", number_by(h263rps_line_rate), 18000);
    want("the first size", number_by(h263rps_line_wanted), 1800);
    want("the first target", number_by(h263rps_line_target), 1800);
    want("the first quantiser", number_by(h263rps_line_quant), 8);
    for (uint32_t n = 0; n < 9; n++) {
        const uint64_t at = n * 100 * ms;
        want("room", has_room(at), 1);
        want("sent", h263rps_line_sent(&line, n, 1800, 2, at), H263RPS_OK);
        want("told", h263rps_line_told(&line, n, n < 2 ? 3 : 0, at + 20 * ms), H263RPS_OK);
        want("told twice", h263rps_line_told(&line, n, 1, at + 21 * ms), H263RPS_OK);
        want("the rate", number_by(h263rps_line_rate), n < 8 ? 18000 : 6750);
    }
    want("a pause", has_room(1019 * ms), 0);
    want("its end", has_room(1020 * ms), 1);
    want("finish", h263rps_line_finish(&line), H263RPS_OK);
    want("empty", line.end.kind == 0 && line.end.at == NULL, 1);
    line_refuses(H263RPS_NOT_STARTED);
}

/* A picture that is ten times too large is made good. */
static void line_makes_good(void) {
    want("start", h263rps_line_start(&line, &bounds, 0), H263RPS_OK);
    want("sent", h263rps_line_sent(&line, 0, 18000, 1, 0), H263RPS_OK);
    want("wanted", number_by(h263rps_line_wanted), 60);
    want("the quantiser", number_by(h263rps_line_quant), 11);
    want("the target", number_by(h263rps_line_target), 10285);
    want("too much", has_room(801 * ms), 0);
    want("made good", has_room(802 * ms), 1);
    want("finish", h263rps_line_finish(&line), H263RPS_OK);
}

/* ---- datagrams ----------------------------------------------------------------------------- */

static void datagrams(void) {
    static uint8_t picture[18432], room[9001];
    const h263rps_message ack = {{0xC0, 0x04, 0x00, 0, 0}, 3};
    h263rps_params params;
    h263rps_coded coded;
    h263rps_start start;
    size_t count;
    memset(&start, 0xAA, sizeof start);
    want("defaults", h263rps_defaults(H263RPS_SUB_QCIF, &params), H263RPS_OK);
    want("start", h263rps_sender_start(&sender, &params, NULL), H263RPS_OK);
    want("another end", h263rps_raw_repeats_keep(&sender, packet, 20), H263RPS_OTHER_END);
    want("another end", h263rps_raw_repeats_find(&sender, 7, &lent), H263RPS_OTHER_END);
    want("another end", h263rps_raw_repeats_finish(&sender), H263RPS_OTHER_END);
    want("another end", h263rps_raw_line_finish(&sender), H263RPS_OTHER_END);
    want("code", h263rps_sender_code(&sender, picture, sizeof picture, &ack, 1, &coded),
         H263RPS_OK);
    want("packet", h263rps_sender_packet(&sender, 0, room, sizeof room, &count), H263RPS_OK);
    h263rps_packet_label(room, count, 7, 96);
    want("another source", h263rps_packet_start(room, count, &start), H263RPS_NO_START);
    want("nothing is said", start.count, 0xAAAAAAAA);
    want("any source", h263rps_datagram_start(room, count, &start), H263RPS_OK);
    want("its format", start.format, H263RPS_SUB_QCIF);
    want("its messages", start.count, 1);
    want("the message", memcmp(start.messages, &ack, sizeof ack) == 0, 1);
    start.count = 9;
    h263rps_packet_label(room, count, 7, 97);
    want("another type", h263rps_datagram_start(room, count, &start), H263RPS_NO_START);
    h263rps_packet_label(room, count, 7, 96);
    want("too long", h263rps_datagram_start(room, 9001, &start), H263RPS_NO_START);
    want("too short", h263rps_datagram_start(room, 11, &start), H263RPS_NO_START);
    want("nothing", h263rps_datagram_start(NULL, 0, &start), H263RPS_NO_START);
    want("nothing is said", start.count, 9);
    want("null", h263rps_datagram_start(room, count, NULL), H263RPS_NULL);
    want("null", h263rps_datagram_start(NULL, 1, &start), H263RPS_NULL);
    want("finish", h263rps_sender_finish(&sender), H263RPS_OK);
}

int main(void) {
    layout();
    repeats_start();
    repeats_keep();
    line_start();
    line_loses();
    line_makes_good();
    datagrams();
    if (!wrong) printf("repeats, the line and datagrams do what they are told\n");
    return wrong;
}
