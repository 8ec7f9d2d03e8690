/* Any sequence of calls, right and wrong ones, drawn from bytes.
 *
 * With libFuzzer it is a fuzzer; with -DREPLAY a program that makes the runs of files again and
 * writes what its receivers were given and answered, for `h263rps recv` to be compared with.
 *
 * Two receivers are given the same, one on memory that was filled with 00, one on FF: whatever they
 * answer must be the same. A packet stands against a page that can't be read, before it or after it.
 * A call that is refused changes nothing. Linked with --wrap for malloc, realloc and free. */
#define _DEFAULT_SOURCE
#include "h263rps.h"

#include <stdio.h>
#include <stdlib.h>
#include <string.h>
#include <sys/mman.h>

enum { SIZE = 18432, ROOM = 9000, PAGE = 4096, MOST = 17 * PAGE, KEPT = 256 };

/* ---- memory that is filled, and counted ------------------------------------------------------ */

static int fill =
    -1; /* what the library's memory is filled with; -1: the caller isn't the library */
static long held;

void *__real_malloc(size_t n);
void *__real_realloc(void *p, size_t n);
void __real_free(void *p);

/* A block has its size in the 16 bytes before it. */
void *__wrap_malloc(size_t n) {
    if (fill < 0) return __real_malloc(n);
    size_t *p = (size_t *)__real_malloc(n + 16);
    if (!p) return NULL;
    *p = n;
    memset(p + 2, fill, n);
    held++;
    return p + 2;
}

void __wrap_free(void *p) {
    if (fill < 0 || !p) {
        __real_free(p);
        return;
    }
    held--;
    __real_free((size_t *)p - 2);
}

void *__wrap_realloc(void *p, size_t n) {
    if (fill < 0) return __real_realloc(p, n);
    void *made = __wrap_malloc(n);
    if (made && p) {
        size_t old = ((size_t *)p)[-2];
        memcpy(made, p, old < n ? old : n);
        __wrap_free(p);
    }
    return made;
}

/* ---- the bytes that a run is drawn from ------------------------------------------------------ */

static const uint8_t *input, *input_end;

static uint8_t drawn(void) {
    return input < input_end ? *input++ : 0;
}

static uint32_t number(uint32_t below) {
    uint32_t high = drawn();
    return (high << 8 | drawn()) % below;
}

static void check(int holds, const char *what) {
    if (holds) return;
    fprintf(stderr, "wrong: %s\n", what);
    abort();
}

/* ---- a run ----------------------------------------------------------------------------------- */

struct text {
    size_t length;
    uint8_t bytes[ROOM];
};

static h263rps_params params;
static h263rps_end sender, receivers[2];
static struct text packets[KEPT]; /* the last ones that were made */
static uint32_t packet_count, message_count, sent;
static h263rps_message messages[KEPT];
static uint8_t *page; /* MOST bytes between two pages that can't be read */
static uint8_t shown[2][SIZE];

#ifdef REPLAY
static FILE *log_file, *out_file, *wire_file;
static uint32_t
    counts[9]; /* exact, patched, held, taken, completed, late, early, repeat, refused */
static void entry(FILE *file, char letter, const uint8_t *bytes, size_t length) {
    uint8_t head[3] = {(uint8_t)letter, (uint8_t)(length >> 8), (uint8_t)length};
    fwrite(head, 1, 3, file);
    fwrite(bytes, 1, length, file);
}
#endif

/* One of the last that were kept, by how many came after it. */
static uint32_t kept_before(uint32_t count) {
    return (count - 1 - number(KEPT)) % KEPT;
}

static void keep_message(const h263rps_message *message) {
    check(message->length == 0 || message->length == 3 || message->length == 5,
          "a message's length");
    if (!message->length) return;
    messages[message_count++ % KEPT] = *message;
#ifdef REPLAY
    entry(wire_file, 'B', message->bytes, message->length);
#endif
}

static uint32_t start_receiver(int which, uint32_t at) {
    uint32_t fault = 77, status;
    fill = which ? 0xFF : 0x00;
    status = at ? h263rps_receiver_start_at(&receivers[which], &params, at, &fault)
                : h263rps_receiver_start(&receivers[which], &params, &fault);
    fill = -1;
    check(status == H263RPS_OK || status == H263RPS_BAD_PARAMS, "a start");
    check((status == H263RPS_OK) == (fault == 77), "a fault of a start");
    return status;
}

static void finish(void) {
    fill = 0;
    h263rps_receiver_finish(&receivers[0]);
    h263rps_receiver_finish(&receivers[1]);
    h263rps_sender_finish(&sender);
    fill = -1;
    check(held == 0, "memory that is left");
    check(!sender.kind && !receivers[0].kind && !receivers[1].kind, "an end that isn't empty");
}

static void start(uint32_t at) {
    uint32_t status;
    h263rps_defaults(H263RPS_SUB_QCIF, &params);
    params.quant = (uint8_t)(1 + drawn() % 31);
    params.messages = (uint8_t)(1 + drawn() % 2);
    params.clock = drawn() % 2;
    params.slots = 2 + drawn() % 8;
    params.lead = drawn() % (params.slots - 1);
    params.limit = 1200 + number(7801);
    params.target = drawn() % 4 ? 0 : number(4000);
    params.pace = drawn() % 2;
    fill = 0x5A;
    status = h263rps_sender_start(&sender, &params, NULL);
    fill = -1;
    check(status == H263RPS_OK, "a sender");
    check(start_receiver(0, at) == H263RPS_OK, "a receiver");
    check(start_receiver(1, at) == H263RPS_OK, "a receiver");
    packet_count = message_count = sent = 0;
}

static const uint8_t *picture(void) {
    static uint8_t samples[SIZE];
    uint32_t state = drawn(), noise = drawn() % 8;
    for (int i = 0; i < SIZE; i++) {
        state = state * 1664525 + 1013904223;
        samples[i] =
            (uint8_t)((i + 3 * (int)sent) % 200 + (noise ? (state >> 24) % (4 * noise) : 0));
    }
    return samples;
}

static void code(void) {
    h263rps_message back[4];
    h263rps_coded coded, before;
    uint32_t count = drawn() % 5, status;
    for (uint32_t i = 0; i < count; i++) {
        back[i] = message_count && drawn() % 8 ? messages[kept_before(message_count)]
                                               : (h263rps_message){{drawn(), drawn(), drawn()}, 3};
        if (drawn() % 16 == 0) back[i].length = drawn();
    }
    memset(&coded, 0xAB, sizeof coded);
    before = coded;
    status = h263rps_sender_code(&sender, picture(), SIZE, count ? back : NULL, count, &coded);
    if (status) {
        check(status == H263RPS_BAD_MESSAGES, "a picture");
        check(!memcmp(&coded, &before, sizeof coded), "a refused picture writes");
        return;
    }
    check(coded.number == sent++ && coded.packets >= 1 && coded.intra <= 1, "a picture's answer");
    for (uint32_t i = 0; i < coded.packets; i++) {
        struct text *kept = &packets[packet_count++ % KEPT];
        status = h263rps_sender_packet(&sender, i, kept->bytes, params.limit, &kept->length);
        check(status == H263RPS_OK && kept->length <= params.limit, "a packet");
    }
    check(h263rps_sender_packet(&sender, coded.packets, shown[0], SIZE, &(size_t){0}) ==
              H263RPS_NO_PACKET,
          "a packet too many");
}

/* Gives both receivers a packet, once against the page before it and once against the one after. */
static void hear(const uint8_t *bytes, size_t length) {
    h263rps_answer answers[2];
    for (int i = 0; i < 2; i++) {
        uint8_t *at = i ? page + MOST - length : page;
        memcpy(at, bytes, length);
        memset(&answers[i], 0xAB, sizeof answers[i]);
        check(h263rps_receiver_packet(&receivers[i], at, length, &answers[i]) == H263RPS_OK,
              "a packet");
    }
    check(!memcmp(&answers[0], &answers[1], sizeof answers[0]), "two answers to a packet");
    check(answers[0].kind <= H263RPS_REFUSED, "the kind of an answer");
    check((answers[0].kind == H263RPS_REFUSED) == (answers[0].fault != 0), "a fault");
    check(answers[0].at <= 8 * length, "the place of a fault");
    check(!answers[0].message.length || answers[0].kind == H263RPS_COMPLETED, "a message");
#ifdef REPLAY
    if (length <= 65535) {
        entry(log_file, 'K', bytes, length);
        counts[3 + answers[0].kind]++;
    }
#endif
    keep_message(&answers[0].message);
}

/* A packet that was made, as it is or changed. */
static void hear_made(int changes) {
    static uint8_t changed[MOST];
    const struct text *made = &packets[kept_before(packet_count)];
    size_t length = made->length;
    memcpy(changed, made->bytes, length);
    for (int i = 0; i < changes && length; i++) {
        switch (drawn() % 4) {
        case 0: changed[number((uint32_t)length)] ^= (uint8_t)(1 << drawn() % 8); break;
        case 1: length = number((uint32_t)length + 1); break;
        case 2: changed[drawn() % 40 % length] = drawn(); break;
        default: changed[length++] = drawn(); break;
        }
    }
    hear(changed, length);
}

static void hear_bytes(void) {
    static uint8_t bytes[MOST];
    size_t length = drawn() % 64 ? drawn() : number(65536) + 16 * drawn();
    memset(bytes, drawn(), length);
    for (size_t i = 0; i < length && i < 64; i++) bytes[i] = drawn();
    hear(bytes, length);
}

static void play(void) {
    h263rps_answer answers[2];
    int lends = drawn() % 2;
    for (int i = 0; i < 2; i++) {
        h263rps_lent lent = {shown[i], 0};
        uint32_t status;
        memset(&answers[i], 0xAB, sizeof answers[i]);
        if (lends) {
            status = h263rps_receiver_play_lent(&receivers[i], &lent, &answers[i]);
            check(status != H263RPS_OK || lent.length == SIZE, "the length of a loan");
            memcpy(shown[i], lent.samples, SIZE);
        } else {
            status = h263rps_receiver_play(&receivers[i], shown[i], SIZE, &answers[i]);
        }
        check(status == H263RPS_OK, "a play");
    }
    check(!memcmp(&answers[0], &answers[1], sizeof answers[0]), "two answers to a play");
    check(!memcmp(shown[0], shown[1], SIZE), "two pictures");
    check(answers[0].kind <= H263RPS_HELD && !answers[0].fault, "the kind of a play");
#ifdef REPLAY
    static const char *const marks[] = {"exact", "patched", "held"};
    entry(log_file, 'P', NULL, 0);
    printf("%u %s\n", counts[0] + counts[1] + counts[2], marks[answers[0].kind]);
    counts[answers[0].kind]++;
    fwrite(shown[0], 1, SIZE, out_file);
#endif
    keep_message(&answers[0].message);
}

static void feedback(int changes) {
    h263rps_message message = messages[kept_before(message_count)];
    uint8_t bytes[256];
    size_t length = message.length;
    h263rps_reply reply = {9, 9};
    memcpy(bytes, message.bytes, sizeof message.bytes);
    for (int i = 0; i < changes; i++) bytes[drawn() % 5] = drawn();
    if (changes && drawn() % 4 == 0) length = drawn();
    check(h263rps_sender_feedback(&sender, bytes, length, &reply) == H263RPS_OK, "a message");
    check(reply.kind <= H263RPS_NO_MESSAGE, "the kind of a reply");
    check((reply.kind == H263RPS_NO_MESSAGE) == (reply.fault != 0), "a fault of a message");
}

/* The sender begins anew, and both receivers at some number, but in a run that `recv` makes again. */
static void begin_anew(void) {
    check(h263rps_sender_reset(&sender, params.target) == H263RPS_OK, "a sender's reset");
    sent = 0;
#ifndef REPLAY
    uint32_t at = drawn() % 4 ? 0 : number(60000) * 16;
    for (int i = 0; i < 2; i++)
        check(h263rps_receiver_reset(&receivers[i], at) == H263RPS_OK, "a receiver's reset");
#endif
}

static void steer(void) {
    uint32_t how = drawn();
    if (how == 254) {
        begin_anew();
    } else if (how % 2) {
        uint32_t target = drawn() % 8 ? number(5000) : 1000000u * drawn();
        uint32_t status = h263rps_sender_target(&sender, target);
        check(status == (target > 999999 ? H263RPS_BAD_PARAMS : H263RPS_OK), "a target");
    } else {
        check(h263rps_sender_forget(&sender) == H263RPS_OK, "a forget");
    }
}

/* Calls of the other end's functions, of wrong lengths, of starts of what is started. */
static void call_wrongly(void) {
    h263rps_answer answer;
    h263rps_coded coded;
    h263rps_reply reply;
    uint32_t count = 77, wanted = H263RPS_OTHER_END;
    memset(&answer, 0xAB, sizeof answer);
    check(h263rps_receiver_packet(&sender, "abc", 3, &answer) == wanted, "a packet to a sender");
    check(h263rps_receiver_play(&sender, shown[0], SIZE, &answer) == wanted, "a sender plays");
    check(h263rps_receiver_finish(&sender) == wanted, "a sender finishes as a receiver");
    check(h263rps_sender_code(&receivers[0], shown[0], SIZE, NULL, 0, &coded) == wanted,
          "a receiver codes");
    check(h263rps_sender_feedback(&receivers[0], "abc", 3, &reply) == wanted, "a receiver is told");
    check(h263rps_sender_sent(&receivers[0], &count) == wanted && count == 77,
          "a receiver's count");
    check(h263rps_sender_known(&receivers[0], &count) == wanted && count == 77, "a receiver knows");
    check(h263rps_sender_reset(&receivers[0], 0) == wanted, "a receiver's reset as a sender");
    check(h263rps_receiver_reset(&sender, 0) == wanted, "a sender's reset as a receiver");
    check(h263rps_sender_reset(&sender, 1000000) == H263RPS_BAD_PARAMS, "a great target");
    check(h263rps_receiver_reset(&receivers[0], 1048577) == H263RPS_BAD_PARAMS, "a number");
    check(h263rps_receiver_play(&receivers[0], shown[0], drawn(), &answer) == H263RPS_WRONG_LENGTH,
          "a short room");
    check(h263rps_receiver_start(&receivers[0], &params, &count) == H263RPS_STARTED, "started");
    check(h263rps_sender_known(&sender, &count) == H263RPS_OK && count <= sent, "what is known");
    check(answer.kind == 0xABABABABu, "a refused call writes");
}

/* One call, or the ends anew. */
static void step(void) {
    switch (drawn() % 16) {
    case 0:
    case 1: code(); break;
    case 2:
    case 3:
    case 4:
    case 5: hear_made(0); break;
    case 6: hear_made(1); break;
    case 7: hear_made(1 + drawn() % 4); break;
    case 8: hear_bytes(); break;
    case 9:
    case 10: play(); break;
    case 11:
    case 12: feedback(0); break;
    case 13: feedback(1 + drawn() % 3); break;
    case 14: steer(); break;
    default: call_wrongly(); break;
    }
}

int LLVMFuzzerTestOneInput(const uint8_t *data, size_t size) {
    if (!page) {
        uint8_t *room =
            (uint8_t *)mmap(NULL, MOST + 2 * PAGE, PROT_NONE, MAP_PRIVATE | MAP_ANONYMOUS, -1, 0);
        page = room + PAGE;
        check(room != MAP_FAILED && !mprotect(page, MOST, PROT_READ | PROT_WRITE), "a page");
    }
    input = data;
    input_end = data + size;
    uint32_t at = drawn() % 4 ? 0 : number(60000) * 16;
#ifdef REPLAY
    at = 0; /* as every `recv` */
#endif
    start(at);
    for (unsigned calls = 0; input < input_end && calls < 400; calls++) step();
#ifndef REPLAY
    finish();
#endif
    return 0;
}

#ifdef REPLAY
static FILE *opened(const char *name) {
    FILE *file = fopen(name, "wb");
    if (!file) exit(2);
    return file;
}

/* replay INPUT LOG OUT WIRE WORDS: the run of one input, the options of its `recv`, and its report. */
int main(int argc, char **argv) {
    static uint8_t data[1 << 20];
    FILE *file = argc == 6 ? fopen(argv[1], "rb") : NULL, *words;
    if (!file) return 2;
    log_file = opened(argv[2]);
    out_file = opened(argv[3]);
    wire_file = opened(argv[4]);
    LLVMFuzzerTestOneInput(data, fread(data, 1, sizeof data, file));
    printf("played %u exact %u patched %u held %u taken %u late %u early %u repeat %u refused %u\n",
           counts[0] + counts[1] + counts[2], counts[0], counts[1], counts[2],
           counts[3] + counts[4], counts[5], counts[6], counts[7], counts[8]);
    words = opened(argv[5]);
    fprintf(words, "--format sub-qcif --slots %u --lead %u --messages %u --clock %s\n",
            params.slots, params.lead, params.messages, params.clock ? "custom" : "standard");
    finish();
    return fclose(words) || fclose(log_file) || fclose(out_file) || fclose(wire_file);
}
#endif
