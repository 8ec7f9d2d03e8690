/* A telephone of one file: pictures of QCIF from the standard input to another telephone, and the
 * other one's pictures to the standard output, over UDP, 30 a second.
 *
 *   telephone PORT HOST PORT [DROP]     one's own port, the other's host and port; each DROPth packet
 *                                       that would be sent is left out, to see what that does
 *
 *   ffmpeg -f v4l2 -i /dev/video0 -vf scale=176:144 -r 30 -pix_fmt yuv420p -f rawvideo - |
 *       telephone 5004 192.0.2.7 5004 | ffplay -f rawvideo -video_size 176x144 -framerate 30 -
 *
 * Each datagram is one RTP packet, or a message of 3 or 5 bytes about pictures that came. A datagram
 * of one byte says hello until the other side has been heard, so that neither begins alone. Real
 * telephones send messages as RTCP, and encrypt (docs/LIVE.md has one). */
#define _POSIX_C_SOURCE 200809L
#include "h263rps.h"

#include <netdb.h>
#include <poll.h>
#include <stdio.h>
#include <stdlib.h>
#include <string.h>
#include <sys/socket.h>
#include <time.h>
#include <unistd.h>

enum { SIZE = 38016, ROOM = 1400, WAIT_MS = 100 };

struct telephone {
    int socket;
    h263rps_end sender, receiver;
    unsigned sent, drop, packets; /* each `drop`th packet is left out */
    unsigned marks[3];            /* pictures that were shown: exact, patched, held */
    int heard;                    /* whether anything came from the other side */
    long long began_us, plays;    /* when the first picture is due, and how many were due so far */
    size_t filled;                /* how much of the next picture has been read */
    uint8_t picture[SIZE], shown[SIZE];
};

static void fail(const char *what) {
    perror(what);
    exit(1);
}

static void must(uint32_t status, const char *what) {
    if (status == H263RPS_OK) return;
    fprintf(stderr, "%s: %s\n", what, h263rps_status_text(status));
    exit(1);
}

static long long now_us(void) {
    struct timespec now;
    clock_gettime(CLOCK_MONOTONIC, &now);
    return now.tv_sec * 1000000LL + now.tv_nsec / 1000;
}

/* When the next picture is due: one takes 1001/30000 of a second. */
static long long due_us(const struct telephone *it) {
    return it->began_us + it->plays * 1001000 / 30;
}

/* A datagram that is lost, also by a full buffer, is what the other end is made for. */
static void put(const struct telephone *it, const void *bytes, size_t length) {
    if (send(it->socket, bytes, length, MSG_DONTWAIT) < 0) return;
}

static void answer_with(const struct telephone *it, const h263rps_message *message) {
    if (message->length) put(it, message->bytes, message->length);
}

/* Codes the picture that was read, and sends its packets. */
static void send_picture(struct telephone *it) {
    uint8_t room[ROOM];
    h263rps_coded coded;
    must(h263rps_sender_code(&it->sender, it->picture, SIZE, NULL, 0, &coded), "code");
    it->sent++;
    for (uint32_t i = 0; i < coded.packets; i++) {
        size_t length;
        must(h263rps_sender_packet(&it->sender, i, room, sizeof room, &length), "packet");
        if (!it->drop || ++it->packets % it->drop) put(it, room, length);
    }
}

/* Reads what there is of the next picture. Answers whether the input goes on. */
static int read_picture(struct telephone *it) {
    ssize_t count = read(STDIN_FILENO, it->picture + it->filled, SIZE - it->filled);
    if (count <= 0) return 0;
    it->filled += (size_t)count;
    if (it->filled < SIZE) return 1;
    it->filled = 0;
    if (it->heard) send_picture(it);
    return 1;
}

/* Shows the picture that is due. */
static void play(struct telephone *it) {
    h263rps_answer answer;
    must(h263rps_receiver_play(&it->receiver, it->shown, SIZE, &answer), "play");
    answer_with(it, &answer.message);
    it->marks[answer.kind]++;
    if (fwrite(it->shown, 1, SIZE, stdout) != SIZE || fflush(stdout)) fail("output");
}

/* Takes a packet. One that is too early shows that pictures are played too late: one more is. The
 * first one begins the time in which pictures are due. */
static void take_packet(struct telephone *it, const uint8_t *bytes, size_t length) {
    h263rps_answer answer;
    must(h263rps_receiver_packet(&it->receiver, bytes, length, &answer), "packet");
    if (answer.kind == H263RPS_EARLY && it->began_us) {
        play(it);
        must(h263rps_receiver_packet(&it->receiver, bytes, length, &answer), "packet");
    }
    answer_with(it, &answer.message);
    if (!it->began_us && answer.kind <= H263RPS_COMPLETED) it->began_us = now_us() + WAIT_MS * 1000;
}

static void take_datagram(struct telephone *it) {
    uint8_t bytes[65536];
    h263rps_reply reply;
    ssize_t length = recv(it->socket, bytes, sizeof bytes, MSG_DONTWAIT);
    if (length < 0) return;
    it->heard = 1;
    if (length == 3 || length == 5) {
        must(h263rps_sender_feedback(&it->sender, bytes, (size_t)length, &reply), "feedback");
    } else if (length > 5) {
        take_packet(it, bytes, (size_t)length);
    }
}

/* A socket of one's own port that hears and speaks to the other side alone. */
static int connected(const char *own, const char *host, const char *port) {
    struct addrinfo hints = {.ai_socktype = SOCK_DGRAM}, *here, *there;
    int error = getaddrinfo(host, port, &hints, &there), made;
    if (error) {
        fprintf(stderr, "%s %s: %s\n", host, port, gai_strerror(error));
        exit(2);
    }
    hints.ai_family = there->ai_family;
    hints.ai_flags = AI_PASSIVE;
    error = getaddrinfo(NULL, own, &hints, &here);
    if (error) {
        fprintf(stderr, "port %s: %s\n", own, gai_strerror(error));
        exit(2);
    }
    made = socket(there->ai_family, SOCK_DGRAM, 0);
    if (made < 0) fail("socket");
    if (bind(made, here->ai_addr, here->ai_addrlen) < 0) fail("one's own port");
    if (connect(made, there->ai_addr, there->ai_addrlen) < 0) fail("the other side");
    freeaddrinfo(here);
    freeaddrinfo(there);
    return made;
}

static void start(struct telephone *it) {
    h263rps_params params;
    must(h263rps_defaults(H263RPS_QCIF, &params), "defaults");
    params.target = 1800; /* bytes a picture: 430 kbit/s */
    params.limit = ROOM;
    must(h263rps_sender_start(&it->sender, &params, NULL), "sender");
    must(h263rps_receiver_start(&it->receiver, &params, NULL), "receiver");
}

/* Waits for a picture, a datagram or the next play, but not longer than 100 ms, and does what came.
 * Answers whether the input goes on. */
static int turn(struct telephone *it, int reads) {
    struct pollfd waits[2] = {{it->socket, POLLIN, 0}, {reads ? STDIN_FILENO : -1, POLLIN, 0}};
    long long left = it->began_us ? due_us(it) - now_us() : 100000;
    poll(waits, 2, left > 100000 ? 100 : left < 0 ? 0 : (int)(left / 1000));
    if (waits[0].revents) take_datagram(it);
    if (waits[1].revents) reads = read_picture(it);
    if (it->began_us && due_us(it) <= now_us()) {
        it->plays++;
        play(it);
    }
    return reads;
}

int main(int argc, char **argv) {
    static struct telephone it;
    int reads = 1;
    long long said = 0, quiet;
    if (argc < 4 || argc > 5) {
        fprintf(stderr, "usage: %s PORT HOST PORT [DROP]\n", argv[0]);
        return 2;
    }
    it.socket = connected(argv[1], argv[2], argv[3]);
    it.drop = argc == 5 ? (unsigned)atoi(argv[4]) : 0;
    start(&it);
    /* It ends two seconds after the input, so that the other side's last pictures are shown. */
    for (quiet = now_us(); reads || now_us() - quiet < 2000000;) {
        reads = turn(&it, reads);
        if (reads) quiet = now_us();
        if (!(it.heard && it.sent) && now_us() - said > 200000) {
            put(&it, "?", 1);
            said = now_us();
        }
    }
    fprintf(stderr, "sent %u, shown exact %u, patched %u, held %u\n", it.sent,
            it.marks[H263RPS_EXACT], it.marks[H263RPS_PATCHED], it.marks[H263RPS_HELD]);
    must(h263rps_sender_finish(&it.sender), "sender");
    must(h263rps_receiver_finish(&it.receiver), "receiver");
    return 0;
}
