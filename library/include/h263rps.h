/* h263rps.h: both ends of a video call in H.263 with acknowledged reference pictures, over RTP.
 *
 * A sender codes pictures into RTP packets and hears messages; a receiver hears packets and shows a
 * picture at each picture's time. What they do is proved; what you owe is not checked beyond what
 * this header says. docs/LIBRARY.md is the guide: the order of calls, the clock, each answer.
 *
 * An end has no files, no sockets, no clock and no threads. It calls malloc, realloc, free, memcpy,
 * memmove and memset and nothing else, and asks for memory at its start alone.
 *
 * For all functions:
 *  - The answer is H263RPS_OK, or a refusal (enum h263rps_status) that changed nothing: neither the
 *    end nor what a pointer leads to. h263rps_status_text() names it.
 *  - You own all memory that you hand over, and get it back when the call returns. Nothing keeps a
 *    pointer of yours. What a call lends (h263rps_receiver_play_lent, h263rps_receiver_shown) is
 *    the end's own: only read it, and only until the next call with that end.
 *  - What a call writes must not overlap with anything else that is handed to it.
 *  - An end takes one call at a time. Another thread may go on with it, if a lock, or whatever
 *    hands the end over, keeps their calls apart. Ends share nothing: two may be used at once. No
 *    call from a signal handler, or in the child of a fork() of a process with threads.
 *  - malloc, realloc and free are of one allocator, whose blocks are aligned to 16 bytes, as those
 *    of every C library on x86-64 and 64-bit ARM are.
 *
 * C11 or C++11. The functions of this header are static inline: each tests its pointers and lengths
 * and then calls the library's own, h263rps_raw_NAME, which test nothing of the kind.
 */
#ifndef H263RPS_H
#define H263RPS_H

#include <stddef.h>
#include <stdint.h>

/* The version of this header: 10,000 * major + 100 * minor. h263rps_version() has the library's. */
#define H263RPS_VERSION 20300

#ifdef __cplusplus
extern "C" {
#endif

/* What a sender's packets have, and a receiver's must have; h263rps_packet_label() changes it. */
#define H263RPS_SSRC 0x48323633u /* the letters H263 */
#define H263RPS_PAYLOAD_TYPE 96u

/* ---- numbers ------------------------------------------------------------------------------- */

/* What a call answers. */
enum h263rps_status {
    H263RPS_OK = 0,
    H263RPS_NOT_STARTED = 1,  /* the end is empty */
    H263RPS_STARTED = 2,      /* a start: the end isn't empty */
    H263RPS_OTHER_END = 3,    /* it is another end, as a sender for a function of receivers */
    H263RPS_BAD_PARAMS = 4,   /* a parameter is out of its range: `fault` says which */
    H263RPS_NO_MEMORY = 5,    /* a start: nothing is kept */
    H263RPS_ENDED = 6,        /* 1,048,576 pictures were coded or played: a reset begins anew */
    H263RPS_WRONG_LENGTH = 7, /* the picture hasn't h263rps_picture_size() bytes */
    H263RPS_BAD_MESSAGES = 8, /* more than four messages, or what is none by this clock */
    H263RPS_NO_PACKET = 9,    /* the picture that was coded last has no packet of this number */
    H263RPS_SHORT_ROOM = 10,  /* the packet is longer than the room; `limit` bytes always do */
    /* of this header alone */
    H263RPS_NULL = 11,     /* a pointer is null */
    H263RPS_TOO_LONG = 12, /* a length is above PTRDIFF_MAX */
    /* the library's again */
    H263RPS_NO_START = 13,   /* the bytes don't begin as a packet of any format does */
    H263RPS_NO_STREAM = 14,  /* the session's run has no stream */
    H263RPS_NO_RECEIVER = 15 /* nobody is at this place of the group */
};

/* The sizes of pictures. */
enum h263rps_format {
    H263RPS_SUB_QCIF = 1, /* 128 x 96 */
    H263RPS_QCIF = 2,     /* 176 x 144 */
    H263RPS_CIF = 3       /* 352 x 288 */
};

/* What a sender makes of its target. A group follows one by its sizes, whatever this says. */
enum h263rps_pacing {
    H263RPS_FOLLOWS = 0, /* the bytes of the last 16 pictures lead the quantiser, as before 2.3 */
    H263RPS_FITS = 1     /* a pace in it fits each picture, with room for 30 targets */
};

/* The picture clock: how many numbers a picture on the wire has before they repeat. */
enum h263rps_clock {
    H263RPS_STANDARD_CLOCK = 0, /* 256 */
    H263RPS_CUSTOM_CLOCK = 1    /* 1,024 */
};

/* Which parameter is out of its range: the first that is, in the order size, format, clock, and
 * then as they stand here. */
enum h263rps_param {
    H263RPS_PARAM_QUANT = 1,
    H263RPS_PARAM_KEEP = 2,
    H263RPS_PARAM_RADIUS = 3,
    H263RPS_PARAM_LIMIT = 4,
    H263RPS_PARAM_SLOTS = 5,
    H263RPS_PARAM_LEAD = 6,
    H263RPS_PARAM_MESSAGES = 7,
    H263RPS_PARAM_FORMAT = 8,
    H263RPS_PARAM_CLOCK = 9,
    H263RPS_PARAM_TARGET = 10,
    H263RPS_PARAM_NUMBER = 11, /* h263rps_receiver_start_at() alone: above 1,048,576 */
    H263RPS_PARAM_SIZE = 12,   /* not the size of h263rps_params in a version that is known */
    /* h263rps_session_start() alone */
    H263RPS_PARAM_RATE = 13, /* not 1 to 65,536 pictures in 1 to 4,096 seconds */
    H263RPS_PARAM_WAIT = 14, /* more pictures come in the wait than `lead` holds */
    /* any start */
    H263RPS_PARAM_PACE = 15
};

/* `kind` of the answer to a packet. Only the first two change the receiver. */
enum h263rps_heard {
    H263RPS_TAKEN = 0,
    H263RPS_COMPLETED = 1, /* its picture is whole: `message` acknowledges it */
    H263RPS_LATE = 2,      /* its picture was played */
    H263RPS_EARLY = 3,     /* its picture is more than `lead` ahead */
    H263RPS_REPEAT = 4,    /* all of it was taken before */
    H263RPS_REFUSED = 5    /* `fault` says why (enum h263rps_fault) */
};

/* `kind` of the answer to a play: how what is shown stands to the sender's picture. */
enum h263rps_mark {
    H263RPS_EXACT = 0,   /* it is the sender's */
    H263RPS_PATCHED = 1, /* the picture before, with what arrived of this one */
    H263RPS_HELD = 2     /* the picture before */
};

/* Why a packet is refused. From H263RPS_BYTES_ENDED on its bytes are at fault, at bit `at`. The
 * numbers of sections are those of H.263 (2005), where no other document is named. */
enum h263rps_fault {
    H263RPS_OTHER_CLOCK = 1,          /* it is of the other picture clock */
    H263RPS_HEADER_DIFFERS = 2,       /* its picture's packets so far had another header */
    H263RPS_MISSING_REFERENCE = 3,    /* the picture that it refers to isn't complete here */
    H263RPS_OVERLAP = 4,              /* a part of it was taken before */
    H263RPS_BYTES_ENDED = 100,        /* the bits end inside a field or a word */
    H263RPS_BYTES_BAD_CODE = 101,     /* no word of the table begins here */
    H263RPS_BYTES_BAD_DC = 102,       /* INTRADC of 0 or 128 (H.263, 5.4.1) */
    H263RPS_BYTES_BAD_LEVEL = 103,    /* an escape whose LEVEL is 0 or -128 (5.4.2) */
    H263RPS_BYTES_PAST_END = 104,     /* an event after the last coefficient of its block (5.4.2) */
    H263RPS_BYTES_FOUR_VECTORS = 105, /* a macroblock with four vectors (5.3.2) */
    H263RPS_BYTES_BAD_VECTOR = 106,   /* a vector that points out of its reach (5.3.7, 6.1.1) */
    /* a bit against start code emulation that isn't as it must be (5.1.4, Annex K) */
    H263RPS_BYTES_MARKER = 107,
    H263RPS_BYTES_ADDRESS = 108, /* a slice's macroblock address (MBA, Annex K) */
    H263RPS_BYTES_QUANT = 109,   /* a quantiser of 0 (PQUANT 5.1.19, SQUANT Annex K) */
    /* a slice that names another reference than its picture (TRPI and TRP, Annex N) */
    H263RPS_BYTES_SLICE_REFERENCE = 110,
    H263RPS_BYTES_BCI = 111,   /* a back-channel indication that is neither 1 nor 01 (BCI 5.1.16) */
    H263RPS_BYTES_EMPTY = 112, /* a slice with no macroblock */
    H263RPS_BYTES_TRAILING = 113,      /* more than padding after the picture's last macroblock */
    H263RPS_BYTES_NO_START = 114,      /* not the rest of a start code (5.1.1, Annex K) */
    H263RPS_BYTES_PICTURE_TYPE = 115,  /* PTYPE isn't the extended one (5.1.3) */
    H263RPS_BYTES_UFEP = 116,          /* UFEP isn't 001 (5.1.4.1) */
    H263RPS_BYTES_SOURCE_FORMAT = 117, /* another source format than the three (5.1.4.2) */
    /* a source format of the three that isn't the expected one (5.1.4.2) */
    H263RPS_BYTES_OTHER_FORMAT = 118,
    H263RPS_BYTES_MODES = 119, /* the optional modes aren't Annexes K and N alone (5.1.4.2) */
    H263RPS_BYTES_PICTURE_KIND = 120, /* a picture that is neither I nor P (5.1.4.3) */
    H263RPS_BYTES_RESAMPLING = 121,   /* resampling, Annexes P and Q (5.1.4.3) */
    H263RPS_BYTES_CPM = 122,          /* continuous presence multipoint (CPM 5.1.20) */
    H263RPS_BYTES_DIVISOR = 123,      /* a custom picture clock whose divisor is 0 (CPCFC 5.1.7) */
    H263RPS_BYTES_SLICE_MODE = 124,   /* slices that are rectangular or in any order (SSS 5.1.10) */
    /* another mode of the back channel than the four (RPSMF 5.1.13) */
    H263RPS_BYTES_RPSMF = 125,
    H263RPS_BYTES_INTRA_REFERENCE = 126, /* an I picture that names a reference (TRPI 5.1.14) */
    H263RPS_BYTES_NO_REFERENCE = 127,    /* a P picture that names none (TRPI 5.1.14) */
    /* a temporal reference of more than eight bits, in the standard clock (TRP 5.1.15) */
    H263RPS_BYTES_HIGH_BITS = 128,
    H263RPS_BYTES_MESSAGES = 129, /* a back-channel message with a fault (BCM 5.1.17, Annex N) */
    H263RPS_BYTES_MANY_MESSAGES = 130, /* a fifth message */
    /* a packet that begins neither a picture nor a slice (RFC 4629, 5.1) */
    H263RPS_BYTES_FOLLOW_ON = 131,
    /* an extra picture header before a picture, or one with bits left over (RFC 4629, 5.1) */
    H263RPS_BYTES_EXTRA_HEADER = 132,
    /* no extra picture header before a later slice (RFC 4629, 5.1) */
    H263RPS_BYTES_NO_EXTRA_HEADER = 133,
    H263RPS_BYTES_LONG = 134, /* a packet of more than 65,535 bytes */
    /* a packet that ends inside its RTP header, the sources or the extension after it (RFC
       3550, 5.1, 5.3.1) */
    H263RPS_BYTES_SHORT = 135,
    H263RPS_BYTES_VERSION = 136,      /* another version of RTP than 2 */
    H263RPS_BYTES_PADDING = 137,      /* RTP padding whose count doesn't fit */
    H263RPS_BYTES_PAYLOAD_TYPE = 138, /* another payload type */
    H263RPS_BYTES_SOURCE = 139        /* another source */
};

/* `kind` of the answer to a message. Only the first changes the sender. */
enum h263rps_noted {
    H263RPS_NOTED = 0,
    H263RPS_OLD = 1,       /* it is about a picture too far back, or one that was not sent */
    H263RPS_NO_MESSAGE = 2 /* `fault` says why (enum h263rps_message_fault) */
};

/* Why bytes aren't a message. */
enum h263rps_message_fault {
    H263RPS_MESSAGE_LENGTH = 1, /* neither three bytes nor five, as it says itself */
    H263RPS_MESSAGE_KIND = 2,   /* neither an acknowledgement nor its opposite */
    H263RPS_MESSAGE_HIGH = 3,   /* a picture number that the clock doesn't have */
    H263RPS_MESSAGE_MARKER = 4, /* a marker bit is 0 */
    H263RPS_MESSAGE_PAIR = 5    /* an acknowledgement of two pictures */
};

/* `verdict` of a session on a datagram. */
enum h263rps_verdict {
    H263RPS_DROPPED = 0,  /* `cause` says why (enum h263rps_cause) */
    H263RPS_NO_PLACE = 1, /* its picture is further ahead than the clock, or before the call */
    H263RPS_AHEAD = 2,    /* its picture is too far ahead: play what is due, and hand it in again */
    H263RPS_HEARD = 3     /* `answer` is the receiver's */
};

/* Why a session drops a datagram. */
enum h263rps_cause {
    H263RPS_LONG = 1,           /* it has more than 9,000 bytes */
    H263RPS_MALFORMED = 2,      /* it is no packet of this profile */
    H263RPS_OTHER_PICTURES = 3, /* it is of another format, or of the other picture clock */
    H263RPS_TOO_FAST = 4,       /* more than 12,000 of its stream, or of all others, in a second */
    H263RPS_OTHER_STREAM = 5    /* its stream has no run: another one is followed, or is tried */
};

/* The runs of a session: each is a receiver of one stream, which an SSRC names. */
enum h263rps_run {
    H263RPS_FOLLOWED = 0, /* its pictures are shown */
    H263RPS_FORMER = 1,   /* it was followed before; it goes on, and may be followed again */
    H263RPS_TRIED = 2     /* it is followed from its first complete picture on */
};

/* ---- structs ------------------------------------------------------------------------------- */

/* What an end has counted since its start or reset. A count that comes to 2^64 - 1 stays there. */
typedef struct h263rps_statistics {
    uint64_t packets; /* that a receiver was given, or a sender copied out */
    uint64_t bytes;   /* of these packets */
    /* receiver */
    uint64_t heard[6];  /* packets by their answer (enum h263rps_heard) */
    uint64_t faults[5]; /* refused ones by enum h263rps_fault up to OVERLAP; 0: by their bytes */
    uint64_t played[3]; /* pictures by their mark (enum h263rps_mark) */
    /* sender */
    uint64_t coded[6]; /* pictures by how far back the reference is: intra, 1, 2, 3, 4 to 7, 8 on */
    uint64_t noted[3]; /* messages by their answer (enum h263rps_noted) */
} h263rps_statistics;

/* An end of a call. All zeros before its start and after its finish: `h263rps_end e = {0};`. It is
 * written by these functions alone, and never copied: once one copy is finished, the other leads to
 * freed memory. One that isn't finished leaks. */
typedef struct h263rps_end {
    uint32_t kind; /* 0 where it is empty */
    void *at;
    h263rps_statistics counted; /* h263rps_receiver_statistics(), h263rps_sender_statistics() */
} h263rps_end;

/* The parameters of a call. h263rps_defaults() sets each; change those that you mean, never `size`.
 * `format` and `clock` must be the same at both ends, and a receiver's `slots - lead` at least its
 * sender's. */
typedef struct h263rps_params {
    uint32_t size;    /* of this struct in bytes: a newer library knows by it what it was given */
    uint32_t format;  /* enum h263rps_format */
    uint8_t quant;    /* sender: the quantiser, 1 fine to 31 coarse (8); with a target the first */
    uint8_t keep;     /* sender: coefficients of a block that are coded, 1 to 64 (64) */
    uint8_t radius;   /* sender: of the motion search, in samples, 0 to 15 (7) */
    uint8_t messages; /* receiver: the version of its messages, 1 or 2 (1) */
    uint32_t limit;   /* sender: the most bytes of an RTP packet, 1,200 to 9,000 (1,400) */
    uint32_t slots;   /* pictures that each end keeps, 2 to 64 (16) */
    uint32_t lead;    /* pictures that may come before their turn, 0 to slots - 2 (3) */
    uint16_t clock;   /* enum h263rps_clock (standard) */
    uint16_t pace;    /* sender: enum h263rps_pacing (fits); upper bits of `clock` before 2.3 */
    uint32_t target;  /* sender: bytes a picture that the quantiser follows, to 999,999; 0: none */
} h263rps_params;

/* A message for the other side: the first `length` bytes, 3 or 5. With a length of 0 there is none;
 * any other length is none that may be sent. */
typedef struct h263rps_message {
    uint8_t bytes[5];
    uint8_t length;
} h263rps_message;

/* A receiver's answer to a packet or a play. */
typedef struct h263rps_answer {
    uint32_t kind;  /* enum h263rps_heard, of a play enum h263rps_mark */
    uint32_t fault; /* enum h263rps_fault where a packet is refused, else 0 */
    uint32_t at;    /* the bit of a fault of its bytes, else 0 */
    /* of a play: that of the picture that is shown, from 0; of a packet: that of its picture, and 0
     * where its bytes are at fault, the clock is the other one, or the picture is before the call */
    uint32_t number;
    /* of a play: 1 where what came of this picture refers to another one, else 0: it is intra, or
     * nothing of it was taken */
    uint32_t predicted;
    uint32_t reference; /* the number of that one, else 0 */
    h263rps_message message;
} h263rps_answer;

/* A picture that was coded. */
typedef struct h263rps_coded {
    uint32_t number;    /* from 0 */
    uint32_t packets;   /* how many it has, at least 1 */
    uint32_t intra;     /* 1 where it is coded by itself */
    uint32_t reference; /* the number of the picture that it is predicted from, else 0 */
} h263rps_coded;

/* A pace, which fits a sender's pictures to a target in bytes a picture: a struct of numbers, which
 * may be copied. h263rps_pace_start() sets it, and the functions of a pace write it. */
typedef struct h263rps_pace {
    uint32_t target;    /* bytes a picture, 1 to 999,999 */
    uint32_t room;      /* bytes by which their sum may exceed it */
    uint64_t level;     /* bytes by which the pictures exceed the target now */
    uint64_t intra;     /* of a picture that is coded by itself: its bytes times its quantiser */
    uint64_t predicted; /* the same of one that is predicted */
    uint64_t excess;    /* bytes by which predicted pictures exceed the target now */
} h263rps_pace;

/* A sender's answer to a message. */
typedef struct h263rps_reply {
    uint32_t kind;  /* enum h263rps_noted */
    uint32_t fault; /* enum h263rps_message_fault if it isn't a message, else 0 */
} h263rps_reply;

/* What a packet says of its picture. */
typedef struct h263rps_start {
    uint32_t format;             /* enum h263rps_format */
    uint32_t clock;              /* enum h263rps_clock */
    uint32_t temporal_reference; /* the picture's number modulo 256, in the custom clock 1,024 */
    uint32_t intra;              /* 1 where it is coded by itself */
    uint32_t reference;          /* that of the picture it is predicted from, else 0 */
    uint32_t count;              /* how many messages its header carries, at most 4 */
    h263rps_message messages[4]; /* these, and none in the places after them */
} h263rps_start;

/* A picture in its place: Y, then Cb, then Cr, each by rows from the top. From
 * h263rps_repeats_find() the bytes of a packet. */
typedef struct h263rps_lent {
    const uint8_t *samples; /* for the raw call: not null, also before it */
    size_t length;          /* h263rps_picture_size(); of a packet its own, 0 where it isn't kept */
} h263rps_lent;

/* Packets that were sent, and what follows a line: each as an h263rps_end all zeros before its start
 * and after its finish, and never copied. */
typedef struct h263rps_repeats {
    h263rps_end end;
} h263rps_repeats;

typedef struct h263rps_line {
    h263rps_end end;
} h263rps_line;

/* Where a line begins, and between which its rate stays. */
typedef struct h263rps_bounds {
    /* bytes a picture, with 1 <= least <= first <= most <= 999,999 */
    uint32_t first;
    uint32_t least;
    uint32_t most;
    uint32_t finest; /* the finest quantiser, 1 to 31 */
    uint32_t period; /* the time of a picture in nanoseconds, at least 1 */
} h263rps_bounds;

/* A session: as an h263rps_end all zeros before its start and after its finish, and never copied. */
typedef struct h263rps_session {
    uint32_t kind; /* 0 where it is empty */
    void *at;
} h263rps_session;

/* When a session's pictures are due: h263rps_session_start() makes it of its arguments. */
typedef struct h263rps_timing {
    uint32_t rate;   /* so many pictures, 1 to 65,536, */
    uint32_t second; /* in so many seconds, 1 to 4,096 */
    uint64_t wait;   /* nanoseconds */
} h263rps_timing;

/* A session's answer to a datagram. */
typedef struct h263rps_arrived {
    uint32_t verdict; /* enum h263rps_verdict */
    uint32_t cause;   /* enum h263rps_cause where it is dropped, else 0 */
    uint32_t run;     /* enum h263rps_run: the run that took it; 0 where it is dropped */
    uint32_t source;  /* the SSRC of its stream; 0 where it is dropped */
    uint32_t ahead;   /* the number of a picture that is ahead, else 0 */
    /* 1 where another stream comes beside the followed one, whose pictures become complete: one of
     * them is forged, and nothing here can know which. It is told once a second, else 0. */
    uint32_t rival;
    /* where it is heard that of h263rps_receiver_packet(), with a number of 0; else all zeros */
    h263rps_answer answer;
} h263rps_arrived;

/* A session's answer to a play. */
typedef struct h263rps_turn {
    uint32_t plays;  /* 1 where a picture was played; 0 where none is due, and all else is 0 */
    uint32_t run;    /* enum h263rps_run: whose picture it is; only the followed one's is shown */
    uint32_t source; /* the SSRC of its stream */
    h263rps_answer answer; /* that of h263rps_receiver_play() */
} h263rps_turn;

/* What a session has counted since its start. A count that comes to 2^64 - 1 stays there. */
typedef struct h263rps_session_counts {
    uint64_t taken;      /* datagrams that a run took, heard or not */
    uint64_t dropped[6]; /* the others by enum h263rps_cause; [0] is 0 */
    uint64_t played[3];  /* the followed run's pictures by their mark (enum h263rps_mark) */
} h263rps_session_counts;

/* Packets that a session asks for again: the field of a Generic NACK (RFC 4585, 6.2.1). */
typedef struct h263rps_nack {
    uint32_t asks;      /* 1 where something is asked for; else 0, and all else is 0 */
    uint16_t packet;    /* PID: the sequence number of a packet */
    uint16_t following; /* BLP: bit i, from 1 at the least significant one, asks for the one i on */
} h263rps_nack;

/* One sender for several receivers: as an h263rps_end all zeros before its start and after its
 * finish, and never copied. */
typedef struct h263rps_group {
    uint32_t kind; /* 0 where it is empty */
    void *at;
    h263rps_statistics counted; /* h263rps_group_statistics() */
} h263rps_group;

/* The places of a group, 0 to 15; what h263rps_group_waiting_for() has where it waits for none, and
 * h263rps_group_reference() where there is none. */
#define H263RPS_PLACES 16u
#define H263RPS_NOBODY UINT32_MAX
#define H263RPS_NO_REFERENCE UINT32_MAX

/* What h263rps_session_due() has where nothing is known to be due. */
#define H263RPS_NEVER UINT64_MAX

/* ---- the library's own functions: pointers aren't null, also where a length is 0 ------------- */

uint32_t h263rps_raw_version(void);
uint32_t h263rps_raw_defaults(uint32_t format, h263rps_params *params);
uint32_t h263rps_raw_picture_size(uint32_t format);
uint32_t h263rps_raw_packet_start(const uint8_t *bytes, size_t length, h263rps_start *start);
uint32_t h263rps_raw_datagram_start(const uint8_t *bytes, size_t length, h263rps_start *start);

uint32_t h263rps_raw_receiver_start(h263rps_end *end, const h263rps_params *params,
                                    uint32_t *fault);
uint32_t h263rps_raw_receiver_start_at(h263rps_end *end, const h263rps_params *params,
                                       uint32_t number, uint32_t *fault);
uint32_t h263rps_raw_receiver_packet(h263rps_end *end, const uint8_t *bytes, size_t length,
                                     h263rps_answer *answer);
uint32_t h263rps_raw_receiver_play(h263rps_end *end, uint8_t *picture, size_t length,
                                   h263rps_answer *answer);
uint32_t h263rps_raw_receiver_next(h263rps_end *end, h263rps_answer *answer);
uint32_t h263rps_raw_receiver_shown(h263rps_end *end, h263rps_lent *lent);
uint32_t h263rps_raw_receiver_reset(h263rps_end *end, uint32_t number);
uint32_t h263rps_raw_receiver_played(h263rps_end *end, uint32_t *count);
uint32_t h263rps_raw_receiver_statistics(h263rps_end *end, h263rps_statistics *statistics);
uint32_t h263rps_raw_receiver_finish(h263rps_end *end);

uint32_t h263rps_raw_sender_start(h263rps_end *end, const h263rps_params *params, uint32_t *fault);
uint32_t h263rps_raw_sender_code(h263rps_end *end, const uint8_t *picture, size_t length,
                                 const h263rps_message *messages, size_t count,
                                 h263rps_coded *coded);
uint32_t h263rps_raw_sender_packet(h263rps_end *end, uint32_t number, uint8_t *room, size_t length,
                                   size_t *count);
uint32_t h263rps_raw_sender_feedback(h263rps_end *end, const uint8_t *message, size_t length,
                                     h263rps_reply *reply);
uint32_t h263rps_raw_sender_target(h263rps_end *end, uint32_t bytes);
uint32_t h263rps_raw_sender_quant(h263rps_end *end, uint8_t quant);
uint32_t h263rps_raw_sender_forget(h263rps_end *end);
uint32_t h263rps_raw_sender_reset(h263rps_end *end, uint32_t bytes);
uint32_t h263rps_raw_sender_sent(h263rps_end *end, uint32_t *count);
uint32_t h263rps_raw_sender_known(h263rps_end *end, uint32_t *count);
uint32_t h263rps_raw_sender_statistics(h263rps_end *end, h263rps_statistics *statistics);
uint32_t h263rps_raw_sender_finish(h263rps_end *end);

uint32_t h263rps_raw_group_start(h263rps_group *group, const h263rps_params *params,
                                 uint32_t *fault);
uint32_t h263rps_raw_group_join(h263rps_group *group, uint32_t receiver);
uint32_t h263rps_raw_group_leave(h263rps_group *group, uint32_t receiver);
uint32_t h263rps_raw_group_code(h263rps_group *group, const uint8_t *picture, size_t length,
                                const h263rps_message *messages, size_t count,
                                h263rps_coded *coded);
uint32_t h263rps_raw_group_packet(h263rps_group *group, uint32_t number, uint8_t *room,
                                  size_t length, size_t *count);
uint32_t h263rps_raw_group_feedback(h263rps_group *group, uint32_t receiver, const uint8_t *message,
                                    size_t length, h263rps_reply *reply);
uint32_t h263rps_raw_group_waiting_for(h263rps_group *group, uint32_t *receiver);
uint32_t h263rps_raw_group_reference(h263rps_group *group, uint32_t *number);
uint32_t h263rps_raw_group_target(h263rps_group *group, uint32_t bytes);
uint32_t h263rps_raw_group_quant(h263rps_group *group, uint8_t quant);
uint32_t h263rps_raw_group_sent(h263rps_group *group, uint32_t *count);
uint32_t h263rps_raw_group_statistics(h263rps_group *group, h263rps_statistics *statistics);
uint32_t h263rps_raw_group_finish(h263rps_group *group);

uint32_t h263rps_raw_repeats_start(h263rps_end *end, uint32_t count, uint32_t longest);
uint32_t h263rps_raw_repeats_keep(h263rps_end *end, const uint8_t *packet, size_t length);
uint32_t h263rps_raw_repeats_find(h263rps_end *end, uint16_t sequence, h263rps_lent *lent);
uint32_t h263rps_raw_repeats_finish(h263rps_end *end);

uint32_t h263rps_raw_line_start(h263rps_end *end, const h263rps_bounds *bounds, uint64_t now);
uint32_t h263rps_raw_line_sent(h263rps_end *end, uint32_t number, uint32_t bytes, uint16_t packets,
                               uint64_t now);
uint32_t h263rps_raw_line_told(h263rps_end *end, uint32_t number, uint32_t whole, uint64_t now);
uint32_t h263rps_raw_line_has_room(h263rps_end *end, uint64_t now, uint32_t *has);
uint32_t h263rps_raw_line_rate(h263rps_end *end, uint32_t *rate);
uint32_t h263rps_raw_line_wanted(h263rps_end *end, uint32_t *bytes);
uint32_t h263rps_raw_line_target(h263rps_end *end, uint32_t *bytes);
uint32_t h263rps_raw_line_quant(h263rps_end *end, uint32_t *quant);
uint32_t h263rps_raw_line_finish(h263rps_end *end);

uint32_t h263rps_raw_pace_start(h263rps_pace *pace, uint32_t format, uint32_t target,
                                uint32_t room);
uint32_t h263rps_raw_pace_redirect(h263rps_pace *pace, uint32_t target, uint32_t room);
uint32_t h263rps_raw_pace_quant(const h263rps_pace *pace, uint32_t intra);
void h263rps_raw_pace_coded(h263rps_pace *pace, uint32_t intra, uint8_t quant, uint32_t bytes);

uint32_t h263rps_raw_session_start(h263rps_session *session, const h263rps_params *params,
                                   const h263rps_timing *timing, uint32_t *fault);
uint32_t h263rps_raw_session_arrival(h263rps_session *session, const uint8_t *bytes, size_t length,
                                     uint64_t now, h263rps_arrived *arrived);
uint32_t h263rps_raw_session_arrival_of(h263rps_session *session, uint32_t source,
                                        const uint8_t *bytes, size_t length, uint64_t now,
                                        h263rps_arrived *arrived);
uint32_t h263rps_raw_session_missing(h263rps_session *session, uint64_t round_trip, uint64_t now,
                                     h263rps_nack *nack);
uint32_t h263rps_raw_session_bye(h263rps_session *session, uint32_t source, uint64_t now);
uint32_t h263rps_raw_session_reset(h263rps_session *session, uint64_t now);
uint32_t h263rps_raw_session_due(h263rps_session *session, uint64_t *due);
uint32_t h263rps_raw_session_play(h263rps_session *session, uint64_t now, h263rps_turn *turn);
uint32_t h263rps_raw_session_shown(h263rps_session *session, h263rps_lent *lent);
uint32_t h263rps_raw_session_source(h263rps_session *session, uint32_t run, uint32_t *source);
uint32_t h263rps_raw_session_statistics(h263rps_session *session, h263rps_session_counts *counts);
uint32_t h263rps_raw_session_finish(h263rps_session *session);

/* ---- before the start ---------------------------------------------------------------------- */

/* Why a call was refused, in a few words. Never null; the text is static. */
static inline const char *h263rps_status_text(uint32_t status) {
    switch (status) {
    case H263RPS_OK: return "ok";
    case H263RPS_NOT_STARTED: return "not started";
    case H263RPS_STARTED: return "started already";
    case H263RPS_OTHER_END: return "the other end's function";
    case H263RPS_BAD_PARAMS: return "a parameter is out of its range";
    case H263RPS_NO_MEMORY: return "out of memory";
    case H263RPS_ENDED: return "1,048,576 pictures, the most of a run";
    case H263RPS_WRONG_LENGTH: return "not the length of a picture";
    case H263RPS_BAD_MESSAGES: return "no messages, or too many";
    case H263RPS_NO_PACKET: return "no packet of this number";
    case H263RPS_SHORT_ROOM: return "too short a room";
    case H263RPS_NULL: return "a null pointer";
    case H263RPS_TOO_LONG: return "too great a length";
    case H263RPS_NO_START: return "no start of a packet";
    case H263RPS_NO_STREAM: return "no stream has this run";
    case H263RPS_NO_RECEIVER: return "nobody is at this place of the group";
    default: return "no status";
    }
}

/* Why a packet is refused, in a few words (enum h263rps_fault). As h263rps_status_text(). */
static inline const char *h263rps_fault_text(uint32_t fault) {
    switch (fault) {
    case H263RPS_OTHER_CLOCK: return "the other picture clock";
    case H263RPS_HEADER_DIFFERS: return "another header than its picture's packets so far";
    case H263RPS_MISSING_REFERENCE: return "the picture that it refers to isn't complete here";
    case H263RPS_OVERLAP: return "a part of it was taken before";
    case H263RPS_BYTES_ENDED: return "the bits end inside a field or a word";
    case H263RPS_BYTES_BAD_CODE: return "no word of the table";
    case H263RPS_BYTES_BAD_DC: return "INTRADC of 0 or 128";
    case H263RPS_BYTES_BAD_LEVEL: return "an escape whose LEVEL is 0 or -128";
    case H263RPS_BYTES_PAST_END: return "an event after the last coefficient of its block";
    case H263RPS_BYTES_FOUR_VECTORS: return "a macroblock with four vectors";
    case H263RPS_BYTES_BAD_VECTOR: return "a vector that points out of its reach";
    case H263RPS_BYTES_MARKER: return "a bit against start code emulation is wrong";
    case H263RPS_BYTES_ADDRESS: return "a slice's macroblock address";
    case H263RPS_BYTES_QUANT: return "a quantiser of 0";
    case H263RPS_BYTES_SLICE_REFERENCE: return "a slice names another reference than its picture";
    case H263RPS_BYTES_BCI: return "a back-channel indication that is neither 1 nor 01";
    case H263RPS_BYTES_EMPTY: return "a slice with no macroblock";
    case H263RPS_BYTES_TRAILING: return "more than padding after the last macroblock";
    case H263RPS_BYTES_NO_START: return "not the rest of a start code";
    case H263RPS_BYTES_PICTURE_TYPE: return "PTYPE isn't the extended one";
    case H263RPS_BYTES_UFEP: return "UFEP isn't 001";
    case H263RPS_BYTES_SOURCE_FORMAT: return "another source format than the three";
    case H263RPS_BYTES_OTHER_FORMAT: return "not the expected source format";
    case H263RPS_BYTES_MODES: return "the optional modes aren't Annexes K and N alone";
    case H263RPS_BYTES_PICTURE_KIND: return "a picture that is neither I nor P";
    case H263RPS_BYTES_RESAMPLING: return "resampling";
    case H263RPS_BYTES_CPM: return "continuous presence multipoint";
    case H263RPS_BYTES_DIVISOR: return "a custom picture clock whose divisor is 0";
    case H263RPS_BYTES_SLICE_MODE: return "slices that are rectangular or in any order";
    case H263RPS_BYTES_RPSMF: return "another mode of the back channel than the four";
    case H263RPS_BYTES_INTRA_REFERENCE: return "an I picture that names a reference";
    case H263RPS_BYTES_NO_REFERENCE: return "a P picture that names none";
    case H263RPS_BYTES_HIGH_BITS: return "a temporal reference of more than eight bits";
    case H263RPS_BYTES_MESSAGES: return "a back-channel message with a fault";
    case H263RPS_BYTES_MANY_MESSAGES: return "a fifth message";
    case H263RPS_BYTES_FOLLOW_ON: return "a packet that begins neither a picture nor a slice";
    case H263RPS_BYTES_EXTRA_HEADER: return "an extra picture header that isn't as it must be";
    case H263RPS_BYTES_NO_EXTRA_HEADER: return "no extra picture header before a later slice";
    case H263RPS_BYTES_LONG: return "more than 65,535 bytes";
    case H263RPS_BYTES_SHORT: return "it ends inside its RTP header";
    case H263RPS_BYTES_VERSION: return "another version of RTP than 2";
    case H263RPS_BYTES_PADDING: return "RTP padding whose count doesn't fit";
    case H263RPS_BYTES_PAYLOAD_TYPE: return "another payload type";
    case H263RPS_BYTES_SOURCE: return "another source";
    default: return "no fault";
    }
}

/* Why bytes aren't a message, in a few words (enum h263rps_message_fault). */
static inline const char *h263rps_message_fault_text(uint32_t fault) {
    switch (fault) {
    case H263RPS_MESSAGE_LENGTH: return "neither three bytes nor five, as it says itself";
    case H263RPS_MESSAGE_KIND: return "neither an acknowledgement nor its opposite";
    case H263RPS_MESSAGE_HIGH: return "a picture number that the clock doesn't have";
    case H263RPS_MESSAGE_MARKER: return "a marker bit is 0";
    case H263RPS_MESSAGE_PAIR: return "an acknowledgement of two pictures";
    default: return "no fault";
    }
}

/* The name of a parameter (enum h263rps_param), as a start tells it. */
static inline const char *h263rps_param_text(uint32_t param) {
    switch (param) {
    case H263RPS_PARAM_QUANT: return "quant";
    case H263RPS_PARAM_KEEP: return "keep";
    case H263RPS_PARAM_RADIUS: return "radius";
    case H263RPS_PARAM_LIMIT: return "limit";
    case H263RPS_PARAM_SLOTS: return "slots";
    case H263RPS_PARAM_LEAD: return "lead";
    case H263RPS_PARAM_MESSAGES: return "messages";
    case H263RPS_PARAM_FORMAT: return "format";
    case H263RPS_PARAM_CLOCK: return "clock";
    case H263RPS_PARAM_TARGET: return "target";
    case H263RPS_PARAM_NUMBER: return "number";
    case H263RPS_PARAM_SIZE: return "size";
    case H263RPS_PARAM_RATE: return "rate";
    case H263RPS_PARAM_WAIT: return "wait";
    case H263RPS_PARAM_PACE: return "pace";
    default: return "no parameter";
    }
}

/* Why a session drops a datagram, in a few words (enum h263rps_cause). As h263rps_status_text(). */
static inline const char *h263rps_cause_text(uint32_t cause) {
    switch (cause) {
    case H263RPS_LONG: return "more than 9,000 bytes";
    case H263RPS_MALFORMED: return "no packet of this profile";
    case H263RPS_OTHER_PICTURES: return "another format or picture clock";
    case H263RPS_TOO_FAST: return "more than 12,000 packets in a second";
    case H263RPS_OTHER_STREAM: return "another stream is followed";
    default: return "no cause";
    }
}

/* The version of the library, as H263RPS_VERSION has that of the header. A library of the same
 * soname serves each program that was compiled with a header of its version or an older one. */
static inline uint32_t h263rps_version(void) {
    return h263rps_raw_version();
}

/* Writes the parameters of a call in this format where nothing else is asked for.
 * BAD_PARAMS: it is no format. */
static inline uint32_t h263rps_defaults(uint32_t format, h263rps_params *params) {
    uint32_t status;
    if (!params) return H263RPS_NULL;
    status = h263rps_raw_defaults(format, params);
    /* A program that was compiled before 2.3 goes on with a pace of 0. */
    if (!status) params->pace = H263RPS_FITS;
    return status;
}

/* How many bytes a picture of this format has: Y, then Cb, then Cr, each by rows from the top. 0
 * if the format is unknown. */
static inline size_t h263rps_picture_size(uint32_t format) {
    return h263rps_raw_picture_size(format);
}

/* Whether this many bytes may be handed over from here. */
static inline uint32_t h263rps_may_pass(const void *from, size_t length) {
    if (!from && length) return H263RPS_NULL;
    return length > PTRDIFF_MAX ? H263RPS_TOO_LONG : H263RPS_OK;
}

/* What an RTP packet says of its picture, before any end takes it; no end is asked for. The messages
 * in its header are those that the other side handed to h263rps_sender_code(): give each to your
 * own sender by h263rps_sender_feedback(). Every packet of a picture carries them, and a message
 * that comes again changes nothing. A packet that a receiver takes has a start; one that has a
 * start may still be refused.
 * NO_START. */
static inline uint32_t h263rps_packet_start(const void *bytes, size_t length,
                                            h263rps_start *start) {
    uint8_t nothing = 0;
    uint32_t status = h263rps_may_pass(bytes, length);
    if (!start) return H263RPS_NULL;
    if (status) return status;
    return h263rps_raw_packet_start(length ? (const uint8_t *)bytes : &nothing, length, start);
}

/* The same of a datagram whose SSRC may be any, as a session takes it: of at most 9,000 bytes, with
 * payload type H263RPS_PAYLOAD_TYPE. Give your sender the messages of those alone that the session
 * heard (H263RPS_HEARD) in its followed run (H263RPS_FOLLOWED): any datagram may carry some.
 * NO_START. */
static inline uint32_t h263rps_datagram_start(const void *bytes, size_t length,
                                              h263rps_start *start) {
    uint8_t nothing = 0;
    uint32_t status = h263rps_may_pass(bytes, length);
    if (!start) return H263RPS_NULL;
    if (status) return status;
    return h263rps_raw_datagram_start(length ? (const uint8_t *)bytes : &nothing, length, start);
}

/* ---- the receiver -------------------------------------------------------------------------- */

/* Makes `end`, which is all zeros, a receiver: the one call of it that asks for memory, which
 * h263rps_receiver_finish() gives back. `fault` may be null; else it has the parameter that is out
 * of its range (enum h263rps_param) where the answer is BAD_PARAMS, and is left alone otherwise.
 * STARTED, BAD_PARAMS, NO_MEMORY. */
static inline uint32_t h263rps_receiver_start(h263rps_end *end, const h263rps_params *params,
                                              uint32_t *fault) {
    uint32_t unwanted = 0;
    if (!end || !params) return H263RPS_NULL;
    return h263rps_raw_receiver_start(end, params, fault ? fault : &unwanted);
}

/* Makes `end`, which is all zeros, a receiver that joins a call: its next picture is the one of
 * this number, up to 1,048,576, as if it had played those before and heard nothing. All samples
 * that it shows are 128 until an intra picture comes, for which the other side calls
 * h263rps_sender_forget(). As h263rps_receiver_start(), which is this at number 0.
 * STARTED, BAD_PARAMS, NO_MEMORY. */
static inline uint32_t h263rps_receiver_start_at(h263rps_end *end, const h263rps_params *params,
                                                 uint32_t number, uint32_t *fault) {
    uint32_t unwanted = 0;
    if (!end || !params) return H263RPS_NULL;
    return h263rps_raw_receiver_start_at(end, params, number, fault ? fault : &unwanted);
}

/* Gives a whole RTP packet to a receiver, whatever it is: any bytes are an answer and no refusal.
 * Where answer->message.length isn't 0 send the message back at once.
 * NOT_STARTED, OTHER_END. */
static inline uint32_t h263rps_receiver_packet(h263rps_end *end, const void *bytes, size_t length,
                                               h263rps_answer *answer) {
    uint8_t nothing = 0;
    uint32_t status = h263rps_may_pass(bytes, length);
    if (!end || !answer) return H263RPS_NULL;
    if (status) return status;
    return h263rps_raw_receiver_packet(end, length ? (const uint8_t *)bytes : &nothing, length,
                                       answer);
}

/* Plays the next picture: once for each picture's time, whether anything came or not. `picture` has
 * room for h263rps_picture_size() bytes, and `length` says so. Where answer->message.length isn't 0
 * send the message back.
 * NOT_STARTED, OTHER_END, ENDED, WRONG_LENGTH. */
static inline uint32_t h263rps_receiver_play(h263rps_end *end, void *picture, size_t length,
                                             h263rps_answer *answer) {
    uint8_t nothing = 0;
    uint32_t status = h263rps_may_pass(picture, length);
    if (!end || !answer) return H263RPS_NULL;
    if (status) return status;
    return h263rps_raw_receiver_play(end, length ? (uint8_t *)picture : &nothing, length, answer);
}

/* Lends the picture that a receiver shows, without a copy: the one that was played last, and before
 * the first play a grey one. `lent` then has its place and length, h263rps_picture_size() bytes
 * that belong to the receiver. Only read them, and only until the next call with this end: any may
 * overwrite them, and a finish frees them. `lent` is written where the call is OK, and not read.
 * NOT_STARTED, OTHER_END. */
static inline uint32_t h263rps_receiver_shown(h263rps_end *end, h263rps_lent *lent) {
    uint8_t nothing = 0;
    h263rps_lent shown;
    uint32_t status;
    if (!end || !lent) return H263RPS_NULL;
    shown.samples = &nothing;
    shown.length = 0;
    status = h263rps_raw_receiver_shown(end, &shown);
    if (!status) *lent = shown;
    return status;
}

/* Plays the next picture as h263rps_receiver_play() does, but lends it where that one copies it:
 * `lent` is that of h263rps_receiver_shown(), good until the next call with this end.
 * NOT_STARTED, OTHER_END, ENDED. */
static inline uint32_t h263rps_receiver_play_lent(h263rps_end *end, h263rps_lent *lent,
                                                  h263rps_answer *answer) {
    uint32_t status;
    if (!end || !lent || !answer) return H263RPS_NULL;
    status = h263rps_raw_receiver_next(end, answer);
    return status ? status : h263rps_receiver_shown(end, lent);
}

/* A receiver begins a call anew, in the memory that it has: it is as h263rps_receiver_start_at() at
 * this number, up to 1,048,576, would leave it, with the parameters of its start, and has counted
 * nothing. Its sender begins anew as well. Give it no packet of the call before that comes late: it
 * would count as one of the new call.
 * NOT_STARTED, OTHER_END, BAD_PARAMS. */
static inline uint32_t h263rps_receiver_reset(h263rps_end *end, uint32_t number) {
    if (!end) return H263RPS_NULL;
    return h263rps_raw_receiver_reset(end, number);
}

/* Writes how many pictures a receiver has played to `count`: the number of the next one, with those
 * that h263rps_receiver_start_at() left out.
 * NOT_STARTED, OTHER_END. */
static inline uint32_t h263rps_receiver_played(h263rps_end *end, uint32_t *count) {
    if (!end || !count) return H263RPS_NULL;
    return h263rps_raw_receiver_played(end, count);
}

/* Writes what a receiver has counted since its start or reset to `statistics`.
 * NOT_STARTED, OTHER_END. */
static inline uint32_t h263rps_receiver_statistics(h263rps_end *end,
                                                   h263rps_statistics *statistics) {
    if (!end || !statistics) return H263RPS_NULL;
    return h263rps_raw_receiver_statistics(end, statistics);
}

/* Gives a receiver's memory back, and leaves `end` all zeros, ready for a start.
 * NOT_STARTED, OTHER_END. */
static inline uint32_t h263rps_receiver_finish(h263rps_end *end) {
    if (!end) return H263RPS_NULL;
    return h263rps_raw_receiver_finish(end);
}

/* ---- the sender ---------------------------------------------------------------------------- */

/* Makes `end`, which is all zeros, a sender. As h263rps_receiver_start(). */
static inline uint32_t h263rps_sender_start(h263rps_end *end, const h263rps_params *params,
                                            uint32_t *fault) {
    uint32_t unwanted = 0;
    if (!end || !params) return H263RPS_NULL;
    return h263rps_raw_sender_start(end, params, fault ? fault : &unwanted);
}

/* Codes the next picture, of h263rps_picture_size() bytes. Its packets are ready then, until the
 * next one is coded. `messages` are up to four about pictures of the other direction, which travel
 * in the picture's header; with none pass NULL and 0, as most callers do. One whose length is 0 is
 * left out; a length that is none of 0, 3 and 5 is BAD_MESSAGES.
 * NOT_STARTED, OTHER_END, ENDED, WRONG_LENGTH, BAD_MESSAGES. */
static inline uint32_t h263rps_sender_code(h263rps_end *end, const void *picture, size_t length,
                                           const h263rps_message *messages, size_t count,
                                           h263rps_coded *coded) {
    uint8_t nothing = 0;
    h263rps_message none = {{0, 0, 0, 0, 0}, 0};
    uint32_t status = h263rps_may_pass(picture, length);
    if (!end || !coded || (!messages && count)) return H263RPS_NULL;
    if (status) return status;
    if (count > PTRDIFF_MAX / sizeof none) return H263RPS_TOO_LONG;
    return h263rps_raw_sender_code(end, length ? (const uint8_t *)picture : &nothing, length,
                                   count ? messages : &none, count, coded);
}

/* Copies packet `number`, from 0 to coded.packets - 1, of the picture that was coded last to the
 * start of `room`, and its length to `count`. It is a whole RTP packet of at most `limit` bytes.
 * NOT_STARTED, OTHER_END, NO_PACKET, SHORT_ROOM. */
static inline uint32_t h263rps_sender_packet(h263rps_end *end, uint32_t number, void *room,
                                             size_t length, size_t *count) {
    uint8_t nothing = 0;
    uint32_t status = h263rps_may_pass(room, length);
    if (!end || !count) return H263RPS_NULL;
    if (status) return status;
    return h263rps_raw_sender_packet(end, number, length ? (uint8_t *)room : &nothing, length,
                                     count);
}

/* Gives an RTP packet another SSRC and another payload type, up to 127, in place: bytes 8 to 11,
 * and byte 1 without the marker (RFC 3550, 5.1). A sender writes H263RPS_SSRC and
 * H263RPS_PAYLOAD_TYPE, and a receiver takes no others: what is changed on the way out is changed
 * back before h263rps_receiver_packet(). It is the header's own, and tested, not proved.
 * WRONG_LENGTH: fewer than 12 bytes. BAD_PARAMS: the payload type. */
static inline uint32_t h263rps_packet_label(void *bytes, size_t length, uint32_t ssrc,
                                            uint32_t payload_type) {
    uint8_t *at = (uint8_t *)bytes;
    if (!bytes) return H263RPS_NULL;
    if (length < 12) return H263RPS_WRONG_LENGTH;
    if (payload_type > 127) return H263RPS_BAD_PARAMS;
    at[1] = (uint8_t)((at[1] & 0x80) | payload_type);
    at[8] = (uint8_t)(ssrc >> 24);
    at[9] = (uint8_t)(ssrc >> 16);
    at[10] = (uint8_t)(ssrc >> 8);
    at[11] = (uint8_t)ssrc;
    return H263RPS_OK;
}

/* Gives a message of the other side to a sender: any bytes are an answer and no refusal. The
 * packets of the last picture stay.
 * NOT_STARTED, OTHER_END. */
static inline uint32_t h263rps_sender_feedback(h263rps_end *end, const void *message, size_t length,
                                               h263rps_reply *reply) {
    uint8_t nothing = 0;
    uint32_t status = h263rps_may_pass(message, length);
    if (!end || !reply) return H263RPS_NULL;
    if (status) return status;
    return h263rps_raw_sender_feedback(end, length ? (const uint8_t *)message : &nothing, length,
                                       reply);
}

/* A sender follows another target from its next picture on: this many bytes a picture, up to
 * 999,999, or none where it is 0, so that each picture has the parameters' quantiser. Call it
 * whenever the line changes. The sizes of the pictures before count towards the new target; where a
 * pace fits it that keeps what it learnt.
 * NOT_STARTED, OTHER_END, BAD_PARAMS. */
static inline uint32_t h263rps_sender_target(h263rps_end *end, uint32_t bytes) {
    if (!end) return H263RPS_NULL;
    return h263rps_raw_sender_target(end, bytes);
}

/* A sender codes with this quantiser, 1 fine to 31 coarse, from its next picture on, and follows no
 * target; h263rps_sender_target() ends that.
 * NOT_STARTED, OTHER_END, BAD_PARAMS. */
static inline uint32_t h263rps_sender_quant(h263rps_end *end, uint32_t quant) {
    if (!end) return H263RPS_NULL;
    return h263rps_raw_sender_quant(end, (uint8_t)(quant > 31 ? 0 : quant));
}

/* A sender forgets the pictures that it coded: none of them is a reference any more, however late
 * it is acknowledged. So the next picture is intra, as a picture loss indication, a full intra
 * request or a new viewer asks for, and those after it as well until one of them is acknowledged.
 * The packets of the last picture stay.
 * NOT_STARTED, OTHER_END. */
static inline uint32_t h263rps_sender_forget(h263rps_end *end) {
    if (!end) return H263RPS_NULL;
    return h263rps_raw_sender_forget(end);
}

/* A sender begins a call anew, in the memory that it has: it is as h263rps_sender_start() left it,
 * but for its target, which is this many bytes a picture, up to 999,999, or none where it is 0. So
 * it has no packets, and has counted nothing. Its receiver begins anew as well. Give it no message
 * of the call before that comes late: it would count as one about a picture of the new call.
 * NOT_STARTED, OTHER_END, BAD_PARAMS. */
static inline uint32_t h263rps_sender_reset(h263rps_end *end, uint32_t bytes) {
    if (!end) return H263RPS_NULL;
    return h263rps_raw_sender_reset(end, bytes);
}

/* Writes how many pictures a sender has coded to `count`: the number of the next one.
 * NOT_STARTED, OTHER_END. */
static inline uint32_t h263rps_sender_sent(h263rps_end *end, uint32_t *count) {
    if (!end || !count) return H263RPS_NULL;
    return h263rps_raw_sender_sent(end, count);
}

/* Writes to `count` how many pictures a sender knows to be complete on the other side, of those to
 * which its next picture may refer: the last `slots - lead - 1`, but for what it forgot. With 0 the
 * next picture is intra.
 * NOT_STARTED, OTHER_END. */
static inline uint32_t h263rps_sender_known(h263rps_end *end, uint32_t *count) {
    if (!end || !count) return H263RPS_NULL;
    return h263rps_raw_sender_known(end, count);
}

/* Writes what a sender has counted since its start or reset to `statistics`.
 * NOT_STARTED, OTHER_END. */
static inline uint32_t h263rps_sender_statistics(h263rps_end *end, h263rps_statistics *statistics) {
    if (!end || !statistics) return H263RPS_NULL;
    return h263rps_raw_sender_statistics(end, statistics);
}

/* Gives a sender's memory back. As h263rps_receiver_finish(). */
static inline uint32_t h263rps_sender_finish(h263rps_end *end) {
    if (!end) return H263RPS_NULL;
    return h263rps_raw_sender_finish(end);
}

/* ---- the group ----------------------------------------------------------------------------- */

/* One sender for up to 16 receivers: one picture is coded for all, and each gets its packets. A
 * picture refers to the newest one that every receiver is known to have, so what one of them loses
 * spoils no later picture of anybody:
 *
 *     h263rps_group group = {0};
 *     h263rps_group_start(&group, &params, NULL);
 *     h263rps_group_join(&group, 0);       (a place for each; its receiver starts at the number
 *     h263rps_group_sent(&group, &number);  of the next picture: h263rps_receiver_start_at())
 *     h263rps_group_code(&group, picture, size, NULL, 0, &coded);      (each picture)
 *     (send each packet of h263rps_group_packet() to all)
 *     h263rps_group_feedback(&group, 0, message, length, &reply);      (each message, with its place)
 *     h263rps_group_leave(&group, 0);
 *     h263rps_group_finish(&group);
 *
 * While a receiver is known to have no picture of those to which the next may refer, each picture is
 * intra: h263rps_group_waiting_for() says who holds all back. One whose line is dead is to leave, and
 * may join again. A group takes one call at a time, and asks for memory at its start alone. */

/* Makes `group`, which is all zeros, a sender with no receiver. As h263rps_sender_start(). */
static inline uint32_t h263rps_group_start(h263rps_group *group, const h263rps_params *params,
                                           uint32_t *fault) {
    uint32_t unwanted = 0;
    if (!group || !params) return H263RPS_NULL;
    return h263rps_raw_group_start(group, params, fault ? fault : &unwanted);
}

/* A receiver joins at a place, 0 to 15. It begins with the next picture and is known to have none, so
 * that one is intra, and those after it until it acknowledges one. A receiver that was there has
 * left. Call it again where a receiver has lost everything, as a picture loss indication says.
 * NOT_STARTED, BAD_PARAMS: no such place. */
static inline uint32_t h263rps_group_join(h263rps_group *group, uint32_t receiver) {
    if (!group) return H263RPS_NULL;
    return h263rps_raw_group_join(group, receiver);
}

/* The receiver at this place leaves: what it has doesn't matter any more. With nobody there each
 * picture refers to the one before.
 * NOT_STARTED, BAD_PARAMS: no such place. */
static inline uint32_t h263rps_group_leave(h263rps_group *group, uint32_t receiver) {
    if (!group) return H263RPS_NULL;
    return h263rps_raw_group_leave(group, receiver);
}

/* Codes the next picture. As h263rps_sender_code().
 * NOT_STARTED, ENDED, WRONG_LENGTH, BAD_MESSAGES. */
static inline uint32_t h263rps_group_code(h263rps_group *group, const void *picture, size_t length,
                                          const h263rps_message *messages, size_t count,
                                          h263rps_coded *coded) {
    uint8_t nothing = 0;
    h263rps_message none = {{0, 0, 0, 0, 0}, 0};
    uint32_t status = h263rps_may_pass(picture, length);
    if (!group || !coded || (!messages && count)) return H263RPS_NULL;
    if (status) return status;
    if (count > PTRDIFF_MAX / sizeof none) return H263RPS_TOO_LONG;
    return h263rps_raw_group_code(group, length ? (const uint8_t *)picture : &nothing, length,
                                  count ? messages : &none, count, coded);
}

/* Copies a packet of the picture that was coded last. As h263rps_sender_packet().
 * NOT_STARTED, NO_PACKET, SHORT_ROOM. */
static inline uint32_t h263rps_group_packet(h263rps_group *group, uint32_t number, void *room,
                                            size_t length, size_t *count) {
    uint8_t nothing = 0;
    uint32_t status = h263rps_may_pass(room, length);
    if (!group || !count) return H263RPS_NULL;
    if (status) return status;
    return h263rps_raw_group_packet(group, number, length ? (uint8_t *)room : &nothing, length,
                                    count);
}

/* Gives a message of the receiver at this place to a group, whatever it is. Only what is known of this
 * receiver changes. One about a picture from before it joined counts for nothing.
 * NOT_STARTED, BAD_PARAMS: no such place. NO_RECEIVER: it has left, say, and this one comes late. */
static inline uint32_t h263rps_group_feedback(h263rps_group *group, uint32_t receiver,
                                              const void *message, size_t length,
                                              h263rps_reply *reply) {
    uint8_t nothing = 0;
    uint32_t status = h263rps_may_pass(message, length);
    if (!group || !reply) return H263RPS_NULL;
    if (status) return status;
    return h263rps_raw_group_feedback(group, receiver, length ? (const uint8_t *)message : &nothing,
                                      length, reply);
}

/* Writes to `receiver` the first place whose receiver is known to have none of the pictures to which
 * the next may refer, and H263RPS_NOBODY where there is none.
 * NOT_STARTED. */
static inline uint32_t h263rps_group_waiting_for(h263rps_group *group, uint32_t *receiver) {
    if (!group || !receiver) return H263RPS_NULL;
    return h263rps_raw_group_waiting_for(group, receiver);
}

/* Writes to `number` the newest picture that every receiver is known to have, of those to which the
 * next may refer, and H263RPS_NO_REFERENCE where there is none: then the next picture is intra.
 * NOT_STARTED. */
static inline uint32_t h263rps_group_reference(h263rps_group *group, uint32_t *number) {
    if (!group || !number) return H263RPS_NULL;
    return h263rps_raw_group_reference(group, number);
}

/* Follows another target from the next picture on. As h263rps_sender_target().
 * NOT_STARTED, BAD_PARAMS. */
static inline uint32_t h263rps_group_target(h263rps_group *group, uint32_t bytes) {
    if (!group) return H263RPS_NULL;
    return h263rps_raw_group_target(group, bytes);
}

/* Codes with this quantiser from the next picture on. As h263rps_sender_quant().
 * NOT_STARTED, BAD_PARAMS. */
static inline uint32_t h263rps_group_quant(h263rps_group *group, uint32_t quant) {
    if (!group) return H263RPS_NULL;
    return h263rps_raw_group_quant(group, (uint8_t)(quant > 31 ? 0 : quant));
}

/* Writes how many pictures a group has coded to `count`: the number of the next one, at which a
 * receiver that joins now starts.
 * NOT_STARTED. */
static inline uint32_t h263rps_group_sent(h263rps_group *group, uint32_t *count) {
    if (!group || !count) return H263RPS_NULL;
    return h263rps_raw_group_sent(group, count);
}

/* Writes what a group has counted since its start to `statistics`, as a sender does: a packet counts
 * once for each copy that was taken out, and the messages of all receivers count together.
 * NOT_STARTED. */
static inline uint32_t h263rps_group_statistics(h263rps_group *group,
                                                h263rps_statistics *statistics) {
    if (!group || !statistics) return H263RPS_NULL;
    return h263rps_raw_group_statistics(group, statistics);
}

/* Gives a group's memory back, and leaves it all zeros, ready for a start.
 * NOT_STARTED. */
static inline uint32_t h263rps_group_finish(h263rps_group *group) {
    if (!group) return H263RPS_NULL;
    return h263rps_raw_group_finish(group);
}

/* ---- repeats ------------------------------------------------------------------------------- */

/* The packets that a sender sent last, so that those are sent again for which a receiver asks, by a
 * Generic NACK (RFC 4585, 6.2.1):
 *
 *     h263rps_repeats repeats = {0};
 *     h263rps_lent packet;
 *     h263rps_repeats_start(&repeats, 512, 1500);
 *     send_packet(room, length);                               (each packet, as it goes out)
 *     h263rps_repeats_keep(&repeats, room, length);
 *     h263rps_repeats_find(&repeats, sequence, &packet);       (each one that is asked for)
 *     if (packet.length) send_packet(packet.samples, packet.length);
 *     h263rps_repeats_finish(&repeats);
 *
 * It takes one call at a time, and asks for memory at its start alone. */

/* Makes `repeats`, which is all zeros, one with no packet. Of packets with sequence numbers that
 * follow one another it keeps at least the last `count`, 1 to 65,536, and fewer than twice as many:
 * their number is a power of two. A packet has at most `longest` bytes, 12 to 65,507. It takes
 * `longest` bytes for each packet.
 * STARTED, BAD_PARAMS, NO_MEMORY. */
static inline uint32_t h263rps_repeats_start(h263rps_repeats *repeats, uint32_t count,
                                             uint32_t longest) {
    if (!repeats) return H263RPS_NULL;
    return h263rps_raw_repeats_start(&repeats->end, count, longest);
}

/* Keeps an RTP packet that was sent, in place of an older one. What is shorter than 12 bytes or
 * longer than `longest` isn't kept.
 * NOT_STARTED, OTHER_END. */
static inline uint32_t h263rps_repeats_keep(h263rps_repeats *repeats, const void *packet,
                                            size_t length) {
    uint8_t nothing = 0;
    uint32_t status = h263rps_may_pass(packet, length);
    if (!repeats) return H263RPS_NULL;
    if (status) return status;
    return h263rps_raw_repeats_keep(&repeats->end, length ? (const uint8_t *)packet : &nothing,
                                    length);
}

/* Lends the newest packet with this sequence number, byte for byte, until the next call with these
 * repeats: only read it. lent->length is 0 where it isn't kept any more, or never was.
 * NOT_STARTED, OTHER_END. */
static inline uint32_t h263rps_repeats_find(h263rps_repeats *repeats, uint16_t sequence,
                                            h263rps_lent *lent) {
    uint8_t nothing = 0;
    h263rps_lent found;
    uint32_t status;
    if (!repeats || !lent) return H263RPS_NULL;
    found.samples = &nothing;
    found.length = 0;
    status = h263rps_raw_repeats_find(&repeats->end, sequence, &found);
    if (!status) *lent = found;
    return status;
}

/* Gives the memory back, and leaves `repeats` all zeros, ready for a start.
 * NOT_STARTED, OTHER_END. */
static inline uint32_t h263rps_repeats_finish(h263rps_repeats *repeats) {
    if (!repeats) return H263RPS_NULL;
    return h263rps_raw_repeats_finish(&repeats->end);
}

/* ---- the line ------------------------------------------------------------------------------ */

/* The rate that a line carries, by what the messages of the other side tell: congestion control for
 * a sender. Tell it of each picture that goes out and of each message that comes back; it says how
 * many bytes the next picture may have, and whether a frame is to be left out:
 *
 *     h263rps_line line = {0};
 *     h263rps_bounds bounds = {900, 300, 3600, 4, 33366667};      (29.97 pictures a second)
 *     uint32_t has, quant;
 *     h263rps_line_start(&line, &bounds, time_now());
 *     h263rps_line_has_room(&line, time_now(), &has);             (each frame)
 *     if (has) {
 *         h263rps_line_quant(&line, &quant);
 *         h263rps_sender_quant(&sender, quant);
 *         h263rps_sender_code(&sender, picture, size, NULL, 0, &coded);
 *         (send its packets, and add up their bytes)
 *         h263rps_line_sent(&line, coded.number, bytes, coded.packets, time_now());
 *     }
 *     h263rps_line_told(&line, number, is_ack, time_now());       (each message about a picture)
 *     h263rps_line_finish(&line);
 *
 * Each time is in nanoseconds of one clock. It takes one call at a time, and asks for memory at its
 * start alone. */

/* Makes `line`, which is all zeros, one on which nothing was sent.
 * STARTED, BAD_PARAMS: a bound is out of its range. NO_MEMORY. */
static inline uint32_t h263rps_line_start(h263rps_line *line, const h263rps_bounds *bounds,
                                          uint64_t now) {
    if (!line || !bounds) return H263RPS_NULL;
    return h263rps_raw_line_start(&line->end, bounds, now);
}

/* Picture `number` of the sender went out at `now`, with this many bytes in so many packets.
 * NOT_STARTED, OTHER_END, BAD_PARAMS: more than 65,535 packets. */
static inline uint32_t h263rps_line_sent(h263rps_line *line, uint32_t number, uint32_t bytes,
                                         uint32_t packets, uint64_t now) {
    if (!line) return H263RPS_NULL;
    if (packets > 65535) return H263RPS_BAD_PARAMS;
    return h263rps_raw_line_sent(&line->end, number, bytes, (uint16_t)packets, now);
}

/* A message about picture `number` came at `now`: it is whole at the other side, or, where
 * `is_whole` is 0, it isn't. One about a picture that wasn't sent, or about which something was
 * told before, changes nothing. 256 pictures are remembered.
 * NOT_STARTED, OTHER_END. */
static inline uint32_t h263rps_line_told(h263rps_line *line, uint32_t number, uint32_t is_whole,
                                         uint64_t now) {
    if (!line) return H263RPS_NULL;
    return h263rps_raw_line_told(&line->end, number, is_whole, now);
}

/* Writes to `has` 1 where the next frame may go out at `now`, and 0 where it is to be left out: the
 * pictures before are more than the line carries, or most of them were lost.
 * NOT_STARTED, OTHER_END. */
static inline uint32_t h263rps_line_has_room(h263rps_line *line, uint64_t now, uint32_t *has) {
    if (!line || !has) return H263RPS_NULL;
    return h263rps_raw_line_has_room(&line->end, now, has);
}

/* Writes the bytes a second that the line carries to `rate`, with the heads of IP and UDP.
 * NOT_STARTED, OTHER_END. */
static inline uint32_t h263rps_line_rate(h263rps_line *line, uint32_t *rate) {
    if (!line || !rate) return H263RPS_NULL;
    return h263rps_raw_line_rate(&line->end, rate);
}

/* Writes the bytes that the next picture may have, without heads, to `bytes`.
 * NOT_STARTED, OTHER_END. */
static inline uint32_t h263rps_line_wanted(h263rps_line *line, uint32_t *bytes) {
    if (!line || !bytes) return H263RPS_NULL;
    return h263rps_raw_line_wanted(&line->end, bytes);
}

/* Writes the next picture's target for h263rps_sender_target() of a sender that follows its target,
 * or of a group, to `bytes`: the greatest at which it takes the quantiser that h263rps_line_quant()
 * has, and what is wanted where each one does.
 * NOT_STARTED, OTHER_END. */
static inline uint32_t h263rps_line_target(h263rps_line *line, uint32_t *bytes) {
    if (!line || !bytes) return H263RPS_NULL;
    return h263rps_raw_line_target(&line->end, bytes);
}

/* Writes the quantiser at which the next picture would have about the bytes that it may have to
 * `quant`.
 * NOT_STARTED, OTHER_END. */
static inline uint32_t h263rps_line_quant(h263rps_line *line, uint32_t *quant) {
    if (!line || !quant) return H263RPS_NULL;
    return h263rps_raw_line_quant(&line->end, quant);
}

/* Gives the memory back, and leaves `line` all zeros, ready for a start.
 * NOT_STARTED, OTHER_END. */
static inline uint32_t h263rps_line_finish(h263rps_line *line) {
    if (!line) return H263RPS_NULL;
    return h263rps_raw_line_finish(&line->end);
}

/* ---- a pace -------------------------------------------------------------------------------- */

/* Sets a pace before its first picture: of a format, with a target of 1 to 999,999 bytes a picture,
 * which their sum may exceed by `room` bytes. A room of 20 to 30 targets leaves the first pictures,
 * which are intra, fine enough; a smaller one keeps nearer to the target.
 *
 *     h263rps_pace pace;
 *     h263rps_pace_start(&pace, H263RPS_QCIF, 1000, 30000);
 *     ...                                        // of each picture:
 *     h263rps_pace_next(&pace, &sender, &quant); // sets the sender's quantiser
 *     h263rps_sender_code(&sender, picture, length, NULL, 0, &coded);
 *     ...                                        // its packets have `bytes` bytes together
 *     h263rps_pace_coded(&pace, &coded, quant, bytes);
 *
 * BAD_PARAMS. */
static inline uint32_t h263rps_pace_start(h263rps_pace *pace, uint32_t format, uint32_t target,
                                          uint32_t room) {
    if (!pace) return H263RPS_NULL;
    return h263rps_raw_pace_start(pace, format, target, room);
}

/* A pace follows another target, with another room, from its next picture on. What was sent beyond
 * the target stays counted.
 * BAD_PARAMS. */
static inline uint32_t h263rps_pace_target(h263rps_pace *pace, uint32_t target, uint32_t room) {
    if (!pace) return H263RPS_NULL;
    return h263rps_raw_pace_redirect(pace, target, room);
}

/* Gives a sender the quantiser with which its next picture is to be coded, 2 to 31, and writes it to
 * `quant`. It is coarser where the pictures of its kind before were larger, and 31 where what was
 * sent exceeds the target by more than the room.
 * NOT_STARTED, OTHER_END. */
static inline uint32_t h263rps_pace_next(const h263rps_pace *pace, h263rps_end *end,
                                         uint32_t *quant) {
    uint32_t known = 0, status, chosen;
    if (!pace || !end || !quant) return H263RPS_NULL;
    status = h263rps_raw_sender_known(end, &known);
    if (status) return status;
    chosen = h263rps_raw_pace_quant(pace, known == 0);
    status = h263rps_raw_sender_quant(end, (uint8_t)chosen);
    if (!status) *quant = chosen;
    return status;
}

/* The same for a group.
 * NOT_STARTED. */
static inline uint32_t h263rps_pace_next_of_group(const h263rps_pace *pace, h263rps_group *group,
                                                  uint32_t *quant) {
    uint32_t number = 0, status, chosen;
    if (!pace || !group || !quant) return H263RPS_NULL;
    status = h263rps_raw_group_reference(group, &number);
    if (status) return status;
    chosen = h263rps_raw_pace_quant(pace, number == H263RPS_NO_REFERENCE);
    status = h263rps_raw_group_quant(group, (uint8_t)chosen);
    if (!status) *quant = chosen;
    return status;
}

/* Tells a pace of the picture that was coded: with this quantiser, and so many bytes of its packets
 * together. Tell it of each one. */
static inline uint32_t h263rps_pace_coded(h263rps_pace *pace, const h263rps_coded *coded,
                                          uint32_t quant, uint32_t bytes) {
    if (!pace || !coded) return H263RPS_NULL;
    h263rps_raw_pace_coded(pace, coded->intra, (uint8_t)(quant > 31 ? 31 : quant), bytes);
    return H263RPS_OK;
}

/* ---- the session --------------------------------------------------------------------------- */

/* A session stands between a network and a screen: which stream is followed, of which picture a
 * packet is, when a picture is played. It owns its receivers, and has no socket and no clock.
 * Hand it each datagram that comes, whatever it is, and let it play when something is due:
 *
 *     h263rps_session session = {0};
 *     h263rps_arrived arrived;
 *     h263rps_turn turn;
 *     h263rps_nack nack;
 *     h263rps_lent shown;
 *     uint64_t due;
 *     h263rps_session_start(&session, &params, 30000, 1001, 60000000, NULL);  (a wait of 60 ms)
 *     while (is_running) {
 *         size_t length;
 *         h263rps_session_due(&session, &due);
 *         length = datagram_until(due, room, sizeof room);         (0: none came, it is `due` now)
 *         do {
 *             arrived.verdict = H263RPS_DROPPED;
 *             if (length) {
 *                 h263rps_session_arrival(&session, room, length, time_now(), &arrived);
 *                 if (arrived.verdict == H263RPS_HEARD && arrived.answer.message.length)
 *                     send_message(arrived.source, &arrived.answer.message);
 *             }
 *             while (!h263rps_session_play(&session, time_now(), &turn) && turn.plays) {
 *                 if (turn.answer.message.length) send_message(turn.source, &turn.answer.message);
 *                 if (turn.run == H263RPS_FOLLOWED) {
 *                     h263rps_session_shown(&session, &shown);
 *                     show(shown.samples, shown.length, turn.answer.kind);
 *                 }
 *             }
 *         } while (arrived.verdict == H263RPS_AHEAD);
 *         while (!h263rps_session_missing(&session, round_trip, time_now(), &nack) && nack.asks)
 *             send_nack(nack.packet, nack.following);              (where the other side repeats)
 *     }
 *     h263rps_session_finish(&session);
 *
 * Each time is in nanoseconds of one clock that doesn't go back, whatever its zero: one before the
 * last counts as the last, and from 2^62 - 1 on the clock stands. A session takes one call at a
 * time, asks for memory at its start alone, and must not be copied, as an h263rps_end. */

/* Makes `session`, which is all zeros, a session: the one call of it that asks for memory. `params`
 * are those of both ends; `rate` pictures come in `second` seconds (30000 and 1001). A picture is
 * due `wait` nanoseconds after it would come on the shortest way of late; a wait below 1 ms counts
 * as 1 ms. In the wait no more pictures may come than `params->lead`. `fault` is as that of
 * h263rps_receiver_start().
 * STARTED, BAD_PARAMS, NO_MEMORY. */
static inline uint32_t h263rps_session_start(h263rps_session *session, const h263rps_params *params,
                                             uint32_t rate, uint32_t second, uint64_t wait,
                                             uint32_t *fault) {
    uint32_t unwanted = 0;
    h263rps_timing timing;
    if (!session || !params) return H263RPS_NULL;
    timing.rate = rate;
    timing.second = second;
    timing.wait = wait;
    return h263rps_raw_session_start(session, params, &timing, fault ? fault : &unwanted);
}

/* Gives a datagram that came at `now` to a session, whatever it is: any bytes are an answer and no
 * refusal. A packet may have any SSRC; one of another payload type than H263RPS_PAYLOAD_TYPE is
 * malformed. Where arrived->answer.message.length isn't 0 send the message back at once, as one
 * about the stream arrived->source. Where arrived->verdict is H263RPS_AHEAD play until nothing is
 * due, and hand the datagram in again.
 * NOT_STARTED. */
static inline uint32_t h263rps_session_arrival(h263rps_session *session, const void *bytes,
                                               size_t length, uint64_t now,
                                               h263rps_arrived *arrived) {
    uint8_t nothing = 0;
    uint32_t status = h263rps_may_pass(bytes, length);
    if (!session || !arrived) return H263RPS_NULL;
    if (status) return status;
    return h263rps_raw_session_arrival(session, length ? (const uint8_t *)bytes : &nothing, length,
                                       now, arrived);
}

/* The same, of the stream with this SSRC alone, where a signal or a handshake has said which it is:
 * a packet of the call's pictures with another SSRC is dropped as one of H263RPS_OTHER_STREAM, and
 * costs the streams' budgets nothing.
 * NOT_STARTED. */
static inline uint32_t h263rps_session_arrival_of(h263rps_session *session, uint32_t source,
                                                  const void *bytes, size_t length, uint64_t now,
                                                  h263rps_arrived *arrived) {
    uint8_t nothing = 0;
    uint32_t status = h263rps_may_pass(bytes, length);
    if (!session || !arrived) return H263RPS_NULL;
    if (status) return status;
    return h263rps_raw_session_arrival_of(
        session, source, length ? (const uint8_t *)bytes : &nothing, length, now, arrived);
}

/* Writes to `nack` the next packets of the followed stream that are missing and could still come
 * before their pictures are due, `round_trip` nanoseconds after they are asked for: send it as a
 * Generic NACK about h263rps_session_source() of H263RPS_FOLLOWED, and ask until nack->asks is 0.
 * They count as asked for then: none is a third time, or again within a round trip. Nothing is
 * asked for while it isn't known when the next picture is due, or it is due at once. A packet that
 * comes again is handed in as any other.
 * NOT_STARTED. */
static inline uint32_t h263rps_session_missing(h263rps_session *session, uint64_t round_trip,
                                               uint64_t now, h263rps_nack *nack) {
    if (!session || !nack) return H263RPS_NULL;
    return h263rps_raw_session_missing(session, round_trip, now, nack);
}

/* The stream with this SSRC has ended, as a BYE (RFC 3550, 6.6) says: if it is the followed one,
 * another may be tried at once, not only half a second after its last picture. It stays followed
 * until a picture of that one is complete. Of any other stream it changes nothing.
 * NOT_STARTED. */
static inline uint32_t h263rps_session_bye(h263rps_session *session, uint32_t source,
                                           uint64_t now) {
    if (!session) return H263RPS_NULL;
    return h263rps_raw_session_bye(session, source, now);
}

/* A session begins anew, in the memory that it has, as with another party: no stream has a run any
 * more, and a grey picture is shown. Its clock goes on, and so do its counts, and how many packets
 * it has looked at in this second.
 * NOT_STARTED. */
static inline uint32_t h263rps_session_reset(h263rps_session *session, uint64_t now) {
    if (!session) return H263RPS_NULL;
    return h263rps_raw_session_reset(session, now);
}

/* Writes to `due` when something is due next if no datagram comes: 0 where it is due at once, and
 * H263RPS_NEVER where nothing is known to be due. Ask again after each arrival and each play.
 * NOT_STARTED. */
static inline uint32_t h263rps_session_due(h263rps_session *session, uint64_t *due) {
    if (!session || !due) return H263RPS_NULL;
    return h263rps_raw_session_due(session, due);
}

/* Plays the next picture that is due by `now`, one a call, the followed stream's first; ask until
 * turn->plays is 0. Where turn->answer.message.length isn't 0 send the message back, as one about
 * the stream turn->source. A picture of the followed run is to be shown: h263rps_session_shown()
 * lends it.
 * NOT_STARTED. */
static inline uint32_t h263rps_session_play(h263rps_session *session, uint64_t now,
                                            h263rps_turn *turn) {
    if (!session || !turn) return H263RPS_NULL;
    return h263rps_raw_session_play(session, now, turn);
}

/* Lends the picture of the followed stream that was played last, and before the first a grey one,
 * as h263rps_receiver_shown() does: only read it, and only until the next call with this session.
 * NOT_STARTED. */
static inline uint32_t h263rps_session_shown(h263rps_session *session, h263rps_lent *lent) {
    uint8_t nothing = 0;
    h263rps_lent shown;
    uint32_t status;
    if (!session || !lent) return H263RPS_NULL;
    shown.samples = &nothing;
    shown.length = 0;
    status = h263rps_raw_session_shown(session, &shown);
    if (!status) *lent = shown;
    return status;
}

/* Writes the SSRC of the stream that has this run (enum h263rps_run) to `source`.
 * NOT_STARTED, NO_STREAM: none has, or it is no run. */
static inline uint32_t h263rps_session_source(h263rps_session *session, uint32_t run,
                                              uint32_t *source) {
    if (!session || !source) return H263RPS_NULL;
    return h263rps_raw_session_source(session, run, source);
}

/* Writes what a session has counted since its start to `counts`.
 * NOT_STARTED. */
static inline uint32_t h263rps_session_statistics(h263rps_session *session,
                                                  h263rps_session_counts *counts) {
    if (!session || !counts) return H263RPS_NULL;
    return h263rps_raw_session_statistics(session, counts);
}

/* Gives a session's memory back, and leaves it all zeros, ready for a start.
 * NOT_STARTED. */
static inline uint32_t h263rps_session_finish(h263rps_session *session) {
    if (!session) return H263RPS_NULL;
    return h263rps_raw_session_finish(session);
}

#ifdef __cplusplus
}
#endif
#endif
