/* What programs rely on that were compiled with the header of 2.0, the first release with libh263rps.so.3, of 2.1 or 2.2:
 * they run with each later library of this soname. `.ci/library` compiles this file with the header of today, and asks
 * the shared library for each function named here. So a struct, a number or a function that is another one isn't
 * compiled, or not found: then the soname grows (docs/LIBRARY.md, "Versions"). At a release what is new joins the
 * list. */
#include "h263rps.h"

#ifdef __cplusplus
#define IS(what) static_assert(what, #what)
#else
#define IS(what) _Static_assert(what, #what)
#endif
#define AT(of, field, place, bytes) \
    IS(offsetof(of, field) == (place)); \
    IS(sizeof(((of *)0)->field) == (bytes))

/* ---- structs: the place and the bytes of each field ------------------------------------------ */

AT(h263rps_statistics, packets, 0, 8);
AT(h263rps_statistics, bytes, 8, 8);
AT(h263rps_statistics, heard, 16, 48);
AT(h263rps_statistics, faults, 64, 40);
AT(h263rps_statistics, played, 104, 24);
AT(h263rps_statistics, coded, 128, 48);
AT(h263rps_statistics, noted, 176, 24);
IS(sizeof(h263rps_statistics) == 200);

AT(h263rps_end, kind, 0, 4);
AT(h263rps_end, at, 8, 8);
AT(h263rps_end, counted, 16, 200);
IS(sizeof(h263rps_end) == 216);

AT(h263rps_params, size, 0, 4);
AT(h263rps_params, format, 4, 4);
AT(h263rps_params, quant, 8, 1);
AT(h263rps_params, keep, 9, 1);
AT(h263rps_params, radius, 10, 1);
AT(h263rps_params, messages, 11, 1);
AT(h263rps_params, limit, 12, 4);
AT(h263rps_params, slots, 16, 4);
AT(h263rps_params, lead, 20, 4);
/* What was 0 or 1 in the four bytes of `clock` is the same in the two, and a pace of 0, which follows as before: on machines
 * whose numbers begin with the lowest byte, as x86 and ARM. */
AT(h263rps_params, clock, 24, 2);
AT(h263rps_params, pace, 26, 2);
AT(h263rps_params, target, 28, 4);
IS(sizeof(h263rps_params) >= 32); /* more may follow */

AT(h263rps_message, bytes, 0, 5);
AT(h263rps_message, length, 5, 1);
IS(sizeof(h263rps_message) == 6);

AT(h263rps_answer, kind, 0, 4);
AT(h263rps_answer, fault, 4, 4);
AT(h263rps_answer, at, 8, 4);
AT(h263rps_answer, number, 12, 4);
AT(h263rps_answer, predicted, 16, 4);
AT(h263rps_answer, reference, 20, 4);
AT(h263rps_answer, message, 24, 6);
IS(sizeof(h263rps_answer) == 32);

AT(h263rps_coded, number, 0, 4);
AT(h263rps_coded, packets, 4, 4);
AT(h263rps_coded, intra, 8, 4);
AT(h263rps_coded, reference, 12, 4);
IS(sizeof(h263rps_coded) == 16);

AT(h263rps_reply, kind, 0, 4);
AT(h263rps_reply, fault, 4, 4);
IS(sizeof(h263rps_reply) == 8);

AT(h263rps_start, format, 0, 4);
AT(h263rps_start, clock, 4, 4);
AT(h263rps_start, temporal_reference, 8, 4);
AT(h263rps_start, intra, 12, 4);
AT(h263rps_start, reference, 16, 4);
AT(h263rps_start, count, 20, 4);
AT(h263rps_start, messages, 24, 24);
IS(sizeof(h263rps_start) == 48);

AT(h263rps_lent, samples, 0, 8);
AT(h263rps_lent, length, 8, 8);
IS(sizeof(h263rps_lent) == 16);

/* ---- numbers --------------------------------------------------------------------------------- */

IS(H263RPS_OK == 0);
IS(H263RPS_NOT_STARTED == 1);
IS(H263RPS_STARTED == 2);
IS(H263RPS_OTHER_END == 3);
IS(H263RPS_BAD_PARAMS == 4);
IS(H263RPS_NO_MEMORY == 5);
IS(H263RPS_ENDED == 6);
IS(H263RPS_WRONG_LENGTH == 7);
IS(H263RPS_BAD_MESSAGES == 8);
IS(H263RPS_NO_PACKET == 9);
IS(H263RPS_SHORT_ROOM == 10);
IS(H263RPS_NULL == 11);
IS(H263RPS_TOO_LONG == 12);
IS(H263RPS_NO_START == 13);

IS(H263RPS_SUB_QCIF == 1);
IS(H263RPS_QCIF == 2);
IS(H263RPS_CIF == 3);

IS(H263RPS_STANDARD_CLOCK == 0);
IS(H263RPS_CUSTOM_CLOCK == 1);

IS(H263RPS_PARAM_QUANT == 1);
IS(H263RPS_PARAM_KEEP == 2);
IS(H263RPS_PARAM_RADIUS == 3);
IS(H263RPS_PARAM_LIMIT == 4);
IS(H263RPS_PARAM_SLOTS == 5);
IS(H263RPS_PARAM_LEAD == 6);
IS(H263RPS_PARAM_MESSAGES == 7);
IS(H263RPS_PARAM_FORMAT == 8);
IS(H263RPS_PARAM_CLOCK == 9);
IS(H263RPS_PARAM_TARGET == 10);
IS(H263RPS_PARAM_NUMBER == 11);
IS(H263RPS_PARAM_SIZE == 12);

IS(H263RPS_TAKEN == 0);
IS(H263RPS_COMPLETED == 1);
IS(H263RPS_LATE == 2);
IS(H263RPS_EARLY == 3);
IS(H263RPS_REPEAT == 4);
IS(H263RPS_REFUSED == 5);

IS(H263RPS_EXACT == 0);
IS(H263RPS_PATCHED == 1);
IS(H263RPS_HELD == 2);

IS(H263RPS_OTHER_CLOCK == 1);
IS(H263RPS_HEADER_DIFFERS == 2);
IS(H263RPS_MISSING_REFERENCE == 3);
IS(H263RPS_OVERLAP == 4);
IS(H263RPS_BYTES_ENDED == 100);
IS(H263RPS_BYTES_BAD_CODE == 101);
IS(H263RPS_BYTES_BAD_DC == 102);
IS(H263RPS_BYTES_BAD_LEVEL == 103);
IS(H263RPS_BYTES_PAST_END == 104);
IS(H263RPS_BYTES_FOUR_VECTORS == 105);
IS(H263RPS_BYTES_BAD_VECTOR == 106);
IS(H263RPS_BYTES_MARKER == 107);
IS(H263RPS_BYTES_ADDRESS == 108);
IS(H263RPS_BYTES_QUANT == 109);
IS(H263RPS_BYTES_SLICE_REFERENCE == 110);
IS(H263RPS_BYTES_BCI == 111);
IS(H263RPS_BYTES_EMPTY == 112);
IS(H263RPS_BYTES_TRAILING == 113);
IS(H263RPS_BYTES_NO_START == 114);
IS(H263RPS_BYTES_PICTURE_TYPE == 115);
IS(H263RPS_BYTES_UFEP == 116);
IS(H263RPS_BYTES_SOURCE_FORMAT == 117);
IS(H263RPS_BYTES_OTHER_FORMAT == 118);
IS(H263RPS_BYTES_MODES == 119);
IS(H263RPS_BYTES_PICTURE_KIND == 120);
IS(H263RPS_BYTES_RESAMPLING == 121);
IS(H263RPS_BYTES_CPM == 122);
IS(H263RPS_BYTES_DIVISOR == 123);
IS(H263RPS_BYTES_SLICE_MODE == 124);
IS(H263RPS_BYTES_RPSMF == 125);
IS(H263RPS_BYTES_INTRA_REFERENCE == 126);
IS(H263RPS_BYTES_NO_REFERENCE == 127);
IS(H263RPS_BYTES_HIGH_BITS == 128);
IS(H263RPS_BYTES_MESSAGES == 129);
IS(H263RPS_BYTES_MANY_MESSAGES == 130);
IS(H263RPS_BYTES_FOLLOW_ON == 131);
IS(H263RPS_BYTES_EXTRA_HEADER == 132);
IS(H263RPS_BYTES_NO_EXTRA_HEADER == 133);
IS(H263RPS_BYTES_LONG == 134);
IS(H263RPS_BYTES_SHORT == 135);
IS(H263RPS_BYTES_VERSION == 136);
IS(H263RPS_BYTES_PADDING == 137);
IS(H263RPS_BYTES_PAYLOAD_TYPE == 138);
IS(H263RPS_BYTES_SOURCE == 139);

IS(H263RPS_NOTED == 0);
IS(H263RPS_OLD == 1);
IS(H263RPS_NO_MESSAGE == 2);

IS(H263RPS_MESSAGE_LENGTH == 1);
IS(H263RPS_MESSAGE_KIND == 2);
IS(H263RPS_MESSAGE_HIGH == 3);
IS(H263RPS_MESSAGE_MARKER == 4);
IS(H263RPS_MESSAGE_PAIR == 5);

IS(H263RPS_SSRC == 0x48323633u);
IS(H263RPS_PAYLOAD_TYPE == 96u);

/* ---- beside a sender: of 2.1 ---------------------------------------------------------------- */

AT(h263rps_repeats, end, 0, 216);
IS(sizeof(h263rps_repeats) == 216);

AT(h263rps_line, end, 0, 216);
IS(sizeof(h263rps_line) == 216);

AT(h263rps_bounds, first, 0, 4);
AT(h263rps_bounds, least, 4, 4);
AT(h263rps_bounds, most, 8, 4);
AT(h263rps_bounds, finest, 12, 4);
AT(h263rps_bounds, period, 16, 4);
IS(sizeof(h263rps_bounds) == 20);

/* ---- a group: of 2.2 ------------------------------------------------------------------------ */

AT(h263rps_group, kind, 0, 4);
AT(h263rps_group, at, 8, 8);
AT(h263rps_group, counted, 16, 200);
IS(sizeof(h263rps_group) == 216);

IS(H263RPS_NO_RECEIVER == 15);
IS(H263RPS_PLACES == 16);
IS(H263RPS_NOBODY == UINT32_MAX);
IS(H263RPS_NO_REFERENCE == UINT32_MAX);

/* ---- a session ------------------------------------------------------------------------------ */

AT(h263rps_session, kind, 0, 4);
AT(h263rps_session, at, 8, 8);
IS(sizeof(h263rps_session) == 16);

AT(h263rps_timing, rate, 0, 4);
AT(h263rps_timing, second, 4, 4);
AT(h263rps_timing, wait, 8, 8);
IS(sizeof(h263rps_timing) == 16);

AT(h263rps_arrived, verdict, 0, 4);
AT(h263rps_arrived, cause, 4, 4);
AT(h263rps_arrived, run, 8, 4);
AT(h263rps_arrived, source, 12, 4);
AT(h263rps_arrived, ahead, 16, 4);
AT(h263rps_arrived, rival, 20, 4);
AT(h263rps_arrived, answer, 24, 32);
IS(sizeof(h263rps_arrived) == 56);

AT(h263rps_turn, plays, 0, 4);
AT(h263rps_turn, run, 4, 4);
AT(h263rps_turn, source, 8, 4);
AT(h263rps_turn, answer, 12, 32);
IS(sizeof(h263rps_turn) == 44);

AT(h263rps_session_counts, taken, 0, 8);
AT(h263rps_session_counts, dropped, 8, 48);
AT(h263rps_session_counts, played, 56, 24);
IS(sizeof(h263rps_session_counts) == 80);

AT(h263rps_nack, asks, 0, 4);
AT(h263rps_nack, packet, 4, 2);
AT(h263rps_nack, following, 6, 2);
IS(sizeof(h263rps_nack) == 8);

IS(H263RPS_NO_STREAM == 14);
IS(H263RPS_PARAM_RATE == 13);
IS(H263RPS_PARAM_WAIT == 14);

IS(H263RPS_DROPPED == 0);
IS(H263RPS_NO_PLACE == 1);
IS(H263RPS_AHEAD == 2);
IS(H263RPS_HEARD == 3);

IS(H263RPS_LONG == 1);
IS(H263RPS_MALFORMED == 2);
IS(H263RPS_OTHER_PICTURES == 3);
IS(H263RPS_TOO_FAST == 4);
IS(H263RPS_OTHER_STREAM == 5);

IS(H263RPS_FOLLOWED == 0);
IS(H263RPS_FORMER == 1);
IS(H263RPS_TRIED == 2);

IS(H263RPS_NEVER == UINT64_MAX);

/* ---- functions ------------------------------------------------------------------------------- */

#ifdef __cplusplus
extern "C" {
#endif
uint32_t h263rps_raw_version(void);
uint32_t h263rps_raw_defaults(uint32_t format, h263rps_params *params);
uint32_t h263rps_raw_picture_size(uint32_t format);
uint32_t h263rps_raw_packet_start(const uint8_t *bytes, size_t length, h263rps_start *start);
uint32_t h263rps_raw_datagram_start(const uint8_t *bytes, size_t length, h263rps_start *start);
uint32_t h263rps_raw_receiver_start(h263rps_end *end, const h263rps_params *params,
                                    uint32_t *fault);
uint32_t h263rps_raw_receiver_start_at(h263rps_end *end, const h263rps_params *params,
                                       uint32_t number, uint32_t *fault);
uint32_t h263rps_raw_receiver_packet(h263rps_end *end, const uint8_t *bytes, size_t length,
                                     h263rps_answer *answer);
uint32_t h263rps_raw_receiver_play(h263rps_end *end, uint8_t *picture, size_t length,
                                   h263rps_answer *answer);
uint32_t h263rps_raw_receiver_next(h263rps_end *end, h263rps_answer *answer);
uint32_t h263rps_raw_receiver_shown(h263rps_end *end, h263rps_lent *lent);
uint32_t h263rps_raw_receiver_reset(h263rps_end *end, uint32_t number);
uint32_t h263rps_raw_receiver_played(h263rps_end *end, uint32_t *count);
uint32_t h263rps_raw_receiver_statistics(h263rps_end *end, h263rps_statistics *statistics);
uint32_t h263rps_raw_receiver_finish(h263rps_end *end);
uint32_t h263rps_raw_sender_start(h263rps_end *end, const h263rps_params *params, uint32_t *fault);
uint32_t h263rps_raw_sender_code(h263rps_end *end, const uint8_t *picture, size_t length,
                                 const h263rps_message *messages, size_t count,
                                 h263rps_coded *coded);
uint32_t h263rps_raw_sender_packet(h263rps_end *end, uint32_t number, uint8_t *room, size_t length,
                                   size_t *count);
uint32_t h263rps_raw_sender_feedback(h263rps_end *end, const uint8_t *message, size_t length,
                                     h263rps_reply *reply);
uint32_t h263rps_raw_sender_target(h263rps_end *end, uint32_t bytes);
uint32_t h263rps_raw_sender_forget(h263rps_end *end);
uint32_t h263rps_raw_sender_reset(h263rps_end *end, uint32_t bytes);
uint32_t h263rps_raw_sender_sent(h263rps_end *end, uint32_t *count);
uint32_t h263rps_raw_sender_known(h263rps_end *end, uint32_t *count);
uint32_t h263rps_raw_sender_statistics(h263rps_end *end, h263rps_statistics *statistics);
uint32_t h263rps_raw_sender_finish(h263rps_end *end);
uint32_t h263rps_raw_repeats_start(h263rps_end *end, uint32_t count, uint32_t longest);
uint32_t h263rps_raw_repeats_keep(h263rps_end *end, const uint8_t *packet, size_t length);
uint32_t h263rps_raw_repeats_find(h263rps_end *end, uint16_t sequence, h263rps_lent *lent);
uint32_t h263rps_raw_repeats_finish(h263rps_end *end);
uint32_t h263rps_raw_line_start(h263rps_end *end, const h263rps_bounds *bounds, uint64_t now);
uint32_t h263rps_raw_line_sent(h263rps_end *end, uint32_t number, uint32_t bytes, uint16_t packets,
                               uint64_t now);
uint32_t h263rps_raw_line_told(h263rps_end *end, uint32_t number, uint32_t whole, uint64_t now);
uint32_t h263rps_raw_line_has_room(h263rps_end *end, uint64_t now, uint32_t *has);
uint32_t h263rps_raw_line_rate(h263rps_end *end, uint32_t *rate);
uint32_t h263rps_raw_line_wanted(h263rps_end *end, uint32_t *bytes);
uint32_t h263rps_raw_line_target(h263rps_end *end, uint32_t *bytes);
uint32_t h263rps_raw_line_quant(h263rps_end *end, uint32_t *quant);
uint32_t h263rps_raw_line_finish(h263rps_end *end);
uint32_t h263rps_raw_group_start(h263rps_group *group, const h263rps_params *params,
                                 uint32_t *fault);
uint32_t h263rps_raw_group_join(h263rps_group *group, uint32_t receiver);
uint32_t h263rps_raw_group_leave(h263rps_group *group, uint32_t receiver);
uint32_t h263rps_raw_group_code(h263rps_group *group, const uint8_t *picture, size_t length,
                                const h263rps_message *messages, size_t count,
                                h263rps_coded *coded);
uint32_t h263rps_raw_group_packet(h263rps_group *group, uint32_t number, uint8_t *room,
                                  size_t length, size_t *count);
uint32_t h263rps_raw_group_feedback(h263rps_group *group, uint32_t receiver, const uint8_t *message,
                                    size_t length, h263rps_reply *reply);
uint32_t h263rps_raw_group_waiting_for(h263rps_group *group, uint32_t *receiver);
uint32_t h263rps_raw_group_reference(h263rps_group *group, uint32_t *number);
uint32_t h263rps_raw_group_target(h263rps_group *group, uint32_t bytes);
uint32_t h263rps_raw_group_quant(h263rps_group *group, uint8_t quant);
uint32_t h263rps_raw_group_sent(h263rps_group *group, uint32_t *count);
uint32_t h263rps_raw_group_statistics(h263rps_group *group, h263rps_statistics *statistics);
uint32_t h263rps_raw_group_finish(h263rps_group *group);
uint32_t h263rps_raw_session_start(h263rps_session *session, const h263rps_params *params,
                                   const h263rps_timing *timing, uint32_t *fault);
uint32_t h263rps_raw_session_arrival(h263rps_session *session, const uint8_t *bytes, size_t length,
                                     uint64_t now, h263rps_arrived *arrived);
uint32_t h263rps_raw_session_arrival_of(h263rps_session *session, uint32_t source,
                                        const uint8_t *bytes, size_t length, uint64_t now,
                                        h263rps_arrived *arrived);
uint32_t h263rps_raw_session_missing(h263rps_session *session, uint64_t round_trip, uint64_t now,
                                     h263rps_nack *nack);
uint32_t h263rps_raw_session_bye(h263rps_session *session, uint32_t source, uint64_t now);
uint32_t h263rps_raw_session_reset(h263rps_session *session, uint64_t now);
uint32_t h263rps_raw_session_due(h263rps_session *session, uint64_t *due);
uint32_t h263rps_raw_session_play(h263rps_session *session, uint64_t now, h263rps_turn *turn);
uint32_t h263rps_raw_session_shown(h263rps_session *session, h263rps_lent *lent);
uint32_t h263rps_raw_session_source(h263rps_session *session, uint32_t run, uint32_t *source);
uint32_t h263rps_raw_session_statistics(h263rps_session *session, h263rps_session_counts *counts);
uint32_t h263rps_raw_session_finish(h263rps_session *session);
#ifdef __cplusplus
}
#endif
