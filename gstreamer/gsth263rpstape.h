/* What a receiver's session did, for the record of the stream that is followed. The session doesn't
 * say where a run begins, so what came waits for the run's next play, whose number tells it; and what
 * came of a stream that is tried waits until that is followed. */
#ifndef __GST_H263RPS_TAPE_H__
#define __GST_H263RPS_TAPE_H__

#include "gsth263rps.h"
#include "gsth263rpsrecord.h"

G_BEGIN_DECLS

typedef struct _GstH263RpsTape GstH263RpsTape;

/**
 * GstH263RpsTape:
 * @record: of the stream that is followed, or %NULL
 * @skipped: how many plays its log has for which it has no picture
 * @joined: the temporal reference of its first packet
 *
 * What the rest holds is the tape's own.
 */
struct _GstH263RpsTape {
  GstH263RpsRecord * record;
  guint skipped, joined;

  GQueue followed, tried;
  gsize waits, held;
  guint32 source;
  GstClockTime last;
  gint64 next;
  guint64 marks[3], heard[6];
};

G_GNUC_INTERNAL
GstH263RpsTape * gst_h263rps_tape_new (void);

G_GNUC_INTERNAL
void gst_h263rps_tape_free (GstH263RpsTape * tape);

G_GNUC_INTERNAL
void gst_h263rps_tape_packet (GstH263RpsTape * tape, const h263rps_arrived * arrived,
    const guint8 * bytes, gsize length, GstClockTime now, GstClockTime when);

G_GNUC_INTERNAL
void gst_h263rps_tape_turn (GstH263RpsTape * tape, guint run);

G_GNUC_INTERNAL
gboolean gst_h263rps_tape_begins (const GstH263RpsTape * tape, const h263rps_turn * turn);

G_GNUC_INTERNAL
void gst_h263rps_tape_begin (GstH263RpsTape * tape, GstH263RpsRecord * record, guint number,
    GstClockTime when);

G_GNUC_INTERNAL
void gst_h263rps_tape_play (GstH263RpsTape * tape, const h263rps_turn * turn,
    const h263rps_lent * shown, GstClockTime when);

G_END_DECLS

#endif
