/* The library's session for the streams of one format, with what the element keeps beside it: times
 * of capture, room for pictures, and what is recorded. */
#ifndef __GST_H263RPS_CALL_H__
#define __GST_H263RPS_CALL_H__

#include "gsth263rpstape.h"

G_BEGIN_DECLS

/* A temporal reference is below this. */
#define GST_H263RPS_REFERENCES 1024

typedef struct _GstH263RpsCall GstH263RpsCall;

/**
 * GstH263RpsCall:
 * @session: says which stream is followed, which picture a packet is of, and when it is played
 * @params: those of its receivers
 * @size: bytes of a picture
 * @fps_n: pictures
 * @fps_d: in so many seconds
 * @wait: from the least way to the play
 * @completed: how many pictures of the streams that were followed became complete
 * @complete: when the last one did
 * @next: the number of the next picture of the stream that is followed, or -1
 * @tape: what is recorded, or %NULL
 *
 * What the rest holds is the call's own.
 */
struct _GstH263RpsCall {
  h263rps_session session;
  h263rps_params params;
  gsize size;
  gint fps_n, fps_d;
  GstClockTime wait;
  guint64 completed;
  GstClockTime complete;
  gint64 next;
  GstH263RpsTape * tape;

  struct {
    guint32 timestamp;
    gboolean is_known;
  } captures[GST_H263RPS_REFERENCES];
  guint32 last, last_timestamp;
  gboolean has_last;
  GstBufferPool * pool;
};

G_GNUC_INTERNAL
GstH263RpsCall * gst_h263rps_call_new (const h263rps_params * params, gint fps_n, gint fps_d,
    GstClockTime wait, guint32 * fault);

G_GNUC_INTERNAL
void gst_h263rps_call_free (GstH263RpsCall * call);

G_GNUC_INTERNAL
void gst_h263rps_call_reset (GstH263RpsCall * call, GstClockTime now);

G_GNUC_INTERNAL
gboolean gst_h263rps_call_followed (GstH263RpsCall * call, guint32 * source);

G_GNUC_INTERNAL
void gst_h263rps_call_turn (GstH263RpsCall * call, guint run);

G_GNUC_INTERNAL
GstClockTime gst_h263rps_call_due (GstH263RpsCall * call);

G_GNUC_INTERNAL
GstBuffer * gst_h263rps_call_picture (GstH263RpsCall * call, const h263rps_lent * shown);

G_GNUC_INTERNAL
void gst_h263rps_call_note_time (GstH263RpsCall * call, guint reference, guint32 timestamp);

G_GNUC_INTERNAL
gboolean gst_h263rps_call_take_time (GstH263RpsCall * call, guint32 number, guint32 * timestamp);

G_END_DECLS

#endif
