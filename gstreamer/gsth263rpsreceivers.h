/* Who receives what a sender sends, by who speaks to it: each at a place of the library's group. */
#ifndef __GST_H263RPS_RECEIVERS_H__
#define __GST_H263RPS_RECEIVERS_H__

#include <gst/gst.h>

#include "gsth263rpsreports.h"
#include "h263rps.h"

G_BEGIN_DECLS

/* Strangers that are counted at once. */
#define GST_H263RPS_STRANGERS 64

typedef struct _GstH263RpsReceiver GstH263RpsReceiver;
typedef struct _GstH263RpsReceivers GstH263RpsReceivers;

/**
 * GstH263RpsReceiver:
 * @ssrc: by which it speaks
 * @is_taken: whether someone has spoken for the place
 * @is_first: whether nobody ever has: pictures are coded for the first one before it speaks
 * @is_in: whether it is in the group, and so waited for
 * @heard: when a message of it was noted, in us
 * @since: when it came into the group, or left it, in us
 * @pause: for how long it stays away, in us
 * @silent: us of the stream in which it said nothing
 * @late: us of the stream in which it was known to have none of the last pictures
 * @line: what the line to it carries; empty where it isn't followed
 */
struct _GstH263RpsReceiver {
  guint32 ssrc;
  gboolean is_taken, is_first, is_in;
  gint64 heard, since, pause, silent, late;
  h263rps_line line;
  gboolean has_fir;
  guint8 fir; /* the number of the last full intra request */
  gboolean has_block;
  GstH263RpsBlock block;   /* how the stream arrives */
  GstClockTime round_trip; /* by reports */
};

/**
 * GstH263RpsReceivers:
 * @most: places that there are
 * @anew: those whose receivers join the group before the next picture, as a set of bits
 * @gone: those whose receivers leave it likewise
 * @joined: how many came in, without the first one
 * @left: how many left
 */
struct _GstH263RpsReceivers {
  GstH263RpsReceiver places[H263RPS_PLACES];
  guint most;
  guint32 anew, gone;
  gint64 last;
  guint64 joined, left;
  struct {
    guint32 ssrc;
    guint count;
    gint64 since;
  } strangers[GST_H263RPS_STRANGERS];
};

G_GNUC_INTERNAL
void gst_h263rps_receivers_begin (GstH263RpsReceivers * self, guint most);

G_GNUC_INTERNAL
void gst_h263rps_receivers_clear (GstH263RpsReceivers * self);

G_GNUC_INTERNAL
gint gst_h263rps_receivers_find (GstH263RpsReceivers * self, guint32 ssrc);

G_GNUC_INTERNAL
gint gst_h263rps_receivers_hear (GstH263RpsReceivers * self, guint32 ssrc, gint64 now,
    gboolean * is_other);

G_GNUC_INTERNAL
gboolean gst_h263rps_receivers_counts (GstH263RpsReceivers * self, guint32 ssrc, gint64 now);

G_GNUC_INTERNAL
void gst_h263rps_receivers_bye (GstH263RpsReceivers * self, guint32 ssrc, gint64 now);

G_GNUC_INTERNAL
void gst_h263rps_receivers_forget (GstH263RpsReceivers * self, gint place);

G_GNUC_INTERNAL
void gst_h263rps_receivers_settle (GstH263RpsReceivers * self, gint64 now);

G_GNUC_INTERNAL
void gst_h263rps_receivers_sent (GstH263RpsReceivers * self, guint32 waited, gint64 now);

G_GNUC_INTERNAL
guint gst_h263rps_receivers_count (GstH263RpsReceivers * self);

G_END_DECLS

#endif
