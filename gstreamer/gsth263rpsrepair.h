/* What a receiver asks for again: which packets, and the round trip that their answers tell. */
#ifndef __GST_H263RPS_REPAIR_H__
#define __GST_H263RPS_REPAIR_H__

#include <gst/gst.h>

#include "h263rps.h"

G_BEGIN_DECLS

/* So many packets that were asked for are known, by the end of their sequence numbers. */
#define GST_H263RPS_ASKED 256

typedef struct _GstH263RpsRepair GstH263RpsRepair;

/**
 * GstH263RpsRepair:
 * @trip: the round trip, as far as @is_known
 * @told: when an answer came last, or was waited for
 * @unanswered: questions since the last answer
 * @asked: the packets that were asked for last
 */
struct _GstH263RpsRepair {
  GstClockTime trip, told;
  gboolean is_known;
  guint unanswered;

  struct {
    GstClockTime first, last;
    guint16 sequence;
    gboolean is_open;
  } asked[GST_H263RPS_ASKED];
};

G_GNUC_INTERNAL
GstClockTime gst_h263rps_repair_trip (const GstH263RpsRepair * repair, GstClockTime now);

G_GNUC_INTERNAL
guint gst_h263rps_repair_ask (GstH263RpsRepair * repair, const h263rps_nack * nack,
    GstClockTime now);

G_GNUC_INTERNAL
gboolean gst_h263rps_repair_came (GstH263RpsRepair * repair, guint16 sequence, GstClockTime now);

G_END_DECLS

#endif
