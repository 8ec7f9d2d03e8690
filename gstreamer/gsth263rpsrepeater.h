/* The packets that a sender sent last, which go out again where they are asked for. */
#ifndef __GST_H263RPS_REPEATER_H__
#define __GST_H263RPS_REPEATER_H__

#include <gst/rtp/rtp.h>

#include "h263rps.h"

G_BEGIN_DECLS

typedef struct _GstH263RpsRepeatCounts GstH263RpsRepeatCounts;
typedef struct _GstH263RpsRepeater GstH263RpsRepeater;

/**
 * GstH263RpsRepeatCounts:
 * @asked: packets that were asked for
 * @repeated: those that went out again
 * @bytes: theirs
 * @refused: those that didn't, though they were still there: the stream had sent too little meanwhile
 */
struct _GstH263RpsRepeatCounts {
  guint64 asked, repeated, bytes, refused;
};

G_GNUC_INTERNAL
GstH263RpsRepeater * gst_h263rps_repeater_new (GstPad * pad);

G_GNUC_INTERNAL
void gst_h263rps_repeater_free (GstH263RpsRepeater * repeater);

G_GNUC_INTERNAL
void gst_h263rps_repeater_start (GstH263RpsRepeater * repeater);

G_GNUC_INTERNAL
void gst_h263rps_repeater_stop (GstH263RpsRepeater * repeater);

G_GNUC_INTERNAL
gboolean gst_h263rps_repeater_begin (GstH263RpsRepeater * repeater, guint longest, gint64 in_time);

G_GNUC_INTERNAL
void gst_h263rps_repeater_limit (GstH263RpsRepeater * repeater, guint64 bytes);

G_GNUC_INTERNAL
void gst_h263rps_repeater_lock (GstH263RpsRepeater * repeater);

G_GNUC_INTERNAL
void gst_h263rps_repeater_unlock (GstH263RpsRepeater * repeater);

G_GNUC_INTERNAL
gboolean gst_h263rps_repeater_may (GstH263RpsRepeater * repeater, gboolean * is_closed);

G_GNUC_INTERNAL
void gst_h263rps_repeater_ask (GstH263RpsRepeater * repeater, guint16 sequence);

G_GNUC_INTERNAL
void gst_h263rps_repeater_counts (GstH263RpsRepeater * repeater, GstH263RpsRepeatCounts * counts);

G_END_DECLS

#endif
