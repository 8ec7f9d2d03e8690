/* What both elements share: formats, and the meta on shown pictures. */
#ifndef __GST_H263RPS_H__
#define __GST_H263RPS_H__

#include <gst/gst.h>

#include "h263rps.h"

G_BEGIN_DECLS

/* The name under which the meta of a shown picture is registered (gst_meta_register_custom). Its
 * structure has "mark" (a string: exact, patched or held), "number" (guint, the picture's number in
 * its stream) and "ssrc" (guint, its stream). */
#define GST_H263RPS_META_NAME "GstH263RpsMeta"

#define GST_H263RPS_RTP_CAPS \
  "application/x-rtp, media = (string) video, clock-rate = (int) 90000, " \
  "encoding-name = (string) H263-2000"

/* While a speaker was heard this lately (in ns), or a picture of a format complete, no other counts. */
#define GST_H263RPS_SILENT (GST_SECOND / 2)

G_GNUC_INTERNAL
guint gst_h263rps_format_of_size (gint width, gint height);

G_GNUC_INTERNAL
void gst_h263rps_size_of_format (guint format, gint * width, gint * height);

G_GNUC_INTERNAL
const gchar * gst_h263rps_format_name (guint format);

G_GNUC_INTERNAL
const gchar * gst_h263rps_mark_name (guint mark);

G_GNUC_INTERNAL
gchar * gst_h263rps_new_stream_id (const gchar * what);

G_END_DECLS

#endif
