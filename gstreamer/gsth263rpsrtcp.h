/* RTCP: messages of the back channel, which are reference picture selection indications (RFC 4585,
 * 6.3.3), requests for packets (Generic NACK, 6.2.1) and for an intra picture (PLI, 6.3.1; FIR, RFC
 * 5104, 4.3.1), reports (RFC 3550, 6.4) and BYE (6.6). */
#ifndef __GST_H263RPS_RTCP_H__
#define __GST_H263RPS_RTCP_H__

#include <gst/gst.h>
#include <gst/rtp/rtp.h>

#include "gsth263rpsreports.h"
#include "h263rps.h"

G_BEGIN_DECLS

G_GNUC_INTERNAL
void gst_h263rps_rtcp_begin (GstPad * pad);

G_GNUC_INTERNAL
gboolean gst_h263rps_rtcp_query (GstPad * pad, GstObject * parent, GstQuery * query);

G_GNUC_INTERNAL
gchar * gst_h263rps_rtcp_new_name (void);

G_GNUC_INTERNAL
GstBuffer * gst_h263rps_rtcp_new_rpsi (guint32 speaker, guint32 about, guint pt,
    const h263rps_message * message);

G_GNUC_INTERNAL
GstBuffer * gst_h263rps_rtcp_new_pli (guint32 speaker, guint32 about);

G_GNUC_INTERNAL
GstBuffer * gst_h263rps_rtcp_new_nack (guint32 speaker, guint32 about, const h263rps_nack * nack);

G_GNUC_INTERNAL
GstBuffer * gst_h263rps_rtcp_new_bye (guint32 source);

G_GNUC_INTERNAL
gboolean gst_h263rps_rtcp_add_rpsi (GstBuffer * compound, guint32 speaker, guint32 about, guint pt,
    const h263rps_message * message);

G_GNUC_INTERNAL
gboolean gst_h263rps_rtcp_read_fci (h263rps_message * message, const guint8 * fci, gsize length);

G_GNUC_INTERNAL
gboolean gst_h263rps_rtcp_next_asked (const guint8 * fci, gsize length, gsize * at,
    guint16 * sequence);

G_GNUC_INTERNAL
GstBuffer * gst_h263rps_rtcp_new_sender_report (const GstH263RpsSenderInfo * info,
    const gchar * name);

G_GNUC_INTERNAL
GstBuffer * gst_h263rps_rtcp_new_receiver_report (guint32 speaker, const GstH263RpsBlock * block,
    const gchar * name);

G_GNUC_INTERNAL
gboolean gst_h263rps_rtcp_read_info (GstRTCPPacket * packet, GstH263RpsSenderInfo * info);

G_GNUC_INTERNAL
gboolean gst_h263rps_rtcp_read_block (GstRTCPPacket * packet, guint32 about, guint32 * speaker,
    GstH263RpsBlock * block);

G_GNUC_INTERNAL
gboolean gst_h263rps_rtcp_read_fir (const guint8 * fci, gsize length, guint32 about,
    guint8 * number);

G_END_DECLS

#endif
