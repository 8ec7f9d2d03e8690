#include "gsth263rpsrtcp.h"

#include "gsth263rps.h"

#include <gst/rtp/rtp.h>
#include <string.h>

/* Room for one packet with the longest message. */
#define RTCP_ROOM 64
/* ..and for a report, with a name of at most 255 bytes. */
#define REPORT_ROOM 512

static gboolean
add_feedback (GstRTCPBuffer * rtcp, GstRTCPPacket * packet, GstRTCPType of, GstRTCPFBType type,
    guint32 speaker, guint32 about)
{
  if (!gst_rtcp_buffer_add_packet (rtcp, of, packet))
    return FALSE;
  gst_rtcp_packet_fb_set_type (packet, type);
  gst_rtcp_packet_fb_set_sender_ssrc (packet, speaker);
  gst_rtcp_packet_fb_set_media_ssrc (packet, about);
  return TRUE;
}

/* The message is the native bit string: after the count of padding bits and the payload type. */
static gboolean
add_rpsi (GstRTCPBuffer * rtcp, guint32 speaker, guint32 about, guint pt,
    const h263rps_message * message)
{
  GstRTCPPacket packet;
  guint words = (2 + message->length + 3) / 4;
  guint8 * fci;

  if (!add_feedback (rtcp, &packet, GST_RTCP_TYPE_PSFB, GST_RTCP_PSFB_TYPE_RPSI, speaker, about))
    return FALSE;
  if (!gst_rtcp_packet_fb_set_fci_length (&packet, words)) {
    gst_rtcp_packet_remove (&packet);
    return FALSE;
  }
  fci = gst_rtcp_packet_fb_get_fci (&packet);
  memset (fci, 0, 4 * words);
  fci[0] = 8 * (4 * words - 2 - message->length);
  fci[1] = pt;
  memcpy (fci + 2, message->bytes, message->length);
  return TRUE;
}

/**
 * gst_h263rps_rtcp_begin:
 * @pad: a source pad of RTCP
 *
 * Pushes what comes before the first packet.
 */
void
gst_h263rps_rtcp_begin (GstPad * pad)
{
  GstSegment segment;
  GstCaps * caps = gst_caps_new_empty_simple ("application/x-rtcp");
  gchar * id = gst_h263rps_new_stream_id ("rtcp");

  gst_segment_init (&segment, GST_FORMAT_TIME);
  gst_pad_push_event (pad, gst_event_new_stream_start (id));
  gst_pad_push_event (pad, gst_event_new_caps (caps));
  gst_pad_push_event (pad, gst_event_new_segment (&segment));
  gst_caps_unref (caps);
  g_free (id);
}

/* Packets of RTCP go when they are made: they add no latency. */
gboolean
gst_h263rps_rtcp_query (GstPad * pad, GstObject * parent, GstQuery * query)
{
  if (GST_QUERY_TYPE (query) != GST_QUERY_LATENCY)
    return gst_pad_query_default (pad, parent, query);
  gst_query_set_latency (query, TRUE, 0, GST_CLOCK_TIME_NONE);
  return TRUE;
}

/* A name that tells nobody anything (RFC 7022). */
gchar *
gst_h263rps_rtcp_new_name (void)
{
  guint32 words[3] = { g_random_int (), g_random_int (), g_random_int () };

  return g_base64_encode ((const guchar *) words, sizeof words);
}

/**
 * gst_h263rps_rtcp_new_rpsi:
 * @speaker: the SSRC of the receiver
 * @about: the SSRC of the stream
 * @pt: the payload type of the stream
 * @message: a message of 3 or 5 bytes
 *
 * Returns: (transfer full): a packet of RTCP by itself (RFC 5506)
 */
GstBuffer *
gst_h263rps_rtcp_new_rpsi (guint32 speaker, guint32 about, guint pt,
    const h263rps_message * message)
{
  GstRTCPBuffer rtcp = GST_RTCP_BUFFER_INIT;
  GstBuffer * buffer = gst_rtcp_buffer_new (RTCP_ROOM);

  gst_rtcp_buffer_map (buffer, GST_MAP_READWRITE, &rtcp);
  add_rpsi (&rtcp, speaker, about, pt, message);
  gst_rtcp_buffer_unmap (&rtcp);
  return buffer;
}

/**
 * gst_h263rps_rtcp_new_pli:
 * @speaker: the SSRC of the receiver
 * @about: the SSRC of the stream
 *
 * Returns: (transfer full): a packet of RTCP by itself that asks for an intra picture
 */
GstBuffer *
gst_h263rps_rtcp_new_pli (guint32 speaker, guint32 about)
{
  GstRTCPBuffer rtcp = GST_RTCP_BUFFER_INIT;
  GstRTCPPacket packet;
  GstBuffer * buffer = gst_rtcp_buffer_new (RTCP_ROOM);

  gst_rtcp_buffer_map (buffer, GST_MAP_READWRITE, &rtcp);
  add_feedback (&rtcp, &packet, GST_RTCP_TYPE_PSFB, GST_RTCP_PSFB_TYPE_PLI, speaker, about);
  gst_rtcp_buffer_unmap (&rtcp);
  return buffer;
}

/**
 * gst_h263rps_rtcp_new_nack:
 * @speaker: the SSRC of the receiver
 * @about: the SSRC of the stream
 * @nack: the packets that are asked for
 *
 * Returns: (transfer full): a packet of RTCP by itself that asks for packets again
 */
GstBuffer *
gst_h263rps_rtcp_new_nack (guint32 speaker, guint32 about, const h263rps_nack * nack)
{
  GstRTCPBuffer rtcp = GST_RTCP_BUFFER_INIT;
  GstRTCPPacket packet;
  GstBuffer * buffer = gst_rtcp_buffer_new (RTCP_ROOM);
  guint8 * fci;

  gst_rtcp_buffer_map (buffer, GST_MAP_READWRITE, &rtcp);
  add_feedback (&rtcp, &packet, GST_RTCP_TYPE_RTPFB, GST_RTCP_RTPFB_TYPE_NACK, speaker, about);
  gst_rtcp_packet_fb_set_fci_length (&packet, 1);
  fci = gst_rtcp_packet_fb_get_fci (&packet);
  GST_WRITE_UINT16_BE (fci, nack->packet);
  GST_WRITE_UINT16_BE (fci + 2, nack->following);
  gst_rtcp_buffer_unmap (&rtcp);
  return buffer;
}

/**
 * gst_h263rps_rtcp_new_bye:
 * @source: an SSRC whose stream has ended
 *
 * Returns: (transfer full): a compound packet that says so
 */
GstBuffer *
gst_h263rps_rtcp_new_bye (guint32 source)
{
  GstRTCPBuffer rtcp = GST_RTCP_BUFFER_INIT;
  GstRTCPPacket packet;
  GstBuffer * buffer = gst_rtcp_buffer_new (RTCP_ROOM);

  gst_rtcp_buffer_map (buffer, GST_MAP_READWRITE, &rtcp);
  gst_rtcp_buffer_add_packet (&rtcp, GST_RTCP_TYPE_RR, &packet);
  gst_rtcp_packet_rr_set_ssrc (&packet, source);
  gst_rtcp_buffer_add_packet (&rtcp, GST_RTCP_TYPE_BYE, &packet);
  gst_rtcp_packet_bye_add_ssrc (&packet, source);
  gst_rtcp_buffer_unmap (&rtcp);
  return buffer;
}

/**
 * gst_h263rps_rtcp_add_rpsi:
 * @compound: a writable buffer of RTCP
 *
 * Adds a message to what a session is about to send.
 *
 * Returns: whether there was room
 */
gboolean
gst_h263rps_rtcp_add_rpsi (GstBuffer * compound, guint32 speaker, guint32 about, guint pt,
    const h263rps_message * message)
{
  GstRTCPBuffer rtcp = GST_RTCP_BUFFER_INIT;
  gboolean added;

  if (!gst_rtcp_buffer_map (compound, GST_MAP_READWRITE, &rtcp))
    return FALSE;
  added = add_rpsi (&rtcp, speaker, about, pt, message);
  gst_rtcp_buffer_unmap (&rtcp);
  return added;
}

/**
 * gst_h263rps_rtcp_read_fci:
 * @message: (out): the message
 * @fci: the feedback control information of a packet
 * @length: its length
 *
 * Returns: whether it holds a message of 3 or 5 bytes. What it says is for the library to judge.
 */
gboolean
gst_h263rps_rtcp_read_fci (h263rps_message * message, const guint8 * fci, gsize length)
{
  gsize count;

  if (length < 4 || length > 8 || fci[0] % 8 != 0 || fci[0] >= 32)
    return FALSE;
  count = length - 2 - fci[0] / 8;
  if (count != 3 && count != 5)
    return FALSE;
  memcpy (message->bytes, fci + 2, count);
  message->length = count;
  return TRUE;
}

/* Of the feedback control information of a Generic NACK the next packet that is asked for, from bit
 * `at` on, which goes on; whether there is one. */
gboolean
gst_h263rps_rtcp_next_asked (const guint8 * fci, gsize length, gsize * at, guint16 * sequence)
{
  gsize field, bit;

  for (; (field = *at / 17 * 4) + 4 <= length; ++*at) {
    bit = *at % 17;
    if (bit == 0 || GST_READ_UINT16_BE (fci + field + 2) >> (bit - 1) & 1) {
      *sequence = GST_READ_UINT16_BE (fci + field) + bit;
      ++*at;
      return TRUE;
    }
  }
  return FALSE;
}

/* ---- reports ---- */

static void
add_name (GstRTCPBuffer * rtcp, guint32 speaker, const gchar * name)
{
  GstRTCPPacket packet;

  gst_rtcp_buffer_add_packet (rtcp, GST_RTCP_TYPE_SDES, &packet);
  gst_rtcp_packet_sdes_add_item (&packet, speaker);
  gst_rtcp_packet_sdes_add_entry (&packet, GST_RTCP_SDES_CNAME, MIN (strlen (name), 255),
      (const guint8 *) name);
}

/**
 * gst_h263rps_rtcp_new_sender_report:
 * @info: what the report says
 * @name: the sender's CNAME
 *
 * Returns: (transfer full): a compound packet
 */
GstBuffer *
gst_h263rps_rtcp_new_sender_report (const GstH263RpsSenderInfo * info, const gchar * name)
{
  GstRTCPBuffer rtcp = GST_RTCP_BUFFER_INIT;
  GstRTCPPacket packet;
  GstBuffer * buffer = gst_rtcp_buffer_new (REPORT_ROOM);

  gst_rtcp_buffer_map (buffer, GST_MAP_READWRITE, &rtcp);
  gst_rtcp_buffer_add_packet (&rtcp, GST_RTCP_TYPE_SR, &packet);
  gst_rtcp_packet_sr_set_sender_info (&packet, info->ssrc, info->ntp, info->rtp, info->packets,
      info->octets);
  add_name (&rtcp, info->ssrc, name);
  gst_rtcp_buffer_unmap (&rtcp);
  return buffer;
}

/**
 * gst_h263rps_rtcp_new_receiver_report:
 * @speaker: the SSRC of the receiver
 * @block: how the stream arrives
 * @name: the receiver's CNAME
 *
 * Returns: (transfer full): a compound packet
 */
GstBuffer *
gst_h263rps_rtcp_new_receiver_report (guint32 speaker, const GstH263RpsBlock * block,
    const gchar * name)
{
  GstRTCPBuffer rtcp = GST_RTCP_BUFFER_INIT;
  GstRTCPPacket packet;
  GstBuffer * buffer = gst_rtcp_buffer_new (REPORT_ROOM);

  gst_rtcp_buffer_map (buffer, GST_MAP_READWRITE, &rtcp);
  gst_rtcp_buffer_add_packet (&rtcp, GST_RTCP_TYPE_RR, &packet);
  gst_rtcp_packet_rr_set_ssrc (&packet, speaker);
  gst_rtcp_packet_add_rb (&packet, block->ssrc, block->fraction, block->lost, block->highest,
      block->jitter, block->last, block->delay);
  add_name (&rtcp, speaker, name);
  gst_rtcp_buffer_unmap (&rtcp);
  return buffer;
}

/* Whether a packet is a sender report; what it says. */
gboolean
gst_h263rps_rtcp_read_info (GstRTCPPacket * packet, GstH263RpsSenderInfo * info)
{
  if (gst_rtcp_packet_get_type (packet) != GST_RTCP_TYPE_SR)
    return FALSE;
  gst_rtcp_packet_sr_get_sender_info (packet, &info->ssrc, &info->ntp, &info->rtp, &info->packets,
      &info->octets);
  return TRUE;
}

/* Whether a report has a block about this stream; what it says, and who says it. */
gboolean
gst_h263rps_rtcp_read_block (GstRTCPPacket * packet, guint32 about, guint32 * speaker,
    GstH263RpsBlock * block)
{
  GstRTCPType type = gst_rtcp_packet_get_type (packet);
  GstH263RpsSenderInfo info;
  guint i;

  if (type == GST_RTCP_TYPE_RR)
    *speaker = gst_rtcp_packet_rr_get_ssrc (packet);
  else if (gst_h263rps_rtcp_read_info (packet, &info))
    *speaker = info.ssrc;
  else
    return FALSE;
  for (i = 0; i < gst_rtcp_packet_get_rb_count (packet); i++) {
    gst_rtcp_packet_get_rb (packet, i, &block->ssrc, &block->fraction, &block->lost,
        &block->highest, &block->jitter, &block->last, &block->delay);
    if (block->ssrc == about)
      return TRUE;
  }
  return FALSE;
}

/**
 * gst_h263rps_rtcp_read_fir:
 * @fci: the feedback control information of a full intra request (RFC 5104, 4.3.1)
 * @length: its length
 * @about: a stream
 * @number: (out): the request's number, which a repetition has, too
 *
 * Returns: whether it asks for an intra picture of this stream
 */
gboolean
gst_h263rps_rtcp_read_fir (const guint8 * fci, gsize length, guint32 about, guint8 * number)
{
  gsize at;

  for (at = 0; at + 8 <= length; at += 8) {
    if (GST_READ_UINT32_BE (fci + at) == about) {
      *number = fci[at + 4];
      return TRUE;
    }
  }
  return FALSE;
}
