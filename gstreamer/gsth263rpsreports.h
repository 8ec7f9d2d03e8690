/* What reports tell of a stream (RFC 3550, 6.4): its reception, the round trip, and the sender's
 * times; and rates of the last seconds. */
#ifndef __GST_H263RPS_REPORTS_H__
#define __GST_H263RPS_REPORTS_H__

#include <gst/gst.h>

G_BEGIN_DECLS

/* The seconds of which a meter tells a share. */
#define GST_H263RPS_METER_SECONDS 10

typedef struct _GstH263RpsBlock GstH263RpsBlock;
typedef struct _GstH263RpsMeter GstH263RpsMeter;
typedef struct _GstH263RpsReception GstH263RpsReception;
typedef struct _GstH263RpsSenderInfo GstH263RpsSenderInfo;

/**
 * GstH263RpsSenderInfo:
 * @ssrc: the sender's
 * @ntp: seconds since 1900, in 1/2^32
 * @rtp: the same time by the stream's timestamps
 * @packets: how many were sent
 * @octets: of their payloads
 *
 * What a sender report says of a stream.
 */
struct _GstH263RpsSenderInfo {
  guint32 ssrc;
  guint64 ntp;
  guint32 rtp, packets, octets;
};

/**
 * GstH263RpsBlock:
 * @ssrc: the stream
 * @fraction: what was lost of it since the block before, in 1/256
 * @lost: packets that were lost of it, of 24 bits
 * @highest: the highest sequence number, with its cycles
 * @jitter: in ticks of 90 kHz
 * @last: the middle 32 bits of the last sender report's NTP time, or 0
 * @delay: since that report, in 1/65536 of a second
 *
 * A report block: how a stream arrives.
 */
struct _GstH263RpsBlock {
  guint32 ssrc;
  guint8 fraction;
  gint32 lost;
  guint32 highest, jitter, last, delay;
};

/**
 * GstH263RpsReception:
 *
 * How a stream arrives (RFC 3550, A.3 and A.8), and the last sender report of it. Where a session
 * hears the reports, its time comes with the packets, and @info_at is none.
 */
struct _GstH263RpsReception {
  guint32 ssrc;
  guint32 base, highest;
  guint64 came, came_before, expected_before;
  guint32 transit;
  gdouble jitter;
  GstH263RpsSenderInfo info;
  GstClockTime info_at;
  gboolean begun, has_info;
};

/**
 * GstH263RpsMeter:
 *
 * Bytes, and pictures in all and of a kind, by the second.
 */
struct _GstH263RpsMeter {
  struct {
    guint64 bytes;
    guint all, kind;
  } seconds[GST_H263RPS_METER_SECONDS + 1];
  guint64 second, begun;
  gboolean has_begun;
};

G_GNUC_INTERNAL
void gst_h263rps_reception_packet (GstH263RpsReception * reception, guint32 ssrc, guint16 sequence,
    guint32 timestamp, GstClockTime now);

G_GNUC_INTERNAL
void gst_h263rps_reception_info (GstH263RpsReception * reception, const GstH263RpsSenderInfo * info,
    GstClockTime now);

G_GNUC_INTERNAL
void gst_h263rps_reception_time (GstH263RpsReception * reception, guint32 rtp, GstClockTime ntp);

G_GNUC_INTERNAL
void gst_h263rps_reception_block (GstH263RpsReception * reception, GstH263RpsBlock * block,
    GstClockTime now);

G_GNUC_INTERNAL
GstClockTime gst_h263rps_reception_jitter (const GstH263RpsReception * reception);

G_GNUC_INTERNAL
gboolean gst_h263rps_reception_ntp (const GstH263RpsReception * reception, guint32 rtp,
    GstClockTime * ntp);

G_GNUC_INTERNAL
GstClockTime gst_h263rps_round_trip (guint64 ntp, const GstH263RpsBlock * block);

G_GNUC_INTERNAL
gboolean gst_h263rps_session_block (GObject * session, guint32 about, GstH263RpsBlock * block,
    GstClockTime * round_trip);

G_GNUC_INTERNAL
guint64 gst_h263rps_ntp_now (void);

G_GNUC_INTERNAL
GstClockTime gst_h263rps_report_interval (guint bitrate);

G_GNUC_INTERNAL
void gst_h263rps_meter_add (GstH263RpsMeter * meter, GstClockTime now, guint64 bytes, guint all,
    guint kind);

G_GNUC_INTERNAL
guint64 gst_h263rps_meter_bitrate (const GstH263RpsMeter * meter, GstClockTime now);

G_GNUC_INTERNAL
gdouble gst_h263rps_meter_share (const GstH263RpsMeter * meter, GstClockTime now);

G_END_DECLS

#endif
