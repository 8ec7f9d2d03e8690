#include "gsth263rpsreports.h"

#include <string.h>

/* Ticks of a stream's timestamps in a second. */
#define TICKS 90000
/* From 1900, when NTP's time began, to 1970. */
#define NTP_EPOCH G_GUINT64_CONSTANT (2208988800)
/* No round trip of a call is longer: what says so tells none. */
#define LONGEST (30 * GST_SECOND)
/* Between two reports, in the mean: RTCP's share of a stream is 360 / its kbit/s (RFC 3550, 6.2),
 * and no more than these seconds. */
#define SHARE 360000
#define LEAST_INTERVAL 1
#define MOST_INTERVAL 5

static guint32
ticks_of (GstClockTime time)
{
  return gst_util_uint64_scale (time, TICKS, GST_SECOND);
}

/**
 * gst_h263rps_reception_packet:
 * @reception: of the stream that is followed; of another one it begins anew
 * @now: when the packet came
 */
void
gst_h263rps_reception_packet (GstH263RpsReception * reception, guint32 ssrc, guint16 sequence,
    guint32 timestamp, GstClockTime now)
{
  /* Both differences wrap: the least one of 32 and of 16 bits is meant. */
  guint32 transit = ticks_of (now) - timestamp;
  gint32 apart;
  gint16 ahead;

  if (!reception->begun || reception->ssrc != ssrc) {
    memset (reception, 0, sizeof *reception);
    reception->begun = TRUE;
    reception->ssrc = ssrc;
    reception->base = reception->highest = sequence;
    reception->transit = transit;
  }
  ahead = (gint16) (guint16) (sequence - reception->highest);
  if (ahead > 0)
    reception->highest += ahead;
  reception->came++;
  apart = transit - reception->transit;
  reception->transit = transit;
  reception->jitter += (ABS ((gdouble) apart) - reception->jitter) / 16;
}

/* A sender report of the stream came. */
void
gst_h263rps_reception_info (GstH263RpsReception * reception, const GstH263RpsSenderInfo * info,
    GstClockTime now)
{
  reception->info = *info;
  reception->info_at = now;
  reception->has_info = TRUE;
}

/* A session told the sender's time (in ns since 1900) of a packet of the stream. */
void
gst_h263rps_reception_time (GstH263RpsReception * reception, guint32 rtp, GstClockTime ntp)
{
  reception->info.ssrc = reception->ssrc;
  reception->info.ntp = gst_util_uint64_scale (ntp, G_GUINT64_CONSTANT (1) << 32, GST_SECOND);
  reception->info.rtp = rtp;
  reception->info_at = GST_CLOCK_TIME_NONE;
  reception->has_info = TRUE;
}

/* What is to be reported now: losses since the block before. */
void
gst_h263rps_reception_block (GstH263RpsReception * reception, GstH263RpsBlock * block,
    GstClockTime now)
{
  guint64 expected = (guint64) (reception->highest - reception->base) + 1;
  gint64 lost = expected - reception->came;
  gint64 expected_since = expected - reception->expected_before;
  gint64 lost_since = expected_since - (gint64) (reception->came - reception->came_before);

  memset (block, 0, sizeof *block);
  block->ssrc = reception->ssrc;
  block->lost = CLAMP (lost, -0x800000, 0x7fffff);
  if (expected_since > 0 && lost_since > 0)
    block->fraction = MIN (256 * lost_since / expected_since, 255);
  block->highest = reception->highest;
  block->jitter = reception->jitter;
  if (reception->has_info && reception->info.ssrc == reception->ssrc
      && GST_CLOCK_TIME_IS_VALID (reception->info_at)) {
    block->last = reception->info.ntp >> 16;
    block->delay = gst_util_uint64_scale (now - reception->info_at, 65536, GST_SECOND);
  }
  reception->expected_before = expected;
  reception->came_before = reception->came;
}

GstClockTime
gst_h263rps_reception_jitter (const GstH263RpsReception * reception)
{
  return reception->jitter * GST_SECOND / TICKS;
}

/**
 * gst_h263rps_reception_ntp:
 * @rtp: a timestamp of the stream
 * @ntp: (out): the sender's time of it, in ns since 1900
 *
 * Returns: whether a sender report has told it
 */
gboolean
gst_h263rps_reception_ntp (const GstH263RpsReception * reception, guint32 rtp, GstClockTime * ntp)
{
  const GstH263RpsSenderInfo * info = &reception->info;
  gint64 since = (gint32) (rtp - info->rtp);

  if (!reception->has_info || info->ssrc != reception->ssrc)
    return FALSE;
  *ntp = gst_util_uint64_scale (info->ntp, GST_SECOND, G_GUINT64_CONSTANT (1) << 32)
      + since * (gint64) (GST_SECOND / 10000) / (TICKS / 10000);
  return TRUE;
}

/* The round trip that a block about this stream tells, or none (RFC 3550, 6.4.1). */
GstClockTime
gst_h263rps_round_trip (guint64 ntp, const GstH263RpsBlock * block)
{
  guint32 trip = (guint32) (ntp >> 16) - block->last - block->delay;
  GstClockTime time = gst_util_uint64_scale (trip, GST_SECOND, 65536);

  return block->last != 0 && time <= LONGEST ? time : GST_CLOCK_TIME_NONE;
}

/* What a source of a session has heard about a stream. */
static gboolean
read_source (const GstStructure * source, guint32 about, GstH263RpsBlock * block,
    GstClockTime * round_trip)
{
  gboolean has_block = FALSE;
  guint ssrc = 0, fraction = 0, jitter = 0, trip = 0;

  if (!gst_structure_get_boolean (source, "have-rb", &has_block) || !has_block)
    return FALSE;
  if (gst_structure_get_uint (source, "rb-ssrc", &ssrc) && ssrc != about)
    return FALSE;
  gst_structure_get_uint (source, "rb-fractionlost", &fraction);
  gst_structure_get_uint (source, "rb-jitter", &jitter);
  block->fraction = fraction;
  block->jitter = jitter;
  if (gst_structure_get_uint (source, "rb-round-trip", &trip) && trip > 0)
    *round_trip = gst_util_uint64_scale (trip, GST_SECOND, 65536);
  return TRUE;
}

/**
 * gst_h263rps_session_block:
 * @session: an inner session of RTP
 * @about: a stream that it sends
 * @block: (out): its fraction and jitter
 * @round_trip: (out): the round trip, where one is known
 *
 * Returns: whether a report about the stream came
 */
gboolean
gst_h263rps_session_block (GObject * session, guint32 about, GstH263RpsBlock * block,
    GstClockTime * round_trip)
{
  GstStructure * stats = NULL;
  const GValue * sources;
  gboolean is_found = FALSE;
  guint i;

  g_object_get (session, "stats", &stats, NULL);
  if (!stats)
    return FALSE;
  sources = gst_structure_get_value (stats, "source-stats");
  /* A GValueArray, whose type's macro is deprecated. */
  if (sources && g_type_is_a (G_VALUE_TYPE (sources), g_type_from_name ("GValueArray"))) {
    GValueArray * array = g_value_get_boxed (sources);

    for (i = 0; array && i < array->n_values && !is_found; i++)
      is_found = read_source (gst_value_get_structure (&array->values[i]), about, block,
          round_trip);
  }
  gst_structure_free (stats);
  return is_found;
}

/* This machine's time, in 1/2^32 of a second since 1900: what an rtpsession takes by default. */
guint64
gst_h263rps_ntp_now (void)
{
  guint64 now = g_get_real_time ();

  return (now / G_USEC_PER_SEC + NTP_EPOCH) << 32
      | gst_util_uint64_scale (now % G_USEC_PER_SEC, G_GUINT64_CONSTANT (1) << 32, G_USEC_PER_SEC);
}

/* The time to the next report, drawn so that parties don't report at once; of a stream whose bit
 * rate isn't known yet (0) the least one. */
GstClockTime
gst_h263rps_report_interval (guint bitrate)
{
  gdouble mean = bitrate ? CLAMP ((gdouble) SHARE / bitrate, LEAST_INTERVAL, MOST_INTERVAL)
                         : LEAST_INTERVAL;

  return mean * g_random_double_range (0.5, 1.5) * GST_SECOND;
}

/* ---- meters ---- */

#define PLACES (GST_H263RPS_METER_SECONDS + 1)

void
gst_h263rps_meter_add (GstH263RpsMeter * meter, GstClockTime now, guint64 bytes, guint all,
    guint kind)
{
  guint64 second = now / GST_SECOND, i;

  if (!meter->has_begun) {
    meter->has_begun = TRUE;
    meter->begun = meter->second = second;
  }
  /* A clock that stood, or another one. */
  second = MAX (second, meter->second);
  for (i = meter->second + 1; i <= MIN (second, meter->second + PLACES); i++)
    memset (&meter->seconds[i % PLACES], 0, sizeof meter->seconds[0]);
  if (second > meter->second + PLACES)
    memset (meter->seconds, 0, sizeof meter->seconds);
  meter->second = second;
  meter->seconds[second % PLACES].bytes += bytes;
  meter->seconds[second % PLACES].all += all;
  meter->seconds[second % PLACES].kind += kind;
}

/* Whether a second's numbers are those of so many seconds ago. */
static gboolean
is_there (const GstH263RpsMeter * meter, guint64 second)
{
  return meter->has_begun && second <= meter->second && second + PLACES > meter->second
      && second >= meter->begun;
}

/* Bits in the last whole second. */
guint64
gst_h263rps_meter_bitrate (const GstH263RpsMeter * meter, GstClockTime now)
{
  guint64 second = now / GST_SECOND;

  if (second == 0 || !is_there (meter, second - 1))
    return 0;
  return 8 * meter->seconds[(second - 1) % PLACES].bytes;
}

/* Of the pictures of the last ten seconds those of the kind, or -1 where there were none. */
gdouble
gst_h263rps_meter_share (const GstH263RpsMeter * meter, GstClockTime now)
{
  guint64 second = now / GST_SECOND, i;
  guint all = 0, kind = 0;

  for (i = 0; i < PLACES && i <= second; i++) {
    if (is_there (meter, second - i)) {
      all += meter->seconds[(second - i) % PLACES].all;
      kind += meter->seconds[(second - i) % PLACES].kind;
    }
  }
  return all ? (gdouble) kind / all : -1.0;
}
