/**
 * SECTION:element-h263rpssend
 * @title: h263rpssend
 * @see_also: h263rpsrecv
 *
 * Codes pictures in H.263 (2005) with slices and reference picture selection, and cuts them into
 * RTP packets (RFC 4629). It predicts from acknowledged pictures alone, so a lost packet costs its
 * own picture and no other.
 *
 * It is coder and payloader in one, since the coder cuts the packets and lives by what comes back:
 * a message about each picture (RPSI, RFC 4585, 6.3.3), at the pad rtcp_sink or by the session of
 * #GstH263RpsSend:session. While as many receivers are heard as may be (#GstH263RpsSend:max-receivers),
 * messages of others don't count. Where none comes, each picture is intra; after five seconds a warning
 * says so. By these messages the bit rate follows what the line carries (#GstH263RpsSend:adapt). A lost
 * packet goes out again where it is asked for (#GstH263RpsSend:repair).
 *
 * Pictures of 128x96, 176x144 and 352x288 are taken. Another size within a call begins a new run,
 * under a new SSRC. A GstForceKeyUnit event from either side, and a picture loss indication or a
 * full intra request at rtcp_sink, make the next picture intra.
 *
 * Sender reports and a BYE at the end (RFC 3550) go out at rtcp_src. By the reports a receiver plays
 * other streams of the same #GstH263RpsSend:cname at the same time. A session makes its own.
 *
 * ## Example launch line
 * |[
 * gst-launch-1.0 videotestsrc is-live=true ! video/x-raw,width=176,height=144,framerate=30/1 \
 *     ! h263rpssend name=s ! udpsink host=127.0.0.1 port=5004 sync=false async=false \
 *     udpsrc port=5004 \
 *     caps="application/x-rtp,media=video,clock-rate=90000,encoding-name=H263-2000,payload=96" \
 *     ! h263rpsrecv name=r ! videoconvert ! autovideosink \
 *     r.rtcp_src ! udpsink host=127.0.0.1 port=5005 sync=false async=false \
 *     udpsrc port=5005 caps=application/x-rtcp ! s.rtcp_sink
 * ]| A call with itself.
 *
 * |[
 * gst-launch-1.0 v4l2src ! videoconvert ! videoscale ! videorate \
 *     ! video/x-raw,width=176,height=144,framerate=30/1 ! h263rpssend name=s bitrate=300000 \
 *     ! udpsink host=192.0.2.7 port=5004 udpsrc port=5005 caps=application/x-rtcp ! s.rtcp_sink
 * ]| Sends a camera's pictures, and hears what comes back on port 5005.
 */
#ifdef HAVE_CONFIG_H
#include "config.h"
#endif

#include "gsth263rpssend.h"

#include <gst/rtp/rtp.h>
#include <gst/video/video.h>
#include <string.h>

#include "gsth263rps.h"
#include "gsth263rpsreceivers.h"
#include "gsth263rpsrecord.h"
#include "gsth263rpsrepeater.h"
#include "gsth263rpsrtcp.h"

GST_DEBUG_CATEGORY_STATIC (h263rpssend_debug);
#define GST_CAT_DEFAULT h263rpssend_debug

#define DEFAULT_BITRATE 430000
#define DEFAULT_ADAPT TRUE
#define DEFAULT_QUANT 8
#define DEFAULT_RADIUS 15
#define DEFAULT_SLOTS 39
#define DEFAULT_LEAD 6
#define DEFAULT_CUSTOM_CLOCK FALSE
#define DEFAULT_REPAIR TRUE
#define DEFAULT_MAX_RECEIVERS 1
#define DEFAULT_MIN_FORCE_KEY_UNIT_INTERVAL (GST_SECOND / 2)

#define MOST_TARGET 999999
/* The bytes a second at which a line is tried first, by the format, and the share of it that is least. */
#define FIRST_RATES \
  { \
    0, 27000, 54000, 180000 \
  }
#define LEAST_SHARE 30
/* While no message comes back for so long, a picture goes out only each so often (after RFC 8083): what
 * nobody is seen to receive mustn't fill a line that may be full. */
#define UNHEARD (2 * GST_SECOND)
#define UNHEARD_LONG (10 * GST_SECOND)
#define RARELY (GST_SECOND / 5)
#define SELDOM GST_SECOND
/* Pictures whose times are known, until a message tells of them. */
#define TIMES 256
#define LEAST_LIMIT 1200
#define MOST_LIMIT 9000

/* Messages of this party's receiver that a picture's header carries. */
#define MOST_CARRIED 4
/* A picture is waited for that is no further away, in us, and no later than that. */
#define SOON 20000
#define LATE 5000
/* So long after a stream began headers tell of the one before, in us. */
#define ANOTHER G_USEC_PER_SEC
/* Messages that may wait for the next picture; what comes then is dropped. */
#define MOST_WAITING 256
/* A run of which no message came back for so long (in us) has no back channel. */
#define ALONE (5 * G_USEC_PER_SEC)
/* The bytes of an RTP header, as the library writes it. */
#define RTP_HEADER 12
/* Room for the extensions of it that the base class adds. */
#define EXTENSIONS 256
/* Packets that are looked for by one datagram, or one call of a session. */
#define MOST_ASKED 256
/* Repeats have no more bits at once than the stream in this share of a second. */
#define AT_ONCE 2

enum {
  PROP_0,
  PROP_BITRATE,
  PROP_ADAPT,
  PROP_QUANT,
  PROP_RADIUS,
  PROP_SLOTS,
  PROP_LEAD,
  PROP_CUSTOM_CLOCK,
  PROP_REPAIR,
  PROP_MAX_RECEIVERS,
  PROP_MIN_FORCE_KEY_UNIT_INTERVAL,
  PROP_SESSION,
  PROP_CNAME,
  PROP_RECORD_LOCATION,
  PROP_STATS
};

typedef struct {
  guint64 coded, intra, packets, bytes, distance;
  guint64 noted, old, malformed, stale, other_speaker, dropped;
  guint64 runs, intra_asked, intra_refused, left_out, carried;
} Counts;

struct _GstH263RpsSend {
  GstRTPBasePayload parent;

  GstPad *rtcp_sinkpad, *rtcp_srcpad;

  /* properties, under the object's lock */
  guint bitrate, quant, radius, slots, lead, max_receivers;
  gboolean adapt, custom_clock, repair;
  guint64 min_force_key_unit_interval;
  gchar *cname, *record_location;
  GObject * session;
  gulong session_handler;

  /* the run: of the streaming thread, between READY and PAUSED */
  h263rps_group group;
  h263rps_params params;
  GstVideoInfo info;
  gsize size;
  guint8 * packed;
  GstH263RpsRepeater * repeater;
  gboolean is_closed_told; /* that repeats would end the call */
  GstH263RpsRecord * record;
  guint recorded;
  gint64 run_at; /* when it began, in us; 0 once it is told that it is alone */
  gboolean is_rtcp_begun;
  GstClockTime next_report; /* running time */

  /* what came back, for the streaming thread, and the counts: under this lock */
  GMutex lock;
  h263rps_message waiting[MOST_WAITING];
  guint8 said_by[MOST_WAITING]; /* the places of who said them */
  guint waiting_count;
  h263rps_message carried[MOST_CARRIED]; /* the oldest first */
  guint carried_count;
  gint64 picture_at, begun_at; /* when the last picture was coded, and the first one, in us; or 0 */
  guint32 ssrc;
  GstH263RpsReceivers receivers;
  gint64 intra_at;                   /* when an intra picture was asked for last, in us */
  gboolean adapts;                   /* whether the lines are followed */
  guint most;                        /* bytes a picture, at most */
  gint64 next;                       /* the number of the next picture */
  GstClockTime sent_at[TIMES], trip; /* when a picture went out; the round trip by messages */
  GstClockTime unheard_at, last_at;  /* the first picture since a message, or NONE; the last one */
  GstH263RpsMeter meter;
  Counts counts, begun; /* ..and as the run began */
};

static GstStaticPadTemplate sink_template = GST_STATIC_PAD_TEMPLATE ("sink", GST_PAD_SINK,
    GST_PAD_ALWAYS,
    GST_STATIC_CAPS (
        "video/x-raw, format = (string) I420, "
        "width = (int) 128, height = (int) 96, framerate = (fraction) [ 1/1, 120/1 ]; "
        "video/x-raw, format = (string) I420, "
        "width = (int) 176, height = (int) 144, framerate = (fraction) [ 1/1, 120/1 ]; "
        "video/x-raw, format = (string) I420, "
        "width = (int) 352, height = (int) 288, framerate = (fraction) [ 1/1, 120/1 ]"));

static GstStaticPadTemplate src_template = GST_STATIC_PAD_TEMPLATE ("src", GST_PAD_SRC,
    GST_PAD_ALWAYS, GST_STATIC_CAPS (GST_H263RPS_RTP_CAPS ", payload = (int) [ 96, 127 ]"));

static GstStaticPadTemplate rtcp_sink_template = GST_STATIC_PAD_TEMPLATE ("rtcp_sink", GST_PAD_SINK,
    GST_PAD_ALWAYS, GST_STATIC_CAPS ("application/x-rtcp"));

static GstStaticPadTemplate rtcp_src_template = GST_STATIC_PAD_TEMPLATE ("rtcp_src", GST_PAD_SRC,
    GST_PAD_ALWAYS, GST_STATIC_CAPS ("application/x-rtcp"));

#define gst_h263rps_send_parent_class parent_class
G_DEFINE_TYPE (GstH263RpsSend, gst_h263rps_send, GST_TYPE_RTP_BASE_PAYLOAD);
GST_ELEMENT_REGISTER_DEFINE (h263rpssend, "h263rpssend", GST_RANK_NONE, GST_TYPE_H263RPS_SEND);

/* ---- the run ---- */

static GstClockTime
running_time (GstH263RpsSend * self)
{
  return gst_element_get_current_running_time (GST_ELEMENT (self));
}

static void
finish_run (GstH263RpsSend * self)
{
  if (self->record) {
    g_mutex_lock (&self->lock);
    gst_h263rps_record_line (self->record, GST_H263RPS_RECORD_REPORT,
        "sent %" G_GUINT64_FORMAT " packets %" G_GUINT64_FORMAT " noted %" G_GUINT64_FORMAT
        " old %" G_GUINT64_FORMAT " refused %" G_GUINT64_FORMAT,
        self->counts.coded - self->begun.coded, self->counts.packets - self->begun.packets,
        self->counts.noted - self->begun.noted, self->counts.old - self->begun.old,
        self->counts.malformed - self->begun.malformed);
    g_mutex_unlock (&self->lock);
  }
  if (self->group.kind)
    h263rps_group_finish (&self->group);
  g_clear_pointer (&self->packed, g_free);
  g_clear_pointer (&self->record, gst_h263rps_record_free);
}

/* Bytes a picture, under the object's lock. */
static guint
target_of (GstH263RpsSend * self)
{
  guint64 bytes = gst_util_uint64_scale (self->bitrate / 8, self->info.fps_d, self->info.fps_n);

  return CLAMP (bytes, 1, MOST_TARGET);
}

/* ---- the line ---- */

static guint64
monotonic_time (void)
{
  return 1000 * (guint64) g_get_monotonic_time ();
}

/* Under the lock: a line is followed between bounds, from the rate on that it has, or else the format's. */
static void
begin_line (GstH263RpsSend * self, h263rps_line * line)
{
  static const guint32 firsts[] = FIRST_RATES;
  guint64 period = gst_util_uint64_scale (GST_SECOND, self->info.fps_d, self->info.fps_n);
  h263rps_bounds bounds;
  guint32 rate;

  bounds.most = self->most;
  if (h263rps_line_rate (line, &rate) != H263RPS_OK)
    rate = firsts[gst_h263rps_format_of_size (self->info.width, self->info.height)];
  bounds.first = CLAMP (gst_util_uint64_scale (rate, period, GST_SECOND), 1, self->most);
  bounds.least = MAX (bounds.first / LEAST_SHARE, 1);
  bounds.finest = self->params.quant;
  bounds.period = period;
  h263rps_line_finish (line);
  if (self->adapts)
    h263rps_line_start (line, &bounds, monotonic_time ());
}

/* Under the lock: the lines of all receivers are followed, or none is. */
static void
begin_lines (GstH263RpsSend * self, gboolean adapts, guint most)
{
  guint i;

  self->adapts = adapts;
  self->most = most;
  self->unheard_at = GST_CLOCK_TIME_NONE;
  for (i = 0; i < self->receivers.most; i++)
    if (self->receivers.places[i].is_in)
      begin_line (self, &self->receivers.places[i].line);
}

/* Under the lock: whether a picture may go out, by what was heard. */
static gboolean
is_heard_enough (GstH263RpsSend * self, GstClockTime now)
{
  GstClockTime silent;

  if (!GST_CLOCK_TIME_IS_VALID (self->unheard_at))
    return TRUE;
  silent = now - self->unheard_at;
  return silent < UNHEARD || now - self->last_at >= (silent < UNHEARD_LONG ? RARELY : SELDOM);
}

/* Under the lock: whether the lines, where they are followed, carry more. */
static gboolean
line_has_room (GstH263RpsSend * self, GstClockTime now)
{
  gboolean is_followed = FALSE;
  guint i;

  for (i = 0; i < self->receivers.most; i++) {
    guint32 has = 1;

    if (!self->receivers.places[i].is_in
        || h263rps_line_has_room (&self->receivers.places[i].line, now, &has) != H263RPS_OK)
      continue;
    is_followed = TRUE;
    if (!has)
      return FALSE;
  }
  return !is_followed || is_heard_enough (self, now);
}

/* Under the lock: the least that a line gives the next picture. */
static void
read_target (GstH263RpsSend * self, guint * target)
{
  guint i;

  for (i = 0; i < self->receivers.most; i++) {
    guint least;

    if (self->receivers.places[i].is_in
        && h263rps_line_target (&self->receivers.places[i].line, &least) == H263RPS_OK)
      *target = MIN (*target, least);
  }
}

/* Whether a further picture goes out; with what it may have. */
static gboolean
has_room (GstH263RpsSend * self, guint * target)
{
  gboolean adapts, has;

  GST_OBJECT_LOCK (self);
  adapts = self->adapt;
  *target = target_of (self);
  GST_OBJECT_UNLOCK (self);
  g_mutex_lock (&self->lock);
  gst_h263rps_receivers_settle (&self->receivers, g_get_monotonic_time ());
  if (adapts != self->adapts || *target != self->most)
    begin_lines (self, adapts, *target);
  has = line_has_room (self, monotonic_time ());
  if (has)
    read_target (self, target);
  self->counts.left_out += !has;
  if (!has)
    self->picture_at = 0;
  g_mutex_unlock (&self->lock);
  return has;
}

/* Under the lock: a picture goes out, for which the group waited for this one. */
static void
note_sent (GstH263RpsSend * self, const h263rps_coded * coded, guint64 bytes, guint32 waited)
{
  guint64 now = monotonic_time ();
  guint i;

  self->next = (gint64) coded->number + 1;
  self->sent_at[coded->number % TIMES] = self->last_at = now;
  if (!GST_CLOCK_TIME_IS_VALID (self->unheard_at))
    self->unheard_at = now;
  for (i = 0; i < self->receivers.most; i++)
    h263rps_line_sent (&self->receivers.places[i].line, coded->number, bytes, coded->packets, now);
  gst_h263rps_receivers_sent (&self->receivers, waited, now / 1000);
}

/* Under the lock: what a message tells of a line (Annex N: BT, URF, TR). */
static void
note_told (GstH263RpsSend * self, guint place, const h263rps_message * message)
{
  gint64 period = self->params.clock == H263RPS_CUSTOM_CLOCK ? 1024 : 256;
  guint word = GST_READ_UINT16_BE (message->bytes);
  gint64 newest = self->next - 1, back, number;
  gboolean is_whole = (word >> 14) == 3;
  guint64 now = monotonic_time ();

  if (word >> 15 == 0 || newest < 0)
    return;
  back = ((newest - (word >> 3 & 1023)) % period + period) % period;
  number = newest - back;
  if (number < 0)
    return;
  h263rps_line_told (&self->receivers.places[place].line, number, is_whole, now);
  if (is_whole && back < TIMES) {
    GstClockTime trip = now - self->sent_at[number % TIMES];

    self->trip = GST_CLOCK_TIME_IS_VALID (self->trip) ? (7 * self->trip + trip) / 8 : trip;
  }
}

/* ---- the run ---- */

static void
read_params (GstH263RpsSend * self, guint format)
{
  guint mtu = GST_RTP_BASE_PAYLOAD_MTU (self);

  h263rps_defaults (format, &self->params);
  self->params.limit = CLAMP (mtu, LEAST_LIMIT, MOST_LIMIT);
  if (self->params.limit != mtu)
    GST_WARNING_OBJECT (self, "an mtu of %u counts as %u", mtu, self->params.limit);

  GST_OBJECT_LOCK (self);
  self->params.quant = self->quant;
  self->params.radius = self->radius;
  self->params.slots = self->slots;
  self->params.lead = self->lead;
  self->params.clock = self->custom_clock ? H263RPS_CUSTOM_CLOCK : H263RPS_STANDARD_CLOCK;
  self->params.target = target_of (self);
  GST_OBJECT_UNLOCK (self);
}

static void
begin_record (GstH263RpsSend * self)
{
  GError * error = NULL;
  gchar * folder;

  GST_OBJECT_LOCK (self);
  folder = g_strdup (self->record_location);
  GST_OBJECT_UNLOCK (self);
  if (!folder)
    return;
  if (self->receivers.most > 1) {
    GST_ELEMENT_WARNING (self, RESOURCE, SETTINGS,
        ("A call with several receivers isn't recorded."), (NULL));
    g_free (folder);
    return;
  }

  self->record = gst_h263rps_record_new ("send", folder, ++self->recorded, &error);
  if (!self->record) {
    GST_ELEMENT_WARNING (self, RESOURCE, OPEN_WRITE, ("%s", error->message), (NULL));
    g_clear_error (&error);
  }
  g_free (folder);
  gst_h263rps_record_head (self->record, self->info.width, self->info.height, self->info.fps_n,
      self->info.fps_d);
}

/* A disk that fills up ends the recording, once, and not the call. */
static void
check_record (GstH263RpsSend * self)
{
  gint fault = gst_h263rps_record_fault (self->record);

  if (!fault)
    return;
  GST_ELEMENT_WARNING (self, RESOURCE, WRITE, ("The recording ends here: %s.", g_strerror (fault)),
      (NULL));
  g_clear_pointer (&self->record, gst_h263rps_record_free);
}

/* Once the first picture's packets have gone out: the base class numbers them. */
static void
record_facts (GstH263RpsSend * self, guint packets)
{
  guint last, first;

  g_object_get (self, "seqnum", &last, "timestamp", &first, NULL);
  gst_h263rps_record_facts (self->record,
      "\"format\": \"%s\", \"rate\": \"%d/%d\", "
      "\"clock\": \"%s\", \"target\": %u, \"quant\": %u, \"radius\": %u, \"limit\": %u, "
      "\"slots\": %u, \"lead\": %u, \"source\": %u, \"first_sequence\": %u, \"first_time\": %u",
      gst_h263rps_format_name (self->params.format), self->info.fps_n, self->info.fps_d,
      self->params.clock ? "custom" : "standard", self->params.target, self->params.quant,
      self->params.radius, self->params.limit, self->params.slots, self->params.lead,
      GST_RTP_BASE_PAYLOAD (self)->current_ssrc, (guint) (guint16) (last - packets + 1), first);
}

static gboolean
begin_run (GstH263RpsSend * self)
{
  guint32 status, fault = 0;
  guint most, format = gst_h263rps_format_of_size (self->info.width, self->info.height);
  gint64 in_time;

  finish_run (self);
  read_params (self, format);
  status = h263rps_group_start (&self->group, &self->params, &fault);
  if (status != H263RPS_OK) {
    GST_ELEMENT_ERROR (self, LIBRARY, SETTINGS, ("%s", h263rps_status_text (status)),
        ("parameter %u, slots %u, lead %u", fault, self->params.slots, self->params.lead));
    return FALSE;
  }
  /* No receiver with this window waits longer for a picture. */
  in_time = gst_util_uint64_scale (G_USEC_PER_SEC * (self->params.lead + 2), self->info.fps_d,
      self->info.fps_n);
  if (!gst_h263rps_repeater_begin (self->repeater, self->params.limit + EXTENSIONS, in_time))
    GST_WARNING_OBJECT (self, "there is no memory for repeats");
  self->size = h263rps_picture_size (format);
  self->packed = g_malloc (self->size);
  self->run_at = g_get_monotonic_time ();
  GST_OBJECT_LOCK (self);
  most = self->max_receivers;
  GST_OBJECT_UNLOCK (self);

  g_mutex_lock (&self->lock);
  self->waiting_count = 0;
  gst_h263rps_receivers_begin (&self->receivers, most);
  self->trip = GST_CLOCK_TIME_NONE;
  self->next = 0;
  self->most = 0;
  self->picture_at = 0;
  self->begun_at = self->counts.runs > 0 ? g_get_monotonic_time () : 0;
  self->counts.runs++;
  self->begun = self->counts;
  g_mutex_unlock (&self->lock);
  begin_record (self);
  return TRUE;
}

/* The parameters of RFC 4629, 8.1, and of RFC 4585, 4.2, as they stand in SDP; and what a receiver
 * of ours has to know besides. */
static gboolean
set_outcaps (GstH263RpsSend * self)
{
  static const gchar * const sizes[] = { NULL, "sqcif", "qcif", "cif" };
  GstRTPBasePayload * payload = GST_RTP_BASE_PAYLOAD (self);
  gchar rate[G_ASCII_DTOSTR_BUF_SIZE];
  gchar * slots = g_strdup_printf ("%u", self->params.slots);
  gchar * lead = g_strdup_printf ("%u", self->params.lead);
  gboolean result, repair;

  GST_OBJECT_LOCK (self);
  repair = self->repair;
  GST_OBJECT_UNLOCK (self);
  g_ascii_formatd (rate, sizeof rate, "%.6g", (gdouble) self->info.fps_n / self->info.fps_d);
  gst_rtp_base_payload_set_options (payload, "video", TRUE, "H263-2000", 90000);
  result = gst_rtp_base_payload_set_outcaps (payload, sizes[self->params.format], G_TYPE_STRING,
      "1", "k", G_TYPE_STRING, "1", "n", G_TYPE_STRING, "4", "x-slots", G_TYPE_STRING, slots,
      "x-lead", G_TYPE_STRING, lead, "a-framerate", G_TYPE_STRING, rate, "rtcp-fb-ack-rpsi",
      G_TYPE_BOOLEAN, TRUE, "rtcp-fb-nack-rpsi", G_TYPE_BOOLEAN, TRUE, "rtcp-fb-nack-pli",
      G_TYPE_BOOLEAN, TRUE, "rtcp-fb-nack", G_TYPE_BOOLEAN, repair, NULL);
  g_free (slots);
  g_free (lead);
  return result;
}

/* Whether what is said of the stream goes out at rtcp_src. */
static gboolean
has_reports (GstH263RpsSend * self)
{
  gboolean has_session;

  GST_OBJECT_LOCK (self);
  has_session = self->session != NULL;
  GST_OBJECT_UNLOCK (self);
  return gst_pad_is_linked (self->rtcp_srcpad) && !has_session;
}

static void
push_rtcp (GstH263RpsSend * self, GstBuffer * buffer)
{
  if (!self->is_rtcp_begun)
    gst_h263rps_rtcp_begin (self->rtcp_srcpad);
  self->is_rtcp_begun = TRUE;
  gst_pad_push (self->rtcp_srcpad, buffer);
}

/* The stream has ended: its receiver needn't wait for more. */
static void
say_bye (GstH263RpsSend * self)
{
  if (self->group.kind && has_reports (self))
    push_rtcp (self, gst_h263rps_rtcp_new_bye (GST_RTP_BASE_PAYLOAD (self)->current_ssrc));
}

/* A sender that starts anew counts from 0: a new SSRC says so. */
static gboolean
begin_anew (GstH263RpsSend * self)
{
  say_bye (self);
  if (!begin_run (self))
    return FALSE;
  GST_RTP_BASE_PAYLOAD (self)->current_ssrc = g_random_int ();
  return set_outcaps (self);
}

static gboolean
gst_h263rps_send_set_caps (GstRTPBasePayload * payload, GstCaps * caps)
{
  GstH263RpsSend * self = GST_H263RPS_SEND (payload);
  GstVideoInfo info;
  gboolean is_same;

  if (!gst_video_info_from_caps (&info, caps) || info.fps_n <= 0
      || gst_h263rps_format_of_size (info.width, info.height) == 0)
    return FALSE;

  is_same = self->group.kind && info.width == self->info.width && info.height == self->info.height;
  if (is_same) {
    /* Another rate: the same run, with another target. */
    self->info = info;
    return set_outcaps (self);
  }
  self->info = info;
  if (self->group.kind)
    return begin_anew (self);
  return begin_run (self) && set_outcaps (self);
}

/* ---- what comes back ---- */

/* Under the lock: what the one that had this place said doesn't count. */
static void
drop_messages (GstH263RpsSend * self, guint place)
{
  guint kept = 0, i;

  for (i = 0; i < self->waiting_count; i++)
    if (self->said_by[i] != place) {
      self->waiting[kept] = self->waiting[i];
      self->said_by[kept++] = self->said_by[i];
    }
  self->waiting_count = kept;
}

/* The place of this speaker, or -1 where what it says doesn't count: others were heard lately who have all
 * places. A new one hasn't the pictures that another acknowledged. Under the lock. */
static gint
place_of_speaker (GstH263RpsSend * self, guint32 speaker)
{
  gboolean is_other;
  gint place = gst_h263rps_receivers_hear (&self->receivers, speaker, g_get_monotonic_time (),
      &is_other);
  h263rps_line * line;

  if (place < 0) {
    self->counts.other_speaker++;
    return place;
  }
  if (is_other)
    drop_messages (self, place);
  line = &self->receivers.places[place].line;
  if (self->adapts && line->end.kind == 0)
    begin_line (self, line);
  return place;
}

/* Under the lock: for the next picture, and for the line at once. */
static void
keep_message (GstH263RpsSend * self, guint place, const h263rps_message * message)
{
  note_told (self, place, message);
  self->unheard_at = GST_CLOCK_TIME_NONE;
  if (self->waiting_count < MOST_WAITING) {
    self->said_by[self->waiting_count] = place;
    self->waiting[self->waiting_count++] = *message;
  } else
    self->counts.dropped++;
}

static void
hear_message (GstH263RpsSend * self, guint32 speaker, guint32 about,
    const h263rps_message * message)
{
  gint place;

  g_mutex_lock (&self->lock);
  if (about != self->ssrc)
    self->counts.stale++;
  else if ((place = place_of_speaker (self, speaker)) >= 0)
    keep_message (self, place, message);
  g_mutex_unlock (&self->lock);
}

/* An intra picture is asked for, by who speaks so, or for all. Asked for too often none would be predicted
 * any more. */
static void
ask_for_intra (GstH263RpsSend * self, gboolean is_for_all, guint32 speaker)
{
  gint place;
  gint64 now = g_get_monotonic_time (), least;

  GST_OBJECT_LOCK (self);
  least = self->min_force_key_unit_interval / 1000;
  GST_OBJECT_UNLOCK (self);

  g_mutex_lock (&self->lock);
  if (self->intra_at != 0 && now - self->intra_at < least)
    self->counts.intra_refused++;
  else {
    self->counts.intra_asked++;
    place = is_for_all ? -1 : gst_h263rps_receivers_find (&self->receivers, speaker);
    gst_h263rps_receivers_forget (&self->receivers, place);
    self->intra_at = now;
  }
  g_mutex_unlock (&self->lock);
}

/* Under the lock: whether what this speaker says of a stream counts, be it no message. */
static gboolean
counts_speaker (GstH263RpsSend * self, guint32 speaker, guint32 about)
{
  gboolean counts = about == self->ssrc
      && gst_h263rps_receivers_counts (&self->receivers, speaker, g_get_monotonic_time ());

  if (about != self->ssrc)
    self->counts.stale++;
  else if (!counts)
    self->counts.other_speaker++;
  return counts;
}

/* Under the lock: the receiver that speaks so, or the only place. */
static GstH263RpsReceiver *
receiver_of (GstH263RpsSend * self, guint32 speaker)
{
  return &self->receivers.places[MAX (gst_h263rps_receivers_find (&self->receivers, speaker), 0)];
}

static void
hear_picture_loss (GstH263RpsSend * self, guint32 speaker, guint32 about)
{
  gboolean counts;

  g_mutex_lock (&self->lock);
  counts = counts_speaker (self, speaker, about);
  g_mutex_unlock (&self->lock);
  if (counts)
    ask_for_intra (self, FALSE, speaker);
}

/* A request that is repeated has its number, and is answered once. */
static void
hear_full_intra (GstH263RpsSend * self, guint32 speaker, const guint8 * fci, gsize length)
{
  guint8 number;
  gboolean counts = FALSE;

  g_mutex_lock (&self->lock);
  if (gst_h263rps_rtcp_read_fir (fci, length, self->ssrc, &number)
      && counts_speaker (self, speaker, self->ssrc)) {
    GstH263RpsReceiver * receiver = receiver_of (self, speaker);

    counts = !receiver->has_fir || number != receiver->fir;
    receiver->has_fir = TRUE;
    receiver->fir = number;
  }
  g_mutex_unlock (&self->lock);
  if (counts)
    ask_for_intra (self, FALSE, speaker);
}

static void
hear_feedback (GstH263RpsSend * self, guint type, guint32 speaker, guint32 about,
    const guint8 * fci, gsize length)
{
  h263rps_message message;

  if (type == GST_RTCP_PSFB_TYPE_PLI)
    hear_picture_loss (self, speaker, about);
  else if (type == GST_RTCP_PSFB_TYPE_FIR)
    hear_full_intra (self, speaker, fci, length);
  else if (type == GST_RTCP_PSFB_TYPE_RPSI) {
    if (gst_h263rps_rtcp_read_fci (&message, fci, length))
      hear_message (self, speaker, about, &message);
    else {
      g_mutex_lock (&self->lock);
      self->counts.malformed++;
      g_mutex_unlock (&self->lock);
    }
  }
}

/* How the stream arrives, by a report of who hears it. */
static void
hear_report (GstH263RpsSend * self, GstRTCPPacket * packet)
{
  GstH263RpsBlock block;
  GstClockTime round_trip;
  guint32 speaker;

  g_mutex_lock (&self->lock);
  if (gst_h263rps_rtcp_read_block (packet, self->ssrc, &speaker, &block)
      && counts_speaker (self, speaker, self->ssrc)) {
    GstH263RpsReceiver * receiver = receiver_of (self, speaker);

    receiver->has_block = TRUE;
    receiver->block = block;
    round_trip = gst_h263rps_round_trip (gst_h263rps_ntp_now (), &block);
    if (GST_CLOCK_TIME_IS_VALID (round_trip))
      receiver->round_trip = round_trip;
  }
  g_mutex_unlock (&self->lock);
}

/* Who say goodbye leave. */
static void
hear_byes (GstH263RpsSend * self, GstRTCPPacket * packet)
{
  guint i;

  g_mutex_lock (&self->lock);
  for (i = 0; i < gst_rtcp_packet_bye_get_ssrc_count (packet); i++)
    gst_h263rps_receivers_bye (&self->receivers, gst_rtcp_packet_bye_get_nth_ssrc (packet, i),
        g_get_monotonic_time ());
  g_mutex_unlock (&self->lock);
}

/* Without the lock: whether packets may be repeated. A full line isn't made fuller; where a repeat would
 * end the call that is told once. */
static gboolean
may_repeat (GstH263RpsSend * self)
{
  gboolean repair, is_closed, is_told;

  GST_OBJECT_LOCK (self);
  repair = self->repair;
  GST_OBJECT_UNLOCK (self);
  g_mutex_lock (&self->lock);
  repair = repair && line_has_room (self, monotonic_time ());
  g_mutex_unlock (&self->lock);
  if (!repair || gst_h263rps_repeater_may (self->repeater, &is_closed))
    return repair;
  if (!is_closed)
    return FALSE;
  g_mutex_lock (&self->lock);
  is_told = self->is_closed_told;
  self->is_closed_told = TRUE;
  g_mutex_unlock (&self->lock);
  if (!is_told)
    GST_ELEMENT_WARNING (self, RESOURCE, SETTINGS,
        ("No lost packet is sent again: srtpenc's allow-repeat-tx is false."), (NULL));
  return FALSE;
}

/* Packets are asked for, of which so many more are looked for. */
static void
hear_missing (GstH263RpsSend * self, guint32 speaker, guint32 about, const guint8 * fci,
    gsize length, guint * left)
{
  gboolean counts;
  guint16 sequence;
  gsize at = 0;

  g_mutex_lock (&self->lock);
  counts = counts_speaker (self, speaker, about);
  g_mutex_unlock (&self->lock);
  if (!counts || !may_repeat (self))
    return;
  for (; *left > 0 && gst_h263rps_rtcp_next_asked (fci, length, &at, &sequence); --*left)
    gst_h263rps_repeater_ask (self->repeater, sequence);
}

static void
hear_packets (GstH263RpsSend * self, GstRTCPBuffer * rtcp)
{
  GstRTCPPacket packet;
  guint left = MOST_ASKED;
  gboolean more;

  for (more = gst_rtcp_buffer_get_first_packet (rtcp, &packet); more;
       more = gst_rtcp_packet_move_to_next (&packet)) {
    if (gst_rtcp_packet_get_type (&packet) == GST_RTCP_TYPE_RTPFB) {
      if (gst_rtcp_packet_fb_get_type (&packet) == GST_RTCP_RTPFB_TYPE_NACK)
        hear_missing (self, gst_rtcp_packet_fb_get_sender_ssrc (&packet),
            gst_rtcp_packet_fb_get_media_ssrc (&packet), gst_rtcp_packet_fb_get_fci (&packet),
            4 * gst_rtcp_packet_fb_get_fci_length (&packet), &left);
      continue;
    }
    if (gst_rtcp_packet_get_type (&packet) == GST_RTCP_TYPE_BYE)
      hear_byes (self, &packet);
    if (gst_rtcp_packet_get_type (&packet) != GST_RTCP_TYPE_PSFB) {
      hear_report (self, &packet);
      continue;
    }
    hear_feedback (self, gst_rtcp_packet_fb_get_type (&packet),
        gst_rtcp_packet_fb_get_sender_ssrc (&packet), gst_rtcp_packet_fb_get_media_ssrc (&packet),
        gst_rtcp_packet_fb_get_fci (&packet), 4 * gst_rtcp_packet_fb_get_fci_length (&packet));
  }
}

static GstFlowReturn
gst_h263rps_send_rtcp_chain (GstPad * pad, GstObject * parent, GstBuffer * buffer)
{
  GstH263RpsSend * self = GST_H263RPS_SEND (parent);
  GstRTCPBuffer rtcp = GST_RTCP_BUFFER_INIT;

  if (gst_buffer_get_size (buffer) > 0 && gst_rtcp_buffer_validate_reduced (buffer)
      && gst_rtcp_buffer_map (buffer, GST_MAP_READ, &rtcp)) {
    hear_packets (self, &rtcp);
    gst_rtcp_buffer_unmap (&rtcp);
  } else {
    g_mutex_lock (&self->lock);
    self->counts.malformed++;
    g_mutex_unlock (&self->lock);
  }
  gst_buffer_unref (buffer);
  return GST_FLOW_OK;
}

/* Nothing that is said of the back channel concerns the stream. */
static gboolean
gst_h263rps_send_rtcp_event (GstPad * pad, GstObject * parent, GstEvent * event)
{
  gst_event_unref (event);
  return TRUE;
}

/* A picture loss indication comes by the session's own GstForceKeyUnit. */
static void
on_feedback_rtcp (GObject * session, guint type, guint fbtype, guint speaker, guint about,
    GstBuffer * fci, GstH263RpsSend * self)
{
  gboolean is_nack = type == GST_RTCP_TYPE_RTPFB && fbtype == GST_RTCP_RTPFB_TYPE_NACK;
  guint left = MOST_ASKED;
  GstMapInfo map;

  if (!is_nack && (type != GST_RTCP_TYPE_PSFB || fbtype != GST_RTCP_PSFB_TYPE_RPSI))
    return;
  if (!fci || !gst_buffer_map (fci, &map, GST_MAP_READ))
    return;
  if (is_nack)
    hear_missing (self, speaker, about, map.data, map.size, &left);
  else
    hear_feedback (self, fbtype, speaker, about, map.data, map.size);
  gst_buffer_unmap (fci, &map);
}

/* ---- headers ---- */

/* Under the lock: whether the next picture is as near as the one before says. */
static gboolean
is_soon (GstH263RpsSend * self)
{
  gint64 period = gst_util_uint64_scale (G_USEC_PER_SEC, self->info.fps_d,
      MAX (self->info.fps_n, 1));
  gint64 away = self->picture_at + period - g_get_monotonic_time ();

  return self->picture_at != 0 && away <= SOON && away >= -LATE;
}

/**
 * gst_h263rps_send_carry:
 * @self: the sender of a party
 * @message: what its receiver says
 * @clock: the picture clock of the stream that the message is about
 *
 * The header of the next picture carries the message, where both streams have the same clock, and of
 * more than four the last ones. One that may have several receivers carries none.
 *
 * Returns: whether that is soon enough
 */
gboolean
gst_h263rps_send_carry (GstH263RpsSend * self, const h263rps_message * message, guint clock)
{
  gboolean is_carried, is_full, soon;

  g_mutex_lock (&self->lock);
  is_carried = clock == self->params.clock && self->receivers.most <= 1;
  is_full = self->carried_count == MOST_CARRIED;
  soon = is_soon (self);
  if (is_carried && is_full && !soon)
    memmove (self->carried, self->carried + 1, --self->carried_count * sizeof *self->carried);
  if (is_carried && self->carried_count < MOST_CARRIED)
    self->carried[self->carried_count++] = *message;
  g_mutex_unlock (&self->lock);
  return is_carried && soon && !is_full;
}

/* What the next picture's header carries. A record has no place for it. */
static guint
take_carried (GstH263RpsSend * self, h263rps_message * messages)
{
  guint count;

  g_mutex_lock (&self->lock);
  count = self->record ? 0 : self->carried_count;
  memcpy (messages, self->carried, count * sizeof *messages);
  self->carried_count = 0;
  self->counts.carried += count;
  self->picture_at = self->record ? 0 : g_get_monotonic_time ();
  g_mutex_unlock (&self->lock);
  return count;
}

/**
 * gst_h263rps_send_hear:
 * @self: the sender of a party
 * @messages: those in the header of the other party's picture
 * @count: how many
 *
 * They are what the other receiver says, whoever speaks for it by RTCP. Of several receivers nobody knows
 * which one.
 */
void
gst_h263rps_send_hear (GstH263RpsSend * self, const h263rps_message * messages, guint count)
{
  guint i;

  g_mutex_lock (&self->lock);
  if ((self->begun_at != 0 && g_get_monotonic_time () - self->begun_at < ANOTHER)
      || self->receivers.most != 1)
    count = 0;
  for (i = 0; i < count; i++)
    keep_message (self, 0, &messages[i]);
  g_mutex_unlock (&self->lock);
}

/* Receivers come and go before a picture, since the group takes one call at a time; a recorded one forgets. */
static void
move_receivers (GstH263RpsSend * self)
{
  guint32 anew, gone, coded = 0;
  guint i;

  g_mutex_lock (&self->lock);
  anew = self->receivers.anew;
  gone = self->receivers.gone;
  self->receivers.anew = self->receivers.gone = 0;
  g_mutex_unlock (&self->lock);
  for (i = 0; i < H263RPS_PLACES; i++) {
    if (gone >> i & 1)
      h263rps_group_leave (&self->group, i);
    if (anew >> i & 1)
      h263rps_group_join (&self->group, i);
  }
  h263rps_group_sent (&self->group, &coded);
  if (anew && coded > 0)
    gst_h263rps_record_line (self->record, GST_H263RPS_RECORD_STEPS, "%u forget 0", coded);
}

/* The streaming thread hands over what came back before each picture. */
static void
tell_messages (GstH263RpsSend * self)
{
  h263rps_message waiting[MOST_WAITING];
  guint8 said_by[MOST_WAITING];
  guint32 heard = 0;
  guint count, noted = 0, old = 0, malformed = 0, i;

  g_mutex_lock (&self->lock);
  count = self->waiting_count;
  memcpy (waiting, self->waiting, count * sizeof *waiting);
  memcpy (said_by, self->said_by, count * sizeof *said_by);
  self->waiting_count = 0;
  self->ssrc = GST_RTP_BASE_PAYLOAD (self)->current_ssrc;
  g_mutex_unlock (&self->lock);

  for (i = 0; i < count; i++) {
    h263rps_reply reply;

    if (h263rps_group_feedback (&self->group, said_by[i], waiting[i].bytes, waiting[i].length,
            &reply))
      continue;
    gst_h263rps_record_entry (self->record, GST_H263RPS_RECORD_LOG, 'B', waiting[i].bytes,
        waiting[i].length, running_time (self));
    noted += reply.kind == H263RPS_NOTED;
    heard |= (guint32) (reply.kind == H263RPS_NOTED) << said_by[i];
    old += reply.kind == H263RPS_OLD;
    malformed += reply.kind == H263RPS_NO_MESSAGE;
  }

  g_mutex_lock (&self->lock);
  for (i = 0; i < self->receivers.most; i++)
    if (heard >> i & 1)
      self->receivers.places[i].heard = g_get_monotonic_time ();
  if (noted)
    self->run_at = 0;
  self->counts.noted += noted;
  self->counts.old += old;
  self->counts.malformed += malformed;
  g_mutex_unlock (&self->lock);
}

/* A new target. */
static void
steer (GstH263RpsSend * self, guint target)
{
  guint coded = 0;

  GST_OBJECT_LOCK (self);
  gst_h263rps_repeater_limit (self->repeater, self->bitrate / 8 / AT_ONCE);
  GST_OBJECT_UNLOCK (self);
  if (target == self->params.target)
    return;
  h263rps_group_sent (&self->group, &coded);
  self->params.target = target;
  h263rps_group_target (&self->group, target);
  gst_h263rps_record_line (self->record, GST_H263RPS_RECORD_STEPS, "%u target %u", coded, target);
}

/* ---- pictures ---- */

/* Whether the planes lie as the library wants them: one after another, with no gaps. */
static gboolean
is_packed (GstVideoFrame * frame)
{
  const guint8 * next = GST_VIDEO_FRAME_COMP_DATA (frame, 0);
  guint c;

  for (c = 0; c < 3; c++) {
    if (GST_VIDEO_FRAME_COMP_DATA (frame, c) != next
        || GST_VIDEO_FRAME_COMP_STRIDE (frame, c) != GST_VIDEO_FRAME_COMP_WIDTH (frame, c))
      return FALSE;
    next += GST_VIDEO_FRAME_COMP_WIDTH (frame, c) * GST_VIDEO_FRAME_COMP_HEIGHT (frame, c);
  }
  return TRUE;
}

static const guint8 *
packed_samples (GstH263RpsSend * self, GstVideoFrame * frame)
{
  guint8 * to = self->packed;
  guint c;
  gint y;

  if (is_packed (frame))
    return GST_VIDEO_FRAME_COMP_DATA (frame, 0);
  for (c = 0; c < 3; c++) {
    const guint8 * from = GST_VIDEO_FRAME_COMP_DATA (frame, c);

    for (y = 0; y < GST_VIDEO_FRAME_COMP_HEIGHT (frame, c); y++) {
      memcpy (to, from, GST_VIDEO_FRAME_COMP_WIDTH (frame, c));
      to += GST_VIDEO_FRAME_COMP_WIDTH (frame, c);
      from += GST_VIDEO_FRAME_COMP_STRIDE (frame, c);
    }
  }
  return self->packed;
}

static guint32
code_picture (GstH263RpsSend * self, GstVideoFrame * frame, h263rps_coded * coded)
{
  const guint8 * samples = packed_samples (self, frame);
  h263rps_message carried[MOST_CARRIED];
  guint count = take_carried (self, carried);
  guint32 status;

  status = h263rps_group_code (&self->group, samples, self->size, carried, count, coded);
  if (status == H263RPS_BAD_MESSAGES)
    status = h263rps_group_code (&self->group, samples, self->size, NULL, 0, coded);
  if (status != H263RPS_OK)
    return status;
  gst_h263rps_record_entry (self->record, GST_H263RPS_RECORD_LOG, 'S', NULL, 0,
      running_time (self));
  gst_h263rps_record_frame (self->record, NULL, samples, self->size, GST_CLOCK_TIME_NONE);
  if (coded->intra)
    gst_h263rps_record_line (self->record, GST_H263RPS_RECORD_REPORT, "%u intra", coded->number);
  else
    gst_h263rps_record_line (self->record, GST_H263RPS_RECORD_REPORT, "%u from %u", coded->number,
        coded->reference);
  return status;
}

static GstBufferList *
packets_of (GstH263RpsSend * self, const h263rps_coded * coded, GstBuffer * picture,
    guint64 * bytes)
{
  GstBufferList * list = gst_buffer_list_new_sized (coded->packets);
  guint i;

  *bytes = 0;
  for (i = 0; i < coded->packets; i++) {
    GstBuffer * packet = gst_buffer_new_allocate (NULL, self->params.limit, NULL);
    GstMapInfo map;
    gsize count = 0;

    gst_buffer_map (packet, &map, GST_MAP_WRITE);
    h263rps_group_packet (&self->group, i, map.data, map.size, &count);
    gst_h263rps_record_entry (self->record, GST_H263RPS_RECORD_WIRE, 'K', map.data, count,
        running_time (self));
    gst_buffer_unmap (packet, &map);
    gst_buffer_set_size (packet, count);
    /* Not the offset: the base class would count RTP's time by it (perfect-rtptime). */
    GST_BUFFER_PTS (packet) = GST_BUFFER_PTS (picture);
    gst_buffer_list_add (list, packet);
    *bytes += count;
  }
  return list;
}

/* ---- reports ---- */

/* What has gone out, and the time now by the stream's timestamps, as an rtpsession counts it: from
 * those of the last picture on. */
static void
read_info (GstH263RpsSend * self, GstH263RpsSenderInfo * info, GstClockTime now,
    GstClockTime captured)
{
  guint timestamp;

  g_object_get (self, "timestamp", &timestamp, NULL);
  info->ssrc = GST_RTP_BASE_PAYLOAD (self)->current_ssrc;
  info->ntp = gst_h263rps_ntp_now ();
  info->rtp = timestamp
      + (now > captured ? gst_util_uint64_scale (now - captured, 90000, GST_SECOND) : 0);
  g_mutex_lock (&self->lock);
  info->packets = self->counts.packets - self->begun.packets;
  info->octets = self->counts.bytes - self->begun.bytes - RTP_HEADER * info->packets;
  g_mutex_unlock (&self->lock);
}

static void
send_report (GstH263RpsSend * self, GstClockTime now, GstClockTime captured)
{
  GstH263RpsSenderInfo info;
  GstBuffer * buffer;

  read_info (self, &info, now, captured);
  GST_OBJECT_LOCK (self);
  buffer = gst_h263rps_rtcp_new_sender_report (&info, self->cname);
  GST_OBJECT_UNLOCK (self);
  push_rtcp (self, buffer);
}

/* After a picture: a report where one is due. A session makes its own. */
static void
report_picture (GstH263RpsSend * self, GstClockTime pts)
{
  GstSegment * segment = &GST_RTP_BASE_PAYLOAD (self)->segment;
  GstClockTime now = running_time (self);
  GstClockTime captured = gst_segment_to_running_time (segment, GST_FORMAT_TIME, pts);

  if (!has_reports (self) || !GST_CLOCK_TIME_IS_VALID (captured))
    return;
  if (!GST_CLOCK_TIME_IS_VALID (now))
    now = captured;
  if (GST_CLOCK_TIME_IS_VALID (self->next_report) && now < self->next_report)
    return;
  send_report (self, now, captured);
  GST_OBJECT_LOCK (self);
  self->next_report = now + gst_h263rps_report_interval (self->bitrate);
  GST_OBJECT_UNLOCK (self);
}

/* Once in a run: what it means that nothing comes back. */
static void
tell_alone (GstH263RpsSend * self)
{
  if (self->run_at == 0 || g_get_monotonic_time () - self->run_at < ALONE)
    return;
  self->run_at = 0;
  GST_ELEMENT_WARNING (self, STREAM, ENCODE, ("No message comes back, so each picture is intra."),
      ("Is rtcp_sink linked, or session set? Does the other side select reference pictures "
       "(in SDP: ack rpsi, nack rpsi)?"));
}

static void
count_picture (GstH263RpsSend * self, const h263rps_coded * coded, guint64 bytes)
{
  guint32 waited = H263RPS_NOBODY;

  h263rps_group_waiting_for (&self->group, &waited);
  g_mutex_lock (&self->lock);
  self->counts.coded++;
  self->counts.intra += coded->intra;
  if (!coded->intra)
    self->counts.distance += coded->number - coded->reference;
  self->counts.packets += coded->packets;
  self->counts.bytes += bytes;
  note_sent (self, coded, bytes, waited);
  gst_h263rps_meter_add (&self->meter, monotonic_time (), bytes, 0, 0);
  g_mutex_unlock (&self->lock);
}

static GstFlowReturn
gst_h263rps_send_handle_buffer (GstRTPBasePayload * payload, GstBuffer * buffer)
{
  GstH263RpsSend * self = GST_H263RPS_SEND (payload);
  GstVideoFrame frame;
  GstBufferList * list;
  h263rps_coded coded;
  GstClockTime pts = GST_BUFFER_PTS (buffer);
  guint32 status;
  guint64 bytes;
  guint target;
  GstFlowReturn flow;

  if (!self->group.kind)
    goto not_negotiated;
  if (!has_room (self, &target)) {
    gst_buffer_unref (buffer);
    return GST_FLOW_OK;
  }
  if (!gst_video_frame_map (&frame, &self->info, buffer, GST_MAP_READ))
    goto no_frame;

  tell_messages (self);
  steer (self, target);
  move_receivers (self);
  status = code_picture (self, &frame, &coded);
  if (status == H263RPS_ENDED && begin_anew (self)) {
    tell_messages (self);
    move_receivers (self);
    status = code_picture (self, &frame, &coded);
  }
  gst_video_frame_unmap (&frame);
  if (status != H263RPS_OK)
    goto refused;

  list = packets_of (self, &coded, buffer, &bytes);
  count_picture (self, &coded, bytes);
  gst_buffer_unref (buffer);
  GST_LOG_OBJECT (self, "picture %u, %u packets, %" G_GUINT64_FORMAT " bytes, %s %u", coded.number,
      coded.packets, bytes, coded.intra ? "intra" : "from", coded.reference);
  gst_h263rps_repeater_lock (self->repeater);
  flow = gst_rtp_base_payload_push_list (payload, list);
  gst_h263rps_repeater_unlock (self->repeater);
  if (coded.number == 0 && self->record)
    record_facts (self, coded.packets);
  check_record (self);
  report_picture (self, pts);
  tell_alone (self);
  return flow;

not_negotiated:
  gst_buffer_unref (buffer);
  return GST_FLOW_NOT_NEGOTIATED;

no_frame:
  GST_ELEMENT_WARNING (self, STREAM, FORMAT, (NULL), ("a buffer is no picture of the caps"));
  gst_buffer_unref (buffer);
  return GST_FLOW_OK;

refused:
  GST_ELEMENT_ERROR (self, LIBRARY, FAILED, ("%s", h263rps_status_text (status)), (NULL));
  gst_buffer_unref (buffer);
  return GST_FLOW_ERROR;
}

/* ---- events ---- */

static gboolean
gst_h263rps_send_sink_event (GstRTPBasePayload * payload, GstEvent * event)
{
  GstH263RpsSend * self = GST_H263RPS_SEND (payload);

  if (gst_video_event_is_force_key_unit (event))
    ask_for_intra (self, TRUE, 0);
  if (GST_EVENT_TYPE (event) == GST_EVENT_EOS && gst_pad_is_linked (self->rtcp_srcpad)) {
    say_bye (self);
    if (!self->is_rtcp_begun)
      gst_h263rps_rtcp_begin (self->rtcp_srcpad);
    self->is_rtcp_begun = TRUE;
    gst_pad_push_event (self->rtcp_srcpad, gst_event_new_eos ());
  }
  return GST_RTP_BASE_PAYLOAD_CLASS (parent_class)->sink_event (payload, event);
}

/* A session, which has heard a NACK, asks for a packet of this stream. */
static gboolean
is_own_request (GstH263RpsSend * self, const GstStructure * structure, guint16 * sequence)
{
  guint ssrc = 0, number = 0;

  gst_structure_get_uint (structure, "ssrc", &ssrc);
  if (!gst_structure_get_uint (structure, "seqnum", &number)
      || ssrc != GST_RTP_BASE_PAYLOAD (self)->current_ssrc)
    return FALSE;
  *sequence = number;
  return TRUE;
}

static gboolean
gst_h263rps_send_src_event (GstRTPBasePayload * payload, GstEvent * event)
{
  GstH263RpsSend * self = GST_H263RPS_SEND (payload);
  const GstStructure * structure = gst_event_get_structure (event);
  guint16 sequence;

  if (gst_video_event_is_force_key_unit (event)) {
    ask_for_intra (self, TRUE, 0);
    gst_event_unref (event);
    return TRUE;
  }
  if (structure && gst_structure_has_name (structure, "GstRTPRetransmissionRequest")
      && is_own_request (self, structure, &sequence)) {
    if (may_repeat (self))
      gst_h263rps_repeater_ask (self->repeater, sequence);
    gst_event_unref (event);
    return TRUE;
  }
  /* The base class takes another SSRC, for which a receiver begins anew. */
  if (structure && gst_structure_has_name (structure, "GstRTPCollision")) {
    g_mutex_lock (&self->lock);
    gst_h263rps_receivers_forget (&self->receivers, -1);
    g_mutex_unlock (&self->lock);
  }
  return GST_RTP_BASE_PAYLOAD_CLASS (parent_class)->src_event (payload, event);
}

/* No query or event goes from the back channel to the stream, also where a call with itself closes
 * the loop. */
static GstIterator *
gst_h263rps_send_iterate_links (GstPad * pad, GstObject * parent)
{
  GstH263RpsSend * self = GST_H263RPS_SEND (parent);
  GstRTPBasePayload * payload = GST_RTP_BASE_PAYLOAD (self);
  GstPad * other;
  GstIterator * iterator;
  GValue value = G_VALUE_INIT;

  if (pad == self->rtcp_sinkpad || pad == self->rtcp_srcpad)
    return gst_iterator_new_single (GST_TYPE_PAD, NULL);
  other = pad == payload->sinkpad ? payload->srcpad : payload->sinkpad;
  g_value_init (&value, GST_TYPE_PAD);
  g_value_set_object (&value, other);
  iterator = gst_iterator_new_single (GST_TYPE_PAD, &value);
  g_value_unset (&value);
  return iterator;
}

/* ---- the object ---- */

static void
set_session (GstH263RpsSend * self, GObject * session)
{
  GObject * old;
  gulong old_handler;

  if (session) {
    if (g_signal_lookup ("on-feedback-rtcp", G_OBJECT_TYPE (session)) == 0) {
      GST_WARNING_OBJECT (self, "a %s is no session of RTP", G_OBJECT_TYPE_NAME (session));
      return;
    }
    g_object_ref (session);
  }
  GST_OBJECT_LOCK (self);
  old = self->session;
  old_handler = self->session_handler;
  self->session = session;
  self->session_handler = 0;
  GST_OBJECT_UNLOCK (self);

  if (old) {
    g_signal_handler_disconnect (old, old_handler);
    g_object_unref (old);
  }
  if (session)
    self->session_handler = g_signal_connect_object (session, "on-feedback-rtcp",
        G_CALLBACK (on_feedback_rtcp), self, 0);
}

static void
gst_h263rps_send_set_property (GObject * object, guint id, const GValue * value, GParamSpec * pspec)
{
  GstH263RpsSend * self = GST_H263RPS_SEND (object);

  if (id == PROP_SESSION) {
    set_session (self, g_value_get_object (value));
    return;
  }

  GST_OBJECT_LOCK (self);
  switch (id) {
    case PROP_BITRATE:
      self->bitrate = g_value_get_uint (value);
      break;
    case PROP_ADAPT:
      self->adapt = g_value_get_boolean (value);
      break;
    case PROP_QUANT:
      self->quant = g_value_get_uint (value);
      break;
    case PROP_RADIUS:
      self->radius = g_value_get_uint (value);
      break;
    case PROP_SLOTS:
      self->slots = g_value_get_uint (value);
      break;
    case PROP_LEAD:
      self->lead = g_value_get_uint (value);
      break;
    case PROP_CUSTOM_CLOCK:
      self->custom_clock = g_value_get_boolean (value);
      break;
    case PROP_REPAIR:
      self->repair = g_value_get_boolean (value);
      break;
    case PROP_MAX_RECEIVERS:
      self->max_receivers = g_value_get_uint (value);
      break;
    case PROP_MIN_FORCE_KEY_UNIT_INTERVAL:
      self->min_force_key_unit_interval = g_value_get_uint64 (value);
      break;
    case PROP_CNAME:
      g_free (self->cname);
      self->cname = g_value_dup_string (value);
      if (!self->cname)
        self->cname = gst_h263rps_rtcp_new_name ();
      break;
    case PROP_RECORD_LOCATION:
      g_free (self->record_location);
      self->record_location = g_value_dup_string (value);
      break;
    default:
      G_OBJECT_WARN_INVALID_PROPERTY_ID (object, id, pspec);
      break;
  }
  GST_OBJECT_UNLOCK (self);
}

/* Under the lock: the least rate of the lines, and the report of who loses most, or NULL. */
static GstH263RpsReceiver *
read_receivers (GstH263RpsSend * self, guint32 * rate)
{
  GstH263RpsReceiver * worst = NULL;
  guint i;

  for (i = 0; i < self->receivers.most; i++) {
    GstH263RpsReceiver * receiver = &self->receivers.places[i];
    guint32 least;

    if (!receiver->is_in)
      continue;
    if (h263rps_line_rate (&receiver->line, &least) == H263RPS_OK)
      *rate = MIN (*rate, least);
    if (receiver->has_block && (!worst || receiver->block.fraction > worst->block.fraction))
      worst = receiver;
  }
  return worst;
}

/* How the stream arrives, by the reports that came, or by those that the session heard. */
static void
add_reports (GstH263RpsSend * self, GstStructure * stats)
{
  GstH263RpsBlock block = { 0 };
  GstClockTime round_trip = GST_CLOCK_TIME_NONE, trip;
  GstH263RpsReceiver * worst;
  GObject * session;
  guint64 bitrate, joined, left;
  guint limit, count;
  guint32 rate = G_MAXUINT32;
  gboolean has_block;

  GST_OBJECT_LOCK (self);
  limit = self->bitrate;
  session = self->session ? g_object_ref (self->session) : NULL;
  GST_OBJECT_UNLOCK (self);
  g_mutex_lock (&self->lock);
  worst = read_receivers (self, &rate);
  has_block = worst != NULL;
  if (worst) {
    block = worst->block;
    round_trip = worst->round_trip;
  }
  count = gst_h263rps_receivers_count (&self->receivers);
  joined = self->receivers.joined;
  left = self->receivers.left;
  bitrate = gst_h263rps_meter_bitrate (&self->meter, monotonic_time ());
  trip = self->trip;
  if (rate == G_MAXUINT32)
    rate = limit / 8;
  g_mutex_unlock (&self->lock);
  if (session)
    has_block = gst_h263rps_session_block (session, GST_RTP_BASE_PAYLOAD (self)->current_ssrc,
        &block, &round_trip);
  g_clear_object (&session);
  if (!GST_CLOCK_TIME_IS_VALID (round_trip))
    round_trip = trip;
  gst_structure_set (stats, "bit-rate", G_TYPE_UINT64, bitrate, "target-bit-rate", G_TYPE_UINT64,
      8 * (guint64) rate, "round-trip", G_TYPE_UINT64, round_trip, "jitter", G_TYPE_UINT64,
      has_block ? gst_util_uint64_scale (block.jitter, GST_SECOND, 90000) : GST_CLOCK_TIME_NONE,
      "fraction-lost", G_TYPE_DOUBLE, has_block ? block.fraction / 256.0 : -1.0, "receivers",
      G_TYPE_UINT, count, "joined", G_TYPE_UINT64, joined, "left", G_TYPE_UINT64, left, NULL);
}

/* The base class's statistics and those of the call. */
static GstStructure *
create_stats (GstH263RpsSend * self)
{
  GParamSpec * pspec = g_object_class_find_property (G_OBJECT_CLASS (parent_class), "stats");
  GstStructure * stats;
  GValue value = G_VALUE_INIT;
  GstH263RpsRepeatCounts repeats;
  Counts counts;
  guint64 predicted;

  g_value_init (&value, GST_TYPE_STRUCTURE);
  G_OBJECT_CLASS (parent_class)->get_property (G_OBJECT (self), pspec->param_id, &value, pspec);
  stats = g_value_dup_boxed (&value);
  g_value_unset (&value);

  g_mutex_lock (&self->lock);
  counts = self->counts;
  g_mutex_unlock (&self->lock);
  gst_h263rps_repeater_counts (self->repeater, &repeats);
  predicted = counts.coded - counts.intra;
  gst_structure_set (stats, "coded", G_TYPE_UINT64, counts.coded, "intra", G_TYPE_UINT64,
      counts.intra, "packets", G_TYPE_UINT64, counts.packets, "bytes", G_TYPE_UINT64, counts.bytes,
      "mean-distance", G_TYPE_DOUBLE, predicted ? (gdouble) counts.distance / predicted : 0.0,
      "noted", G_TYPE_UINT64, counts.noted, "old", G_TYPE_UINT64, counts.old, "malformed",
      G_TYPE_UINT64, counts.malformed, "stale", G_TYPE_UINT64, counts.stale, "other-speaker",
      G_TYPE_UINT64, counts.other_speaker, "dropped", G_TYPE_UINT64, counts.dropped, "runs",
      G_TYPE_UINT64, counts.runs, "intra-asked", G_TYPE_UINT64, counts.intra_asked, "intra-refused",
      G_TYPE_UINT64, counts.intra_refused, "left-out", G_TYPE_UINT64, counts.left_out, "carried",
      G_TYPE_UINT64, counts.carried, "asked", G_TYPE_UINT64, repeats.asked, "repeated",
      G_TYPE_UINT64, repeats.repeated, "repeats-refused", G_TYPE_UINT64, repeats.refused, NULL);
  add_reports (self, stats);
  return stats;
}

static void
gst_h263rps_send_get_property (GObject * object, guint id, GValue * value, GParamSpec * pspec)
{
  GstH263RpsSend * self = GST_H263RPS_SEND (object);

  if (id == PROP_STATS) {
    g_value_take_boxed (value, create_stats (self));
    return;
  }

  GST_OBJECT_LOCK (self);
  switch (id) {
    case PROP_BITRATE:
      g_value_set_uint (value, self->bitrate);
      break;
    case PROP_ADAPT:
      g_value_set_boolean (value, self->adapt);
      break;
    case PROP_QUANT:
      g_value_set_uint (value, self->quant);
      break;
    case PROP_RADIUS:
      g_value_set_uint (value, self->radius);
      break;
    case PROP_SLOTS:
      g_value_set_uint (value, self->slots);
      break;
    case PROP_LEAD:
      g_value_set_uint (value, self->lead);
      break;
    case PROP_CUSTOM_CLOCK:
      g_value_set_boolean (value, self->custom_clock);
      break;
    case PROP_REPAIR:
      g_value_set_boolean (value, self->repair);
      break;
    case PROP_MAX_RECEIVERS:
      g_value_set_uint (value, self->max_receivers);
      break;
    case PROP_MIN_FORCE_KEY_UNIT_INTERVAL:
      g_value_set_uint64 (value, self->min_force_key_unit_interval);
      break;
    case PROP_SESSION:
      g_value_set_object (value, self->session);
      break;
    case PROP_CNAME:
      g_value_set_string (value, self->cname);
      break;
    case PROP_RECORD_LOCATION:
      g_value_set_string (value, self->record_location);
      break;
    default:
      G_OBJECT_WARN_INVALID_PROPERTY_ID (object, id, pspec);
      break;
  }
  GST_OBJECT_UNLOCK (self);
}

static GstStateChangeReturn
gst_h263rps_send_change_state (GstElement * element, GstStateChange transition)
{
  GstH263RpsSend * self = GST_H263RPS_SEND (element);
  GstStateChangeReturn result;

  if (transition == GST_STATE_CHANGE_READY_TO_PAUSED) {
    g_mutex_lock (&self->lock);
    memset (&self->counts, 0, sizeof self->counts);
    self->waiting_count = self->carried_count = 0;
    memset (&self->meter, 0, sizeof self->meter);
    self->intra_at = 0;
    gst_h263rps_receivers_clear (&self->receivers);
    self->adapts = FALSE;
    g_mutex_unlock (&self->lock);
    self->is_rtcp_begun = self->is_closed_told = FALSE;
    self->next_report = GST_CLOCK_TIME_NONE;
    gst_h263rps_repeater_start (self->repeater);
  }
  result = GST_ELEMENT_CLASS (parent_class)->change_state (element, transition);
  if (transition == GST_STATE_CHANGE_PAUSED_TO_READY) {
    gst_h263rps_repeater_stop (self->repeater);
    finish_run (self);
  }
  return result;
}

static void
gst_h263rps_send_dispose (GObject * object)
{
  set_session (GST_H263RPS_SEND (object), NULL);
  G_OBJECT_CLASS (parent_class)->dispose (object);
}

static void
gst_h263rps_send_finalize (GObject * object)
{
  GstH263RpsSend * self = GST_H263RPS_SEND (object);

  finish_run (self);
  gst_h263rps_receivers_clear (&self->receivers);
  gst_h263rps_repeater_free (self->repeater);
  g_free (self->cname);
  g_free (self->record_location);
  g_mutex_clear (&self->lock);
  G_OBJECT_CLASS (parent_class)->finalize (object);
}

static void
gst_h263rps_send_init (GstH263RpsSend * self)
{
  GstRTPBasePayload * payload = GST_RTP_BASE_PAYLOAD (self);

  self->bitrate = DEFAULT_BITRATE;
  self->adapt = DEFAULT_ADAPT;
  self->quant = DEFAULT_QUANT;
  self->radius = DEFAULT_RADIUS;
  self->slots = DEFAULT_SLOTS;
  self->lead = DEFAULT_LEAD;
  self->custom_clock = DEFAULT_CUSTOM_CLOCK;
  self->repair = DEFAULT_REPAIR;
  self->min_force_key_unit_interval = DEFAULT_MIN_FORCE_KEY_UNIT_INTERVAL;
  self->cname = gst_h263rps_rtcp_new_name ();
  self->max_receivers = DEFAULT_MAX_RECEIVERS;
  self->next_report = self->trip = self->unheard_at = GST_CLOCK_TIME_NONE;
  g_mutex_init (&self->lock);
  self->repeater = gst_h263rps_repeater_new (payload->srcpad);

  self->rtcp_sinkpad = gst_pad_new_from_static_template (&rtcp_sink_template, "rtcp_sink");
  gst_pad_set_chain_function (self->rtcp_sinkpad, gst_h263rps_send_rtcp_chain);
  gst_pad_set_event_function (self->rtcp_sinkpad, gst_h263rps_send_rtcp_event);
  gst_pad_set_iterate_internal_links_function (self->rtcp_sinkpad, gst_h263rps_send_iterate_links);
  gst_pad_set_iterate_internal_links_function (payload->sinkpad, gst_h263rps_send_iterate_links);
  gst_pad_set_iterate_internal_links_function (payload->srcpad, gst_h263rps_send_iterate_links);
  gst_element_add_pad (GST_ELEMENT (self), self->rtcp_sinkpad);

  self->rtcp_srcpad = gst_pad_new_from_static_template (&rtcp_src_template, "rtcp_src");
  gst_pad_set_query_function (self->rtcp_srcpad, gst_h263rps_rtcp_query);
  gst_pad_set_iterate_internal_links_function (self->rtcp_srcpad, gst_h263rps_send_iterate_links);
  gst_pad_use_fixed_caps (self->rtcp_srcpad);
  gst_element_add_pad (GST_ELEMENT (self), self->rtcp_srcpad);
}

static void
gst_h263rps_send_class_init (GstH263RpsSendClass * klass)
{
  GObjectClass * object_class = G_OBJECT_CLASS (klass);
  GstElementClass * element_class = GST_ELEMENT_CLASS (klass);
  GstRTPBasePayloadClass * payload_class = GST_RTP_BASE_PAYLOAD_CLASS (klass);
  const GParamFlags ready = G_PARAM_READWRITE | G_PARAM_STATIC_STRINGS | GST_PARAM_MUTABLE_READY;
  const GParamFlags playing = G_PARAM_READWRITE | G_PARAM_STATIC_STRINGS
      | GST_PARAM_MUTABLE_PLAYING;

  GST_DEBUG_CATEGORY_INIT (h263rpssend_debug, "h263rpssend", 0, "H.263 RPS sender");

  object_class->set_property = gst_h263rps_send_set_property;
  object_class->get_property = gst_h263rps_send_get_property;
  object_class->dispose = gst_h263rps_send_dispose;
  object_class->finalize = gst_h263rps_send_finalize;

  /**
   * GstH263RpsSend:bitrate:
   *
   * The most bits a second, with the heads of RTP; without #GstH263RpsSend:adapt what the coder aims
   * at. From the next picture on the quantiser follows it, by the sizes of the last 16 pictures.
   */
  g_object_class_install_property (object_class, PROP_BITRATE,
      g_param_spec_uint ("bitrate", "Bitrate",
          "The most bits a second, at which the coder aims without adapt", 1000, 100000000,
          DEFAULT_BITRATE, playing));
  /**
   * GstH263RpsSend:adapt:
   *
   * Whether the bit rate follows what the line carries, by the messages that come back (as Google's
   * congestion control does): up to #GstH263RpsSend:bitrate, down to a thirtieth of where it began.
   * Where the coarsest pictures are too much for the line pictures are left out; and where no message
   * comes back five a second go out after two seconds, and one after ten.
   */
  g_object_class_install_property (object_class, PROP_ADAPT,
      g_param_spec_boolean ("adapt", "Adapt", "Follow the bit rate that the line carries",
          DEFAULT_ADAPT, playing));
  /**
   * GstH263RpsSend:quant:
   *
   * The finest quantiser, and the first: 1 is fine, 31 coarse.
   */
  g_object_class_install_property (object_class, PROP_QUANT,
      g_param_spec_uint ("quant", "Quantiser", "The first and the finest quantiser", 1, 31,
          DEFAULT_QUANT, ready));
  /**
   * GstH263RpsSend:radius:
   *
   * How far the motion search goes from the samples' own place, each way.
   */
  g_object_class_install_property (object_class, PROP_RADIUS,
      g_param_spec_uint ("radius", "Radius", "Samples that the motion search goes, each way", 0, 15,
          DEFAULT_RADIUS, ready));
  /**
   * GstH263RpsSend:slots:
   *
   * Pictures that are kept. References may lie slots less lead less 1 pictures back, so they must
   * hold the round trip. A receiver needs as wide a window: the caps of the packets, and so the SDP,
   * tell it (x-slots).
   */
  g_object_class_install_property (object_class, PROP_SLOTS,
      g_param_spec_uint ("slots", "Slots", "Pictures that are kept", 2, 64, DEFAULT_SLOTS, ready));
  /**
   * GstH263RpsSend:lead:
   *
   * Pictures that may come before their turn, which the caps tell the receiver (x-lead). It takes a
   * greater lead of its own where its latency needs one.
   */
  g_object_class_install_property (object_class, PROP_LEAD,
      g_param_spec_uint ("lead", "Lead", "Pictures that may come before their turn", 0, 62,
          DEFAULT_LEAD, ready));
  /**
   * GstH263RpsSend:custom-clock:
   *
   * Whether temporal references have 10 bits (the custom picture clock) in place of 8. The packets
   * tell it.
   */
  g_object_class_install_property (object_class, PROP_CUSTOM_CLOCK,
      g_param_spec_boolean ("custom-clock", "Custom clock",
          "Number pictures by 10 bits in place of 8", DEFAULT_CUSTOM_CLOCK, ready));
  /**
   * GstH263RpsSend:repair:
   *
   * Whether a packet that a receiver asks for (Generic NACK, RFC 4585, 6.2.1, or a session's
   * GstRTPRetransmissionRequest) goes out again, as it was. Repeats have no more bytes than the stream.
   * A srtpenc after it must have allow-repeat-tx. An rtprtxsend repeats by a stream of its own (RFC
   * 4588), and this element then doesn't.
   */
  g_object_class_install_property (object_class, PROP_REPAIR,
      g_param_spec_boolean ("repair", "Repair", "Send packets again that are asked for",
          DEFAULT_REPAIR, playing));
  /**
   * GstH263RpsSend:max-receivers:
   *
   * Who speaks at rtcp_sink, or to the session, by an SSRC of its own is a receiver, up to so many. Each
   * picture refers to the newest one that all of them have, and the bit rate is the least that their lines
   * carry. One begins after three messages. It leaves by a BYE, and where in a second of pictures it says
   * nothing or is known to have none: then it joins again when it speaks, after a second, two, up to eight.
   * A place is free after a BYE, or half a second without a message. With more than one receiver headers
   * carry no messages, and nothing is recorded.
   */
  g_object_class_install_property (object_class, PROP_MAX_RECEIVERS,
      g_param_spec_uint ("max-receivers", "Maximum of receivers",
          "Receivers that pictures are coded for", 1, H263RPS_PLACES, DEFAULT_MAX_RECEIVERS,
          ready));
  /**
   * GstH263RpsSend:min-force-key-unit-interval:
   *
   * A request for an intra picture that comes sooner after another one is counted, and does nothing.
   */
  g_object_class_install_property (object_class, PROP_MIN_FORCE_KEY_UNIT_INTERVAL,
      g_param_spec_uint64 ("min-force-key-unit-interval", "Minimum force key unit interval",
          "Least time between intra pictures that are asked for, in nanoseconds", 0, G_MAXINT64,
          DEFAULT_MIN_FORCE_KEY_UNIT_INTERVAL, playing));
  /**
   * GstH263RpsSend:session:
   *
   * The inner session of an rtpsession (its internal-session), an rtpbin (get-internal-session) or
   * a webrtcbin, from which messages are heard, in place of the pad rtcp_sink.
   */
  g_object_class_install_property (object_class, PROP_SESSION,
      g_param_spec_object ("session", "Session", "An inner session of RTP that hears the messages",
          G_TYPE_OBJECT, playing));
  /**
   * GstH263RpsSend:cname:
   *
   * The canonical name of the sender reports at rtcp_src (RFC 3550, 6.5.1): streams of the same name
   * are played at the same time. Drawn at random by default.
   */
  g_object_class_install_property (object_class, PROP_CNAME,
      g_param_spec_string ("cname", "CNAME",
          "The canonical name of the sender reports (default == random)", NULL, ready));
  /**
   * GstH263RpsSend:record-location:
   *
   * A folder that gets what the end reads and writes, as `h263rps send` and the project's tools
   * read it.
   */
  g_object_class_install_property (object_class, PROP_RECORD_LOCATION,
      g_param_spec_string ("record-location", "Record location", "A folder to record the call in",
          NULL, ready));
  /**
   * GstH263RpsSend:stats:
   *
   * Those of the base class, and of this call: pictures "coded" and of them "intra", "packets",
   * "bytes", "mean-distance" to the reference in pictures; messages "noted", "old", "malformed",
   * "stale" (about another SSRC), of an "other-speaker", and "dropped" for want of room; "runs";
   * intra pictures "intra-asked" and "intra-refused" (too soon after another); packets "asked" for,
   * "repeated", and "repeats-refused" (the stream had too few bytes meanwhile); pictures "left-out"
   * for want of room on the line; messages of the receiver "carried" in headers; the line's
   * "target-bit-rate", with the heads of IP and UDP, and the "bit-rate" in the last second, in bits. By
   * the receiver's reports, or else its messages: "round-trip" in ns, %GST_CLOCK_TIME_NONE as long as
   * none came; by its reports "jitter" likewise and "fraction-lost", 0 to 1, or -1: of several receivers
   * those of who loses most. Of the "receivers" that pictures are coded for, how many "joined" and "left".
   */
  g_object_class_install_property (object_class, PROP_STATS,
      g_param_spec_boxed ("stats", "Statistics", "Counts of the call", GST_TYPE_STRUCTURE,
          G_PARAM_READABLE | G_PARAM_STATIC_STRINGS));

  element_class->change_state = gst_h263rps_send_change_state;
  gst_element_class_add_static_pad_template (element_class, &sink_template);
  gst_element_class_add_static_pad_template (element_class, &src_template);
  gst_element_class_add_static_pad_template (element_class, &rtcp_sink_template);
  gst_element_class_add_static_pad_template (element_class, &rtcp_src_template);
  gst_element_class_set_static_metadata (element_class, "H.263 RPS sender",
      "Codec/Encoder/Payloader/Network/RTP",
      "Codes video in H.263 from acknowledged reference pictures, as RTP packets (RFC 4629)",
      "Leuvasti maintainers <maintainers@users.noreply.leuvasti.example>");

  payload_class->set_caps = gst_h263rps_send_set_caps;
  payload_class->handle_buffer = gst_h263rps_send_handle_buffer;
  payload_class->sink_event = gst_h263rps_send_sink_event;
  payload_class->src_event = gst_h263rps_send_src_event;
}
