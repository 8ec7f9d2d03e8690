/**
 * SECTION:element-h263rpsrecv
 * @title: h263rpsrecv
 * @see_also: h263rpssend
 *
 * Hears the RTP packets of #GstH263RpsSend as they come, and gives a picture at each picture's
 * time: the sender's own (exact), one with what arrived (patched), or the one before (held).
 *
 * It is jitter buffer, depayloader and decoder in one. Packets are decoded and acknowledged on
 * arrival, and wait as pictures; so no rtpjitterbuffer belongs before it, but srtpdec, rtpsession
 * or the network itself. Each message goes out at the pad rtcp_src, or by the session of
 * #GstH263RpsRecv:session. Reports (RFC 3550) go out there, too, and come at rtcp_sink: by a
 * sender's each picture has the sender's time, as GstReferenceTimestampMeta (timestamp/x-ntp).
 * Packets that have it from an rtpjitterbuffer tell it, too. A BYE of the stream that is followed ends
 * it, and a missing packet that could come in time is asked for (#GstH263RpsRecv:repair).
 *
 * Each buffer has the custom meta GstH263RpsMeta, whose structure has "mark" (exact, patched or
 * held), "number" and "ssrc"; one that isn't exact has the flag %GST_BUFFER_FLAG_CORRUPTED.
 *
 * Which stream is followed, which picture a packet is of, and when a picture is played, is said by the
 * library's session (h263rps_session_start). Where another stream comes beside the one that is
 * followed, an element message says so each second: its structure is "h263rps-rival", with "ssrc" and
 * "rival", both guint. The first one is a warning, too.
 *
 * ## Example launch line
 * |[
 * gst-launch-1.0 udpsrc port=5004 \
 *     caps="application/x-rtp,media=video,clock-rate=90000,encoding-name=H263-2000,payload=96" \
 *     ! h263rpsrecv name=r ! videoconvert ! autovideosink \
 *     r.rtcp_src ! udpsink host=192.0.2.6 port=5005 sync=false async=false
 * ]| Shows what comes on port 5004, and answers to port 5005 of the other side.
 */
#ifdef HAVE_CONFIG_H
#include "config.h"
#endif

#include "gsth263rpsrecv.h"

#include <gst/rtp/rtp.h>
#include <gst/video/video.h>
#include <stdlib.h>
#include <string.h>

#include "gsth263rpscall.h"
#include "gsth263rpsrepair.h"
#include "gsth263rpsrtcp.h"
#include "gsth263rpssend.h"
#include "gsth263rpswindow.h"

GST_DEBUG_CATEGORY_STATIC (h263rpsrecv_debug);
#define GST_CAT_DEFAULT h263rpsrecv_debug

#define DEFAULT_LATENCY 100
#define DEFAULT_SLOTS 39
#define DEFAULT_LEAD 6
#define DEFAULT_MESSAGES 1
#define DEFAULT_REPAIR TRUE
/* As that of a payloader: one that is drawn at random. */
#define DEFAULT_SSRC G_MAXUINT32
/* The stream of any sender. */
#define DEFAULT_SENDER_SSRC G_MAXUINT32

/* A party whose headers carry messages hears those in others', for so long after one. */
#define HEADERS_LAST GST_SECOND
/* What is asked for is asked for again so much later: no later answer would come in time, and one of the
 * two may be lost. */
#define AGAIN (5 * GST_MSECOND)
/* An intra picture is asked for at most this often. */
#define ASK_INTERVAL (GST_SECOND / 2)
/* Pictures that wait for what comes after; of more, the oldest is dropped. */
#define MOST_OUT 8
/* The greatest offset of times, either way. */
#define MOST_OFFSET (10 * (gint64) GST_SECOND)
/* Messages that wait to be said; a further one is dropped. */
#define MOST_PENDING 256
/* Runs that are recorded: whoever is followed may begin runs, and mustn't fill a disk. */
#define MOST_RECORDED 16
/* The longest packet of UDP. */
#define ROOM 65536
/* Three formats, each with two clocks. */
#define CALLS 6
/* A rate of the library: so many pictures, in so many seconds. */
#define MOST_RATE 65536
#define MOST_SECONDS 4096
/* A picture is 12:11, as those of H.263 are. */
#define PAR_N 12
#define PAR_D 11

enum {
  PROP_0,
  PROP_LATENCY,
  PROP_SLOTS,
  PROP_LEAD,
  PROP_MESSAGES,
  PROP_REPAIR,
  PROP_SSRC,
  PROP_SENDER_SSRC,
  PROP_SESSION,
  PROP_SENDER,
  PROP_TS_OFFSET,
  PROP_CNAME,
  PROP_RECORD_LOCATION,
  PROP_STATS
};

typedef enum {
  SAY_MESSAGE,
  SAY_INTRA,  /* an intra picture is wanted */
  SAY_REPORT, /* how the stream arrives */
  SAY_MISSING /* these packets are wanted */
} Say;

/* What waits to be said. */
typedef struct {
  Say say;
  h263rps_message message;
  guint32 about;
  guint pt;
  gboolean is_carried; /* a message that the sender's next header may have */
  guint clock;         /* ..of a stream with this picture clock */
  GstH263RpsBlock block;
  h263rps_nack nack;
  guint round_trip;   /* ..in so many ms */
  GstClockTime again; /* when they are asked for a second time */
} Pending;

typedef struct {
  guint64 marks[3], heard[6], unshown;
  guint64 malformed, other_payload_type, other_format, other_source, ahead, too_fast, paused;
  guint64 said, session_refused, dropped_messages, intra_asked, runs, rivals;
  guint64 asked, repaired;
} Counts;

/* A packet that came, with what it says of itself. The element's room has its bytes, with the payload
 * type that the library knows. */
typedef struct {
  GstBuffer * buffer;
  gsize length;
  guint32 ssrc, timestamp;
  guint16 sequence;
  guint8 pt;
} Arrival;

struct _GstH263RpsRecv {
  GstElement parent;

  GstPad *sinkpad, *srcpad, *rtcp_srcpad, *rtcp_sinkpad;

  /* properties, under the object's lock */
  guint latency, slots, lead, messages, ssrc, sender_ssrc;
  gboolean repair;
  gint64 ts_offset;
  gchar *cname, *record_location;
  GObject * session;
  gulong session_handlers[2];
  GWeakRef sender;

  /* all below is under this lock */
  GMutex lock;
  GCond cond;
  gboolean is_flushing, is_playing, is_eos, is_clock_new;
  GstClockID clock_id;

  /* from the caps of the packets; -1 where they don't say, and of the payload type 0 */
  gint caps_slots, caps_lead;
  guint caps_pt;
  gint fps_n, fps_d;

  /* by format and clock, those of which something came; and the one whose pictures are shown */
  GstH263RpsCall *calls[CALLS], *shown;
  guint pt; /* the last packet's that was heard */
  guint8 * room;
  GstCaps * ntp_caps; /* of the sender's times */
  guint recorded;
  gchar * record_fault; /* what is to be told of the record, or NULL */
  guint32 call_fault;   /* why no session could be started, or 0 */
  gboolean is_call_fault_told;
  gboolean has_rival, is_rival_told;
  guint32 rivals[2]; /* the stream that is followed, and the other one */

  /* pictures, with new caps before them, for the task */
  GQueue out;
  GstCaps * new_caps;
  gboolean needs_stream_start, needs_segment;
  GstClockTime earliest; /* by QoS: a picture before it would come too late, or NONE */

  /* what is to be said, and what the session will take */
  Pending pending[MOST_PENDING];
  guint pending_count;
  GQueue session_queue, again;
  guint32 own_ssrc;
  GstClockTime asked;
  gboolean has_asked;

  Counts counts;
  GstH263RpsReception reception; /* of the stream that is followed */
  GstH263RpsRepair asking;       /* ..and what was asked for of it */
  gint header;             /* the temporal reference of the last header that was heard, or -1 */
  GstClockTime headers_at; /* when one had messages last, or NONE */
  GstClockTime next_report;
  GstH263RpsMeter meter; /* all pictures, and those that are exact */

  GMutex rtcp_lock; /* one push at a time on rtcp_src */
  gboolean is_rtcp_begun;
};

static GstStaticPadTemplate sink_template = GST_STATIC_PAD_TEMPLATE ("sink", GST_PAD_SINK,
    GST_PAD_ALWAYS, GST_STATIC_CAPS (GST_H263RPS_RTP_CAPS));

static GstStaticPadTemplate src_template = GST_STATIC_PAD_TEMPLATE ("src", GST_PAD_SRC,
    GST_PAD_ALWAYS,
    GST_STATIC_CAPS (
        "video/x-raw, format = (string) I420, "
        "width = (int) 128, height = (int) 96, framerate = (fraction) [ 1/1, 120/1 ]; "
        "video/x-raw, format = (string) I420, "
        "width = (int) 176, height = (int) 144, framerate = (fraction) [ 1/1, 120/1 ]; "
        "video/x-raw, format = (string) I420, "
        "width = (int) 352, height = (int) 288, framerate = (fraction) [ 1/1, 120/1 ]"));

static GstStaticPadTemplate rtcp_src_template = GST_STATIC_PAD_TEMPLATE ("rtcp_src", GST_PAD_SRC,
    GST_PAD_ALWAYS, GST_STATIC_CAPS ("application/x-rtcp"));

static GstStaticPadTemplate rtcp_sink_template = GST_STATIC_PAD_TEMPLATE ("rtcp_sink", GST_PAD_SINK,
    GST_PAD_ALWAYS, GST_STATIC_CAPS ("application/x-rtcp"));

#define gst_h263rps_recv_parent_class parent_class
G_DEFINE_TYPE (GstH263RpsRecv, gst_h263rps_recv, GST_TYPE_ELEMENT);
GST_ELEMENT_REGISTER_DEFINE (h263rpsrecv, "h263rpsrecv", GST_RANK_NONE, GST_TYPE_H263RPS_RECV);

/* ---- the clock ---- */

/* The time on the element's clock; the system's where it has none yet. */
static GstClockTime
clock_time (GstH263RpsRecv * self)
{
  GstClock * clock = gst_element_get_clock (GST_ELEMENT (self));
  GstClockTime now;

  if (!clock)
    clock = gst_system_clock_obtain ();
  now = gst_clock_get_time (clock);
  gst_object_unref (clock);
  return now;
}

static GstClockTime
running_time_of (GstH263RpsRecv * self, GstClockTime when)
{
  GstClockTime base = gst_element_get_base_time (GST_ELEMENT (self));

  return GST_CLOCK_TIME_IS_VALID (base) && when > base ? when - base : 0;
}

/* Under the lock: whoever waits looks again. */
static void
wake (GstH263RpsRecv * self)
{
  g_cond_broadcast (&self->cond);
  if (self->clock_id)
    gst_clock_id_unschedule (self->clock_id);
}

/* ---- messages ---- */

/* Under the lock: room for what is to be said once it is left, or NULL where too much waits. */
static Pending *
new_pending (GstH263RpsRecv * self, Say say, guint32 about)
{
  Pending * pending;

  if (self->pending_count == MOST_PENDING) {
    self->counts.dropped_messages++;
    return NULL;
  }
  pending = &self->pending[self->pending_count++];
  memset (pending, 0, sizeof *pending);
  pending->say = say;
  pending->about = about;
  pending->pt = self->pt;
  return pending;
}

/* Under the lock. A header tells what is said of the stream that is followed alone. */
static void
note_message (GstH263RpsRecv * self, guint32 about, const h263rps_message * message)
{
  Pending * pending = message->length ? new_pending (self, SAY_MESSAGE, about) : NULL;
  guint32 source;

  if (!pending)
    return;
  pending->message = *message;
  pending->is_carried = self->shown && gst_h263rps_call_followed (self->shown, &source)
      && source == about;
  pending->clock = self->shown ? self->shown->params.clock : 0;
}

/* Under the lock: an intra picture is wanted, as of a stream that was joined. */
static void
note_intra (GstH263RpsRecv * self, guint32 about, GstClockTime now)
{
  if (self->has_asked && now - self->asked < ASK_INTERVAL)
    return;
  self->has_asked = TRUE;
  self->asked = now;
  self->counts.intra_asked++;
  new_pending (self, SAY_INTRA, about);
}

/* Under the lock: these packets are missing, of the stream that is followed. */
static void
note_missing (GstH263RpsRecv * self, guint32 about, const h263rps_nack * nack,
    GstClockTime round_trip, GstClockTime now)
{
  Pending * pending = new_pending (self, SAY_MISSING, about);

  self->counts.asked += gst_h263rps_repair_ask (&self->asking, nack, now);
  if (!pending)
    return;
  pending->nack = *nack;
  pending->round_trip = round_trip / GST_MSECOND;
}

/* Under the lock: what is missing is asked for where an answer would come in time. */
static void
ask_for_missing (GstH263RpsRecv * self, GstH263RpsCall * call, GstClockTime now)
{
  GstClockTime round_trip;
  h263rps_nack nack;
  guint32 about;

  if (!self->repair || call != self->shown || !gst_h263rps_call_followed (call, &about))
    return;
  for (;;) {
    round_trip = gst_h263rps_repair_trip (&self->asking, now);
    if (h263rps_session_missing (&call->session, round_trip, now, &nack) != H263RPS_OK
        || !nack.asks)
      break;
    note_missing (self, about, &nack, round_trip, now);
  }
}

/* Under the lock: a report of the stream that is followed, where one is due. */
static void
note_report (GstH263RpsRecv * self, GstClockTime now)
{
  Pending * pending;

  if (GST_CLOCK_TIME_IS_VALID (self->next_report) && now < self->next_report)
    return;
  self->next_report = now
      + gst_h263rps_report_interval (gst_h263rps_meter_bitrate (&self->meter, now));
  pending = new_pending (self, SAY_REPORT, self->reception.ssrc);
  if (!pending)
    return;
  gst_h263rps_reception_block (&self->reception, &pending->block, now);
}

/* Under the lock: a packet of the stream that is followed came, and is reported on. One that was asked
 * for was lost all the same, and its way isn't the line's. */
static void
note_reception (GstH263RpsRecv * self, const Arrival * arrival, gboolean is_taken, GstClockTime now)
{
  GstReferenceTimestampMeta * meta = gst_buffer_get_reference_timestamp_meta (arrival->buffer,
      self->ntp_caps);

  if (!self->reception.begun || self->reception.ssrc != arrival->ssrc)
    memset (&self->asking, 0, sizeof self->asking);
  gst_h263rps_meter_add (&self->meter, now, arrival->length, 0, 0);
  if (gst_h263rps_repair_came (&self->asking, arrival->sequence, now)) {
    self->counts.repaired += is_taken;
    return;
  }
  gst_h263rps_reception_packet (&self->reception, arrival->ssrc, arrival->sequence,
      arrival->timestamp, now);
  if (meta)
    gst_h263rps_reception_time (&self->reception, arrival->timestamp, meta->timestamp);
  note_report (self, now);
}

static GstBuffer *
new_rtcp (GstH263RpsRecv * self, const Pending * pending)
{
  GstBuffer * buffer;

  switch (pending->say) {
    case SAY_REPORT:
      GST_OBJECT_LOCK (self);
      buffer = gst_h263rps_rtcp_new_receiver_report (self->own_ssrc, &pending->block, self->cname);
      GST_OBJECT_UNLOCK (self);
      return buffer;
    case SAY_INTRA:
      return gst_h263rps_rtcp_new_pli (self->own_ssrc, pending->about);
    case SAY_MISSING:
      return gst_h263rps_rtcp_new_nack (self->own_ssrc, pending->about, &pending->nack);
    default:
      return gst_h263rps_rtcp_new_rpsi (self->own_ssrc, pending->about, pending->pt,
          &pending->message);
  }
}

static void
push_rtcp (GstH263RpsRecv * self, const Pending * pending)
{
  if (!gst_pad_is_linked (self->rtcp_srcpad))
    return;
  g_mutex_lock (&self->rtcp_lock);
  if (!self->is_rtcp_begun)
    gst_h263rps_rtcp_begin (self->rtcp_srcpad);
  self->is_rtcp_begun = TRUE;
  gst_pad_push (self->rtcp_srcpad, new_rtcp (self, pending));
  g_mutex_unlock (&self->rtcp_lock);
}

/* Without the lock: the task asks a second time. */
static void
push_again (GstH263RpsRecv * self, Pending * pending)
{
  push_rtcp (self, pending);
  g_mutex_lock (&self->lock);
  if (self->again.length < MOST_PENDING) {
    pending->again = clock_time (self) + AGAIN;
    g_queue_push_tail (&self->again, g_memdup2 (pending, sizeof *pending));
    wake (self);
  }
  g_mutex_unlock (&self->lock);
}

/* Under the lock, which is left meanwhile: what is to be asked for now; whether there was something. */
static gboolean
say_again (GstH263RpsRecv * self, GstClockTime now)
{
  Pending * pending = g_queue_peek_head (&self->again);

  if (!pending || pending->again > now)
    return FALSE;
  g_queue_pop_head (&self->again);
  g_mutex_unlock (&self->lock);
  push_rtcp (self, pending);
  g_free (pending);
  g_mutex_lock (&self->lock);
  return TRUE;
}

static void
request_packet (GstH263RpsRecv * self, const Pending * pending, guint16 sequence)
{
  gst_pad_push_event (self->sinkpad,
      gst_event_new_custom (GST_EVENT_CUSTOM_UPSTREAM,
          gst_structure_new ("GstRTPRetransmissionRequest", "seqnum", G_TYPE_UINT, (guint) sequence,
              "ssrc", G_TYPE_UINT, pending->about, "deadline", G_TYPE_UINT, self->latency, "delay",
              G_TYPE_UINT, 0, "avg-rtt", G_TYPE_UINT, pending->round_trip, NULL)));
}

/* As an rtpjitterbuffer asks: a session sends a NACK then, and an rtprtxreceive knows by it of what
 * stream an answer is (RFC 4588, 5.3). */
static void
request_packets (GstH263RpsRecv * self, const Pending * pending)
{
  guint i;

  request_packet (self, pending, pending->nack.packet);
  for (i = 0; i < 16; i++) {
    if (pending->nack.following >> i & 1)
      request_packet (self, pending, pending->nack.packet + i + 1);
  }
}

/* The session sends what waits when its rules on early feedback allow it (RFC 4585, 3.5). */
static void
tell_session (GstH263RpsRecv * self, GObject * session, const Pending * pending)
{
  gboolean is_taken = FALSE;

  /* It reports by itself, and has its own ways to ask. */
  if (pending->say == SAY_INTRA)
    gst_pad_push_event (self->sinkpad,
        gst_video_event_new_upstream_force_key_unit (GST_CLOCK_TIME_NONE, FALSE, 0));
  if (pending->say != SAY_MESSAGE)
    return;
  g_mutex_lock (&self->lock);
  if (g_queue_get_length (&self->session_queue) == MOST_PENDING) {
    g_free (g_queue_pop_head (&self->session_queue));
    self->counts.dropped_messages++;
  }
  g_queue_push_tail (&self->session_queue, g_memdup2 (pending, sizeof *pending));
  g_mutex_unlock (&self->lock);

  g_signal_emit_by_name (session, "send-rtcp-full", (guint64) 0, &is_taken);
  if (!is_taken) {
    g_mutex_lock (&self->lock);
    self->counts.session_refused++;
    g_mutex_unlock (&self->lock);
  }
}

/* Whether a header says it alone: one that goes out soon, where the other party hears headers. */
static gboolean
is_said_by_header (GstH263RpsSend * sender, const Pending * pending, gboolean hears)
{
  return sender && pending->is_carried
      && gst_h263rps_send_carry (sender, &pending->message, pending->clock) && hears;
}

/* Without the lock. */
static void
say_pending (GstH263RpsRecv * self)
{
  Pending pending[MOST_PENDING];
  GstH263RpsSend * sender;
  GObject * session;
  gboolean hears;
  guint count, i;

  g_mutex_lock (&self->lock);
  count = self->pending_count;
  memcpy (pending, self->pending, count * sizeof *pending);
  self->pending_count = 0;
  for (i = 0; i < count; i++)
    self->counts.said += pending[i].say == SAY_MESSAGE || pending[i].say == SAY_INTRA;
  hears = GST_CLOCK_TIME_IS_VALID (self->headers_at)
      && clock_time (self) - self->headers_at < HEADERS_LAST;
  g_mutex_unlock (&self->lock);
  if (count == 0)
    return;

  GST_OBJECT_LOCK (self);
  session = self->session ? g_object_ref (self->session) : NULL;
  GST_OBJECT_UNLOCK (self);
  sender = g_weak_ref_get (&self->sender);
  for (i = 0; i < count; i++) {
    if (pending[i].say == SAY_MISSING)
      request_packets (self, &pending[i]);
    if (is_said_by_header (sender, &pending[i], hears))
      continue;
    if (session)
      tell_session (self, session, &pending[i]);
    else if (pending[i].say == SAY_MISSING)
      push_again (self, &pending[i]);
    else
      push_rtcp (self, &pending[i]);
  }
  g_clear_object (&session);
  g_clear_object (&sender);
}

static gboolean
on_sending_rtcp (GObject * session, GstBuffer * compound, gboolean is_early, GstH263RpsRecv * self)
{
  guint own_ssrc = 0;
  gboolean is_added = FALSE, has_room = TRUE;
  Pending * pending;

  g_object_get (session, "internal-ssrc", &own_ssrc, NULL);
  g_mutex_lock (&self->lock);
  while (has_room && (pending = g_queue_peek_head (&self->session_queue))) {
    has_room = gst_h263rps_rtcp_add_rpsi (compound, own_ssrc, pending->about, pending->pt,
        &pending->message);
    if (has_room) {
      g_free (g_queue_pop_head (&self->session_queue));
      is_added = TRUE;
    }
  }
  g_mutex_unlock (&self->lock);
  return is_added;
}

/* ---- pictures, under the lock ---- */

static GstCaps *
caps_of (const GstH263RpsCall * call)
{
  gint width, height;

  gst_h263rps_size_of_format (call->params.format, &width, &height);
  return gst_caps_new_simple ("video/x-raw", "format", G_TYPE_STRING, "I420", "width", G_TYPE_INT,
      width, "height", G_TYPE_INT, height, "framerate", GST_TYPE_FRACTION, call->fps_n, call->fps_d,
      "interlace-mode", G_TYPE_STRING, "progressive", "pixel-aspect-ratio", GST_TYPE_FRACTION,
      PAR_N, PAR_D, NULL);
}

static void
mark_buffer (GstBuffer * buffer, const h263rps_turn * turn)
{
  GstCustomMeta * meta = gst_buffer_add_custom_meta (buffer, GST_H263RPS_META_NAME);

  if (meta)
    gst_structure_set (gst_custom_meta_get_structure (meta), "mark", G_TYPE_STRING,
        gst_h263rps_mark_name (turn->answer.kind), "number", G_TYPE_UINT, turn->answer.number,
        "ssrc", G_TYPE_UINT, turn->source, NULL);
  if (turn->answer.kind != H263RPS_EXACT)
    GST_BUFFER_FLAG_SET (buffer, GST_BUFFER_FLAG_CORRUPTED);
  GST_BUFFER_OFFSET (buffer) = turn->answer.number;
}

/* When a picture is to be shown. What is due is shown as late as the pipeline's latency says, and a
 * sink waits for the rest. */
static void
stamp_buffer (GstH263RpsRecv * self, GstH263RpsCall * call, GstBuffer * buffer,
    const h263rps_turn * turn, GstClockTime due)
{
  GstClockTime latency = self->latency * GST_MSECOND, ntp;
  guint32 timestamp;
  gint64 shown;

  GST_OBJECT_LOCK (self);
  shown = self->ts_offset - (gint64) latency;
  GST_OBJECT_UNLOCK (self);
  shown += running_time_of (self, due);
  GST_BUFFER_PTS (buffer) = MAX (shown, 0);
  GST_BUFFER_DURATION (buffer) = gst_util_uint64_scale (GST_SECOND, call->fps_d, call->fps_n);
  if (gst_h263rps_call_take_time (call, turn->answer.number, &timestamp)
      && self->reception.ssrc == turn->source
      && gst_h263rps_reception_ntp (&self->reception, timestamp, &ntp))
    gst_buffer_add_reference_timestamp_meta (buffer, self->ntp_caps, ntp, GST_CLOCK_TIME_NONE);
}

/* Pictures that may wait for what comes after: those of an offset, too. */
static guint
most_out (GstH263RpsRecv * self)
{
  gint64 offset;

  GST_OBJECT_LOCK (self);
  offset = MAX (self->ts_offset, 0);
  GST_OBJECT_UNLOCK (self);
  return MOST_OUT + gst_util_uint64_scale (offset, self->fps_n, self->fps_d * GST_SECOND);
}

/* A screen that lags loses pictures, the oldest first; the call doesn't wait for it. */
static void
queue_picture (GstH263RpsRecv * self, GstBuffer * buffer)
{
  GList * item;
  guint count = 0, most = most_out (self);

  for (item = self->out.head; item; item = item->next)
    count += GST_IS_BUFFER (item->data);
  for (item = self->out.head; item && count >= most; item = item->next) {
    if (GST_IS_BUFFER (item->data)) {
      gst_buffer_unref (item->data);
      g_queue_delete_link (&self->out, item);
      self->counts.unshown++;
      break;
    }
  }
  if (self->new_caps) {
    g_queue_push_tail (&self->out, gst_event_new_caps (self->new_caps));
    gst_clear_caps (&self->new_caps);
  }
  g_queue_push_tail (&self->out, buffer);
}

/* A picture of the stream that is followed was played. */
static void
show_picture (GstH263RpsRecv * self, GstH263RpsCall * call, const h263rps_turn * turn,
    const h263rps_lent * shown, GstClockTime due)
{
  GstBuffer * buffer = gst_h263rps_call_picture (call, shown);

  stamp_buffer (self, call, buffer, turn, due);
  mark_buffer (buffer, turn);
  gst_h263rps_meter_add (&self->meter, clock_time (self), 0, 1, turn->answer.kind == H263RPS_EXACT);
  self->counts.marks[turn->answer.kind]++;
  queue_picture (self, buffer);
}

/* ---- the record ---- */

/* Under the lock: what is to be told once it is left. */
static void
note_record_fault (GstH263RpsRecv * self, const gchar * words)
{
  GST_WARNING_OBJECT (self, "%s", words);
  if (!self->record_fault)
    self->record_fault = g_strdup (words);
}

/* Under the lock: a disk that fills up ends the recording, once, and not the call. */
static void
check_record (GstH263RpsRecv * self, GstH263RpsTape * tape)
{
  gint fault = gst_h263rps_record_fault (tape->record);
  gchar * words;

  if (!fault)
    return;
  words = g_strdup_printf ("The recording ends here: %s.", g_strerror (fault));
  note_record_fault (self, words);
  g_free (words);
  g_clear_pointer (&tape->record, gst_h263rps_record_free);
}

/* Without the lock. */
static void
tell_record_fault (GstH263RpsRecv * self)
{
  gchar * words;

  g_mutex_lock (&self->lock);
  words = g_steal_pointer (&self->record_fault);
  g_mutex_unlock (&self->lock);
  if (!words)
    return;
  GST_ELEMENT_WARNING (self, RESOURCE, WRITE, ("%s", words), (NULL));
  g_free (words);
}

/* ---- settings ---- */

/* How long pictures wait before they are played. */
static GstClockTime
wait_of (GstH263RpsRecv * self)
{
  return self->latency * GST_MSECOND;
}

/* The sender's, by the caps or else by the properties. */
static GstH263RpsWindow
senders_window (GstH263RpsRecv * self)
{
  GstH263RpsWindow window = { .slots = self->caps_slots >= 0 ? (guint) self->caps_slots
                                                             : self->slots,
    .lead = self->caps_lead >= 0 ? (guint) self->caps_lead : self->lead };

  return window;
}

/* Without the lock, and once: without a session there will be no picture. */
static void
tell_call_fault (GstH263RpsRecv * self)
{
  guint32 fault;

  g_mutex_lock (&self->lock);
  fault = self->is_call_fault_told ? 0 : self->call_fault;
  self->is_call_fault_told = self->call_fault != 0;
  g_mutex_unlock (&self->lock);
  if (fault)
    GST_ELEMENT_ERROR (self, LIBRARY, SETTINGS, ("%s", h263rps_status_text (fault)), (NULL));
}

/* Without the lock. The caps and the latency are known: whether the receiver can hold both. */
static void
check_window (GstH263RpsRecv * self)
{
  GstH263RpsWindow window;
  gchar * fault;

  g_mutex_lock (&self->lock);
  window = senders_window (self);
  fault = gst_h263rps_window_fault (&window, wait_of (self), self->fps_n, self->fps_d);
  g_mutex_unlock (&self->lock);
  if (fault)
    GST_ELEMENT_ERROR (self, LIBRARY, SETTINGS, ("%s", fault),
        ("slots %u, lead %u of the sender, latency %u ms", window.slots, window.lead,
            self->latency));
  g_free (fault);
}

/* ---- what is recorded ---- */

/* The folder, or NULL. */
static gchar *
record_folder (GstH263RpsRecv * self)
{
  gchar * folder;

  GST_OBJECT_LOCK (self);
  folder = g_strdup (self->record_location);
  GST_OBJECT_UNLOCK (self);
  return folder;
}

/* A record of the stream that is followed. Where its folder can't be made the call goes on. */
static GstH263RpsRecord *
new_record (GstH263RpsRecv * self, const GstH263RpsCall * call)
{
  gchar * folder = record_folder (self);
  GstH263RpsRecord * record = NULL;
  GError * error = NULL;
  gint width, height;

  if (folder && self->recorded < MOST_RECORDED)
    record = gst_h263rps_record_new ("recv", folder, ++self->recorded, &error);
  g_free (folder);
  if (error)
    note_record_fault (self, error->message);
  g_clear_error (&error);
  gst_h263rps_size_of_format (call->params.format, &width, &height);
  gst_h263rps_record_head (record, width, height, call->fps_n, call->fps_d);
  return record;
}

/* A run begins with a play. */
static void
begin_record (GstH263RpsRecv * self, GstH263RpsCall * call, const h263rps_turn * turn,
    GstClockTime when)
{
  GstH263RpsTape * tape = call->tape;
  GstH263RpsRecord * record = new_record (self, call);

  gst_h263rps_tape_begin (tape, record, turn->answer.number, when);
  if (record)
    gst_h263rps_record_facts (record,
        "\"format\": \"%s\", \"rate\": \"%d/%d\", "
        "\"clock\": \"%s\", \"messages\": %u, \"slots\": %u, \"lead\": %u, \"wait\": %.6f, "
        "\"source\": %u, \"skipped\": %u, \"first\": %u",
        gst_h263rps_format_name (call->params.format), call->fps_n, call->fps_d,
        call->params.clock ? "custom" : "standard", call->params.messages, call->params.slots,
        call->params.lead, (gdouble) call->wait / GST_SECOND, turn->source, tape->skipped,
        tape->joined);
}

static void
record_play (GstH263RpsRecv * self, GstH263RpsCall * call, const h263rps_turn * turn,
    const h263rps_lent * shown)
{
  GstClockTime when = running_time_of (self, clock_time (self));

  if (!call->tape)
    return;
  if (gst_h263rps_tape_begins (call->tape, turn))
    begin_record (self, call, turn, when);
  gst_h263rps_tape_play (call->tape, turn, shown, when);
  check_record (self, call->tape);
}

/* ---- sessions, under the lock ---- */

static GstH263RpsCall *
begin_call (GstH263RpsRecv * self, const h263rps_start * start)
{
  GstH263RpsWindow window = senders_window (self);
  h263rps_params params = { 0 };
  GstH263RpsCall * call;
  guint32 fault;
  gchar * folder;

  /* What can't be was told when the caps came. */
  if (!gst_h263rps_window_own (&window, wait_of (self), self->fps_n, self->fps_d)
      || h263rps_defaults (start->format, &params) != H263RPS_OK)
    return NULL;
  params.slots = window.slots;
  params.lead = window.lead;
  params.messages = self->messages;
  params.clock = start->clock;
  call = gst_h263rps_call_new (&params, self->fps_n, self->fps_d, wait_of (self), &fault);
  if (!call) {
    self->call_fault = fault;
    return NULL;
  }
  folder = record_folder (self);
  if (folder)
    call->tape = gst_h263rps_tape_new ();
  g_free (folder);
  GST_INFO_OBJECT (self, "a session of format %s, slots %u, lead %u",
      gst_h263rps_format_name (start->format), window.slots, window.lead);
  return call;
}

static void
forget_calls (GstH263RpsRecv * self)
{
  guint i;

  for (i = 0; i < CALLS; i++)
    g_clear_pointer (&self->calls[i], gst_h263rps_call_free);
  self->shown = NULL;
}

/* All streams are another party's. */
static void
reset_calls (GstH263RpsRecv * self, GstClockTime now)
{
  guint i;

  for (i = 0; i < CALLS; i++) {
    if (self->calls[i])
      gst_h263rps_call_reset (self->calls[i], now);
  }
  self->shown = NULL;
}

static gboolean
is_silent (GstH263RpsRecv * self, GstClockTime now)
{
  return !self->shown || now - self->shown->complete >= GST_H263RPS_SILENT;
}

/* The session of this format. What it chooses by among its streams holds among formats, too: none is
 * looked at anew while pictures of the one that is shown become complete. */
static GstH263RpsCall *
call_of (GstH263RpsRecv * self, const h263rps_start * start, GstClockTime now)
{
  guint which = 2 * (start->format - 1) + (start->clock == H263RPS_CUSTOM_CLOCK);

  if (start->format < 1 || which >= CALLS)
    return NULL;
  if (!self->calls[which] && is_silent (self, now))
    self->calls[which] = begin_call (self, start);
  if (self->calls[which] && self->calls[which]->completed == 0 && !is_silent (self, now))
    return NULL;
  return self->calls[which];
}

/* A picture of a stream that its session follows is complete: it is shown, where no other format is,
 * or where the other one has completed fewer. */
static void
note_completed (GstH263RpsRecv * self, GstH263RpsCall * call, const h263rps_arrived * arrived,
    GstClockTime now)
{
  guint32 source;

  if (!gst_h263rps_call_followed (call, &source) || source != arrived->source)
    return;
  if (arrived->run != H263RPS_FOLLOWED)
    gst_h263rps_call_turn (call, arrived->run);
  self->counts.runs += arrived->run == H263RPS_TRIED;
  call->completed++;
  if (call != self->shown && (is_silent (self, now) || call->completed > self->shown->completed)) {
    self->shown = call;
    gst_caps_replace (&self->new_caps, NULL);
    self->new_caps = caps_of (call);
  }
  call->complete = now;
}

/* Plays the next picture, if one is due. */
static gboolean
play_next (GstH263RpsRecv * self, GstH263RpsCall * call, GstClockTime now)
{
  GstClockTime due = gst_h263rps_call_due (call);
  h263rps_lent shown = { NULL, 0 };
  h263rps_turn turn;

  if (!GST_CLOCK_TIME_IS_VALID (due) || due > now
      || h263rps_session_play (&call->session, now, &turn) != H263RPS_OK || !turn.plays)
    return FALSE;
  note_message (self, turn.source, &turn.answer.message);
  if (turn.run == H263RPS_FOLLOWED) {
    h263rps_session_shown (&call->session, &shown);
    /* It began anew, in the silence before or since nothing came in time. */
    if (call->next >= 0 && turn.answer.number != call->next) {
      self->counts.runs++;
      call->has_last = FALSE;
    }
    call->next = (gint64) turn.answer.number + 1;
    if (call == self->shown)
      show_picture (self, call, &turn, &shown, due ? due : now);
  }
  record_play (self, call, &turn, &shown);
  return TRUE;
}

/* At most as many at once as are kept: what is due beyond them waits until the network was looked
 * at again. */
static void
play_due (GstH263RpsRecv * self, GstH263RpsCall * call, GstClockTime now)
{
  guint i;

  for (i = 0; i < call->params.slots && play_next (self, call, now); i++)
    ;
  if (i > 0)
    ask_for_missing (self, call, now);
}

/* ---- packets ---- */

/* What a packet says of itself, of whatever payload type. */
static gboolean
read_arrival (GstH263RpsRecv * self, Arrival * arrival, GstBuffer * buffer)
{
  GstRTPBuffer rtp = GST_RTP_BUFFER_INIT;

  if (gst_buffer_get_size (buffer) > ROOM || !gst_rtp_buffer_map (buffer, GST_MAP_READ, &rtp))
    return FALSE;
  arrival->buffer = buffer;
  arrival->ssrc = gst_rtp_buffer_get_ssrc (&rtp);
  arrival->sequence = gst_rtp_buffer_get_seq (&rtp);
  arrival->timestamp = gst_rtp_buffer_get_timestamp (&rtp);
  arrival->pt = gst_rtp_buffer_get_payload_type (&rtp);
  gst_rtp_buffer_unmap (&rtp);
  arrival->length = gst_buffer_extract (buffer, 0, self->room, ROOM);
  h263rps_packet_label (self->room, arrival->length, arrival->ssrc, H263RPS_PAYLOAD_TYPE);
  return TRUE;
}

/* What it says of its picture. */
static gboolean
read_start (GstH263RpsRecv * self, const Arrival * arrival, h263rps_start * start)
{
  guint32 status;

  h263rps_packet_label (self->room, arrival->length, H263RPS_SSRC, H263RPS_PAYLOAD_TYPE);
  status = h263rps_packet_start (self->room, arrival->length, start);
  h263rps_packet_label (self->room, arrival->length, arrival->ssrc, H263RPS_PAYLOAD_TYPE);
  return status == H263RPS_OK;
}

/* What the record and the sender's times want of a packet that was heard. */
static void
keep_packet (GstH263RpsRecv * self, GstH263RpsCall * call, const Arrival * arrival,
    const h263rps_arrived * arrived, GstClockTime now)
{
  h263rps_start start;

  if (call->tape) {
    h263rps_packet_label (self->room, arrival->length, H263RPS_SSRC, H263RPS_PAYLOAD_TYPE);
    gst_h263rps_tape_packet (call->tape, arrived, self->room, arrival->length, now,
        running_time_of (self, now));
  }
  if (arrived->run == H263RPS_FOLLOWED && arrived->answer.kind <= H263RPS_COMPLETED
      && self->reception.has_info && read_start (self, arrival, &start))
    gst_h263rps_call_note_time (call, start.temporal_reference, arrival->timestamp);
}

/* The messages in the header of a picture of the stream that is followed are about this party's. */
static void
hear_header (GstH263RpsRecv * self, const Arrival * arrival, GstClockTime now)
{
  GstH263RpsSend * sender = g_weak_ref_get (&self->sender);
  h263rps_start start;

  if (!sender)
    return;
  if (read_start (self, arrival, &start) && start.count > 0
      && self->header != (gint) start.temporal_reference) {
    self->header = start.temporal_reference;
    self->headers_at = now;
    gst_h263rps_send_hear (sender, start.messages, start.count);
  }
  g_object_unref (sender);
}

/* A packet was heard. Also of a stream that isn't followed messages go out: what it lacks is to come. */
static void
note_heard (GstH263RpsRecv * self, GstH263RpsCall * call, const Arrival * arrival,
    const h263rps_arrived * arrived, GstClockTime now)
{
  const h263rps_answer * answer = &arrived->answer;
  gboolean is_shown;
  guint32 source;

  self->pt = arrival->pt;
  keep_packet (self, call, arrival, arrived, now);
  if (answer->kind == H263RPS_COMPLETED)
    note_completed (self, call, arrived, now);
  if (answer->kind == H263RPS_REFUSED && answer->fault == H263RPS_MISSING_REFERENCE
      && (arrived->run == H263RPS_FOLLOWED || is_silent (self, now)))
    note_intra (self, arrived->source, now);
  note_message (self, arrived->source, &answer->message);
  is_shown = call == self->shown && gst_h263rps_call_followed (call, &source)
      && source == arrived->source;
  /* The first picture's packets count before anything is followed. */
  self->counts.heard[answer->kind] += is_shown || !self->shown;
  if (is_shown) {
    hear_header (self, arrival, now);
    note_reception (self, arrival, answer->kind <= H263RPS_COMPLETED, now);
    ask_for_missing (self, call, now);
  }
  wake (self);
}

static void
count_dropped (GstH263RpsRecv * self, guint cause)
{
  switch (cause) {
    case H263RPS_OTHER_PICTURES:
      self->counts.other_format++;
      break;
    case H263RPS_TOO_FAST:
      self->counts.too_fast++;
      break;
    case H263RPS_OTHER_STREAM:
      self->counts.other_source++;
      break;
    default:
      self->counts.malformed++;
      break;
  }
}

static void
note_rival (GstH263RpsRecv * self, GstH263RpsCall * call, guint32 rival)
{
  self->counts.rivals++;
  self->has_rival = gst_h263rps_call_followed (call, &self->rivals[0]);
  self->rivals[1] = rival;
}

static void
note_arrived (GstH263RpsRecv * self, GstH263RpsCall * call, const Arrival * arrival,
    const h263rps_arrived * arrived, GstClockTime now)
{
  if (arrived->verdict == H263RPS_HEARD)
    note_heard (self, call, arrival, arrived, now);
  else if (arrived->verdict == H263RPS_DROPPED)
    count_dropped (self, arrived->cause);
  else
    self->counts.ahead++;
}

/* Gives a packet to a session, which hears the stream that is wanted, or any. */
static void
give (GstH263RpsRecv * self, GstH263RpsCall * call, const Arrival * arrival,
    h263rps_arrived * arrived, GstClockTime now)
{
  if (self->sender_ssrc == DEFAULT_SENDER_SSRC)
    h263rps_session_arrival (&call->session, self->room, arrival->length, now, arrived);
  else
    h263rps_session_arrival_of (&call->session, self->sender_ssrc, self->room, arrival->length, now,
        arrived);
}

/* Where its picture is too far ahead, those before it are played first. */
static void
hand_in (GstH263RpsRecv * self, GstH263RpsCall * call, const Arrival * arrival,
    h263rps_arrived * arrived, GstClockTime now)
{
  memset (arrived, 0, sizeof *arrived);
  give (self, call, arrival, arrived, now);
  if (arrived->rival)
    note_rival (self, call, arrival->ssrc);
  if (arrived->verdict != H263RPS_AHEAD)
    return;
  while (play_next (self, call, now))
    ;
  give (self, call, arrival, arrived, now);
}

static void
take_packet (GstH263RpsRecv * self, const Arrival * arrival, GstClockTime now)
{
  GstH263RpsCall * call;
  h263rps_arrived arrived;
  h263rps_start start;

  /* Times on another clock tell nothing of those before. */
  if (self->is_clock_new)
    forget_calls (self);
  self->is_clock_new = FALSE;
  if (self->shown) {
    call = self->shown;
    hand_in (self, call, arrival, &arrived, now);
    if (arrived.verdict != H263RPS_DROPPED || arrived.cause != H263RPS_OTHER_PICTURES) {
      note_arrived (self, call, arrival, &arrived, now);
      return;
    }
  }
  if (!read_start (self, arrival, &start)) {
    self->counts.malformed++;
    return;
  }
  if (self->sender_ssrc != DEFAULT_SENDER_SSRC && arrival->ssrc != self->sender_ssrc) {
    self->counts.other_source++;
    return;
  }
  call = call_of (self, &start, now);
  if (!call) {
    self->counts.other_format++;
    return;
  }
  hand_in (self, call, arrival, &arrived, now);
  note_arrived (self, call, arrival, &arrived, now);
}

/* Without the lock: another stream comes beside the one that is followed. */
static void
tell_rival (GstH263RpsRecv * self)
{
  gboolean is_told, has_rival;
  guint32 rivals[2];

  g_mutex_lock (&self->lock);
  has_rival = self->has_rival;
  is_told = self->is_rival_told;
  memcpy (rivals, self->rivals, sizeof rivals);
  self->has_rival = FALSE;
  self->is_rival_told |= has_rival;
  g_mutex_unlock (&self->lock);
  if (!has_rival)
    return;
  if (!is_told)
    GST_ELEMENT_WARNING (self, STREAM, FAILED,
        ("Another stream comes beside the one that is followed, which stays on the screen."),
        ("followed %08x, the other one %08x", rivals[0], rivals[1]));
  gst_element_post_message (GST_ELEMENT (self),
      gst_message_new_element (GST_OBJECT (self),
          gst_structure_new ("h263rps-rival", "ssrc", G_TYPE_UINT, rivals[0], "rival", G_TYPE_UINT,
              rivals[1], NULL)));
}

static GstFlowReturn
gst_h263rps_recv_chain (GstPad * pad, GstObject * parent, GstBuffer * buffer)
{
  GstH263RpsRecv * self = GST_H263RPS_RECV (parent);
  GstFlowReturn flow = GST_FLOW_OK;
  Arrival arrival;
  /* The time here, and not the buffer's: what was held up before is late all the same. */
  GstClockTime now = clock_time (self);

  g_mutex_lock (&self->lock);
  if (self->is_flushing)
    flow = GST_FLOW_FLUSHING;
  else if (self->is_eos)
    flow = GST_FLOW_EOS;
  else if (!self->is_playing)
    self->counts.paused++;
  else if (!read_arrival (self, &arrival, buffer))
    self->counts.malformed++;
  else if (self->caps_pt && arrival.pt != self->caps_pt)
    self->counts.other_payload_type++;
  else
    take_packet (self, &arrival, now);
  g_mutex_unlock (&self->lock);
  gst_buffer_unref (buffer);
  say_pending (self);
  tell_record_fault (self);
  tell_call_fault (self);
  tell_rival (self);
  return flow;
}

/* Under the lock: a stream has ended. Where it is the one on the screen, another of any format may be
 * looked at. */
static void
hear_bye (GstH263RpsRecv * self, guint32 ended, GstClockTime now)
{
  guint32 source;
  guint i;

  if (self->shown && gst_h263rps_call_followed (self->shown, &source) && source == ended)
    self->shown->complete = MIN (self->shown->complete, now - MIN (now, GST_H263RPS_SILENT));
  for (i = 0; i < CALLS; i++) {
    if (self->calls[i])
      h263rps_session_bye (&self->calls[i]->session, ended, now);
  }
}

static void
hear_byes (GstH263RpsRecv * self, GstRTCPBuffer * rtcp, GstClockTime now)
{
  GstRTCPPacket packet;
  gboolean more;
  guint i;

  for (more = gst_rtcp_buffer_get_first_packet (rtcp, &packet); more;
       more = gst_rtcp_packet_move_to_next (&packet)) {
    if (gst_rtcp_packet_get_type (&packet) != GST_RTCP_TYPE_BYE)
      continue;
    for (i = 0; i < gst_rtcp_packet_bye_get_ssrc_count (&packet); i++)
      hear_bye (self, gst_rtcp_packet_bye_get_nth_ssrc (&packet, i), now);
  }
}

/* A session has heard the end of a stream. */
static void
on_bye (GObject * session, GObject * source, GstH263RpsRecv * self)
{
  guint ssrc = 0;

  g_object_get (source, "ssrc", &ssrc, NULL);
  g_mutex_lock (&self->lock);
  hear_bye (self, ssrc, clock_time (self));
  g_mutex_unlock (&self->lock);
}

/* Under the lock: what the sender of the stream that is followed reports. */
static void
hear_reports (GstH263RpsRecv * self, GstRTCPBuffer * rtcp, GstClockTime now)
{
  GstRTCPPacket packet;
  GstH263RpsSenderInfo info;
  guint32 source;
  gboolean more;

  if (!self->shown || !gst_h263rps_call_followed (self->shown, &source))
    return;
  for (more = gst_rtcp_buffer_get_first_packet (rtcp, &packet); more;
       more = gst_rtcp_packet_move_to_next (&packet)) {
    if (gst_h263rps_rtcp_read_info (&packet, &info) && info.ssrc == source)
      gst_h263rps_reception_info (&self->reception, &info, now);
  }
}

static GstFlowReturn
gst_h263rps_recv_rtcp_chain (GstPad * pad, GstObject * parent, GstBuffer * buffer)
{
  GstH263RpsRecv * self = GST_H263RPS_RECV (parent);
  GstRTCPBuffer rtcp = GST_RTCP_BUFFER_INIT;
  GstClockTime now = clock_time (self);

  g_mutex_lock (&self->lock);
  if (gst_buffer_get_size (buffer) > 0 && gst_rtcp_buffer_validate_reduced (buffer)
      && gst_rtcp_buffer_map (buffer, GST_MAP_READ, &rtcp)) {
    hear_reports (self, &rtcp, now);
    hear_byes (self, &rtcp, now);
    gst_rtcp_buffer_unmap (&rtcp);
  } else {
    self->counts.malformed++;
  }
  g_mutex_unlock (&self->lock);
  gst_buffer_unref (buffer);
  return GST_FLOW_OK;
}

/* Nothing that is said of the reports concerns the pictures. */
static gboolean
gst_h263rps_recv_rtcp_event (GstPad * pad, GstObject * parent, GstEvent * event)
{
  gst_event_unref (event);
  return TRUE;
}

/* ---- the task ---- */

static void
push_begin (GstH263RpsRecv * self)
{
  gchar * id;

  if (!self->needs_stream_start)
    return;
  self->needs_stream_start = FALSE;
  id = gst_h263rps_new_stream_id ("video");
  gst_pad_push_event (self->srcpad, gst_event_new_stream_start (id));
  g_free (id);
}

/* A buffer that would come too late by what the sink said is dropped. */
static gboolean
is_too_late (GstH263RpsRecv * self, GstBuffer * buffer)
{
  gboolean is_late;

  g_mutex_lock (&self->lock);
  is_late = GST_CLOCK_TIME_IS_VALID (self->earliest)
      && GST_BUFFER_PTS (buffer) + GST_BUFFER_DURATION (buffer) < self->earliest;
  self->counts.unshown += is_late;
  g_mutex_unlock (&self->lock);
  return is_late;
}

static GstFlowReturn
push_next (GstH263RpsRecv * self, GstMiniObject * next)
{
  push_begin (self);
  if (GST_IS_EVENT (next)) {
    gst_pad_push_event (self->srcpad, GST_EVENT (next));
    if (self->needs_segment) {
      GstSegment segment;

      gst_segment_init (&segment, GST_FORMAT_TIME);
      gst_pad_push_event (self->srcpad, gst_event_new_segment (&segment));
      self->needs_segment = FALSE;
    }
    return GST_FLOW_OK;
  }
  if (is_too_late (self, GST_BUFFER (next))) {
    gst_mini_object_unref (next);
    return GST_FLOW_OK;
  }
  return gst_pad_push (self->srcpad, GST_BUFFER (next));
}

/* Under the lock, which is left meanwhile: waits until then, or until someone wakes it. */
static void
wait_until (GstH263RpsRecv * self, GstClockTime when)
{
  GstClock * clock = gst_element_get_clock (GST_ELEMENT (self));
  GstClockID id;

  if (!clock)
    clock = gst_system_clock_obtain ();
  id = self->clock_id = gst_clock_new_single_shot_id (clock, when);
  g_mutex_unlock (&self->lock);
  gst_clock_id_wait (id, NULL);
  g_mutex_lock (&self->lock);
  self->clock_id = NULL;
  gst_clock_id_unref (id);
  gst_object_unref (clock);
}

static void
end_task (GstH263RpsRecv * self, GstFlowReturn flow)
{
  gst_pad_pause_task (self->srcpad);
  if (flow == GST_FLOW_FLUSHING)
    return;
  if (flow != GST_FLOW_EOS)
    GST_ELEMENT_FLOW_ERROR (self, flow);
  push_begin (self);
  gst_pad_push_event (self->srcpad, gst_event_new_eos ());
  g_mutex_lock (&self->rtcp_lock);
  if (self->is_rtcp_begun)
    gst_pad_push_event (self->rtcp_srcpad, gst_event_new_eos ());
  g_mutex_unlock (&self->rtcp_lock);
}

/* Under the lock: when something is to be done that nobody wakes for, or NONE. */
static GstClockTime
next_time (GstH263RpsRecv * self)
{
  GstClockTime due = self->shown ? gst_h263rps_call_due (self->shown) : GST_CLOCK_TIME_NONE;
  const Pending * pending = g_queue_peek_head (&self->again);

  return pending ? MIN (due, pending->again) : due;
}

/* What is to be said or shown goes out first; then the next picture's time is waited for. */
static void
gst_h263rps_recv_loop (gpointer data)
{
  GstH263RpsRecv * self = GST_H263RPS_RECV (data);
  GstFlowReturn flow = GST_FLOW_OK;
  GstMiniObject * next;
  GstClockTime due;

  g_mutex_lock (&self->lock);
  while (!self->is_flushing && flow == GST_FLOW_OK) {
    if (!self->is_playing) {
      g_cond_wait (&self->cond, &self->lock);
      continue;
    }
    if (self->shown)
      play_due (self, self->shown, clock_time (self));
    if (say_again (self, clock_time (self)))
      continue;
    next = g_queue_pop_head (&self->out);
    if (next || self->pending_count > 0) {
      g_mutex_unlock (&self->lock);
      say_pending (self);
      if (next)
        flow = push_next (self, next);
      g_mutex_lock (&self->lock);
    } else if (GST_CLOCK_TIME_IS_VALID (due = next_time (self))) {
      wait_until (self, due);
    } else if (self->is_eos) {
      flow = GST_FLOW_EOS;
    } else {
      g_cond_wait (&self->cond, &self->lock);
    }
  }
  if (self->is_flushing)
    flow = GST_FLOW_FLUSHING;
  g_mutex_unlock (&self->lock);
  end_task (self, flow);
}

static void
stop_waiting (GstH263RpsRecv * self)
{
  g_mutex_lock (&self->lock);
  self->is_flushing = TRUE;
  wake (self);
  g_mutex_unlock (&self->lock);
}

/* As before the first packet, but for the counts; after a flush the sessions stay. */
static void
begin_task_state (GstH263RpsRecv * self, gboolean is_flushed)
{
  g_mutex_lock (&self->lock);
  if (is_flushed)
    reset_calls (self, clock_time (self));
  else
    forget_calls (self);
  g_queue_clear_full (&self->out, (GDestroyNotify) gst_mini_object_unref);
  g_queue_clear_full (&self->session_queue, g_free);
  g_queue_clear_full (&self->again, g_free);
  gst_clear_caps (&self->new_caps);
  self->pending_count = 0;
  self->is_flushing = self->is_eos = self->is_clock_new = FALSE;
  self->needs_segment = TRUE;
  self->earliest = GST_CLOCK_TIME_NONE;
  g_mutex_unlock (&self->lock);
}

static gboolean
gst_h263rps_recv_activate_mode (GstPad * pad, GstObject * parent, GstPadMode mode, gboolean active)
{
  GstH263RpsRecv * self = GST_H263RPS_RECV (parent);

  if (mode != GST_PAD_MODE_PUSH)
    return FALSE;
  if (active) {
    begin_task_state (self, FALSE);
    self->needs_stream_start = TRUE;
    return gst_pad_start_task (pad, gst_h263rps_recv_loop, self, NULL);
  }
  stop_waiting (self);
  return gst_pad_stop_task (pad);
}

/* ---- events and queries ---- */

/* Pictures in seconds, from SDP's decimal number. */
static void
read_rate (GstH263RpsRecv * self, const gchar * text)
{
  gdouble rate = text ? g_ascii_strtod (text, NULL) : 0.0;
  gint whole;

  if (!(rate >= 1.0 && rate <= 120.0))
    return;
  whole = (gint) (rate + 0.5);
  self->fps_n = whole;
  self->fps_d = 1;
  if (ABS (rate - whole * 1000.0 / 1001.0) < 0.001) {
    self->fps_n = 1000 * whole;
    self->fps_d = 1001;
  } else if (ABS (rate - whole) > 0.001) {
    gst_util_double_to_fraction (rate, &self->fps_n, &self->fps_d);
    /* As the library has it. */
    if (self->fps_n > MOST_RATE || self->fps_d > MOST_SECONDS) {
      self->fps_n = (gint) (rate * 500 + 0.5);
      self->fps_d = 500;
    }
  }
}

/* A number of SDP, or -1 where there is none from `least` to `most`. */
static gint
number_in (const GstStructure * structure, const gchar * name, guint least, guint most)
{
  const gchar * text = gst_structure_get_string (structure, name);
  guint64 number;

  if (!text || !g_ascii_string_to_unsigned (text, 10, least, most, &number, NULL))
    return -1;
  return number;
}

/* Sessions that were started with another window or rate begin anew. */
static void
read_caps (GstH263RpsRecv * self, GstCaps * caps)
{
  const GstStructure * structure = gst_caps_get_structure (caps, 0);
  gint pt = 0, slots, lead, fps_n, fps_d;

  gst_structure_get_int (structure, "payload", &pt);
  g_mutex_lock (&self->lock);
  slots = self->caps_slots;
  lead = self->caps_lead;
  fps_n = self->fps_n;
  fps_d = self->fps_d;
  self->caps_pt = pt;
  self->caps_slots = number_in (structure, "x-slots", 2, 64);
  self->caps_lead = number_in (structure, "x-lead", 0, 62);
  read_rate (self, gst_structure_get_string (structure, "a-framerate"));
  if (slots != self->caps_slots || lead != self->caps_lead || fps_n != self->fps_n
      || fps_d != self->fps_d)
    forget_calls (self);
  g_mutex_unlock (&self->lock);
}

static gboolean
gst_h263rps_recv_sink_event (GstPad * pad, GstObject * parent, GstEvent * event)
{
  GstH263RpsRecv * self = GST_H263RPS_RECV (parent);
  gboolean result = TRUE;

  switch (GST_EVENT_TYPE (event)) {
    case GST_EVENT_CAPS: {
      GstCaps * caps;

      gst_event_parse_caps (event, &caps);
      read_caps (self, caps);
      check_window (self);
      break;
    }
    case GST_EVENT_EOS:
      g_mutex_lock (&self->lock);
      self->is_eos = TRUE;
      wake (self);
      g_mutex_unlock (&self->lock);
      break;
    case GST_EVENT_FLUSH_START:
      result = gst_pad_push_event (self->srcpad, gst_event_ref (event));
      stop_waiting (self);
      gst_pad_pause_task (self->srcpad);
      break;
    case GST_EVENT_FLUSH_STOP:
      result = gst_pad_push_event (self->srcpad, gst_event_ref (event));
      begin_task_state (self, TRUE);
      gst_pad_start_task (self->srcpad, gst_h263rps_recv_loop, self, NULL);
      break;
    default:
      /* What the network's side tells isn't about the pictures. */
      break;
  }
  gst_event_unref (event);
  return result;
}

/* Pictures can't be left out before they are decoded, and what comes too late needn't be shown. */
static gboolean
hear_qos (GstH263RpsRecv * self, GstEvent * event)
{
  GstClockTimeDiff difference;
  GstClockTime timestamp;

  gst_event_parse_qos (event, NULL, NULL, &difference, &timestamp);
  g_mutex_lock (&self->lock);
  self->earliest = GST_CLOCK_TIME_IS_VALID (timestamp) && difference > 0 ? timestamp + difference
                                                                         : GST_CLOCK_TIME_NONE;
  g_mutex_unlock (&self->lock);
  gst_event_unref (event);
  return TRUE;
}

static gboolean
gst_h263rps_recv_src_event (GstPad * pad, GstObject * parent, GstEvent * event)
{
  GstH263RpsRecv * self = GST_H263RPS_RECV (parent);
  guint32 source;

  if (GST_EVENT_TYPE (event) == GST_EVENT_QOS)
    return hear_qos (self, event);
  if (gst_video_event_is_force_key_unit (event)) {
    g_mutex_lock (&self->lock);
    if (self->shown && gst_h263rps_call_followed (self->shown, &source))
      note_intra (self, source, clock_time (self));
    wake (self);
    g_mutex_unlock (&self->lock);
    gst_event_unref (event);
    return TRUE;
  }
  return gst_pad_event_default (pad, parent, event);
}

/* Messages and pictures have nothing to do with each other downstream: without this a call with
 * itself would be a loop of queries. */
static GstIterator *
gst_h263rps_recv_iterate_links (GstPad * pad, GstObject * parent)
{
  GstH263RpsRecv * self = GST_H263RPS_RECV (parent);
  GstPad * other;
  GstIterator * iterator;
  GValue value = G_VALUE_INIT;

  if (pad == self->rtcp_srcpad || pad == self->rtcp_sinkpad)
    return gst_iterator_new_single (GST_TYPE_PAD, NULL);
  other = pad == self->sinkpad ? self->srcpad : self->sinkpad;
  g_value_init (&value, GST_TYPE_PAD);
  g_value_set_object (&value, other);
  iterator = gst_iterator_new_single (GST_TYPE_PAD, &value);
  g_value_unset (&value);
  return iterator;
}

static gboolean
gst_h263rps_recv_src_query (GstPad * pad, GstObject * parent, GstQuery * query)
{
  GstH263RpsRecv * self = GST_H263RPS_RECV (parent);
  GstClockTime least, most, own = self->latency * GST_MSECOND;
  gboolean is_live;

  if (GST_QUERY_TYPE (query) != GST_QUERY_LATENCY)
    return gst_pad_query_default (pad, parent, query);
  if (!gst_pad_peer_query (self->sinkpad, query))
    return FALSE;
  gst_query_parse_latency (query, &is_live, &least, &most);
  gst_query_set_latency (query, TRUE, least + own,
      GST_CLOCK_TIME_IS_VALID (most) ? most + own : GST_CLOCK_TIME_NONE);
  return TRUE;
}

/* ---- the object ---- */

static void
set_session (GstH263RpsRecv * self, GObject * session)
{
  gulong old_handlers[2];
  GObject * old;

  if (session) {
    if (g_signal_lookup ("on-sending-rtcp", G_OBJECT_TYPE (session)) == 0) {
      GST_WARNING_OBJECT (self, "a %s is no session of RTP", G_OBJECT_TYPE_NAME (session));
      return;
    }
    g_object_ref (session);
  }
  GST_OBJECT_LOCK (self);
  old = self->session;
  memcpy (old_handlers, self->session_handlers, sizeof old_handlers);
  self->session = session;
  memset (self->session_handlers, 0, sizeof self->session_handlers);
  GST_OBJECT_UNLOCK (self);

  if (old) {
    g_signal_handler_disconnect (old, old_handlers[0]);
    g_signal_handler_disconnect (old, old_handlers[1]);
    g_object_unref (old);
  }
  if (session) {
    self->session_handlers[0] = g_signal_connect_object (session, "on-sending-rtcp",
        G_CALLBACK (on_sending_rtcp), self, 0);
    self->session_handlers[1] = g_signal_connect_object (session, "on-bye-ssrc",
        G_CALLBACK (on_bye), self, 0);
  }
}

static void
gst_h263rps_recv_set_property (GObject * object, guint id, const GValue * value, GParamSpec * pspec)
{
  GstH263RpsRecv * self = GST_H263RPS_RECV (object);

  if (id == PROP_SESSION) {
    set_session (self, g_value_get_object (value));
    return;
  }
  if (id == PROP_SENDER) {
    g_weak_ref_set (&self->sender, g_value_get_object (value));
    return;
  }

  GST_OBJECT_LOCK (self);
  switch (id) {
    case PROP_LATENCY:
      self->latency = g_value_get_uint (value);
      break;
    case PROP_SLOTS:
      self->slots = g_value_get_uint (value);
      break;
    case PROP_LEAD:
      self->lead = g_value_get_uint (value);
      break;
    case PROP_MESSAGES:
      self->messages = g_value_get_uint (value);
      break;
    case PROP_REPAIR:
      self->repair = g_value_get_boolean (value);
      break;
    case PROP_SSRC:
      self->ssrc = g_value_get_uint (value);
      break;
    case PROP_SENDER_SSRC:
      self->sender_ssrc = g_value_get_uint (value);
      break;
    case PROP_TS_OFFSET:
      self->ts_offset = g_value_get_int64 (value);
      break;
    case PROP_CNAME:
      g_free (self->cname);
      self->cname = g_value_dup_string (value);
      if (!self->cname)
        self->cname = gst_h263rps_rtcp_new_name ();
      break;
    case PROP_RECORD_LOCATION:
      g_free (self->record_location);
      self->record_location = g_value_dup_string (value);
      break;
    default:
      G_OBJECT_WARN_INVALID_PROPERTY_ID (object, id, pspec);
      break;
  }
  GST_OBJECT_UNLOCK (self);
}

/* Under the lock: rates, and how the stream arrives. */
static void
add_rates (GstH263RpsRecv * self, GstStructure * stats)
{
  GstClockTime now = clock_time (self);

  gst_structure_set (stats, "bit-rate", G_TYPE_UINT64,
      gst_h263rps_meter_bitrate (&self->meter, now), "exact-share", G_TYPE_DOUBLE,
      gst_h263rps_meter_share (&self->meter, now), "round-trip", G_TYPE_UINT64,
      self->asking.is_known ? self->asking.trip : GST_CLOCK_TIME_NONE, "jitter", G_TYPE_UINT64,
      self->reception.begun ? gst_h263rps_reception_jitter (&self->reception) : GST_CLOCK_TIME_NONE,
      NULL);
}

static GstStructure *
create_stats (GstH263RpsRecv * self)
{
  GstStructure * stats;
  Counts counts;
  guint32 ssrc = 0;

  g_mutex_lock (&self->lock);
  counts = self->counts;
  if (self->shown)
    gst_h263rps_call_followed (self->shown, &ssrc);
  stats = gst_structure_new_empty ("application/x-h263rpsrecv-stats");
  add_rates (self, stats);
  g_mutex_unlock (&self->lock);
  gst_structure_set (stats, "ssrc", G_TYPE_UINT, ssrc, "exact", G_TYPE_UINT64,
      counts.marks[H263RPS_EXACT], "patched", G_TYPE_UINT64, counts.marks[H263RPS_PATCHED], "held",
      G_TYPE_UINT64, counts.marks[H263RPS_HELD], "unshown", G_TYPE_UINT64, counts.unshown, "taken",
      G_TYPE_UINT64, counts.heard[H263RPS_TAKEN] + counts.heard[H263RPS_COMPLETED], "completed",
      G_TYPE_UINT64, counts.heard[H263RPS_COMPLETED], "late", G_TYPE_UINT64,
      counts.heard[H263RPS_LATE], "early", G_TYPE_UINT64, counts.heard[H263RPS_EARLY], "repeat",
      G_TYPE_UINT64, counts.heard[H263RPS_REPEAT], "refused", G_TYPE_UINT64,
      counts.heard[H263RPS_REFUSED], "malformed", G_TYPE_UINT64, counts.malformed,
      "other-payload-type", G_TYPE_UINT64, counts.other_payload_type, "other-format", G_TYPE_UINT64,
      counts.other_format, "other-source", G_TYPE_UINT64, counts.other_source, "ahead",
      G_TYPE_UINT64, counts.ahead, "too-fast", G_TYPE_UINT64, counts.too_fast, "paused",
      G_TYPE_UINT64, counts.paused, "said", G_TYPE_UINT64, counts.said, "session-refused",
      G_TYPE_UINT64, counts.session_refused, "dropped-messages", G_TYPE_UINT64,
      counts.dropped_messages, "intra-asked", G_TYPE_UINT64, counts.intra_asked, "runs",
      G_TYPE_UINT64, counts.runs, "rivals", G_TYPE_UINT64, counts.rivals, "asked", G_TYPE_UINT64,
      counts.asked, "repaired", G_TYPE_UINT64, counts.repaired, NULL);
  return stats;
}

static void
gst_h263rps_recv_get_property (GObject * object, guint id, GValue * value, GParamSpec * pspec)
{
  GstH263RpsRecv * self = GST_H263RPS_RECV (object);

  if (id == PROP_STATS) {
    g_value_take_boxed (value, create_stats (self));
    return;
  }
  if (id == PROP_SENDER) {
    g_value_take_object (value, g_weak_ref_get (&self->sender));
    return;
  }

  GST_OBJECT_LOCK (self);
  switch (id) {
    case PROP_LATENCY:
      g_value_set_uint (value, self->latency);
      break;
    case PROP_SLOTS:
      g_value_set_uint (value, self->slots);
      break;
    case PROP_LEAD:
      g_value_set_uint (value, self->lead);
      break;
    case PROP_MESSAGES:
      g_value_set_uint (value, self->messages);
      break;
    case PROP_REPAIR:
      g_value_set_boolean (value, self->repair);
      break;
    case PROP_SSRC:
      g_value_set_uint (value, self->ssrc);
      break;
    case PROP_SENDER_SSRC:
      g_value_set_uint (value, self->sender_ssrc);
      break;
    case PROP_SESSION:
      g_value_set_object (value, self->session);
      break;
    case PROP_TS_OFFSET:
      g_value_set_int64 (value, self->ts_offset);
      break;
    case PROP_CNAME:
      g_value_set_string (value, self->cname);
      break;
    case PROP_RECORD_LOCATION:
      g_value_set_string (value, self->record_location);
      break;
    default:
      G_OBJECT_WARN_INVALID_PROPERTY_ID (object, id, pspec);
      break;
  }
  GST_OBJECT_UNLOCK (self);
}

static void
set_playing (GstH263RpsRecv * self, gboolean is_playing)
{
  g_mutex_lock (&self->lock);
  self->is_playing = is_playing;
  wake (self);
  g_mutex_unlock (&self->lock);
}

static GstStateChangeReturn
gst_h263rps_recv_change_state (GstElement * element, GstStateChange transition)
{
  GstH263RpsRecv * self = GST_H263RPS_RECV (element);
  GstStateChangeReturn result;

  switch (transition) {
    case GST_STATE_CHANGE_READY_TO_PAUSED:
      g_mutex_lock (&self->lock);
      memset (&self->counts, 0, sizeof self->counts);
      memset (&self->reception, 0, sizeof self->reception);
      memset (&self->asking, 0, sizeof self->asking);
      self->headers_at = GST_CLOCK_TIME_NONE;
      self->header = -1;
      memset (&self->meter, 0, sizeof self->meter);
      self->next_report = GST_CLOCK_TIME_NONE;
      self->has_asked = self->is_call_fault_told = self->is_rival_told = FALSE;
      self->call_fault = 0;
      self->own_ssrc = self->ssrc == DEFAULT_SSRC ? g_random_int () : self->ssrc;
      g_mutex_unlock (&self->lock);
      set_playing (self, FALSE);
      break;
    case GST_STATE_CHANGE_PAUSED_TO_PLAYING:
      set_playing (self, TRUE);
      break;
    case GST_STATE_CHANGE_PLAYING_TO_PAUSED:
      set_playing (self, FALSE);
      break;
    default:
      break;
  }
  result = GST_ELEMENT_CLASS (parent_class)->change_state (element, transition);
  if (transition == GST_STATE_CHANGE_PAUSED_TO_READY) {
    begin_task_state (self, FALSE);
    self->is_rtcp_begun = FALSE;
  }
  /* Pictures come by the clock, so there is none before it runs. */
  if (result == GST_STATE_CHANGE_SUCCESS
      && (transition == GST_STATE_CHANGE_READY_TO_PAUSED
          || transition == GST_STATE_CHANGE_PLAYING_TO_PAUSED))
    result = GST_STATE_CHANGE_NO_PREROLL;
  return result;
}

static gboolean
gst_h263rps_recv_set_clock (GstElement * element, GstClock * clock)
{
  GstH263RpsRecv * self = GST_H263RPS_RECV (element);

  g_mutex_lock (&self->lock);
  self->is_clock_new = clock != NULL && clock != GST_ELEMENT_CLOCK (element);
  g_mutex_unlock (&self->lock);
  return GST_ELEMENT_CLASS (parent_class)->set_clock (element, clock);
}

static void
gst_h263rps_recv_dispose (GObject * object)
{
  set_session (GST_H263RPS_RECV (object), NULL);
  G_OBJECT_CLASS (parent_class)->dispose (object);
}

static void
gst_h263rps_recv_finalize (GObject * object)
{
  GstH263RpsRecv * self = GST_H263RPS_RECV (object);

  forget_calls (self);
  g_queue_clear_full (&self->out, (GDestroyNotify) gst_mini_object_unref);
  g_queue_clear_full (&self->session_queue, g_free);
  g_queue_clear_full (&self->again, g_free);
  gst_clear_caps (&self->new_caps);
  gst_caps_unref (self->ntp_caps);
  g_weak_ref_clear (&self->sender);
  g_free (self->cname);
  g_free (self->record_location);
  g_free (self->record_fault);
  g_free (self->room);
  g_mutex_clear (&self->lock);
  g_mutex_clear (&self->rtcp_lock);
  g_cond_clear (&self->cond);
  G_OBJECT_CLASS (parent_class)->finalize (object);
}

static void
add_pads (GstH263RpsRecv * self)
{
  GstElement * element = GST_ELEMENT (self);

  self->sinkpad = gst_pad_new_from_static_template (&sink_template, "sink");
  gst_pad_set_chain_function (self->sinkpad, gst_h263rps_recv_chain);
  gst_pad_set_event_function (self->sinkpad, gst_h263rps_recv_sink_event);
  gst_pad_set_iterate_internal_links_function (self->sinkpad, gst_h263rps_recv_iterate_links);
  gst_element_add_pad (element, self->sinkpad);

  self->srcpad = gst_pad_new_from_static_template (&src_template, "src");
  gst_pad_set_activatemode_function (self->srcpad, gst_h263rps_recv_activate_mode);
  gst_pad_set_event_function (self->srcpad, gst_h263rps_recv_src_event);
  gst_pad_set_query_function (self->srcpad, gst_h263rps_recv_src_query);
  gst_pad_set_iterate_internal_links_function (self->srcpad, gst_h263rps_recv_iterate_links);
  gst_pad_use_fixed_caps (self->srcpad);
  gst_element_add_pad (element, self->srcpad);

  self->rtcp_srcpad = gst_pad_new_from_static_template (&rtcp_src_template, "rtcp_src");
  gst_pad_set_query_function (self->rtcp_srcpad, gst_h263rps_rtcp_query);
  gst_pad_set_iterate_internal_links_function (self->rtcp_srcpad, gst_h263rps_recv_iterate_links);
  gst_pad_use_fixed_caps (self->rtcp_srcpad);
  gst_element_add_pad (element, self->rtcp_srcpad);

  self->rtcp_sinkpad = gst_pad_new_from_static_template (&rtcp_sink_template, "rtcp_sink");
  gst_pad_set_chain_function (self->rtcp_sinkpad, gst_h263rps_recv_rtcp_chain);
  gst_pad_set_event_function (self->rtcp_sinkpad, gst_h263rps_recv_rtcp_event);
  gst_pad_set_iterate_internal_links_function (self->rtcp_sinkpad, gst_h263rps_recv_iterate_links);
  gst_element_add_pad (element, self->rtcp_sinkpad);
}

static void
gst_h263rps_recv_init (GstH263RpsRecv * self)
{
  self->latency = DEFAULT_LATENCY;
  self->slots = DEFAULT_SLOTS;
  self->lead = DEFAULT_LEAD;
  self->messages = DEFAULT_MESSAGES;
  self->caps_slots = self->caps_lead = -1;
  self->fps_n = 30000;
  self->fps_d = 1001;
  self->earliest = GST_CLOCK_TIME_NONE;
  g_weak_ref_init (&self->sender, NULL);
  self->headers_at = GST_CLOCK_TIME_NONE;
  self->header = -1;
  self->repair = DEFAULT_REPAIR;
  self->ssrc = DEFAULT_SSRC;
  self->sender_ssrc = DEFAULT_SENDER_SSRC;
  self->room = g_malloc (ROOM);
  self->ntp_caps = gst_caps_new_empty_simple ("timestamp/x-ntp");
  self->cname = gst_h263rps_rtcp_new_name ();
  self->next_report = GST_CLOCK_TIME_NONE;
  g_queue_init (&self->out);
  g_queue_init (&self->session_queue);
  g_queue_init (&self->again);
  g_mutex_init (&self->lock);
  g_mutex_init (&self->rtcp_lock);
  g_cond_init (&self->cond);
  add_pads (self);
}

static void
gst_h263rps_recv_class_init (GstH263RpsRecvClass * klass)
{
  GObjectClass * object_class = G_OBJECT_CLASS (klass);
  GstElementClass * element_class = GST_ELEMENT_CLASS (klass);
  const GParamFlags ready = G_PARAM_READWRITE | G_PARAM_STATIC_STRINGS | GST_PARAM_MUTABLE_READY;
  const GParamFlags playing = G_PARAM_READWRITE | G_PARAM_STATIC_STRINGS
      | GST_PARAM_MUTABLE_PLAYING;

  GST_DEBUG_CATEGORY_INIT (h263rpsrecv_debug, "h263rpsrecv", 0, "H.263 RPS receiver");

  object_class->set_property = gst_h263rps_recv_set_property;
  object_class->get_property = gst_h263rps_recv_get_property;
  object_class->dispose = gst_h263rps_recv_dispose;
  object_class->finalize = gst_h263rps_recv_finalize;

  /**
   * GstH263RpsRecv:latency:
   *
   * How long after the earliest arrival a picture is played: what the network's jitter may be. One of
   * 0 counts as 1 ms. The receiver takes a lead that holds it, and slots for that lead and the
   * sender's window. Where 64 slots don't hold both, it posts an error as soon as the caps come.
   */
  g_object_class_install_property (object_class, PROP_LATENCY,
      g_param_spec_uint ("latency", "Latency",
          "Milliseconds from the earliest arrival of a picture to its play", 0, 2000,
          DEFAULT_LATENCY, ready));
  /**
   * GstH263RpsRecv:slots:
   *
   * The sender's slots, where the caps of the packets don't say (x-slots). What counts is its
   * window, slots less lead less 1; the receiver's own slots and lead follow from it.
   */
  g_object_class_install_property (object_class, PROP_SLOTS,
      g_param_spec_uint ("slots", "Slots", "The sender's slots, where the caps don't say", 2, 64,
          DEFAULT_SLOTS, ready));
  /**
   * GstH263RpsRecv:lead:
   *
   * The sender's lead, where the caps of the packets don't say (x-lead).
   */
  g_object_class_install_property (object_class, PROP_LEAD,
      g_param_spec_uint ("lead", "Lead", "The sender's lead, where the caps don't say", 0, 62,
          DEFAULT_LEAD, ready));
  /**
   * GstH263RpsRecv:messages:
   *
   * With version 2 each message also says which of the fourteen pictures after its own are complete.
   */
  g_object_class_install_property (object_class, PROP_MESSAGES,
      g_param_spec_uint ("messages", "Messages", "The version of the messages", 1, 2,
          DEFAULT_MESSAGES, ready));
  /**
   * GstH263RpsRecv:repair:
   *
   * Whether missing packets are asked for that could still come in time: by a Generic NACK (RFC 4585,
   * 6.2.1) at rtcp_src, and by GstRTPRetransmissionRequest events upstream, of which a session or an
   * rtprtxreceive (RFC 4588) makes use. How long an answer takes is measured by the answers.
   */
  g_object_class_install_property (object_class, PROP_REPAIR,
      g_param_spec_boolean ("repair", "Repair", "Ask for missing packets again", DEFAULT_REPAIR,
          playing));
  /**
   * GstH263RpsRecv:ssrc:
   *
   * The SSRC by which this receiver speaks at rtcp_src; by a session it is the session's.
   */
  g_object_class_install_property (object_class, PROP_SSRC,
      g_param_spec_uint ("ssrc", "SSRC", "The SSRC of the messages at rtcp_src (default == random)",
          0, G_MAXUINT32, DEFAULT_SSRC, ready));
  /**
   * GstH263RpsRecv:sender-ssrc:
   *
   * The SSRC of the stream that is wanted, where an offer or a signal has told it: no other one is
   * looked at.
   */
  g_object_class_install_property (object_class, PROP_SENDER_SSRC,
      g_param_spec_uint ("sender-ssrc", "Sender's SSRC",
          "The SSRC of the stream that is wanted (default == any)", 0, G_MAXUINT32,
          DEFAULT_SENDER_SSRC, playing));
  /**
   * GstH263RpsRecv:session:
   *
   * The inner session of an rtpsession (its internal-session), an rtpbin (get-internal-session) or
   * a webrtcbin, by which messages are sent, in place of the pad rtcp_src. It delays them by its
   * rules on early feedback, so give it a bandwidth of ten times the stream's.
   */
  g_object_class_install_property (object_class, PROP_SESSION,
      g_param_spec_object ("session", "Session", "An inner session of RTP that sends the messages",
          G_TYPE_OBJECT, playing));
  /**
   * GstH263RpsRecv:sender:
   *
   * The #GstH263RpsSend of the same party, where both sides send. Its pictures' headers carry this
   * receiver's messages (H.263, Annex N), and it hears those in the headers that come. Where the other
   * party's headers carry messages, too, one goes out by RTCP only if the next picture is more than
   * 20 ms away. While the sender records, its headers carry none.
   */
  g_object_class_install_property (object_class, PROP_SENDER,
      g_param_spec_object ("sender", "Sender", "The sender whose pictures carry the messages",
          GST_TYPE_H263RPS_SEND, playing));
  /**
   * GstH263RpsRecv:ts-offset:
   *
   * How much later pictures are shown, as for sound that comes later. Where a session's
   * rtpjitterbuffer lies before this element, bind that element's ts-offset to it: by that an rtpbin
   * or a webrtcbin plays the streams of one sender at the same time.
   */
  g_object_class_install_property (object_class, PROP_TS_OFFSET,
      g_param_spec_int64 ("ts-offset", "Timestamp offset",
          "Nanoseconds that are added to each picture's time", -MOST_OFFSET, MOST_OFFSET, 0,
          playing));
  /**
   * GstH263RpsRecv:cname:
   *
   * The canonical name of the receiver reports at rtcp_src (RFC 3550, 6.5.1).
   */
  g_object_class_install_property (object_class, PROP_CNAME,
      g_param_spec_string ("cname", "CNAME",
          "The canonical name of the receiver reports (default == random)", NULL, ready));
  /**
   * GstH263RpsRecv:record-location:
   *
   * A folder that gets what the end reads and writes, as `h263rps recv` and the project's tools
   * read it.
   */
  g_object_class_install_property (object_class, PROP_RECORD_LOCATION,
      g_param_spec_string ("record-location", "Record location", "A folder to record the call in",
          NULL, ready));
  /**
   * GstH263RpsRecv:stats:
   *
   * Pictures "exact", "patched", "held", and of them "unshown" (what comes after lagged); packets
   * "taken", of them "completed" (their picture was whole then), "late", "early", "repeat" and
   * "refused"; what didn't count: "malformed", "other-payload-type", "other-format",
   * "other-source", "ahead" of the clock, "too-fast", "paused"; messages "said",
   * "session-refused" (sent later on), "dropped-messages"; "intra-asked", "runs", "rivals" (another stream
   * beside it, each second); how often packets were "asked" for, and how many that were came in time
   * ("repaired"); "round-trip" of what was asked for, "jitter" (RFC 3550, A.8), both in ns, or
   * %GST_CLOCK_TIME_NONE; "bit-rate" in the last second, in bits; "exact-share" of the pictures of the
   * last ten seconds, 0 to 1, or -1.
   */
  g_object_class_install_property (object_class, PROP_STATS,
      g_param_spec_boxed ("stats", "Statistics", "Counts of the call", GST_TYPE_STRUCTURE,
          G_PARAM_READABLE | G_PARAM_STATIC_STRINGS));

  element_class->change_state = gst_h263rps_recv_change_state;
  element_class->set_clock = gst_h263rps_recv_set_clock;
  gst_element_class_add_static_pad_template (element_class, &sink_template);
  gst_element_class_add_static_pad_template (element_class, &src_template);
  gst_element_class_add_static_pad_template (element_class, &rtcp_src_template);
  gst_element_class_add_static_pad_template (element_class, &rtcp_sink_template);
  gst_element_class_set_static_metadata (element_class, "H.263 RPS receiver",
      "Codec/Decoder/Depayloader/Network/RTP",
      "Decodes RTP packets of H.263 (RFC 4629) on arrival, acknowledges pictures, shows them on time",
      "Leuvasti maintainers <maintainers@users.noreply.leuvasti.example>");
}
