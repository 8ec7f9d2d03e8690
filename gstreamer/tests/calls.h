/* What the tests by GStreamer's harness share: a call of both ends, in memory, and a way between them.
 * Pictures are 60 a second. */
#ifndef CALLS_H
#define CALLS_H

#include <gst/check/gstcheck.h>
#include <gst/check/gstharness.h>
#include <gst/rtp/rtp.h>
#include <gst/video/video.h>
#include <string.h>

/* Each test has what it wants of these. */
#pragma GCC diagnostic ignored "-Wunused-function"

#define CAPS(width, height) \
  "video/x-raw, format = (string) I420, width = (int) " #width ", height = (int) " #height \
  ", framerate = (fraction) 60/1"
#define SUB_QCIF CAPS (128, 96)
#define QCIF CAPS (176, 144)
#define PERIOD (GST_SECOND / 60)
/* The latency of the receivers here, in milliseconds: a busy machine may be late itself. */
#define LATENCY 400
#define LEAD 30
#define SLOTS 63

/* Both ends with a harness for each pair of pads. */
typedef struct {
  GstElement *send, *recv;
  GstHarness *out, *back, *in, *said;
  guint captured, size;
  gint64 next; /* the next picture's time, in us */
} Call;

static GstHarness *
quick_harness (GstElement * element, const gchar * sink, const gchar * src)
{
  GstHarness * harness = gst_harness_new_with_element (element, sink, src);

  gst_harness_use_systemclock (harness);
  return harness;
}

static void
set_size (Call * call, const gchar * caps)
{
  GstVideoInfo info;
  GstCaps * parsed = gst_caps_from_string (caps);

  gst_video_info_from_caps (&info, parsed);
  gst_caps_unref (parsed);
  call->size = GST_VIDEO_INFO_SIZE (&info);
  gst_harness_set_src_caps_str (call->out, caps);
}

/* With elements that have this latency and a steady bit rate, or at their defaults. */
static void
begin_call_with (Call * call, gboolean is_set)
{
  memset (call, 0, sizeof *call);
  call->send = gst_element_factory_make ("h263rpssend", NULL);
  call->recv = gst_element_factory_make ("h263rpsrecv", NULL);
  fail_unless (call->send && call->recv);
  if (is_set) {
    g_object_set (call->send, "slots", SLOTS, "lead", LEAD, "adapt", FALSE, NULL);
    g_object_set (call->recv, "latency", LATENCY, NULL);
  }
  call->out = quick_harness (call->send, "sink", "src");
  call->back = quick_harness (call->send, "rtcp_sink", NULL);
  call->in = quick_harness (call->recv, "sink", "src");
  call->said = quick_harness (call->recv, NULL, "rtcp_src");
  gst_harness_set_live (call->out, TRUE);
  gst_harness_set_live (call->in, TRUE);
  gst_harness_set_src_caps_str (call->back, "application/x-rtcp");
  set_size (call, SUB_QCIF);
}

static void
begin_call (Call * call)
{
  begin_call_with (call, TRUE);
}

static void
end_call (Call * call)
{
  gst_harness_teardown (call->said);
  gst_harness_teardown (call->in);
  gst_harness_teardown (call->back);
  gst_harness_teardown (call->out);
  gst_object_unref (call->send);
  gst_object_unref (call->recv);
}

/* A surface that moves. */
static GstBuffer *
picture_of (const Call * call)
{
  GstBuffer * buffer = gst_buffer_new_allocate (NULL, call->size, NULL);
  GstMapInfo map;
  gsize i;

  gst_buffer_map (buffer, &map, GST_MAP_WRITE);
  for (i = 0; i < map.size; i++)
    map.data[i] = 60 + (i / 9 + 5 * call->captured + i * i / 4099) % 90;
  gst_buffer_unmap (buffer, &map);
  /* A harness has no base time. */
  GST_BUFFER_PTS (buffer) = 1000 * (guint64) g_get_monotonic_time ();
  GST_BUFFER_DURATION (buffer) = PERIOD;
  return buffer;
}

static void
capture (Call * call)
{
  fail_unless_equals_int (gst_harness_push (call->out, picture_of (call)), GST_FLOW_OK);
  call->captured++;
}

static void
pass_caps (Call * call)
{
  GstPad * pad = gst_element_get_static_pad (call->send, "src");
  GstCaps * caps = gst_pad_get_current_caps (pad);

  gst_harness_set_src_caps (call->in, caps);
  gst_object_unref (pad);
}

/* What was sent goes to the receiver, and what it says to the sender. */
static void
pass_on (Call * call, gboolean is_lost)
{
  GstBuffer * buffer;

  while ((buffer = gst_harness_try_pull (call->out))) {
    if (is_lost)
      gst_buffer_unref (buffer);
    else
      gst_harness_push (call->in, buffer);
  }
  while ((buffer = gst_harness_try_pull (call->said)))
    gst_harness_push (call->back, buffer);
}

/* Pictures at their times; of each `lose` the last is lost, and with 0 none. Where the machine has
 * stood still, the camera has, too: it makes up for nothing. */
static void
run_call (Call * call, guint pictures, guint lose)
{
  guint i;

  for (i = 0; i < pictures; i++) {
    gint64 left = call->next - g_get_monotonic_time ();

    if (left > 0)
      g_usleep (left);
    call->next = g_get_monotonic_time () + PERIOD / 1000;
    capture (call);
    if (call->captured == 1)
      pass_caps (call);
    pass_on (call, lose && call->captured % lose == 0);
  }
}

static guint64
count_of (GstElement * element, const gchar * name)
{
  GstStructure * stats;
  guint64 count = 0;

  g_object_get (element, "stats", &stats, NULL);
  fail_unless (gst_structure_get_uint64 (stats, name, &count), "no %s", name);
  gst_structure_free (stats);
  return count;
}

static guint
ssrc_of (GstElement * element)
{
  GstStructure * stats;
  guint ssrc = 0;

  g_object_get (element, "stats", &stats, NULL);
  gst_structure_get_uint (stats, "ssrc", &ssrc);
  gst_structure_free (stats);
  return ssrc;
}

static void
assert_count (GstElement * element, const gchar * name, guint64 wanted)
{
  guint64 count = count_of (element, name);

  fail_unless (count == wanted, "%s is %" G_GUINT64_FORMAT ", and not %" G_GUINT64_FORMAT, name,
      count, wanted);
}

static void assert_at_least (GstElement * element, const gchar * name, guint64 least);

/* A machine that stands still for a while makes some pictures late. */
static void
assert_nearly (GstElement * element, const gchar * name, guint64 most)
{
  assert_at_least (element, name, most * 4 / 5);
  fail_unless (count_of (element, name) <= most);
}

static void
assert_at_least (GstElement * element, const gchar * name, guint64 least)
{
  guint64 count = count_of (element, name);

  fail_unless (count >= least, "%s is %" G_GUINT64_FORMAT ", and not %" G_GUINT64_FORMAT, name,
      count, least);
}

/* Waits for what is still to be played. */
static void
drain (void)
{
  g_usleep (1000 * (LATENCY + 200));
}

/* ---- a way that takes a while, and loses some ---- */

#define STEP (3 * GST_SECOND / 1000)
#define MOST 2000
/* What is before a packet of RTP on a line, in bytes, and for how long a line has room, in us. */
#define HEADS 28
#define LINE_ROOM 200000

/* What is on its way, with the time at which it comes, in us. */
typedef struct {
  GstBuffer * buffer;
  gint64 at;
} Sent;

typedef struct {
  Call call;
  GQueue there, back;
  guint rate;
  gint64 step, delays[2], begun; /* before and after the step, in us */
  guint lines[2];                /* likewise, in kbit/s, or 0 */
  gint64 line_free;              /* when what is on the line has gone */
  guint64 dropped, bytes;        /* packets by the line; what was sent */
  gdouble loss;
  GRand * rand;
  gboolean is_lost[MOST], is_exact[MOST];
  gint64 captured[MOST];
} Way;

static void
begin_way (Way * way, guint rate, guint before, guint after, gdouble loss)
{
  gchar * caps = g_strdup_printf ("video/x-raw, format = (string) I420, width = (int) 128, "
                                  "height = (int) 96, framerate = (fraction) %u/1",
      rate);

  memset (way, 0, sizeof *way);
  begin_call (&way->call);
  g_object_set (way->call.recv, "latency", 100, NULL);
  set_size (&way->call, caps);
  g_free (caps);
  g_queue_init (&way->there);
  g_queue_init (&way->back);
  way->rate = rate;
  way->step = STEP;
  way->delays[0] = 1000 * before;
  way->delays[1] = 1000 * after;
  way->loss = loss;
  way->rand = g_rand_new_with_seed (5);
  way->begun = g_get_monotonic_time ();
}

static void
put (Way * way, GQueue * queue, GstBuffer * buffer, gint64 now)
{
  Sent * sent = g_new (Sent, 1);

  sent->buffer = buffer;
  sent->at = now + way->delays[now - way->begun >= way->step];
  g_queue_push_tail (queue, sent);
}

/* A packet waits for those before it on a narrow line, which drops it where too much waits; whether it
 * goes on. */
static gboolean
pass_line (Way * way, gsize size, gint64 now, gint64 * gone)
{
  guint rate = way->lines[now - way->begun >= way->step];

  *gone = now;
  if (rate == 0)
    return TRUE;
  if (way->line_free > now + LINE_ROOM) {
    way->dropped++;
    return FALSE;
  }
  way->line_free = *gone = MAX (way->line_free, now) + 8000 * (size + HEADS) / rate;
  return TRUE;
}

static void
bring (GQueue * queue, GstHarness * to, gint64 now)
{
  Sent * sent;

  while ((sent = g_queue_peek_head (queue)) && sent->at <= now) {
    gst_harness_push (to, sent->buffer);
    g_free (g_queue_pop_head (queue));
  }
}

/* The packets of a picture come together. */
static void
carry (Way * way)
{
  gint64 now = g_get_monotonic_time (), gone;
  GstBuffer * buffer;

  while ((buffer = gst_harness_try_pull (way->call.out))) {
    way->bytes += gst_buffer_get_size (buffer);
    if (g_rand_double (way->rand) < way->loss
        || !pass_line (way, gst_buffer_get_size (buffer), now, &gone)) {
      way->is_lost[way->call.captured - 1] = TRUE;
      gst_buffer_unref (buffer);
    } else {
      put (way, &way->there, buffer, gone);
    }
  }
  bring (&way->there, way->call.in, now);
  while ((buffer = gst_harness_try_pull (way->call.said)))
    put (way, &way->back, buffer, now);
  bring (&way->back, way->call.back, now);
}

static void
drive (Way * way, guint pictures)
{
  guint i;

  for (i = 0; i < pictures; i++) {
    gint64 next = way->begun + (gint64) i * G_USEC_PER_SEC / way->rate;

    for (; g_get_monotonic_time () < next; g_usleep (1000))
      carry (way);
    way->captured[i] = g_get_monotonic_time ();
    capture (&way->call);
    if (i == 0)
      pass_caps (&way->call);
    carry (way);
  }
  for (i = 0; i < 600; i++) {
    carry (way);
    g_usleep (1000);
  }
}

/* Reads the marks of what was shown. */
static void
read_marks (Way * way)
{
  GstBuffer * buffer;

  while ((buffer = gst_harness_try_pull (way->call.in))) {
    GstStructure * structure = gst_custom_meta_get_structure (
        gst_buffer_get_custom_meta (buffer, "GstH263RpsMeta"));
    guint number = MOST;

    gst_structure_get_uint (structure, "number", &number);
    if (number < MOST)
      way->is_exact[number] = g_str_equal (gst_structure_get_string (structure, "mark"), "exact");
    gst_buffer_unref (buffer);
  }
}

/* From then on, in us, each picture that came is exact; a busy machine makes some late. */
static void
assert_whole (Way * way, gint64 from)
{
  guint came = 0, exact = 0, i;

  read_marks (way);
  for (i = 0; i < way->call.captured; i++) {
    if (way->captured[i] - way->begun < from || way->is_lost[i])
      continue;
    came++;
    exact += way->is_exact[i];
  }
  fail_unless (came > 0 && exact * 20 >= came * 19 - 20, "%u of %u pictures are exact", exact,
      came);
}

static void
end_way (Way * way)
{
  Sent * sent;

  while ((sent = g_queue_pop_head (&way->there)) || (sent = g_queue_pop_head (&way->back))) {
    gst_buffer_unref (sent->buffer);
    g_free (sent);
  }
  g_rand_free (way->rand);
  end_call (&way->call);
}

#endif
