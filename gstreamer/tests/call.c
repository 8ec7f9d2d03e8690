/* call SECONDS PIPELINE [OPTION..]: runs a pipeline of calls and tells what came of it, one fact a
 * line. What it looks at are elements by their names:
 *
 *   send, recv   h263rpssend and h263rpsrecv, or any coder and decoder: its pictures are counted
 *   wanted       the src of this element gives the pictures that the coder reconstructs
 *   line, back   identity elements that lose packets, and messages
 *   d1, d2       srtpdec elements, which are given --key
 *   ssend, srecv rtpsession elements that carry the messages (--session)
 *   caps         a capsfilter (--switch)
 *   way          netsim elements (way0, way1) whose delay changes (--step)
 *
 *   --loss SHARE --burst N --seed N   what `line` and `back` lose, after Gilbert
 *   --session              the messages go by sessions
 *   --cycles N             N times SECONDS, with a way to NULL, READY or PAUSED between
 *   --flush                a flush of the receiver at half time
 *   --switch CAPS          the capsfilter gets these caps at half time
 *   --step MS              packets take this long on their way, both ways, from half time on; what is
 *                          shown from two seconds later on is counted by itself
 *   --bitrate N            the sender gets this bitrate at half time
 *   --intra                an intra picture is asked for at half time, from downstream
 *   --key HEX              30 bytes
 *   --shown FILE           the pictures that are shown, with no heads
 *   --captured FILE        those that are captured
 *   --psnr                 the mean over the pictures of the camera, each beside what the screen has */
#include <gst/gst.h>
#include <gst/video/video.h>
#include <math.h>
#include <stdio.h>
#include <stdlib.h>
#include <string.h>
#include <sys/resource.h>

#define MOST 65536

typedef struct {
  gdouble loss, burst;
  gboolean is_losing;
  GRand * rand;
  guint64 passed, lost, bytes;
} Line;

static gdouble loss = 0, burst = 1;
static gint seed = 1, cycles = 1, bitrate = 0, step = 0;
static gboolean by_session, is_flushed, asks_intra, by_psnr;
static gchar *new_caps, *key, *shown_name, *captured_name;

static GOptionEntry options[] = { { "loss", 0, 0, G_OPTION_ARG_DOUBLE, &loss, NULL, NULL },
  { "burst", 0, 0, G_OPTION_ARG_DOUBLE, &burst, NULL, NULL },
  { "seed", 0, 0, G_OPTION_ARG_INT, &seed, NULL, NULL },
  { "session", 0, 0, G_OPTION_ARG_NONE, &by_session, NULL, NULL },
  { "cycles", 0, 0, G_OPTION_ARG_INT, &cycles, NULL, NULL },
  { "flush", 0, 0, G_OPTION_ARG_NONE, &is_flushed, NULL, NULL },
  { "switch", 0, 0, G_OPTION_ARG_STRING, &new_caps, NULL, NULL },
  { "bitrate", 0, 0, G_OPTION_ARG_INT, &bitrate, NULL, NULL },
  { "step", 0, 0, G_OPTION_ARG_INT, &step, NULL, NULL },
  { "intra", 0, 0, G_OPTION_ARG_NONE, &asks_intra, NULL, NULL },
  { "key", 0, 0, G_OPTION_ARG_STRING, &key, NULL, NULL },
  { "shown", 0, 0, G_OPTION_ARG_STRING, &shown_name, NULL, NULL },
  { "captured", 0, 0, G_OPTION_ARG_STRING, &captured_name, NULL, NULL },
  { "psnr", 0, 0, G_OPTION_ARG_NONE, &by_psnr, NULL, NULL }, { NULL } };

/* Of each picture by its number, from the time of the capture. */
typedef struct {
  gint64 captured, played;
  guint wanted, shown;
  guint8 *camera, *screen;
  gboolean is_captured, is_wanted, is_shown;
} Picture;

static Picture pictures[MOST];
static gsize size;
static guint captures, marks[3], run, longest, others, after_shown, after_exact;
static gint64 step_at;
static GstClockTime first_capture = GST_CLOCK_TIME_NONE, period;
static FILE *shown, *captured;
static GMutex lock;
static GMainLoop * loop;
static GstElement * pipeline;
static gboolean is_failed;
static Line line, back;

static GstElement *
named (const gchar * name)
{
  return gst_bin_get_by_name (GST_BIN (pipeline), name);
}

/* ---- probes ---- */

static void
write_buffer (FILE * file, GstBuffer * buffer)
{
  GstMapInfo map;

  if (file && gst_buffer_map (buffer, &map, GST_MAP_READ)) {
    fwrite (map.data, 1, map.size, file);
    gst_buffer_unmap (buffer, &map);
  }
}

static guint
sum_of (GstBuffer * buffer)
{
  GstMapInfo map;
  guint sum = 2166136261u;
  gsize i;

  gst_buffer_map (buffer, &map, GST_MAP_READ);
  for (i = 0; i < map.size; i++)
    sum = (sum ^ map.data[i]) * 16777619u;
  gst_buffer_unmap (buffer, &map);
  return sum;
}

static guint8 *
copy_of (GstBuffer * buffer)
{
  guint8 * copy = g_malloc0 (size);

  gst_buffer_extract (buffer, 0, copy, size);
  return copy;
}

/* Which picture a buffer is by its running time: that of the capture goes through the pipeline. */
static guint
number_of (GstPad * pad, GstBuffer * buffer)
{
  GstEvent * event = gst_pad_get_sticky_event (pad, GST_EVENT_SEGMENT, 0);
  GstClockTime at = GST_BUFFER_PTS (buffer);
  const GstSegment * segment;

  if (event) {
    gst_event_parse_segment (event, &segment);
    at = gst_segment_to_running_time (segment, GST_FORMAT_TIME, at);
    gst_event_unref (event);
  }
  if (!GST_CLOCK_TIME_IS_VALID (at))
    return MOST;
  if (!GST_CLOCK_TIME_IS_VALID (first_capture)) {
    first_capture = at;
    period = GST_BUFFER_DURATION (buffer);
    size = gst_buffer_get_size (buffer);
  }
  if (at + period / 2 < first_capture)
    return MOST;
  return MIN ((at + period / 2 - first_capture) / period, MOST);
}

static GstPadProbeReturn
on_capture (GstPad * pad, GstPadProbeInfo * info, gpointer data)
{
  GstBuffer * buffer = GST_PAD_PROBE_INFO_BUFFER (info);
  guint number;

  g_mutex_lock (&lock);
  number = number_of (pad, buffer);
  captures++;
  if (number < MOST) {
    pictures[number].captured = g_get_monotonic_time ();
    pictures[number].is_captured = TRUE;
    if (by_psnr && !pictures[number].camera)
      pictures[number].camera = copy_of (buffer);
  }
  write_buffer (captured, buffer);
  g_mutex_unlock (&lock);
  return GST_PAD_PROBE_OK;
}

static GstPadProbeReturn
on_wanted (GstPad * pad, GstPadProbeInfo * info, gpointer data)
{
  GstBuffer * buffer = GST_PAD_PROBE_INFO_BUFFER (info);
  guint number;

  g_mutex_lock (&lock);
  number = number_of (pad, buffer);
  if (number < MOST) {
    pictures[number].wanted = sum_of (buffer);
    pictures[number].is_wanted = TRUE;
  }
  g_mutex_unlock (&lock);
  return GST_PAD_PROBE_OK;
}

static void
note_mark (const gchar * mark)
{
  guint kind = mark[0] == 'e' ? 0 : mark[0] == 'p' ? 1 : 2;

  marks[kind]++;
  run = kind == 0 ? 0 : run + 1;
  longest = MAX (longest, run);
}

static GstPadProbeReturn
on_shown (GstPad * pad, GstPadProbeInfo * info, gpointer data)
{
  GstBuffer * buffer = GST_PAD_PROBE_INFO_BUFFER (info);
  GstCustomMeta * meta = gst_buffer_get_custom_meta (buffer, "GstH263RpsMeta");
  guint number;

  g_mutex_lock (&lock);
  number = number_of (pad, buffer);
  if (meta) {
    GstStructure * structure = gst_custom_meta_get_structure (meta);
    gboolean is_exact = g_str_equal (gst_structure_get_string (structure, "mark"), "exact");

    note_mark (gst_structure_get_string (structure, "mark"));
    if (step_at && g_get_monotonic_time () - step_at >= 2 * G_USEC_PER_SEC) {
      after_shown++;
      after_exact += is_exact;
    }
    gst_structure_get_uint (structure, "number", &number);
    others += is_exact == GST_BUFFER_FLAG_IS_SET (buffer, GST_BUFFER_FLAG_CORRUPTED);
  }
  if (number < MOST) {
    pictures[number].played = g_get_monotonic_time ();
    pictures[number].shown = data ? sum_of (buffer) : 0;
    if (by_psnr && !pictures[number].screen)
      pictures[number].screen = copy_of (buffer);
    pictures[number].is_shown = TRUE;
  }
  write_buffer (shown, buffer);
  g_mutex_unlock (&lock);
  return GST_PAD_PROBE_OK;
}

/* After Gilbert: the share that is lost, in runs of this many in the mean. */
static GstPadProbeReturn
on_line (GstPad * pad, GstPadProbeInfo * info, gpointer data)
{
  Line * it = data;
  gdouble drawn = g_rand_double (it->rand);

  if (it->is_losing)
    it->is_losing = drawn >= 1 / it->burst;
  else
    it->is_losing = drawn < it->loss / it->burst / (1 - it->loss);
  it->passed += !it->is_losing;
  it->lost += it->is_losing;
  it->bytes += gst_buffer_get_size (GST_PAD_PROBE_INFO_BUFFER (info));
  return it->is_losing ? GST_PAD_PROBE_DROP : GST_PAD_PROBE_OK;
}

static gboolean
hook (const gchar * name, const gchar * pad_name, GstPadProbeCallback call, gpointer data)
{
  GstElement * element = named (name);
  GstPad * pad;

  if (!element)
    return FALSE;
  pad = gst_element_get_static_pad (element, pad_name);
  gst_pad_add_probe (pad, GST_PAD_PROBE_TYPE_BUFFER, call, data, NULL);
  gst_object_unref (pad);
  gst_object_unref (element);
  return TRUE;
}

static void
hook_line (Line * it, const gchar * name)
{
  it->loss = loss;
  it->burst = burst;
  it->rand = g_rand_new_with_seed (seed);
  hook (name, "src", on_line, it);
}

/* ---- what happens on the way ---- */

static gboolean
on_message (GstBus * bus, GstMessage * message, gpointer data)
{
  GError * error = NULL;
  gchar * more = NULL;

  switch (GST_MESSAGE_TYPE (message)) {
    case GST_MESSAGE_EOS:
      g_main_loop_quit (loop);
      break;
    case GST_MESSAGE_ERROR:
      gst_message_parse_error (message, &error, &more);
      fprintf (stderr, "error of %s: %s (%s)\n", GST_OBJECT_NAME (message->src), error->message,
          more ? more : "");
      is_failed = TRUE;
      g_main_loop_quit (loop);
      break;
    case GST_MESSAGE_WARNING:
      gst_message_parse_warning (message, &error, &more);
      fprintf (stderr, "warning of %s: %s (%s)\n", GST_OBJECT_NAME (message->src), error->message,
          more ? more : "");
      break;
    case GST_MESSAGE_LATENCY:
      gst_bin_recalculate_latency (GST_BIN (pipeline));
      break;
    default:
      break;
  }
  g_clear_error (&error);
  g_free (more);
  return TRUE;
}

static gboolean
on_time (gpointer data)
{
  g_main_loop_quit (loop);
  return G_SOURCE_REMOVE;
}

/* The source before the receiver flushes. The time goes on: the camera is in the same pipeline. */
static void
flush_receiver (void)
{
  GstElement * element = named ("recv");
  GstPad *pad = gst_element_get_static_pad (element, "sink"), *peer = gst_pad_get_peer (pad);
  GstElement * source = gst_pad_get_parent_element (peer);

  gst_element_send_event (source, gst_event_new_flush_start ());
  g_usleep (50000);
  gst_element_send_event (source, gst_event_new_flush_stop (FALSE));
  gst_object_unref (source);
  gst_object_unref (peer);
  gst_object_unref (pad);
  gst_object_unref (element);
}

static void
ask_for_intra (void)
{
  GstElement * element = named ("send");
  GstPad * pad = gst_element_get_static_pad (element, "src");

  gst_pad_send_event (pad,
      gst_video_event_new_upstream_force_key_unit (GST_CLOCK_TIME_NONE, TRUE, 1));
  gst_object_unref (pad);
  gst_object_unref (element);
}

static void
step_delay (const gchar * name)
{
  GstElement * element = named (name);

  if (!element)
    return;
  g_object_set (element, "min-delay", step, "max-delay", step, NULL);
  gst_object_unref (element);
}

static gboolean
on_half (gpointer data)
{
  GstElement * element;

  if (step) {
    g_mutex_lock (&lock);
    step_at = g_get_monotonic_time ();
    g_mutex_unlock (&lock);
    step_delay ("way0");
    step_delay ("way1");
  }

  if (is_flushed)
    flush_receiver ();
  if (asks_intra)
    ask_for_intra ();
  if (bitrate && (element = named ("send"))) {
    g_object_set (element, "bitrate", (guint) bitrate, NULL);
    gst_object_unref (element);
  }
  if (new_caps && (element = named ("caps"))) {
    GstCaps * caps = gst_caps_from_string (new_caps);

    g_object_set (element, "caps", caps, NULL);
    gst_caps_unref (caps);
    gst_object_unref (element);
  }
  return G_SOURCE_REMOVE;
}

static void
use_session (const gchar * element_name, const gchar * session_name)
{
  GstElement *element = named (element_name), *session = named (session_name);
  GObject * inner;

  g_object_get (session, "internal-session", &inner, NULL);
  g_object_set (inner, "rtcp-reduced-size", TRUE, NULL);
  g_object_set (element, "session", inner, NULL);
  g_object_unref (inner);
  gst_object_unref (session);
  gst_object_unref (element);
}

static GstCaps *
on_request_key (GstElement * decoder, guint ssrc, gpointer data)
{
  gchar * text = g_strdup_printf (
      "application/x-srtp, srtp-key = (buffer) %s, "
      "srtp-cipher = (string) aes-128-icm, srtp-auth = (string) hmac-sha1-80, "
      "srtcp-cipher = (string) aes-128-icm, srtcp-auth = (string) hmac-sha1-80",
      key);
  GstCaps * caps = gst_caps_from_string (text);

  g_free (text);
  return caps;
}

static void
use_key (const gchar * name)
{
  GstElement * element = named (name);

  if (!element)
    return;
  g_signal_connect (element, "request-key", G_CALLBACK (on_request_key), NULL);
  gst_object_unref (element);
}

/* ---- what is told ---- */

static gboolean
tell_field (GQuark name, const GValue * value, gpointer of)
{
  gchar * text = gst_value_serialize (value);

  printf ("%s.%s %s\n", (const gchar *) of, g_quark_to_string (name), text);
  g_free (text);
  return TRUE;
}

static void
tell_stats (const gchar * name)
{
  GstElement * element = named (name);
  GstStructure * stats = NULL;

  if (!element)
    return;
  if (g_object_class_find_property (G_OBJECT_GET_CLASS (element), "stats"))
    g_object_get (element, "stats", &stats, NULL);
  if (stats) {
    gst_structure_foreach (stats, tell_field, (gpointer) name);
    gst_structure_free (stats);
  }
  gst_object_unref (element);
}

static int
by_size (const void * one, const void * other)
{
  gdouble a = *(const gdouble *) one, b = *(const gdouble *) other;

  return (a > b) - (a < b);
}

/* The times from capture to play. */
static void
tell_ways (void)
{
  static gdouble ways[MOST];
  guint count = 0, number;

  for (number = 0; number < MOST; number++) {
    if (pictures[number].is_captured && pictures[number].is_shown)
      ways[count++] = (pictures[number].played - pictures[number].captured) / 1000.0;
  }
  if (count == 0)
    return;
  qsort (ways, count, sizeof *ways, by_size);
  printf ("way.least %.2f\nway.median %.2f\nway.99 %.2f\nway.most %.2f\n", ways[0], ways[count / 2],
      ways[count * 99 / 100], ways[count - 1]);
}

/* How many of the coder's pictures are shown as it has them, and the longest row of others. */
static void
tell_equal (void)
{
  guint equal = 0, row = 0, most = 0, wanted = 0, number;

  for (number = 0; number < MOST; number++) {
    const Picture * it = &pictures[number];

    if (!it->is_wanted)
      continue;
    wanted++;
    row = it->is_shown && it->shown == it->wanted ? 0 : row + 1;
    equal += row == 0;
    most = MAX (most, row);
  }
  printf ("wanted %u\nequal %u\nlongest.unequal %u\n", wanted, equal, most);
}

static void
tell_psnr (void)
{
  const guint8 * screen = NULL;
  gdouble error = 0;
  guint number, count = 0;
  gsize i;

  for (number = 0; number < MOST; number++) {
    const guint8 * camera = pictures[number].camera;

    if (pictures[number].screen)
      screen = pictures[number].screen;
    if (!camera || !screen)
      continue;
    count++;
    for (i = 0; i < size; i++)
      error += (camera[i] - screen[i]) * (camera[i] - screen[i]);
  }
  if (count > 0)
    printf ("psnr %.2f\n", error > 0 ? 10 * log10 (255.0 * 255 * size * count / error) : 99.0);
}

static void
tell (gdouble wall, gboolean has_wanted)
{
  struct rusage used;

  getrusage (RUSAGE_SELF, &used);
  tell_stats ("send");
  tell_stats ("recv");
  g_mutex_lock (&lock);
  printf ("captured %u\nexact %u\npatched %u\nheld %u\nlongest %u\nwrong.flags %u\n", captures,
      marks[0], marks[1], marks[2], longest, others);
  if (step)
    printf ("after.shown %u\nafter.exact %u\n", after_shown, after_exact);
  printf ("line.passed %" G_GUINT64_FORMAT "\nline.lost %" G_GUINT64_FORMAT
          "\nline.bytes %" G_GUINT64_FORMAT "\n",
      line.passed, line.lost, line.bytes);
  printf ("back.passed %" G_GUINT64_FORMAT "\nback.lost %" G_GUINT64_FORMAT "\n", back.passed,
      back.lost);
  tell_ways ();
  if (has_wanted)
    tell_equal ();
  tell_psnr ();
  printf ("processor %.3f\nseconds %.3f\npeak %ld\n",
      used.ru_utime.tv_sec + used.ru_stime.tv_sec
          + (used.ru_utime.tv_usec + used.ru_stime.tv_usec) / 1e6,
      wall, used.ru_maxrss);
  g_mutex_unlock (&lock);
}

/* ---- the run ---- */

static void
cycle (guint number, gdouble seconds)
{
  static const GstState states[] = { GST_STATE_NULL, GST_STATE_READY, GST_STATE_PAUSED };
  guint timer, half;
  GSource * source;

  gst_element_set_state (pipeline, GST_STATE_PLAYING);
  timer = g_timeout_add ((guint) (1000 * seconds), on_time, NULL);
  half = g_timeout_add ((guint) (500 * seconds), on_half, NULL);
  g_main_loop_run (loop);
  if ((source = g_main_context_find_source_by_id (NULL, timer)))
    g_source_destroy (source);
  if ((source = g_main_context_find_source_by_id (NULL, half)))
    g_source_destroy (source);
  if (cycles > 1) {
    gst_element_set_state (pipeline, states[number % G_N_ELEMENTS (states)]);
    gst_element_get_state (pipeline, NULL, NULL, 5 * GST_SECOND);
  }
}

int
main (int argc, char ** argv)
{
  GOptionContext * context = g_option_context_new ("SECONDS PIPELINE");
  GError * error = NULL;
  GstBus * bus;
  guint watch, i;
  gint64 began;
  gboolean has_wanted;

  g_option_context_add_main_entries (context, options, NULL);
  g_option_context_add_group (context, gst_init_get_option_group ());
  if (!g_option_context_parse (context, &argc, &argv, &error) || argc != 3) {
    fprintf (stderr, "call: %s\n", error ? error->message : "SECONDS and PIPELINE are wanted");
    return 2;
  }
  g_option_context_free (context);
  loop = g_main_loop_new (NULL, FALSE);
  pipeline = gst_parse_launch (argv[2], &error);
  if (error) {
    fprintf (stderr, "call: %s\n", error->message);
    return 2;
  }
  bus = gst_element_get_bus (pipeline);
  watch = gst_bus_add_watch (bus, on_message, NULL);
  shown = shown_name ? fopen (shown_name, "wb") : NULL;
  captured = captured_name ? fopen (captured_name, "wb") : NULL;

  has_wanted = hook ("wanted", "src", on_wanted, NULL);
  hook ("send", "sink", on_capture, NULL);
  hook ("recv", "src", on_shown, has_wanted ? &pictures : NULL);
  hook_line (&line, "line");
  seed++;
  hook_line (&back, "back");
  if (by_session) {
    use_session ("send", "ssend");
    use_session ("recv", "srecv");
  }
  if (key) {
    use_key ("d1");
    use_key ("d2");
  }

  began = g_get_monotonic_time ();
  for (i = 0; i < (guint) cycles && !is_failed; i++)
    cycle (i, g_ascii_strtod (argv[1], NULL));
  tell ((g_get_monotonic_time () - began) / 1e6, has_wanted);

  gst_element_set_state (pipeline, GST_STATE_NULL);
  g_source_remove (watch);
  gst_object_unref (bus);
  gst_object_unref (pipeline);
  g_main_loop_unref (loop);
  g_rand_free (line.rand);
  g_rand_free (back.rand);
  for (i = 0; i < MOST; i++)
    g_free (pictures[i].camera), g_free (pictures[i].screen);
  if (shown)
    fclose (shown);
  if (captured)
    fclose (captured);
  gst_deinit ();
  return is_failed;
}
