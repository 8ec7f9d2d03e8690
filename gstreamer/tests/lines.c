/* Tests of the elements at their defaults over narrow lines, by GStreamer's harness. */
#include "calls.h"

/* Noise whose pictures have some 4,000 bytes at the finest quantiser, in QCIF at 30 pictures a second. */
static void
begin_line (Way * way, guint before, guint after, gint64 step)
{
  memset (way, 0, sizeof *way);
  begin_call_with (&way->call, FALSE);
  set_size (&way->call,
      "video/x-raw, format = (string) I420, width = (int) 176, height = (int) 144, "
      "framerate = (fraction) 30/1");
  way->rate = 30;
  way->delays[0] = way->delays[1] = 30000;
  way->lines[0] = before;
  way->lines[1] = after;
  way->step = step;
  way->rand = g_rand_new_with_seed (5);
  way->begun = g_get_monotonic_time ();
}

typedef struct {
  gint64 at[MOST]; /* from the start, in us */
  gboolean is_exact[MOST];
  guint count;
} Shown;

/* A buffer's time is that of its capture, and the least way. */
static Shown *
read_shown (Way * way)
{
  Shown * shown = g_new0 (Shown, 1);
  GstBuffer * buffer;

  while ((buffer = gst_harness_try_pull (way->call.in))) {
    shown->at[shown->count] = (gint64) (GST_BUFFER_PTS (buffer) / 1000) - way->begun;
    shown->is_exact[shown->count++] = !GST_BUFFER_FLAG_IS_SET (buffer, GST_BUFFER_FLAG_CORRUPTED);
    gst_buffer_unref (buffer);
  }
  return shown;
}

/* Of the pictures shown between two times, in seconds, so many of a hundred are exact, and so many are
 * shown a second, at least. */
static void
assert_exact (const Shown * shown, guint from, guint to, guint percent, guint each)
{
  guint all = 0, exact = 0, i;

  for (i = 0; i < shown->count; i++) {
    if (shown->at[i] < from * G_USEC_PER_SEC || shown->at[i] >= to * G_USEC_PER_SEC)
      continue;
    all++;
    exact += shown->is_exact[i];
  }
  g_print ("from second %u to %u exact %u of %u\n", from, to, exact, all);
  fail_unless (all >= each * (to - from), "%u pictures are shown", all);
  fail_unless (100 * exact >= percent * all, "%u of %u pictures are exact", exact, all);
}

/* What the line did, and the sender by that. */
static void
print_rates (Way * way)
{
  g_print ("dropped %" G_GUINT64_FORMAT " packets, sent %" G_GUINT64_FORMAT
           " kbit/s, left out %" G_GUINT64_FORMAT " of %u pictures, at the end %" G_GUINT64_FORMAT
           " kbit/s\n",
      way->dropped, 8 * way->bytes * way->rate / way->call.captured / 1000,
      count_of (way->call.send, "left-out"), way->call.captured,
      count_of (way->call.send, "target-bit-rate") / 1000);
}

GST_START_TEST (test_a_narrow_line)
{
  static const guint lines[] = { 300, 150, 1000 };
  Way * way = g_new (Way, 1);
  Shown * shown;

  begin_line (way, lines[__i__], lines[__i__], 0);
  drive (way, 25 * way->rate);
  print_rates (way);
  shown = read_shown (way);
  assert_exact (shown, 0, 5, 0, 1);
  assert_exact (shown, 5, 25, 97, 15);
  g_free (shown);
  end_way (way);
  g_free (way);
}
GST_END_TEST;

GST_START_TEST (test_a_line_that_gets_narrow)
{
  Way * way = g_new (Way, 1);
  Shown * shown;
  guint i;

  begin_line (way, 1000, 200, 8 * G_USEC_PER_SEC);
  drive (way, 18 * way->rate);
  print_rates (way);
  shown = read_shown (way);
  for (i = 5; i < 17; i++)
    assert_exact (shown, i, i + 1, 0, 1);
  assert_exact (shown, 10, 18, 97, 15);
  g_free (shown);
  end_way (way);
  g_free (way);
}
GST_END_TEST;

/* The way takes 250 ms from the eighth second on, for 30 before, at five pictures a second. */
GST_START_TEST (test_a_step_of_delay_at_defaults)
{
  Way * way = g_new (Way, 1);
  Shown * shown;

  begin_line (way, 0, 0, 8 * G_USEC_PER_SEC);
  set_size (&way->call,
      "video/x-raw, format = (string) I420, width = (int) 176, height = (int) 144, "
      "framerate = (fraction) 5/1");
  way->rate = 5;
  way->delays[1] = 250000;
  drive (way, 18 * way->rate);
  print_rates (way);
  shown = read_shown (way);
  assert_exact (shown, 1, 8, 97, 4);
  assert_exact (shown, 8, 10, 0, 1);
  assert_exact (shown, 10, 17, 97, 4);
  g_free (shown);
  end_way (way);
  g_free (way);
}
GST_END_TEST;

/* Where nothing comes back fewer pictures go out, until something does. */
GST_START_TEST (test_nothing_comes_back)
{
  guint64 coded[15];
  Call call;
  guint i, j;

  begin_call_with (&call, FALSE);
  for (i = 0; i < G_N_ELEMENTS (coded); i++) {
    coded[i] = count_of (call.send, "coded");
    for (j = 0; j < 30; j++) {
      capture (&call);
      g_usleep (33000);
    }
  }
  fail_unless (coded[2] >= 20, "%u in two seconds", (guint) coded[2]);
  fail_unless (coded[9] - coded[3] >= 20 && coded[9] - coded[3] <= 36, "%u in six",
      (guint) (coded[9] - coded[3]));
  fail_unless (coded[14] - coded[11] >= 2 && coded[14] - coded[11] <= 4, "%u in three",
      (guint) (coded[14] - coded[11]));
  pass_caps (&call);
  pass_on (&call, FALSE);
  run_call (&call, 60, 0);
  fail_unless (count_of (call.send, "coded") - coded[14] >= 50);
  end_call (&call);
}
GST_END_TEST;

static Suite *
lines_suite (void)
{
  Suite * suite = suite_create ("h263rps lines");
  TCase * chain = tcase_create ("lines");

  suite_add_tcase (suite, chain);
  tcase_set_timeout (chain, 60);
  tcase_add_loop_test (chain, test_a_narrow_line, 0, 3);
  tcase_add_test (chain, test_a_line_that_gets_narrow);
  tcase_add_test (chain, test_a_step_of_delay_at_defaults);
  tcase_add_test (chain, test_nothing_comes_back);
  return suite;
}

GST_CHECK_MAIN (lines);
