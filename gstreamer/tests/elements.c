/* Tests of the elements by GStreamer's harness: pads, caps, states, events, queries, and what a
 * network may send. Pictures are 60 a second. */
#include "calls.h"

#include <unistd.h>

/* ---- caps ---- */

GST_START_TEST (test_templates)
{
  static const struct {
    const gchar *element, *pad, *caps;
    gboolean is_taken;
  } rows[] = {
    { "h263rpssend", "sink", SUB_QCIF, TRUE },
    { "h263rpssend", "sink", QCIF, TRUE },
    { "h263rpssend", "sink", CAPS (352, 288), TRUE },
    { "h263rpssend", "sink", CAPS (640, 480), FALSE },
    { "h263rpssend", "sink", CAPS (176, 96), FALSE },
    { "h263rpssend", "sink",
        "video/x-raw, format = (string) NV12, width = (int) 176, "
        "height = (int) 144, framerate = (fraction) 30/1",
        FALSE },
    { "h263rpssend", "sink",
        "video/x-raw, format = (string) I420, width = (int) 176, "
        "height = (int) 144, framerate = (fraction) 0/1",
        FALSE },
    { "h263rpsrecv", "sink",
        "application/x-rtp, media = (string) video, "
        "clock-rate = (int) 90000, encoding-name = (string) H263-2000",
        TRUE },
    { "h263rpsrecv", "sink",
        "application/x-rtp, media = (string) video, "
        "clock-rate = (int) 90000, encoding-name = (string) H264",
        FALSE },
  };
  guint i;

  for (i = 0; i < G_N_ELEMENTS (rows); i++) {
    GstElement * element = gst_element_factory_make (rows[i].element, NULL);
    GstPad * pad = gst_element_get_static_pad (element, rows[i].pad);
    GstCaps * caps = gst_caps_from_string (rows[i].caps);

    fail_unless (gst_pad_query_accept_caps (pad, caps) == rows[i].is_taken, "row %u", i);
    gst_caps_unref (caps);
    gst_object_unref (pad);
    gst_object_unref (element);
  }
}
GST_END_TEST;

GST_START_TEST (test_caps_of_packets)
{
  static const gchar * const fields[][2] = { { "sqcif", "1" }, { "k", "1" }, { "n", "4" },
    { "x-slots", "63" }, { "x-lead", "30" }, { "a-framerate", "60" },
    { "encoding-name", "H263-2000" } };
  Call call;
  GstCaps * caps;
  GstPad * pad;
  guint i;

  begin_call (&call);
  capture (&call);
  pad = gst_element_get_static_pad (call.send, "src");
  caps = gst_pad_get_current_caps (pad);
  for (i = 0; i < G_N_ELEMENTS (fields); i++)
    fail_unless_equals_string (
        gst_structure_get_string (gst_caps_get_structure (caps, 0), fields[i][0]), fields[i][1]);
  gst_caps_unref (caps);
  gst_object_unref (pad);
  end_call (&call);
}
GST_END_TEST;

/* ---- calls ---- */

static guint
marked (Call * call, const gchar * mark)
{
  GstBuffer * buffer;
  guint count = 0;

  while ((buffer = gst_harness_try_pull (call->in))) {
    GstCustomMeta * meta = gst_buffer_get_custom_meta (buffer, "GstH263RpsMeta");
    const gchar * is = gst_structure_get_string (gst_custom_meta_get_structure (meta), "mark");

    fail_unless (
        g_str_equal (is, "exact") != GST_BUFFER_FLAG_IS_SET (buffer, GST_BUFFER_FLAG_CORRUPTED));
    fail_unless_equals_int (gst_buffer_get_size (buffer), call->size);
    count += g_str_equal (is, mark);
    gst_buffer_unref (buffer);
  }
  return count;
}

GST_START_TEST (test_a_call)
{
  Call call;

  begin_call (&call);
  run_call (&call, 60, 0);
  drain ();
  assert_nearly (call.recv, "exact", 60);
  assert_count (call.recv, "malformed", 0);
  assert_at_least (call.send, "noted", 50);
  fail_unless (marked (&call, "exact") >= 48 - count_of (call.recv, "unshown"));
  end_call (&call);
}
GST_END_TEST;

GST_START_TEST (test_a_loss_costs_its_own_picture)
{
  Call call;

  begin_call (&call);
  g_object_set (call.recv, "repair", FALSE, NULL);
  run_call (&call, 60, 10);
  drain ();
  /* The last one is lost, and nothing after it says that it was there. */
  assert_nearly (call.recv, "exact", 54);
  assert_at_least (call.recv, "held", 5);
  fail_unless (marked (&call, "held") >= 1);
  end_call (&call);
}
GST_END_TEST;

GST_START_TEST (test_events_in_order)
{
  static const GstEventType wanted[] = { GST_EVENT_STREAM_START, GST_EVENT_CAPS,
    GST_EVENT_SEGMENT };
  Call call;
  guint i;

  begin_call (&call);
  run_call (&call, 10, 0);
  drain ();
  for (i = 0; i < G_N_ELEMENTS (wanted); i++) {
    GstEvent * event = gst_harness_try_pull_event (call.in);

    fail_unless (event != NULL);
    fail_unless_equals_int (GST_EVENT_TYPE (event), wanted[i]);
    gst_event_unref (event);
  }
  end_call (&call);
}
GST_END_TEST;

GST_START_TEST (test_end_of_stream)
{
  Call call;
  GstEvent * event;
  gboolean is_ended = FALSE;

  begin_call (&call);
  run_call (&call, 10, 0);
  fail_unless (gst_harness_push_event (call.in, gst_event_new_eos ()));
  drain ();
  assert_nearly (call.recv, "exact", 10);
  while ((event = gst_harness_try_pull_event (call.in))) {
    is_ended = GST_EVENT_TYPE (event) == GST_EVENT_EOS;
    gst_event_unref (event);
  }
  fail_unless (is_ended);
  end_call (&call);
}
GST_END_TEST;

GST_START_TEST (test_flush)
{
  Call call;
  GstSegment segment;

  begin_call (&call);
  run_call (&call, 30, 0);
  drain ();
  gst_harness_push_event (call.in, gst_event_new_flush_start ());
  gst_harness_push_event (call.in, gst_event_new_flush_stop (TRUE));
  gst_segment_init (&segment, GST_FORMAT_TIME);
  gst_harness_push_event (call.in, gst_event_new_segment (&segment));
  run_call (&call, 60, 0);
  drain ();
  /* It asks for an intra picture, and from that on all are exact. */
  assert_count (call.recv, "intra-asked", 1);
  assert_count (call.send, "intra-asked", 1);
  assert_at_least (call.recv, "exact", 30 + 50);
  end_call (&call);
}
GST_END_TEST;

GST_START_TEST (test_another_size)
{
  Call call;
  guint first;

  begin_call (&call);
  run_call (&call, 20, 0);
  first = ssrc_of (call.send);
  set_size (&call, QCIF);
  capture (&call);
  pass_caps (&call);
  pass_on (&call, FALSE);
  run_call (&call, 100, 0);
  drain ();
  fail_unless (ssrc_of (call.send) != first);
  fail_unless_equals_int (ssrc_of (call.recv), ssrc_of (call.send));
  assert_count (call.send, "runs", 2);
  assert_count (call.recv, "runs", 2);
  assert_at_least (call.recv, "exact", 20 + 20);
  end_call (&call);
}
GST_END_TEST;

/* ---- what is asked of the sender ---- */

GST_START_TEST (test_force_key_unit)
{
  Call call;

  begin_call (&call);
  run_call (&call, 20, 0);
  assert_at_least (call.send, "intra", 1);
  gst_harness_push_upstream_event (call.out,
      gst_video_event_new_upstream_force_key_unit (GST_CLOCK_TIME_NONE, TRUE, 1));
  gst_harness_push_upstream_event (call.out,
      gst_video_event_new_upstream_force_key_unit (GST_CLOCK_TIME_NONE, TRUE, 2));
  assert_count (call.send, "intra-asked", 1);
  assert_count (call.send, "intra-refused", 1);
  {
    guint64 before = count_of (call.send, "intra");

    run_call (&call, 1, 0);
    assert_count (call.send, "intra", before + 1);
  }
  run_call (&call, 20, 0);
  drain ();
  assert_nearly (call.recv, "exact", 41);
  end_call (&call);
}
GST_END_TEST;

GST_START_TEST (test_bitrate_while_playing)
{
  Call call;
  guint64 before, between;

  begin_call (&call);
  g_object_set (call.send, "bitrate", 2000000, NULL);
  run_call (&call, 60, 0);
  before = count_of (call.send, "bytes");
  g_object_set (call.send, "bitrate", 200000, NULL);
  run_call (&call, 30, 0);
  between = count_of (call.send, "bytes");
  run_call (&call, 60, 0);
  drain ();
  fail_unless (2 * (count_of (call.send, "bytes") - between) < before);
  assert_nearly (call.recv, "exact", 150);
  end_call (&call);
}
GST_END_TEST;

static GstBuffer *
rpsi_of (guint32 speaker, guint32 about, guint8 first)
{
  GstRTCPBuffer rtcp = GST_RTCP_BUFFER_INIT;
  GstRTCPPacket packet;
  GstBuffer * buffer = gst_rtcp_buffer_new (64);
  /* "Picture 0 came": with no marker it is refused. */
  const guint8 fci[] = { 24, 96, first, 0x00, 0x20, 0, 0, 0 };

  gst_rtcp_buffer_map (buffer, GST_MAP_READWRITE, &rtcp);
  gst_rtcp_buffer_add_packet (&rtcp, GST_RTCP_TYPE_PSFB, &packet);
  gst_rtcp_packet_fb_set_type (&packet, GST_RTCP_PSFB_TYPE_RPSI);
  gst_rtcp_packet_fb_set_sender_ssrc (&packet, speaker);
  gst_rtcp_packet_fb_set_media_ssrc (&packet, about);
  gst_rtcp_packet_fb_set_fci_length (&packet, 2);
  memcpy (gst_rtcp_packet_fb_get_fci (&packet), fci, sizeof fci);
  gst_rtcp_buffer_unmap (&rtcp);
  return buffer;
}

GST_START_TEST (test_one_speaker_counts)
{
  Call call;
  guint about;

  begin_call (&call);
  run_call (&call, 20, 0);
  about = ssrc_of (call.send);
  gst_harness_push (call.back, rpsi_of (77, about, 0x80));
  assert_count (call.send, "other-speaker", 1);
  gst_harness_push (call.back, rpsi_of (77, about + 1, 0x80));
  assert_count (call.send, "stale", 1);
  run_call (&call, 20, 0);
  drain ();
  assert_nearly (call.recv, "exact", 40);
  /* After half a second without the first one, another counts, and what it hasn't is forgotten. */
  g_usleep (600000);
  gst_harness_push (call.back, rpsi_of (77, about, 0x80));
  assert_count (call.send, "other-speaker", 1);
  {
    guint64 before = count_of (call.send, "intra");

    capture (&call);
    assert_count (call.send, "intra", before + 1);
  }
  end_call (&call);
}
GST_END_TEST;

static GstBuffer *
fir_of (guint32 speaker, guint32 about, guint8 number)
{
  GstRTCPBuffer rtcp = GST_RTCP_BUFFER_INIT;
  GstRTCPPacket packet;
  GstBuffer * buffer = gst_rtcp_buffer_new (64);
  guint8 * fci;

  gst_rtcp_buffer_map (buffer, GST_MAP_READWRITE, &rtcp);
  gst_rtcp_buffer_add_packet (&rtcp, GST_RTCP_TYPE_PSFB, &packet);
  gst_rtcp_packet_fb_set_type (&packet, GST_RTCP_PSFB_TYPE_FIR);
  gst_rtcp_packet_fb_set_sender_ssrc (&packet, speaker);
  gst_rtcp_packet_fb_set_media_ssrc (&packet, 0);
  gst_rtcp_packet_fb_set_fci_length (&packet, 2);
  fci = gst_rtcp_packet_fb_get_fci (&packet);
  memset (fci, 0, 8);
  GST_WRITE_UINT32_BE (fci, about);
  fci[4] = number;
  gst_rtcp_buffer_unmap (&rtcp);
  return buffer;
}

/* A full intra request is heard, its repetition isn't, nor is one about another stream. */
GST_START_TEST (test_full_intra_request)
{
  Call call;
  guint64 before;
  guint about;

  begin_call (&call);
  g_object_set (call.send, "min-force-key-unit-interval", (guint64) 0, NULL);
  run_call (&call, 5, 0);
  /* What was said by then is heard. */
  capture (&call);
  about = ssrc_of (call.send);
  g_usleep (600000);
  gst_harness_push (call.back, fir_of (77, about + 1, 1));
  assert_count (call.send, "intra-asked", 0);
  gst_harness_push (call.back, fir_of (77, about, 1));
  gst_harness_push (call.back, fir_of (77, about, 1));
  assert_count (call.send, "intra-asked", 1);
  before = count_of (call.send, "intra");
  capture (&call);
  assert_count (call.send, "intra", before + 1);
  gst_harness_push (call.back, fir_of (77, about, 2));
  assert_count (call.send, "intra-asked", 2);
  end_call (&call);
}
GST_END_TEST;

/* ---- reports ---- */

static gdouble
number_of (GstElement * element, const gchar * name)
{
  GstStructure * stats;
  gdouble number = 0;

  g_object_get (element, "stats", &stats, NULL);
  fail_unless (gst_structure_get_double (stats, name, &number), "no %s", name);
  gst_structure_free (stats);
  return number;
}

/* What the sender reports goes to the receiver; whether any was a report. */
static guint
pass_reports (Call * call, GstHarness * reports, GstHarness * heard)
{
  GstBuffer * buffer;
  guint count = 0;

  while ((buffer = gst_harness_try_pull (reports))) {
    GstRTCPBuffer rtcp = GST_RTCP_BUFFER_INIT;
    GstRTCPPacket packet;

    fail_unless (gst_rtcp_buffer_validate (buffer));
    gst_rtcp_buffer_map (buffer, GST_MAP_READ, &rtcp);
    fail_unless (gst_rtcp_buffer_get_first_packet (&rtcp, &packet));
    fail_unless_equals_int (gst_rtcp_packet_get_type (&packet), GST_RTCP_TYPE_SR);
    gst_rtcp_buffer_unmap (&rtcp);
    count++;
    gst_harness_push (heard, buffer);
  }
  return count;
}

/* The sender's times are those of the captures, to a second; how many pictures have one. */
static guint
assert_times (Call * call)
{
  GstCaps * caps = gst_caps_new_empty_simple ("timestamp/x-ntp");
  guint64 now = (guint64) g_get_real_time () * 1000 + 2208988800 * GST_SECOND;
  guint64 us = g_get_monotonic_time ();
  GstBuffer * buffer;
  guint count = 0;

  while ((buffer = gst_harness_try_pull (call->in))) {
    GstReferenceTimestampMeta * meta = gst_buffer_get_reference_timestamp_meta (buffer, caps);

    if (meta) {
      gint64 ago = (gint64) (us * 1000) - (gint64) GST_BUFFER_PTS (buffer);
      gint64 apart = (gint64) (now - meta->timestamp) - ago;

      fail_unless (ABS (apart) < 1000 * (gint64) GST_MSECOND, "%" G_GINT64_FORMAT, apart);
      count++;
    }
    gst_buffer_unref (buffer);
  }
  gst_caps_unref (caps);
  return count;
}

GST_START_TEST (test_reports)
{
  GstHarness *reports, *heard;
  Call call;
  guint i, count = 0;

  begin_call (&call);
  g_object_set (call.recv, "repair", FALSE, NULL);
  reports = quick_harness (call.send, NULL, "rtcp_src");
  heard = quick_harness (call.recv, "rtcp_sink", NULL);
  gst_harness_set_src_caps_str (heard, "application/x-rtcp");
  fail_unless (number_of (call.send, "fraction-lost") < 0);
  fail_unless (number_of (call.recv, "exact-share") < 0);
  for (i = 0; i < 30; i++) {
    run_call (&call, 10, 10);
    count += pass_reports (&call, reports, heard);
  }
  fail_unless (count >= 2 && count <= 12, "%u reports", count);
  fail_unless (assert_times (&call) > 50);
  fail_unless (count_of (call.send, "round-trip") < GST_SECOND);
  fail_unless (count_of (call.send, "jitter") < GST_SECOND);
  fail_unless (count_of (call.recv, "jitter") < GST_SECOND);
  fail_unless (count_of (call.recv, "bit-rate") > 10000);
  fail_unless (count_of (call.send, "bit-rate") > 10000);
  fail_unless (number_of (call.send, "fraction-lost") > 0.0);
  fail_unless (number_of (call.send, "fraction-lost") < 0.5);
  fail_unless (number_of (call.recv, "exact-share") > 0.5);
  fail_unless (number_of (call.recv, "exact-share") < 1.0);
  gst_harness_teardown (heard);
  gst_harness_teardown (reports);
  end_call (&call);
}
GST_END_TEST;

/* Junk at the pads of reports costs a count. */
GST_START_TEST (test_wrong_reports)
{
  GRand * rand = g_rand_new_with_seed (3);
  GstHarness * heard;
  Call call;
  guint i;

  begin_call (&call);
  heard = quick_harness (call.recv, "rtcp_sink", NULL);
  gst_harness_set_src_caps_str (heard, "application/x-rtcp");
  run_call (&call, 20, 0);
  for (i = 0; i < 4000; i++) {
    gsize length = 4 * g_rand_int_range (rand, 0, 24), k;
    GstBuffer * buffer = gst_buffer_new_allocate (NULL, length, NULL);
    GstMapInfo map;

    gst_buffer_map (buffer, &map, GST_MAP_WRITE);
    for (k = 0; k < length; k++)
      map.data[k] = g_rand_int_range (rand, 0, 256);
    if (length >= 8) {
      map.data[0] = 0x80 | (i % 4);
      map.data[1] = 200 + i % 8;
      GST_WRITE_UINT16_BE (map.data + 2, length / 4 - 1);
      GST_WRITE_UINT32_BE (map.data + 4, ssrc_of (call.send));
    }
    gst_buffer_unmap (buffer, &map);
    gst_harness_push (i % 2 ? heard : call.back, buffer);
  }
  run_call (&call, 30, 0);
  drain ();
  assert_nearly (call.recv, "exact", 50);
  g_rand_free (rand);
  gst_harness_teardown (heard);
  end_call (&call);
}
GST_END_TEST;

/* Pictures are shown later by the offset, and none is lost for it. */
GST_START_TEST (test_ts_offset)
{
  GstClockTime times[2];
  guint i;

  for (i = 0; i < 2; i++) {
    gint64 begun = g_get_monotonic_time ();
    GstBuffer * buffer;
    Call call;

    begin_call (&call);
    g_object_set (call.recv, "ts-offset", i * 700 * (gint64) GST_MSECOND, NULL);
    run_call (&call, 60, 0);
    drain ();
    assert_nearly (call.recv, "exact", 60);
    buffer = gst_harness_pull (call.in);
    times[i] = GST_BUFFER_PTS (buffer) - 1000 * begun;
    gst_buffer_unref (buffer);
    end_call (&call);
  }
  fail_unless (times[1] > times[0] + 500 * GST_MSECOND && times[1] < times[0] + 1200 * GST_MSECOND,
      "%" GST_TIME_FORMAT ", %" GST_TIME_FORMAT, GST_TIME_ARGS (times[0]),
      GST_TIME_ARGS (times[1]));
}
GST_END_TEST;

/* A sender that nobody answers says so once, and sends intra pictures. */
GST_START_TEST (test_nobody_answers)
{
  GstBus * bus = gst_bus_new ();
  GstMessage * message;
  Call call;
  guint i;

  begin_call (&call);
  gst_element_set_bus (call.send, bus);
  for (i = 0; i < 56; i++) {
    capture (&call);
    g_usleep (100000);
  }
  message = gst_bus_pop_filtered (bus, GST_MESSAGE_WARNING);
  fail_unless (message != NULL);
  gst_message_unref (message);
  fail_unless (gst_bus_pop_filtered (bus, GST_MESSAGE_WARNING) == NULL);
  assert_count (call.send, "intra", 56);
  gst_element_set_bus (call.send, NULL);
  gst_object_unref (bus);
  end_call (&call);
}
GST_END_TEST;

/* ---- what a network may send ---- */

GST_START_TEST (test_wrong_datagrams)
{
  GRand * rand = g_rand_new_with_seed (1);
  Call call;
  guint i, j;

  begin_call (&call);
  run_call (&call, 20, 0);
  for (i = 0; i < 2000; i++) {
    gsize length = g_rand_int_range (rand, 0, i % 100 == 0 ? 65000 : 80), k;
    GstBuffer * buffer = gst_buffer_new_allocate (NULL, length, NULL);
    GstMapInfo map;

    gst_buffer_map (buffer, &map, GST_MAP_WRITE);
    for (k = 0; k < map.size; k++)
      map.data[k] = g_rand_int (rand);
    if (i % 2 && length > 2) {
      map.data[0] = 0x80;
      map.data[1] = i % 4 == 1 ? 96 : 206;
    }
    gst_buffer_unmap (buffer, &map);
    gst_harness_push (i % 3 ? call.in : call.back, buffer);
    if (i % 100 == 0)
      run_call (&call, 1, 0);
  }
  run_call (&call, 20, 0);
  drain ();
  assert_at_least (call.recv, "malformed", 1000);
  assert_at_least (call.send, "malformed", 300);
  assert_nearly (call.recv, "exact", call.captured);
  for (j = 0; j < 3; j++)
    fail_unless (ssrc_of (call.recv) == ssrc_of (call.send));
  g_rand_free (rand);
  end_call (&call);
}
GST_END_TEST;

/* Packets of the call itself, changed in bits, under its own SSRC and others. */
GST_START_TEST (test_changed_packets)
{
  GRand * rand = g_rand_new_with_seed (2);
  Call call;
  guint i;

  begin_call (&call);
  run_call (&call, 20, 0);
  for (i = 0; i < 300; i++) {
    GstBuffer *packet, *changed;
    GstMapInfo map;
    guint flips;

    capture (&call);
    packet = gst_harness_pull (call.out);
    changed = gst_buffer_copy_deep (packet);
    gst_buffer_map (changed, &map, GST_MAP_READWRITE);
    for (flips = 0; flips < 1 + i % 3; flips++) {
      gsize at = g_rand_int_range (rand, i % 2 ? 0 : 12, map.size);

      map.data[at] ^= 1 << g_rand_int_range (rand, 0, 8);
    }
    gst_buffer_unmap (changed, &map);
    gst_harness_push (call.in, changed);
    gst_harness_push (call.in, packet);
    pass_on (&call, FALSE);
    g_usleep (PERIOD / 2000);
  }
  /* A bit of its own header may tell a false time: the call finds back within a second or so. */
  run_call (&call, 240, 0);
  drain ();
  {
    guint64 before = count_of (call.recv, "exact");

    run_call (&call, 30, 0);
    drain ();
    assert_nearly (call.recv, "exact", before + 30);
  }
  g_rand_free (rand);
  end_call (&call);
}
GST_END_TEST;

/* Whole streams of strangers beside the call: none is followed while the call goes on. */
GST_START_TEST (test_forged_streams)
{
  Call call, forged;
  GstBuffer * buffer;
  guint i;

  begin_call (&call);
  begin_call (&forged);
  run_call (&call, 20, 0);
  for (i = 0; i < 60; i++) {
    capture (&forged);
    while ((buffer = gst_harness_try_pull (forged.out)))
      gst_harness_push (call.in, buffer);
    run_call (&call, 1, 0);
  }
  drain ();
  assert_nearly (call.recv, "exact", 80);
  assert_at_least (call.recv, "other-source", 60);
  assert_count (call.recv, "runs", 1);
  /* When the call falls silent, another stream is followed from its first complete picture on. */
  g_usleep (600000);
  for (i = 0; i < 10; i++) {
    capture (&forged);
    while ((buffer = gst_harness_try_pull (forged.out)))
      gst_harness_push (call.in, buffer);
    /* Nobody answers it, so that its pictures are intra. */
    g_usleep (PERIOD / 1000);
  }
  drain ();
  fail_unless_equals_int (ssrc_of (call.recv), ssrc_of (forged.send));
  assert_count (call.recv, "runs", 2);
  end_call (&forged);
  end_call (&call);
}
GST_END_TEST;

/* A stranger's stream that comes while the call is silent is followed, and no longer once the call
 * is there again, however long it goes on. */
GST_START_TEST (test_a_former_stream_is_followed_again)
{
  Call call, forged;
  GstBuffer * buffer;
  guint i;

  begin_call (&call);
  begin_call (&forged);
  run_call (&call, 90, 0);
  g_usleep (600000);
  for (i = 0; i < 120; i++) {
    capture (&forged);
    while ((buffer = gst_harness_try_pull (forged.out)))
      gst_harness_push (call.in, buffer);
    if (i == 30)
      fail_unless_equals_int (ssrc_of (call.recv), ssrc_of (forged.send));
    if (i < 60)
      g_usleep (PERIOD / 1000);
    else
      run_call (&call, 1, 0);
  }
  drain ();
  fail_unless_equals_int (ssrc_of (call.recv), ssrc_of (call.send));
  assert_count (call.recv, "runs", 2);
  end_call (&forged);
  end_call (&call);
}
GST_END_TEST;

static void
pass_forged (Call * forged, Call * call)
{
  GstBuffer * buffer;

  capture (forged);
  while ((buffer = gst_harness_try_pull (forged->out)))
    gst_harness_push (call->in, buffer);
}

/* A stranger's pictures of another format are looked at in a silence alone, and shown no longer once
 * the call is there again. */
GST_START_TEST (test_a_forged_format)
{
  Call call, forged;
  guint i;

  begin_call (&call);
  begin_call (&forged);
  set_size (&forged, QCIF);
  run_call (&call, 60, 0);
  for (i = 0; i < 30; i++) {
    pass_forged (&forged, &call);
    run_call (&call, 1, 0);
  }
  assert_at_least (call.recv, "other-format", 30);
  assert_count (call.recv, "runs", 1);
  g_usleep (600000);
  for (i = 0; i < 60; i++) {
    pass_forged (&forged, &call);
    if (i == 20)
      fail_unless_equals_int (ssrc_of (call.recv), ssrc_of (forged.send));
    if (i < 30)
      g_usleep (PERIOD / 1000);
    else
      run_call (&call, 1, 0);
  }
  drain ();
  fail_unless_equals_int (ssrc_of (call.recv), ssrc_of (call.send));
  assert_count (call.recv, "runs", 2);
  assert_at_least (call.recv, "exact", 90);
  end_call (&forged);
  end_call (&call);
}
GST_END_TEST;

/* 60,000 datagrams of twelve bytes a second: each costs a count. */
GST_START_TEST (test_junk_costs_a_count)
{
  static const guint8 junk[12] = { 0x80, 96, 1, 2, 3 };
  Call call;
  guint i, j;

  begin_call (&call);
  run_call (&call, 10, 0);
  for (i = 0; i < 90; i++) {
    for (j = 0; j < 1000; j++)
      gst_harness_push (call.in, gst_buffer_new_memdup (junk, sizeof junk));
    run_call (&call, 1, 0);
  }
  drain ();
  assert_count (call.recv, "malformed", 90000);
  assert_count (call.recv, "too-fast", 0);
  assert_nearly (call.recv, "exact", 100);
  end_call (&call);
}
GST_END_TEST;

/* ---- two streams ---- */

/* How often it was told, by warnings and by messages for a program. */
static void
count_told (GstBus * bus, guint * warned, guint * told)
{
  GstMessage * message;

  *warned = *told = 0;
  while ((message = gst_bus_pop (bus))) {
    *warned += GST_MESSAGE_TYPE (message) == GST_MESSAGE_WARNING;
    *told += gst_message_has_name (message, "h263rps-rival");
    gst_message_unref (message);
  }
}

/* A whole stream of a stranger's beside a live one isn't shown, and it is told once a second. */
GST_START_TEST (test_a_rival_is_told)
{
  GstBus * bus = gst_bus_new ();
  Call call, forged;
  GstBuffer * buffer;
  guint i, warned, told, ssrc;

  begin_call (&call);
  begin_call (&forged);
  gst_element_set_bus (call.recv, bus);
  run_call (&call, 20, 0);
  for (i = 0; i < 150; i++) {
    capture (&forged);
    while ((buffer = gst_harness_try_pull (forged.out)))
      gst_harness_push (call.in, buffer);
    run_call (&call, 1, 0);
  }
  drain ();
  count_told (bus, &warned, &told);
  fail_unless (told >= 2 && told <= 5, "told %u times", told);
  assert_count (call.recv, "rivals", told);
  fail_unless_equals_int (warned, 1);
  assert_nearly (call.recv, "exact", 170);
  assert_count (call.recv, "runs", 1);
  while ((buffer = gst_harness_try_pull (call.in))) {
    gst_structure_get_uint (
        gst_custom_meta_get_structure (gst_buffer_get_custom_meta (buffer, "GstH263RpsMeta")),
        "ssrc", &ssrc);
    fail_unless_equals_int (ssrc, ssrc_of (call.send));
    gst_buffer_unref (buffer);
  }
  gst_element_set_bus (call.recv, NULL);
  gst_object_unref (bus);
  end_call (&forged);
  end_call (&call);
}
GST_END_TEST;

/* Another stream's packets, and junk, by a thread of their own. */
typedef struct {
  GstHarness * in;
  GstBuffer * packet;
  gint is_over;
  guint64 sent;
} Flood;

static gpointer
flood (gpointer data)
{
  static const guint8 junk[12] = { 0x80, 96, 1, 2, 3 };
  Flood * it = data;
  guint i;

  while (!g_atomic_int_get (&it->is_over)) {
    for (i = 0; i < 50; i++) {
      gst_harness_push (it->in,
          i % 2 ? gst_buffer_copy_deep (it->packet) : gst_buffer_new_memdup (junk, sizeof junk));
      it->sent++;
    }
    g_usleep (1000);
  }
  return NULL;
}

/* Some 40,000 datagrams a second, half of them packets of a stranger's stream, of which no more than
 * 12,000 a second are looked at: none of the call's is missed. */
GST_START_TEST (test_junk_at_a_high_rate)
{
  Call call, forged;
  GThread * thread;
  Flood it = { NULL };

  begin_call (&call);
  begin_call (&forged);
  run_call (&call, 10, 0);
  capture (&forged);
  it.in = call.in;
  it.packet = gst_harness_pull (forged.out);
  thread = g_thread_new ("flood", flood, &it);
  run_call (&call, 180, 0);
  g_atomic_int_set (&it.is_over, 1);
  g_thread_join (thread);
  drain ();
  fail_unless (it.sent > 30000, "%" G_GUINT64_FORMAT " datagrams", it.sent);
  assert_count (call.recv, "malformed", it.sent / 2);
  assert_at_least (call.recv, "too-fast", 1);
  assert_at_least (call.recv, "exact", 181);
  fail_unless_equals_int (ssrc_of (call.recv), ssrc_of (call.send));
  gst_buffer_unref (it.packet);
  end_call (&forged);
  end_call (&call);
}
GST_END_TEST;

static void
deliver (Call * call, GQueue * packets)
{
  GstBuffer * buffer;

  while ((buffer = g_queue_pop_head (packets)))
    gst_harness_push (call->in, buffer);
  while ((buffer = gst_harness_try_pull (call->said)))
    gst_harness_push (call->back, buffer);
}

/* Two and a half pictures a second, whose way takes 0.8 s more from the sixth on. */
GST_START_TEST (test_a_way_that_gets_longer)
{
  GQueue sent[20];
  GstBuffer * buffer;
  Call call;
  guint i;

  begin_call (&call);
  g_object_set (call.recv, "latency", 100, NULL);
  for (i = 0; i < G_N_ELEMENTS (sent); i++) {
    g_queue_init (&sent[i]);
    capture (&call);
    if (i == 0)
      pass_caps (&call);
    while ((buffer = gst_harness_try_pull (call.out)))
      g_queue_push_tail (&sent[i], buffer);
    if (i < 5)
      deliver (&call, &sent[i]);
    else if (i >= 7)
      deliver (&call, &sent[i - 2]);
    g_usleep (400000);
  }
  for (i = 18; i < G_N_ELEMENTS (sent); i++)
    g_queue_clear_full (&sent[i], (GDestroyNotify) gst_buffer_unref);
  drain ();
  assert_at_least (call.recv, "exact", 15);
  end_call (&call);
}
GST_END_TEST;

/* The way takes 250 ms from the third second on, for 30 before: two seconds later all is whole. */
GST_START_TEST (test_a_step_of_delay)
{
  static const struct {
    guint rate;
    gdouble loss;
  } rows[] = { { 5, 0 }, { 10, 0 }, { 30, 0.3 } };
  Way * way = g_new (Way, 1);

  begin_way (way, rows[__i__].rate, 30, 250, rows[__i__].loss);
  drive (way, 10 * way->rate);
  assert_whole (way, STEP + 2 * G_USEC_PER_SEC);
  end_way (way);
  g_free (way);
}
GST_END_TEST;

/* Pictures are played a millisecond after the least way. Here each has one packet, which is heard
 * before its picture is played, however late it comes. */
GST_START_TEST (test_no_latency_on_a_way)
{
  Way * way = g_new (Way, 1);

  begin_way (way, 30, 30, 30, 0);
  g_object_set (way->call.send, "bitrate", 150000, NULL);
  g_object_set (way->call.recv, "latency", 0, NULL);
  drive (way, 3 * way->rate);
  assert_whole (way, G_USEC_PER_SEC);
  end_way (way);
  g_free (way);
}
GST_END_TEST;

GST_START_TEST (test_no_latency)
{
  Call call;

  begin_call (&call);
  g_object_set (call.recv, "latency", 0, NULL);
  run_call (&call, 60, 0);
  drain ();
  assert_nearly (call.recv, "exact", 60);
  end_call (&call);
}
GST_END_TEST;

/* ---- records ---- */

static void
assert_warned (GstBus * bus)
{
  GstMessage * message = gst_bus_pop_filtered (bus, GST_MESSAGE_WARNING);

  fail_unless (message != NULL);
  gst_message_unref (message);
  fail_unless (gst_bus_pop_filtered (bus, GST_MESSAGE_WARNING | GST_MESSAGE_ERROR) == NULL);
}

/* A folder that can't be made, and a disk that is full: each is told once by both, and the call
 * goes on. */
GST_START_TEST (test_a_record_without_room)
{
  gchar * folder = g_dir_make_tmp ("h263rps-XXXXXX", NULL);
  gchar * shown = g_build_filename (folder, "shown.y4m", NULL);
  gchar * captured = g_build_filename (folder, "captured.y4m", NULL);
  const gchar * folders[] = { "/proc/call", folder };
  guint i;

  fail_unless (symlink ("/dev/full", shown) == 0 && symlink ("/dev/full", captured) == 0);
  for (i = 0; i < G_N_ELEMENTS (folders); i++) {
    GstBus *send_bus = gst_bus_new (), *recv_bus = gst_bus_new ();
    Call call;

    begin_call (&call);
    gst_element_set_bus (call.send, send_bus);
    gst_element_set_bus (call.recv, recv_bus);
    g_object_set (call.send, "record-location", folders[i], NULL);
    g_object_set (call.recv, "record-location", folders[i], NULL);
    set_size (&call, QCIF);
    run_call (&call, 60, 0);
    drain ();
    run_call (&call, 10, 0);
    drain ();
    assert_nearly (call.recv, "exact", 70);
    assert_warned (send_bus);
    assert_warned (recv_bus);
    gst_element_set_bus (call.send, NULL);
    gst_element_set_bus (call.recv, NULL);
    gst_object_unref (send_bus);
    gst_object_unref (recv_bus);
    end_call (&call);
  }
  g_free (captured);
  g_free (shown);
  g_free (folder);
}
GST_END_TEST;

static guint
lines_of (const gchar * folder, const gchar * name)
{
  gchar *path = g_build_filename (folder, name, NULL), *text = NULL;
  guint count = 0;
  gsize i, length;

  fail_unless (g_file_get_contents (path, &text, &length, NULL), "no %s", path);
  for (i = 0; i < length; i++)
    count += text[i] == '\n';
  g_free (text);
  g_free (path);
  return count;
}

/* Each stream that is followed has a record, with a line for each of its pictures and the last one;
 * one that is followed again has none of its pictures from then on. */
GST_START_TEST (test_records_of_two_streams)
{
  gchar * folder = g_dir_make_tmp ("h263rps-XXXXXX", NULL);
  Call call, forged;
  guint i, first;

  begin_call (&call);
  begin_call (&forged);
  g_object_set (call.recv, "record-location", folder, NULL);
  run_call (&call, 90, 0);
  g_usleep (600000);
  for (i = 0; i < 50; i++) {
    pass_forged (&forged, &call);
    g_usleep (PERIOD / 1000);
  }
  run_call (&call, 40, 0);
  drain ();
  fail_unless_equals_int (ssrc_of (call.recv), ssrc_of (call.send));
  first = lines_of (folder, "recv.txt");
  end_call (&call);
  end_call (&forged);
  fail_unless (first > 60 && first <= 91, "%u lines", first);
  fail_unless_equals_int (lines_of (folder, "recv.runs"), 2);
  fail_unless_equals_int (lines_of (folder, "recv.txt"), first);
  fail_unless (lines_of (folder, "recv-2.txt") >= 1);
  g_free (folder);
}
GST_END_TEST;

/* ---- all at once ---- */

/* One packet of ten is lost, one comes twice, and one of twenty is changed in a bit. */
static void
pass_badly (GstHarness * in, GstBuffer * buffer, GRand * rand)
{
  guint drawn = g_rand_int_range (rand, 0, 100);
  GstMapInfo map;

  if (drawn < 10) {
    gst_buffer_unref (buffer);
    return;
  }
  if (drawn < 20)
    gst_harness_push (in, gst_buffer_copy_deep (buffer));
  if (drawn < 25) {
    buffer = gst_buffer_make_writable (buffer);
    gst_buffer_map (buffer, &map, GST_MAP_READWRITE);
    map.data[g_rand_int_range (rand, 0, map.size)] ^= 1 << g_rand_int_range (rand, 0, 8);
    gst_buffer_unmap (buffer, &map);
  }
  gst_harness_push (in, buffer);
}

static void
flush (Call * call)
{
  GstSegment segment;

  gst_harness_push_event (call->in, gst_event_new_flush_start ());
  gst_harness_push_event (call->in, gst_event_new_flush_stop (TRUE));
  gst_segment_init (&segment, GST_FORMAT_TIME);
  gst_harness_push_event (call->in, gst_event_new_segment (&segment));
}

/* Three senders, one of another format, fall silent now and then, and all are heard at one receiver,
 * which is flushed at times. What it and the last sender record in the folder that RECORDS names is
 * their library's own (tests/recipes). */
GST_START_TEST (test_a_mixture)
{
  GRand * rand = g_rand_new_with_seed (77);
  const gchar * named = g_getenv ("RECORDS");
  gchar * folder = named ? g_strdup (named) : g_dir_make_tmp ("h263rps-XXXXXX", NULL);
  gint64 quiet[3] = { 0 };
  GstBuffer * buffer;
  Call calls[3];
  guint i, k;

  for (k = 0; k < 3; k++)
    begin_call (&calls[k]);
  g_object_set (calls[2].send, "radius", 3, "record-location", folder, NULL);
  set_size (&calls[2], QCIF);
  g_object_set (calls[0].recv, "latency", 150, "record-location", folder, NULL);
  for (i = 0; i < 2000; i++) {
    for (k = 0; k < 3; k++) {
      gint64 now = g_get_monotonic_time ();

      if (g_rand_int_range (rand, 0, 100) == 0)
        quiet[k] = now + g_rand_int_range (rand, 0, 1500000);
      if (now < quiet[k])
        continue;
      capture (&calls[k]);
      if (k == 0 && calls[0].captured == 1)
        pass_caps (&calls[0]);
      while ((buffer = gst_harness_try_pull (calls[k].out)))
        pass_badly (calls[0].in, buffer, rand);
    }
    while ((buffer = gst_harness_try_pull (calls[0].said))) {
      for (k = 0; k < 3; k++)
        gst_harness_push (calls[k].back, gst_buffer_ref (buffer));
      gst_buffer_unref (buffer);
    }
    while ((buffer = gst_harness_try_pull (calls[0].in)))
      gst_buffer_unref (buffer);
    g_usleep (5000);
    if (g_rand_int_range (rand, 0, 700) == 0)
      flush (&calls[0]);
  }
  assert_at_least (calls[0].recv, "exact", 300);
  assert_at_least (calls[0].recv, "runs", 2);
  for (k = 0; k < 3; k++)
    end_call (&calls[k]);
  g_free (folder);
  g_rand_free (rand);
}
GST_END_TEST;

static void
assert_told (GstBus * bus, const gchar * part)
{
  GstMessage * message = gst_bus_pop_filtered (bus, GST_MESSAGE_ERROR);
  GError * error = NULL;

  fail_unless (message != NULL, "nothing is told of %s", part);
  gst_message_parse_error (message, &error, NULL);
  fail_unless (strstr (error->message, part) != NULL, "%s", error->message);
  g_error_free (error);
  gst_message_unref (message);
  fail_unless (gst_bus_pop_filtered (bus, GST_MESSAGE_ERROR) == NULL);
}

/* A pair of slots and lead that can't be is told once, when the caps come, in words; as is a latency
 * that can't be held beside the sender's window. */
GST_START_TEST (test_an_impossible_pair)
{
  static const struct {
    const gchar *slots, *lead;
    guint latency;
    const gchar * told;
  } rows[] = {
    { "2", "62", 100, "slots are at least lead + 2" },
    { "39", "38", 100, "slots are at least lead + 2" },
    { "39", "6", 1100, "there is room for 1000 ms" },
    { "64", "0", 100, "there is room for 0 ms" },
    { "39", "6", 1000, NULL },
    { "64", "62", 2000, NULL },
    { "2", "0", 0, NULL },
  };
  guint i;

  for (i = 0; i < G_N_ELEMENTS (rows); i++) {
    GstBus * bus = gst_bus_new ();
    GstElement * recv = gst_element_factory_make ("h263rpsrecv", NULL);
    GstHarness * in;
    gchar * caps = g_strdup_printf (
        "application/x-rtp, media = (string) video, "
        "clock-rate = (int) 90000, encoding-name = (string) H263-2000, payload = (int) 96, "
        "a-framerate = (string) 30, x-slots = (string) %s, x-lead = (string) %s",
        rows[i].slots, rows[i].lead);

    g_object_set (recv, "latency", rows[i].latency, NULL);
    in = quick_harness (recv, "sink", "src");
    gst_element_set_bus (recv, bus);
    gst_harness_set_src_caps_str (in, caps);
    if (rows[i].told)
      assert_told (bus, rows[i].told);
    else
      fail_unless (gst_bus_pop_filtered (bus, GST_MESSAGE_ERROR) == NULL, "row %u", i);
    gst_element_set_bus (recv, NULL);
    gst_harness_teardown (in);
    gst_object_unref (recv);
    gst_object_unref (bus);
    g_free (caps);
  }
}
GST_END_TEST;

/* A lead of 0 is one; and packets of a pair that can't be harm nothing. */
GST_START_TEST (test_what_the_caps_say)
{
  GstBus * bus = gst_bus_new ();
  Call call;

  begin_call (&call);
  g_object_set (call.send, "slots", 4, "lead", 0, NULL);
  g_object_set (call.recv, "latency", 0, NULL);
  set_size (&call, QCIF);
  run_call (&call, 30, 0);
  drain ();
  assert_at_least (call.recv, "exact", 20);
  end_call (&call);

  begin_call (&call);
  gst_element_set_bus (call.recv, bus);
  run_call (&call, 1, 0);
  gst_harness_set_src_caps_str (call.in,
      "application/x-rtp, media = (string) video, "
      "clock-rate = (int) 90000, encoding-name = (string) H263-2000, payload = (int) 96, "
      "x-slots = (string) 2, x-lead = (string) 62");
  run_call (&call, 30, 0);
  assert_told (bus, "slots are at least lead + 2");
  gst_element_set_bus (call.recv, NULL);
  gst_object_unref (bus);
  end_call (&call);
}
GST_END_TEST;

/* The sender's lead is that of 100 ms, and every second picture comes a quarter of a second late: the
 * receiver's own lead holds it. */
GST_START_TEST (test_own_lead)
{
  GQueue sent[60];
  GstBuffer * buffer;
  Call call;
  guint i;

  begin_call (&call);
  g_object_set (call.send, "slots", 39, "lead", 6, NULL);
  set_size (&call, QCIF);
  for (i = 0; i < G_N_ELEMENTS (sent) + 16; i++) {
    if (i < G_N_ELEMENTS (sent)) {
      g_queue_init (&sent[i]);
      capture (&call);
      if (i == 0)
        pass_caps (&call);
      while ((buffer = gst_harness_try_pull (call.out)))
        g_queue_push_tail (&sent[i], buffer);
      if (i % 2 == 0)
        deliver (&call, &sent[i]);
    }
    if (i >= 16 && i % 2 == 1)
      deliver (&call, &sent[i - 16]);
    g_usleep (PERIOD / 1000);
  }
  drain ();
  assert_count (call.recv, "early", 0);
  assert_nearly (call.recv, "exact", 60);
  end_call (&call);
}
GST_END_TEST;

GST_START_TEST (test_other_payload_type)
{
  Call call;
  GstBuffer * buffer;

  begin_call (&call);
  run_call (&call, 5, 0);
  g_object_set (call.send, "pt", 97, NULL);
  capture (&call);
  while ((buffer = gst_harness_try_pull (call.out))) {
    GstMapInfo map;

    gst_buffer_map (buffer, &map, GST_MAP_READWRITE);
    map.data[1] = (map.data[1] & 0x80) | 97;
    gst_buffer_unmap (buffer, &map);
    gst_harness_push (call.in, buffer);
  }
  assert_at_least (call.recv, "other-payload-type", 1);
  end_call (&call);
}
GST_END_TEST;

/* ---- queries, states and properties ---- */

GST_START_TEST (test_latency)
{
  Call call;
  GstQuery * query = gst_query_new_latency ();
  GstPad * pad;
  GstClockTime least;
  gboolean is_live;

  begin_call (&call);
  gst_harness_set_upstream_latency (call.in, 5 * GST_MSECOND);
  pad = gst_element_get_static_pad (call.recv, "src");
  fail_unless (gst_pad_query (pad, query));
  gst_query_parse_latency (query, &is_live, &least, NULL);
  fail_unless (is_live);
  fail_unless_equals_uint64 (least, (LATENCY + 5) * GST_MSECOND);
  gst_query_unref (query);
  gst_object_unref (pad);

  pad = gst_element_get_static_pad (call.recv, "rtcp_src");
  query = gst_query_new_latency ();
  fail_unless (gst_pad_query (pad, query));
  gst_query_unref (query);
  gst_object_unref (pad);
  end_call (&call);
}
GST_END_TEST;

GST_START_TEST (test_qos)
{
  Call call;

  begin_call (&call);
  run_call (&call, 10, 0);
  fail_unless (gst_harness_push_upstream_event (call.in,
      gst_event_new_qos (GST_QOS_TYPE_UNDERFLOW, 1.0, 60 * GST_SECOND, gst_util_get_timestamp ())));
  run_call (&call, 10, 0);
  drain ();
  /* They are played, and not shown. */
  assert_nearly (call.recv, "exact", 20);
  assert_at_least (call.recv, "unshown", 5);
  end_call (&call);
}
GST_END_TEST;

GST_START_TEST (test_paused)
{
  Call call;

  begin_call (&call);
  run_call (&call, 10, 0);
  drain ();
  fail_unless_equals_int (gst_element_set_state (call.recv, GST_STATE_PAUSED),
      GST_STATE_CHANGE_NO_PREROLL);
  run_call (&call, 10, 0);
  assert_at_least (call.recv, "paused", 10);
  assert_nearly (call.recv, "exact", 10);
  fail_unless_equals_int (gst_element_set_state (call.recv, GST_STATE_PLAYING),
      GST_STATE_CHANGE_SUCCESS);
  run_call (&call, 120, 0);
  drain ();
  assert_at_least (call.recv, "exact", 80);
  end_call (&call);
}
GST_END_TEST;

GST_START_TEST (test_states)
{
  static const GstState states[] = { GST_STATE_READY, GST_STATE_PLAYING, GST_STATE_NULL,
    GST_STATE_PAUSED, GST_STATE_PLAYING };
  Call call;
  guint i;

  begin_call (&call);
  for (i = 0; i < 200; i++) {
    gst_element_set_state (call.send, states[i % 5]);
    gst_element_set_state (call.recv, states[i % 5]);
  }
  gst_element_set_state (call.send, GST_STATE_NULL);
  gst_element_set_state (call.recv, GST_STATE_NULL);
  end_call (&call);
}
GST_END_TEST;

GST_START_TEST (test_wrong_settings)
{
  Call call;
  GObject * other = G_OBJECT (gst_element_factory_make ("identity", NULL));
  GObject * session;
  GstBus * bus = gst_bus_new ();
  GstMessage * message;

  begin_call (&call);
  g_object_set (call.send, "session", other, NULL);
  g_object_set (call.recv, "session", other, NULL);
  g_object_get (call.send, "session", &session, NULL);
  fail_unless (session == NULL);
  g_object_get (call.recv, "session", &session, NULL);
  fail_unless (session == NULL);

  /* A lead that the slots don't hold. */
  g_object_set (call.send, "slots", 5, "lead", 4, NULL);
  gst_element_set_bus (call.send, bus);
  set_size (&call, QCIF);
  fail_unless (gst_harness_push (call.out, picture_of (&call)) != GST_FLOW_OK);
  message = gst_bus_pop_filtered (bus, GST_MESSAGE_ERROR);
  fail_unless (message != NULL);
  gst_message_unref (message);
  gst_element_set_bus (call.send, NULL);
  gst_object_unref (bus);
  gst_object_unref (other);
  end_call (&call);
}
GST_END_TEST;

/* A picture whose rows have gaps is the same picture. */
GST_START_TEST (test_strides)
{
  gint y, c;
  gsize offsets[GST_VIDEO_MAX_PLANES] = { 0, 192 * 144, 192 * 144 + 96 * 72 };
  gint strides[GST_VIDEO_MAX_PLANES] = { 192, 96, 96 };
  guint64 bytes[2];
  guint with_gaps;

  for (with_gaps = 0; with_gaps < 2; with_gaps++) {
    Call call;
    GstBuffer *packed, *buffer;

    begin_call (&call);
    set_size (&call, QCIF);
    packed = picture_of (&call);
    buffer = packed;
    if (with_gaps) {
      GstMapInfo from, to;
      const guint8 * row;

      buffer = gst_buffer_new_allocate (NULL, 192 * 144 * 3 / 2, NULL);
      gst_buffer_map (packed, &from, GST_MAP_READ);
      gst_buffer_map (buffer, &to, GST_MAP_WRITE);
      memset (to.data, 17, to.size);
      row = from.data;
      for (c = 0; c < 3; c++)
        for (y = 0; y < (c ? 72 : 144); y++) {
          memcpy (to.data + offsets[c] + y * strides[c], row, c ? 88 : 176);
          row += c ? 88 : 176;
        }
      gst_buffer_unmap (buffer, &to);
      gst_buffer_unmap (packed, &from);
      gst_buffer_add_video_meta_full (buffer, GST_VIDEO_FRAME_FLAG_NONE, GST_VIDEO_FORMAT_I420, 176,
          144, 3, offsets, strides);
      GST_BUFFER_PTS (buffer) = 0;
      gst_buffer_unref (packed);
    }
    fail_unless_equals_int (gst_harness_push (call.out, buffer), GST_FLOW_OK);
    bytes[with_gaps] = count_of (call.send, "bytes");
    end_call (&call);
  }
  fail_unless_equals_uint64 (bytes[0], bytes[1]);
}
GST_END_TEST;

static Suite *
elements_suite (void)
{
  Suite * suite = suite_create ("h263rps");
  TCase * chain = tcase_create ("elements");

  tcase_set_timeout (chain, 120);
  suite_add_tcase (suite, chain);
  tcase_add_test (chain, test_templates);
  tcase_add_test (chain, test_caps_of_packets);
  tcase_add_test (chain, test_a_call);
  tcase_add_test (chain, test_a_loss_costs_its_own_picture);
  tcase_add_test (chain, test_events_in_order);
  tcase_add_test (chain, test_end_of_stream);
  tcase_add_test (chain, test_flush);
  tcase_add_test (chain, test_another_size);
  tcase_add_test (chain, test_force_key_unit);
  tcase_add_test (chain, test_bitrate_while_playing);
  tcase_add_test (chain, test_one_speaker_counts);
  tcase_add_test (chain, test_full_intra_request);
  tcase_add_test (chain, test_reports);
  tcase_add_test (chain, test_wrong_reports);
  tcase_add_test (chain, test_ts_offset);
  tcase_add_test (chain, test_nobody_answers);
  tcase_add_test (chain, test_wrong_datagrams);
  tcase_add_test (chain, test_changed_packets);
  tcase_add_test (chain, test_forged_streams);
  tcase_add_test (chain, test_a_former_stream_is_followed_again);
  tcase_add_test (chain, test_a_forged_format);
  tcase_add_test (chain, test_junk_costs_a_count);
  tcase_add_test (chain, test_a_way_that_gets_longer);
  tcase_add_loop_test (chain, test_a_step_of_delay, 0, 3);
  tcase_add_test (chain, test_no_latency);
  tcase_add_test (chain, test_no_latency_on_a_way);
  tcase_add_test (chain, test_a_rival_is_told);
  tcase_add_test (chain, test_junk_at_a_high_rate);
  tcase_add_test (chain, test_a_record_without_room);
  tcase_add_test (chain, test_records_of_two_streams);
  tcase_add_test (chain, test_a_mixture);
  tcase_add_test (chain, test_what_the_caps_say);
  tcase_add_test (chain, test_an_impossible_pair);
  tcase_add_test (chain, test_own_lead);
  tcase_add_test (chain, test_other_payload_type);
  tcase_add_test (chain, test_latency);
  tcase_add_test (chain, test_qos);
  tcase_add_test (chain, test_paused);
  tcase_add_test (chain, test_states);
  tcase_add_test (chain, test_wrong_settings);
  tcase_add_test (chain, test_strides);
  return suite;
}

GST_CHECK_MAIN (elements);
