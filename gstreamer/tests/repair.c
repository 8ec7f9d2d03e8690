/* Tests of what is lost and comes again, of streams that end, of the one that is wanted, and of messages
 * in headers, by GStreamer's harness. */
#include "calls.h"

/* ---- repair ---- */

/* Four of a hundred packets are lost each way; those whose answers come in time are sent again. */
GST_START_TEST (test_repair)
{
  Way * way = g_new (Way, 1);
  guint64 repaired;

  begin_way (way, 30, 25, 25, 0.04);
  set_size (&way->call,
      "video/x-raw, format = (string) I420, width = (int) 176, "
      "height = (int) 144, framerate = (fraction) 30/1");
  drive (way, 10 * way->rate);
  repaired = count_of (way->call.recv, "repaired");
  fail_unless (repaired >= 8, "%" G_GUINT64_FORMAT " packets are repaired", repaired);
  fail_unless (repaired * 10 >= count_of (way->call.recv, "asked") * 7);
  assert_at_least (way->call.send, "repeated", repaired);
  /* Each question goes twice; the second is answered anew where it comes late, as on a busy machine. */
  fail_unless (count_of (way->call.send, "repeated") <= 2 * count_of (way->call.recv, "asked"));
  assert_count (way->call.send, "repeats-refused", 0);
  fail_unless (count_of (way->call.recv, "round-trip") > 45 * GST_MSECOND);
  fail_unless (count_of (way->call.recv, "round-trip") < 90 * GST_MSECOND);
  assert_at_least (way->call.recv, "exact", 290);
  /* What came again was lost all the same. */
  end_way (way);
  g_free (way);
}
GST_END_TEST;

/* Where an answer would come too late hardly anything is asked for, and none of it is asked for twice. */
GST_START_TEST (test_no_repair_on_a_long_way)
{
  Way * way = g_new (Way, 1);

  begin_way (way, 30, 150, 150, 0.1);
  drive (way, 10 * way->rate);
  fail_unless (count_of (way->call.recv, "asked") <= 12, "asked for %" G_GUINT64_FORMAT,
      count_of (way->call.recv, "asked"));
  assert_count (way->call.recv, "repaired", 0);
  fail_unless (count_of (way->call.recv, "round-trip") > 280 * GST_MSECOND);
  end_way (way);
  g_free (way);
}
GST_END_TEST;

/* With either property false nothing is sent again. */
GST_START_TEST (test_repair_is_switched_off)
{
  guint i;

  for (i = 0; i < 2; i++) {
    Call call;

    begin_call (&call);
    g_object_set (i ? call.send : call.recv, "repair", FALSE, NULL);
    run_call (&call, 60, 10);
    drain ();
    assert_count (call.send, "repeated", 0);
    assert_count (call.recv, "repaired", 0);
    fail_unless ((count_of (call.recv, "asked") > 0) == i);
    end_call (&call);
  }
}
GST_END_TEST;

/* So many fields that are the same. */
static GstBuffer *
nacks_of (guint32 speaker, guint32 about, guint16 packet, guint16 following, guint fields)
{
  GstRTCPBuffer rtcp = GST_RTCP_BUFFER_INIT;
  GstRTCPPacket fb;
  GstBuffer * buffer = gst_rtcp_buffer_new (64 + 4 * fields);
  guint8 * fci;
  guint i;

  gst_rtcp_buffer_map (buffer, GST_MAP_READWRITE, &rtcp);
  gst_rtcp_buffer_add_packet (&rtcp, GST_RTCP_TYPE_RTPFB, &fb);
  gst_rtcp_packet_fb_set_type (&fb, GST_RTCP_RTPFB_TYPE_NACK);
  gst_rtcp_packet_fb_set_sender_ssrc (&fb, speaker);
  gst_rtcp_packet_fb_set_media_ssrc (&fb, about);
  gst_rtcp_packet_fb_set_fci_length (&fb, fields);
  fci = gst_rtcp_packet_fb_get_fci (&fb);
  for (i = 0; i < fields; i++) {
    GST_WRITE_UINT16_BE (fci + 4 * i, packet);
    GST_WRITE_UINT16_BE (fci + 4 * i + 2, following);
  }
  gst_rtcp_buffer_unmap (&rtcp);
  return buffer;
}

static GstBuffer *
nack_of (guint32 speaker, guint32 about, guint16 packet, guint16 following)
{
  return nacks_of (speaker, about, packet, following, 1);
}

static guint16
sequence_of (GstBuffer * packet)
{
  GstRTPBuffer rtp = GST_RTP_BUFFER_INIT;
  guint16 sequence;

  gst_rtp_buffer_map (packet, GST_MAP_READ, &rtp);
  sequence = gst_rtp_buffer_get_seq (&rtp);
  gst_rtp_buffer_unmap (&rtp);
  return sequence;
}

/* Packets are sent again byte for byte; one that wasn't sent, is another stream's, or is asked for by
 * someone else, isn't. */
GST_START_TEST (test_what_is_sent_again)
{
  GstBuffer *sent[6], *again;
  guint16 begun;
  Call call;
  guint i, about;

  begin_call (&call);
  for (i = 0; i < G_N_ELEMENTS (sent); i++) {
    if (gst_harness_buffers_in_queue (call.out) == 0)
      capture (&call);
    sent[i] = gst_harness_pull (call.out);
  }
  pass_caps (&call);
  while ((again = gst_harness_try_pull (call.out)))
    gst_buffer_unref (again);
  begun = sequence_of (sent[0]);
  about = ssrc_of (call.send);
  gst_harness_push (call.back, nack_of (77, about + 1, begun, 0));
  assert_count (call.send, "stale", 1);
  gst_harness_push (call.back, nack_of (77, about, begun + 1, 1 << 1 | 1 << 15));
  assert_count (call.send, "asked", 3);
  for (i = 1; i <= 3; i += 2) {
    again = gst_harness_pull (call.out);
    fail_unless_equals_int (gst_buffer_get_size (again), gst_buffer_get_size (sent[i]));
    fail_unless_equals_int (sequence_of (again), (guint16) (begun + i));
    {
      GstMapInfo map;

      gst_buffer_map (sent[i], &map, GST_MAP_READ);
      fail_unless (gst_buffer_memcmp (again, 0, map.data, map.size) == 0);
      gst_buffer_unmap (sent[i], &map);
    }
    fail_unless_equals_uint64 (GST_BUFFER_PTS (again), GST_BUFFER_PTS (sent[i]));
    gst_buffer_unref (again);
  }
  assert_count (call.send, "repeated", 2);
  /* A datagram asks for so many. */
  gst_harness_push (call.back, nacks_of (77, about, begun + 1000, 0xffff, 1000));
  assert_count (call.send, "asked", 3 + 256);
  /* While one receiver is heard, another one's requests don't count. */
  run_call (&call, 20, 0);
  gst_harness_push (call.back, nack_of (77, about, begun, 0));
  assert_at_least (call.send, "other-speaker", 1);
  assert_count (call.send, "repeated", 2);
  for (i = 0; i < G_N_ELEMENTS (sent); i++)
    gst_buffer_unref (sent[i]);
  end_call (&call);
}
GST_END_TEST;

/* However much is asked for, it has no more bytes than the stream, and half a second's at once. */
GST_START_TEST (test_a_flood_of_requests)
{
  guint64 bytes = 0, repeated = 0;
  guint i, j, about, limit = 430000 / 16;
  GstBuffer * buffer;
  guint16 newest = 0;
  Call call;

  begin_call (&call);
  g_object_set (call.send, "bitrate", 430000, NULL);
  for (i = 0; i < 120; i++) {
    capture (&call);
    while ((buffer = gst_harness_try_pull (call.out))) {
      guint16 sequence = sequence_of (buffer);

      /* The first of those that are new, and those that come again. */
      if (i == 0 || (gint16) (sequence - newest) > 0) {
        newest = sequence;
        bytes += gst_buffer_get_size (buffer);
      } else {
        repeated += gst_buffer_get_size (buffer);
      }
      gst_buffer_unref (buffer);
    }
    about = ssrc_of (call.send);
    for (j = 0; j < 200; j++)
      gst_harness_push (call.back, nack_of (77, about, newest - 16 - j % 64, 0xffff));
    g_usleep (PERIOD / 1000);
  }
  assert_at_least (call.send, "asked", 1000);
  assert_at_least (call.send, "repeats-refused", 1000);
  fail_unless (repeated > 0);
  fail_unless (repeated <= bytes + limit,
      "%" G_GUINT64_FORMAT " bytes are repeated, of %" G_GUINT64_FORMAT, repeated, bytes);
  end_call (&call);
}
GST_END_TEST;

/* srtpenc takes a repeat for an attack, and ends the call: it gets one where it allows it alone. */
GST_START_TEST (test_repeats_through_srtp)
{
  guint allows;

  for (allows = 0; allows < 2; allows++) {
    GstElement *bin = gst_bin_new (NULL), *send = gst_element_factory_make ("h263rpssend", NULL);
    GstElement * secure = gst_element_factory_make ("srtpenc", NULL);
    GstHarness *out, *back;
    GstBus * bus = gst_bus_new ();
    GstBuffer *key = gst_buffer_new_allocate (NULL, 30, NULL), *buffer;
    GstMessage * message;
    GstPad *pad, *in;
    Call call = { 0 };
    guint i;

    if (!secure) {
      g_print ("skipped: there is no srtpenc\n");
      return;
    }
    gst_buffer_memset (key, 0, 7, 30);
    g_object_set (secure, "key", key, "allow-repeat-tx", allows, NULL);
    gst_buffer_unref (key);
    gst_bin_add_many (GST_BIN (bin), gst_object_ref (send), secure, NULL);
    in = gst_element_request_pad_simple (secure, "rtp_sink_0");
    pad = gst_element_get_static_pad (send, "src");
    fail_unless (gst_pad_link (pad, in) == GST_PAD_LINK_OK);
    gst_object_unref (pad);
    gst_object_unref (in);
    pad = gst_element_get_static_pad (send, "sink");
    gst_element_add_pad (bin, gst_ghost_pad_new ("sink", pad));
    gst_object_unref (pad);
    pad = gst_element_get_static_pad (secure, "rtp_src_0");
    gst_element_add_pad (bin, gst_ghost_pad_new ("src", pad));
    gst_object_unref (pad);
    out = quick_harness (bin, "sink", "src");
    gst_element_set_bus (bin, bus);
    back = quick_harness (send, "rtcp_sink", NULL);
    gst_harness_set_src_caps_str (back, "application/x-rtcp");
    call.send = send;
    call.out = out;
    set_size (&call, SUB_QCIF);
    for (i = 0; i < 20; i++)
      capture (&call);
    buffer = gst_harness_pull (out);
    for (i = 0; i < 3; i++) {
      gst_harness_push (back, nack_of (77, ssrc_of (send), sequence_of (buffer), 0xffff));
      g_usleep (30000);
    }
    gst_buffer_unref (buffer);
    capture (&call);
    if (allows)
      assert_at_least (send, "repeated", 5);
    else
      assert_count (send, "repeated", 0);
    message = gst_bus_pop_filtered (bus, GST_MESSAGE_WARNING);
    fail_unless ((message == NULL) == allows);
    gst_clear_message (&message);
    fail_unless (gst_bus_pop_filtered (bus, GST_MESSAGE_WARNING | GST_MESSAGE_ERROR) == NULL);
    gst_element_set_bus (bin, NULL);
    gst_harness_teardown (back);
    gst_harness_teardown (out);
    gst_object_unref (send);
    gst_object_unref (bin);
    gst_object_unref (bus);
  }
}
GST_END_TEST;

/* ---- streams ---- */

static GstBuffer *
bye_of (guint32 source)
{
  GstRTCPBuffer rtcp = GST_RTCP_BUFFER_INIT;
  GstRTCPPacket packet;
  GstBuffer * buffer = gst_rtcp_buffer_new (64);

  gst_rtcp_buffer_map (buffer, GST_MAP_READWRITE, &rtcp);
  gst_rtcp_buffer_add_packet (&rtcp, GST_RTCP_TYPE_BYE, &packet);
  gst_rtcp_packet_bye_add_ssrc (&packet, source);
  gst_rtcp_buffer_unmap (&rtcp);
  return buffer;
}

static GstHarness *
new_reports (Call * call)
{
  GstHarness * reports = quick_harness (call->recv, "rtcp_sink", NULL);

  gst_harness_set_src_caps_str (reports, "application/x-rtcp");
  return reports;
}

/* Another sender's pictures come to a receiver, and nobody answers them. */
static void
pass_other (Call * other, Call * call, guint pictures)
{
  GstBuffer * buffer;
  guint i;

  for (i = 0; i < pictures; i++) {
    capture (other);
    while ((buffer = gst_harness_try_pull (other->out)))
      gst_harness_push (call->in, buffer);
    g_usleep (PERIOD / 1000);
  }
}

/* After a BYE of the stream that is followed another one is followed at once, also of another size; a
 * BYE of any other stream changes nothing. */
GST_START_TEST (test_a_stream_ends)
{
  guint i;

  for (i = 0; i < 4; i++) {
    gboolean is_meant = i % 2;
    GstHarness * reports;
    Call call, other;

    begin_call (&call);
    begin_call (&other);
    if (i >= 2)
      set_size (&other, QCIF);
    reports = new_reports (&call);
    run_call (&call, 30, 0);
    gst_harness_push (reports, bye_of (ssrc_of (call.send) + !is_meant));
    pass_other (&other, &call, 12);
    fail_unless (ssrc_of (call.recv) == ssrc_of (is_meant ? other.send : call.send), "row %u", i);
    assert_count (call.recv, "runs", 1 + is_meant);
    gst_harness_teardown (reports);
    end_call (&other);
    end_call (&call);
  }
}
GST_END_TEST;

/* Whether a sender has said that this stream has ended. */
static gboolean
says_bye (GstHarness * reports, guint32 source)
{
  GstBuffer * buffer;
  gboolean is_said = FALSE, more;

  while ((buffer = gst_harness_try_pull (reports))) {
    GstRTCPBuffer rtcp = GST_RTCP_BUFFER_INIT;
    GstRTCPPacket packet;

    fail_unless (gst_rtcp_buffer_validate (buffer));
    gst_rtcp_buffer_map (buffer, GST_MAP_READ, &rtcp);
    for (more = gst_rtcp_buffer_get_first_packet (&rtcp, &packet); more;
         more = gst_rtcp_packet_move_to_next (&packet))
      is_said |= gst_rtcp_packet_get_type (&packet) == GST_RTCP_TYPE_BYE
          && gst_rtcp_packet_bye_get_nth_ssrc (&packet, 0) == source;
    gst_rtcp_buffer_unmap (&rtcp);
    gst_buffer_unref (buffer);
  }
  return is_said;
}

/* A sender says where its stream ends: with another size, and at the end. */
GST_START_TEST (test_a_sender_says_bye)
{
  GstHarness * reports;
  Call call;
  guint first;

  begin_call (&call);
  reports = quick_harness (call.send, NULL, "rtcp_src");
  run_call (&call, 5, 0);
  first = ssrc_of (call.send);
  fail_unless (!says_bye (reports, first));
  set_size (&call, QCIF);
  capture (&call);
  fail_unless (says_bye (reports, first));
  fail_unless (gst_harness_push_event (call.out, gst_event_new_eos ()));
  fail_unless (says_bye (reports, ssrc_of (call.send)));
  gst_harness_teardown (reports);
  end_call (&call);
}
GST_END_TEST;

/* Of two streams the one that is wanted is followed, though the other one comes first; where none is
 * wanted, the first one is. */
GST_START_TEST (test_the_stream_that_is_wanted)
{
  guint is_told;

  for (is_told = 0; is_told < 2; is_told++) {
    Call call, other;

    begin_call (&call);
    begin_call (&other);
    capture (&call);
    pass_caps (&call);
    if (is_told)
      g_object_set (call.recv, "sender-ssrc", ssrc_of (call.send), NULL);
    pass_other (&other, &call, 20);
    if (is_told)
      assert_at_least (call.recv, "other-source", 20);
    assert_count (call.recv, "runs", !is_told);
    run_call (&call, 20, 0);
    fail_unless (ssrc_of (call.recv) == ssrc_of (is_told ? call.send : other.send));
    end_call (&other);
    end_call (&call);
  }
}
GST_END_TEST;

/* ---- headers ---- */

/* Both ends of two parties; how many messages of a party went by RTCP. */
static guint
talk (Call * a, Call * b, guint pictures)
{
  GstBuffer * buffer;
  guint i, said = 0;

  for (i = 0; i < pictures; i++) {
    capture (a);
    if (i == 0) {
      pass_caps (a);
      pass_caps (b);
    }
    g_usleep (PERIOD / 2000);
    while ((buffer = gst_harness_try_pull (a->out)))
      gst_harness_push (b->in, buffer);
    capture (b);
    g_usleep (PERIOD / 2000);
    while ((buffer = gst_harness_try_pull (b->out)))
      gst_harness_push (a->in, buffer);
    for (; (buffer = gst_harness_try_pull (a->said)); said++)
      gst_harness_push (b->back, buffer);
    while ((buffer = gst_harness_try_pull (b->said)))
      gst_harness_push (a->back, buffer);
  }
  return said;
}

/* Where both parties' pictures carry messages few go by RTCP; where one's do, all go both ways. */
GST_START_TEST (test_messages_in_headers)
{
  guint pairs, said[3];

  for (pairs = 0; pairs < 3; pairs++) {
    Call a, b;

    begin_call (&a);
    begin_call (&b);
    if (pairs > 0)
      g_object_set (a.recv, "sender", a.send, NULL);
    if (pairs > 1)
      g_object_set (b.recv, "sender", b.send, NULL);
    said[pairs] = talk (&a, &b, 120);
    g_usleep (1000 * (LATENCY + 200));
    assert_nearly (a.recv, "exact", 120);
    assert_nearly (b.recv, "exact", 120);
    assert_at_least (a.send, "noted", 100);
    assert_at_least (b.send, "noted", 100);
    if (pairs > 0)
      assert_at_least (a.send, "carried", 100);
    else
      assert_count (a.send, "carried", 0);
    fail_unless (count_of (a.send, "intra") < 10);
    fail_unless (count_of (b.send, "intra") < 10);
    end_call (&b);
    end_call (&a);
  }
  fail_unless (said[0] >= 100 && said[1] >= 100, "%u and %u are said", said[0], said[1]);
  fail_unless (said[2] <= 40, "%u are said", said[2]);
}
GST_END_TEST;

static Suite *
repair_suite (void)
{
  Suite * suite = suite_create ("h263rps repair");
  TCase * chain = tcase_create ("repair");

  suite_add_tcase (suite, chain);
  tcase_set_timeout (chain, 60);
  tcase_add_test (chain, test_repair);
  tcase_add_test (chain, test_no_repair_on_a_long_way);
  tcase_add_test (chain, test_repair_is_switched_off);
  tcase_add_test (chain, test_what_is_sent_again);
  tcase_add_test (chain, test_a_flood_of_requests);
  tcase_add_test (chain, test_repeats_through_srtp);
  tcase_add_test (chain, test_a_stream_ends);
  tcase_add_test (chain, test_a_sender_says_bye);
  tcase_add_test (chain, test_the_stream_that_is_wanted);
  tcase_add_test (chain, test_messages_in_headers);
  return suite;
}

GST_CHECK_MAIN (repair);
