/* Tests of one sender with several receivers, by GStreamer's harness. */
#include "calls.h"

#define RECEIVERS 3
#define RATE 30
/* A way there and back, in us, and the latency of the receivers, in ms. */
#define WAY 25000
#define LATE 250

/* ---- a group of one ---- */

/* A message about a picture, as its receiver says it: an acknowledgement (Annex N). */
static GstBuffer *
acknowledgement (guint32 speaker, guint32 about, guint reference)
{
  GstRTCPBuffer rtcp = GST_RTCP_BUFFER_INIT;
  GstRTCPPacket fb;
  GstBuffer * buffer = gst_rtcp_buffer_new (64);
  guint8 * fci;

  gst_rtcp_buffer_map (buffer, GST_MAP_READWRITE, &rtcp);
  gst_rtcp_buffer_add_packet (&rtcp, GST_RTCP_TYPE_PSFB, &fb);
  gst_rtcp_packet_fb_set_type (&fb, GST_RTCP_PSFB_TYPE_RPSI);
  gst_rtcp_packet_fb_set_sender_ssrc (&fb, speaker);
  gst_rtcp_packet_fb_set_media_ssrc (&fb, about);
  gst_rtcp_packet_fb_set_fci_length (&fb, 2);
  fci = gst_rtcp_packet_fb_get_fci (&fb);
  /* Eight bits of padding, the payload type, three bytes of message, three of nothing. */
  memset (fci, 0, 8);
  fci[0] = 24;
  fci[1] = 96;
  reference %= 256;
  GST_WRITE_UINT24_BE (fci + 2, 3u << 22 | reference << 11 | 1u << 10 | reference);
  gst_rtcp_buffer_unmap (&rtcp);
  return buffer;
}

static GstBuffer *
goodbye (guint32 speaker)
{
  GstRTCPBuffer rtcp = GST_RTCP_BUFFER_INIT;
  GstRTCPPacket bye;
  GstBuffer * buffer = gst_rtcp_buffer_new (64);

  gst_rtcp_buffer_map (buffer, GST_MAP_READWRITE, &rtcp);
  gst_rtcp_buffer_add_packet (&rtcp, GST_RTCP_TYPE_BYE, &bye);
  gst_rtcp_packet_bye_add_ssrc (&bye, speaker);
  gst_rtcp_buffer_unmap (&rtcp);
  return buffer;
}

static guint
receivers_of (GstElement * send)
{
  GstStructure * stats;
  guint count = 0;

  g_object_get (send, "stats", &stats, NULL);
  gst_structure_get_uint (stats, "receivers", &count);
  gst_structure_free (stats);
  return count;
}

/* A sender alone, whose packets are kept. */
static void
begin_sender (Call * call, guint most)
{
  memset (call, 0, sizeof *call);
  call->send = gst_element_factory_make ("h263rpssend", NULL);
  g_object_set (call->send, "adapt", FALSE, "max-receivers", most, "ssrc", 7, "seqnum-offset", 1,
      "timestamp-offset", 0, NULL);
  call->out = quick_harness (call->send, "sink", "src");
  call->back = quick_harness (call->send, "rtcp_sink", NULL);
  gst_harness_set_src_caps_str (call->back, "application/x-rtcp");
  set_size (call, SUB_QCIF);
}

static void
end_sender (Call * call)
{
  gst_harness_teardown (call->back);
  gst_harness_teardown (call->out);
  gst_object_unref (call->send);
}

/* The sum of all packets, of which the times are left out: they are those of capture. */
static void
add_packets (Call * call, GChecksum * sum)
{
  GstBuffer * buffer;
  GstMapInfo map;

  while ((buffer = gst_harness_try_pull (call->out))) {
    gst_buffer_map (buffer, &map, GST_MAP_READ);
    g_checksum_update (sum, map.data, 4);
    g_checksum_update (sum, map.data + 8, map.size - 8);
    gst_buffer_unmap (buffer, &map);
    gst_buffer_unref (buffer);
  }
}

/* One speaker, who acknowledges some pictures and falls silent for a while; and another at the end, whose
 * place is that of the first one who is silent. With room for one and for sixteen the packets are the same. */
GST_START_TEST (test_a_group_of_one)
{
  gchar * sums[2];
  guint k, i;

  for (k = 0; k < 2; k++) {
    GChecksum * sum = g_checksum_new (G_CHECKSUM_SHA256);
    Call call;

    begin_sender (&call, k ? 16 : 1);
    for (i = 0; i < 200; i++) {
      capture (&call);
      add_packets (&call, sum);
      if (i % 3 != 1 && (i < 80 || i >= 120))
        gst_harness_push (call.back, acknowledgement (21, 7, i - i % 4));
    }
    fail_unless_equals_int (receivers_of (call.send), 1);
    assert_count (call.send, "coded", 200);
    assert_at_least (call.send, "noted", 100);
    fail_unless (count_of (call.send, "intra") < 40);
    end_sender (&call);
    sums[k] = g_strdup (g_checksum_get_string (sum));
    g_checksum_free (sum);
  }
  fail_unless_equals_string (sums[0], sums[1]);
  g_free (sums[0]);
  g_free (sums[1]);
}
GST_END_TEST;

/* ---- who speaks ---- */

/* Two receivers acknowledge each picture, while strangers speak once each, 20,000 of them, and one that is
 * there says goodbye for someone else: nobody joins, and no picture is intra for it. */
GST_START_TEST (test_a_flood_of_strangers)
{
  guint64 intra = 0;
  guint i, k;
  Call call;

  begin_sender (&call, 4);
  for (i = 0; i < 120; i++) {
    capture (&call);
    for (k = 0; k < 2; k++)
      gst_harness_push (call.back, acknowledgement (21 + k, 7, i));
    if (i == 40)
      intra = count_of (call.send, "intra");
    for (k = 0; i >= 40 && k < 250; k++)
      gst_harness_push (call.back, acknowledgement (g_random_int_range (1000, G_MAXINT32), 7, i));
    if (i >= 40)
      gst_harness_push (call.back, goodbye (g_random_int_range (1000, G_MAXINT32)));
  }
  fail_unless_equals_int (receivers_of (call.send), 2);
  fail_unless (count_of (call.send, "intra") == intra,
      "%" G_GUINT64_FORMAT " pictures are intra, and not %" G_GUINT64_FORMAT,
      count_of (call.send, "intra"), intra);
  assert_count (call.send, "other-speaker", 2 + 80 * 250);
  assert_count (call.send, "joined", 1);
  assert_count (call.send, "left", 0);
  end_sender (&call);
}
GST_END_TEST;

/* Where all places are taken nobody else gets one, until someone says goodbye. Who falls silent leaves after a
 * second of pictures, and joins again when it speaks. */
GST_START_TEST (test_who_comes_and_goes)
{
  guint64 intra = 0;
  guint i, k;
  Call call;

  begin_sender (&call, 3);
  for (i = 0; i < 500; i++) {
    const gboolean speaks[] = { i < 100, TRUE, i < 150 || i >= 400, TRUE };

    capture (&call);
    g_usleep (PERIOD / 1000 / 2);
    for (k = 0; k < G_N_ELEMENTS (speaks); k++)
      if (speaks[k])
        gst_harness_push (call.back, acknowledgement (21 + k, 7, i));
    if (i == 99) {
      fail_unless_equals_int (receivers_of (call.send), 3);
      assert_at_least (call.send, "other-speaker", 90);
      gst_harness_push (call.back, goodbye (21));
      assert_count (call.send, "left", 1);
    }
    if (i == 140)
      fail_unless_equals_int (receivers_of (call.send), 3);
    if (i == 380) {
      intra = count_of (call.send, "intra");
      fail_unless_equals_int (receivers_of (call.send), 2);
      assert_count (call.send, "left", 2);
    }
    /* A chain of 131 predicted pictures may end here: no other picture is coded by itself. */
    if (i == 399)
      fail_unless (count_of (call.send, "intra") <= intra + 1);
  }
  fail_unless_equals_int (receivers_of (call.send), 3);
  /* The second and the third one, who took the place that was free, and who came back. */
  assert_count (call.send, "joined", 4);
  fail_unless (count_of (call.send, "intra") <= intra + 4);
  end_sender (&call);
}
GST_END_TEST;

/* ---- three receivers ---- */

typedef struct {
  GstElement * recv;
  GstHarness *in, *said;
  GQueue there, back;
  gdouble loss;
  GRand * rand;
} Party;

typedef struct {
  Call call;
  Party parties[RECEIVERS];
} Room;

static void
begin_room (Room * room, gdouble loss)
{
  guint i;

  memset (room, 0, sizeof *room);
  begin_sender (&room->call, RECEIVERS);
  g_object_set (room->call.send, "slots", SLOTS, "lead", LEAD, NULL);
  set_size (&room->call,
      "video/x-raw, format = (string) I420, width = (int) 128, height = (int) 96, "
      "framerate = (fraction) 30/1");
  for (i = 0; i < RECEIVERS; i++) {
    Party * party = &room->parties[i];

    party->recv = gst_element_factory_make ("h263rpsrecv", NULL);
    g_object_set (party->recv, "latency", LATE, "ssrc", 21 + i, NULL);
    party->in = quick_harness (party->recv, "sink", "src");
    party->said = quick_harness (party->recv, NULL, "rtcp_src");
    gst_harness_set_live (party->in, TRUE);
    g_queue_init (&party->there);
    g_queue_init (&party->back);
    party->loss = i == RECEIVERS - 1 ? loss : 0;
    party->rand = g_rand_new_with_seed (5);
  }
}

static void
put_on (Party * party, GQueue * queue, GstBuffer * buffer, gint64 now)
{
  Sent * sent;

  if (g_rand_double (party->rand) < party->loss) {
    gst_buffer_unref (buffer);
    return;
  }
  sent = g_new (Sent, 1);
  sent->buffer = buffer;
  sent->at = now + WAY;
  g_queue_push_tail (queue, sent);
}

/* Each packet goes to all, and what they say comes back. */
static void
carry_room (Room * room)
{
  gint64 now = g_get_monotonic_time ();
  GstBuffer * buffer;
  guint i;

  while ((buffer = gst_harness_try_pull (room->call.out))) {
    for (i = 0; i < RECEIVERS; i++)
      put_on (&room->parties[i], &room->parties[i].there, gst_buffer_copy_deep (buffer), now);
    gst_buffer_unref (buffer);
  }
  for (i = 0; i < RECEIVERS; i++) {
    Party * party = &room->parties[i];

    bring (&party->there, party->in, now);
    while ((buffer = gst_harness_try_pull (party->said)))
      put_on (party, &party->back, buffer, now);
    bring (&party->back, room->call.back, now);
  }
}

static void
drive_room (Room * room, guint pictures)
{
  gint64 begun = g_get_monotonic_time ();
  guint i, k;

  for (i = 0; i < pictures; i++) {
    for (; g_get_monotonic_time () < begun + (gint64) i * G_USEC_PER_SEC / RATE; g_usleep (1000))
      carry_room (room);
    capture (&room->call);
    if (i == 0) {
      GstPad * pad = gst_element_get_static_pad (room->call.send, "src");
      GstCaps * caps = gst_pad_get_current_caps (pad);

      for (k = 0; k < RECEIVERS; k++)
        gst_harness_set_src_caps (room->parties[k].in, gst_caps_ref (caps));
      gst_caps_unref (caps);
      gst_object_unref (pad);
    }
    carry_room (room);
  }
  for (i = 0; i < 600; i++) {
    carry_room (room);
    g_usleep (1000);
  }
}

static gdouble
share_of (Party * party)
{
  guint64 exact = count_of (party->recv, "exact");

  return 100.0 * exact
      / MAX (exact + count_of (party->recv, "patched") + count_of (party->recv, "held"), 1);
}

static void
end_room (Room * room)
{
  guint i;

  for (i = 0; i < RECEIVERS; i++) {
    Party * party = &room->parties[i];
    Sent * sent;

    while ((sent = g_queue_pop_head (&party->there)) || (sent = g_queue_pop_head (&party->back))) {
      gst_buffer_unref (sent->buffer);
      g_free (sent);
    }
    g_rand_free (party->rand);
    gst_harness_teardown (party->said);
    gst_harness_teardown (party->in);
    gst_object_unref (party->recv);
  }
  end_sender (&room->call);
}

/* One of three loses 10 % of what comes and of what it says: the others have what they had without it. */
GST_START_TEST (test_one_of_three_loses)
{
  gdouble shares[2][RECEIVERS];
  guint k, i;

  for (k = 0; k < 2; k++) {
    Room * room = g_new (Room, 1);

    begin_room (room, k ? 0.1 : 0);
    drive_room (room, 12 * RATE);
    for (i = 0; i < RECEIVERS; i++)
      shares[k][i] = share_of (&room->parties[i]);
    g_print ("%s: %.1f, %.1f and %.1f %% exact, %u receivers, %" G_GUINT64_FORMAT
             " of %" G_GUINT64_FORMAT " pictures intra, %" G_GUINT64_FORMAT " bytes\n",
        k ? "one loses 10 %" : "nobody loses", shares[k][0], shares[k][1], shares[k][2],
        receivers_of (room->call.send), count_of (room->call.send, "intra"),
        count_of (room->call.send, "coded"), count_of (room->call.send, "bytes"));
    fail_unless_equals_int (receivers_of (room->call.send), RECEIVERS);
    fail_unless (count_of (room->call.send, "intra") < 3 * RATE);
    end_room (room);
    g_free (room);
  }
  for (i = 0; i < RECEIVERS - 1; i++)
    fail_unless (shares[1][i] >= shares[0][i] - 1);
}
GST_END_TEST;

static Suite *
group_suite (void)
{
  Suite * suite = suite_create ("group");
  TCase * group = tcase_create ("group");

  suite_add_tcase (suite, group);
  tcase_set_timeout (group, 120);
  tcase_add_test (group, test_a_group_of_one);
  tcase_add_test (group, test_a_flood_of_strangers);
  tcase_add_test (group, test_who_comes_and_goes);
  tcase_add_test (group, test_one_of_three_loses);
  return suite;
}

GST_CHECK_MAIN (group);
