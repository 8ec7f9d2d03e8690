#include "gsth263rpsrepeater.h"

#include <string.h>

/* At least so many packets are kept. */
#define KEPT 512
/* What waits to go out; of more nothing is asked for. */
#define MOST_WAITING 256
/* Elements further on that are looked at. */
#define MOST_STEPS 256
/* A packet that is asked for so soon after it was repeated, in us, is asked for by the same request: our
 * receivers ask twice. */
#define SOON 15000
/* How long it is believed what they are. */
#define LATELY GST_SECOND
/* Of what srtpenc allows (libsrtp's window has at least 64 packets). */
#define NEWEST_OF_SRTP 60

typedef enum {
  WAY_PLAIN,
  WAY_SECURE, /* srtpenc, which repeats what is new enough */
  WAY_CLOSED, /* srtpenc that takes a repeat for an attack, and ends the call */
  WAY_OTHER   /* rtprtxsend, which repeats by itself (RFC 4588) */
} Way;

/**
 * GstH263RpsRepeater:
 *
 * Packets go out by two threads, the stream's and that of the repeats: one at a time, under @pushing.
 * What waits is under @lock. Repeats take as many bytes as the stream, and no more at once than @most.
 */
struct _GstH263RpsRepeater {
  GstPad * pad;
  gulong probe;
  GRecMutex pushing, running;
  GstTask * task;

  GMutex lock;
  GCond cond;
  h263rps_repeats kept;
  GstClockTime times[KEPT];
  gint64 sent[KEPT];    /* when it went out first, in us */
  gint64 repeats[KEPT]; /* and again last */
  gint64 in_time;       /* what went out longer ago would come too late */
  guint16 newest;
  GQueue waiting;
  guint64 credit, most;
  gboolean is_stopping;
  Way way;
  gint64 looked; /* when the way was looked at, in us */
  GstH263RpsRepeatCounts counts;
};

/* ---- what was sent ---- */

static void
keep (GstH263RpsRepeater * repeater, GstBuffer * packet)
{
  GstMapInfo map;

  if (!gst_buffer_map (packet, &map, GST_MAP_READ))
    return;
  if (map.size >= 4) {
    h263rps_repeats_keep (&repeater->kept, map.data, map.size);
    repeater->newest = GST_READ_UINT16_BE (map.data + 2);
    repeater->times[repeater->newest % KEPT] = GST_BUFFER_PTS (packet);
    repeater->sent[repeater->newest % KEPT] = g_get_monotonic_time ();
    repeater->repeats[repeater->newest % KEPT] = 0;
    repeater->credit = MIN (repeater->credit + map.size, repeater->most);
  }
  gst_buffer_unmap (packet, &map);
}

/* The stream's packets come in lists, and repeats one by one. */
static GstPadProbeReturn
on_list (GstPad * pad, GstPadProbeInfo * info, gpointer data)
{
  GstH263RpsRepeater * repeater = data;
  GstBufferList * list = GST_PAD_PROBE_INFO_BUFFER_LIST (info);
  guint i;

  g_mutex_lock (&repeater->lock);
  for (i = 0; i < gst_buffer_list_length (list); i++)
    keep (repeater, gst_buffer_list_get (list, i));
  g_mutex_unlock (&repeater->lock);
  return GST_PAD_PROBE_OK;
}

/* ---- the way ---- */

/* One that repeats nothing has an empty map of payload types, as webrtcbin's where no rtx is agreed. */
static Way
way_of_rtx (GstElement * element)
{
  GstStructure * map = NULL;
  gboolean repeats;

  g_object_get (element, "payload-type-map", &map, NULL);
  repeats = map && gst_structure_n_fields (map) > 0;
  g_clear_pointer (&map, gst_structure_free);
  return repeats ? WAY_OTHER : WAY_PLAIN;
}

static Way
way_of_element (GstElement * element)
{
  GstElementFactory * factory = gst_element_get_factory (element);
  const gchar * name = factory ? GST_OBJECT_NAME (factory) : NULL;
  gboolean allows = FALSE;

  if (g_strcmp0 (name, "rtprtxsend") == 0)
    return way_of_rtx (element);
  if (g_strcmp0 (name, "srtpenc") != 0)
    return WAY_PLAIN;
  g_object_get (element, "allow-repeat-tx", &allows, NULL);
  return allows ? WAY_SECURE : WAY_CLOSED;
}

static Way way_from (GstPad * pad, guint * steps);

static Way
way_through (GstPad * peer, guint * steps)
{
  GstIterator * links = gst_pad_iterate_internal_links (peer);
  GValue value = G_VALUE_INIT;
  Way way = WAY_PLAIN;

  while (links && gst_iterator_next (links, &value) == GST_ITERATOR_OK) {
    way = MAX (way, way_from (g_value_get_object (&value), steps));
    g_value_reset (&value);
  }
  if (links)
    gst_iterator_free (links);
  return way;
}

/* What lies after a source pad. */
static Way
way_from (GstPad * pad, guint * steps)
{
  GstPad * peer = ++*steps <= MOST_STEPS ? gst_pad_get_peer (pad) : NULL;
  GstElement * element;
  Way way = WAY_PLAIN;

  if (!peer)
    return WAY_PLAIN;
  element = gst_pad_get_parent_element (peer);
  if (element)
    way = way_of_element (element);
  /* A bin's pad, of which the other half lies within or without, links to that by itself. */
  if (way == WAY_PLAIN)
    way = way_through (peer, steps);
  gst_clear_object (&element);
  gst_object_unref (peer);
  return way;
}

/**
 * gst_h263rps_repeater_may:
 * @repeater: a repeater
 * @is_closed: (out): whether a repeat would end the call
 *
 * Returns: whether packets may go out again
 */
gboolean
gst_h263rps_repeater_may (GstH263RpsRepeater * repeater, gboolean * is_closed)
{
  gint64 now = g_get_monotonic_time ();
  guint steps = 0;
  Way way;
  gboolean is_old;

  g_mutex_lock (&repeater->lock);
  way = repeater->way;
  is_old = repeater->looked == 0 || now - repeater->looked > (gint64) (LATELY / 1000);
  g_mutex_unlock (&repeater->lock);
  if (is_old) {
    way = way_from (repeater->pad, &steps);
    g_mutex_lock (&repeater->lock);
    repeater->way = way;
    repeater->looked = now;
    g_mutex_unlock (&repeater->lock);
  }
  *is_closed = way == WAY_CLOSED;
  return way <= WAY_SECURE;
}

/* ---- repeats ---- */

static gboolean
is_allowed (GstH263RpsRepeater * repeater, guint16 sequence)
{
  return repeater->way == WAY_PLAIN
      || (repeater->way == WAY_SECURE && (guint16) (repeater->newest - sequence) < NEWEST_OF_SRTP);
}

/* A packet is asked for. */
void
gst_h263rps_repeater_ask (GstH263RpsRepeater * repeater, guint16 sequence)
{
  h263rps_lent found = { NULL, 0 };
  gint64 now = g_get_monotonic_time ();
  GstBuffer * buffer;

  g_mutex_lock (&repeater->lock);
  if (now - repeater->repeats[sequence % KEPT] < SOON)
    goto done;
  repeater->counts.asked++;
  if (now - repeater->sent[sequence % KEPT] > repeater->in_time || !is_allowed (repeater, sequence)
      || h263rps_repeats_find (&repeater->kept, sequence, &found) != H263RPS_OK
      || found.length == 0)
    goto done;
  if (found.length > repeater->credit || repeater->waiting.length >= MOST_WAITING) {
    repeater->counts.refused++;
    goto done;
  }
  buffer = gst_buffer_new_memdup (found.samples, found.length);
  GST_BUFFER_PTS (buffer) = repeater->times[sequence % KEPT];
  GST_BUFFER_FLAG_SET (buffer, GST_RTP_BUFFER_FLAG_RETRANSMISSION);
  repeater->repeats[sequence % KEPT] = now;
  repeater->credit -= found.length;
  repeater->counts.repeated++;
  repeater->counts.bytes += found.length;
  g_queue_push_tail (&repeater->waiting, buffer);
  g_cond_signal (&repeater->cond);
done:
  g_mutex_unlock (&repeater->lock);
}

/* Not by the thread that hears: what it hears may come of what it sends, where both ends are one
 * pipeline. */
static void
repeat_next (gpointer data)
{
  GstH263RpsRepeater * repeater = data;
  GstBuffer * buffer;

  g_mutex_lock (&repeater->lock);
  while (!repeater->is_stopping && g_queue_is_empty (&repeater->waiting))
    g_cond_wait (&repeater->cond, &repeater->lock);
  buffer = g_queue_pop_head (&repeater->waiting);
  g_mutex_unlock (&repeater->lock);
  if (!buffer)
    return;
  gst_h263rps_repeater_lock (repeater);
  gst_pad_push (repeater->pad, buffer);
  gst_h263rps_repeater_unlock (repeater);
}

/* ---- the repeater ---- */

/* Of a pad by which packets go out in lists. */
GstH263RpsRepeater *
gst_h263rps_repeater_new (GstPad * pad)
{
  GstH263RpsRepeater * repeater = g_new0 (GstH263RpsRepeater, 1);

  repeater->pad = pad;
  g_rec_mutex_init (&repeater->pushing);
  g_rec_mutex_init (&repeater->running);
  g_mutex_init (&repeater->lock);
  g_cond_init (&repeater->cond);
  g_queue_init (&repeater->waiting);
  repeater->task = gst_task_new (repeat_next, repeater, NULL);
  gst_task_set_lock (repeater->task, &repeater->running);
  repeater->probe = gst_pad_add_probe (pad, GST_PAD_PROBE_TYPE_BUFFER_LIST, on_list, repeater,
      NULL);
  return repeater;
}

void
gst_h263rps_repeater_free (GstH263RpsRepeater * repeater)
{
  gst_h263rps_repeater_stop (repeater);
  gst_object_unref (repeater->task);
  h263rps_repeats_finish (&repeater->kept);
  g_rec_mutex_clear (&repeater->pushing);
  g_rec_mutex_clear (&repeater->running);
  g_mutex_clear (&repeater->lock);
  g_cond_clear (&repeater->cond);
  g_free (repeater);
}

void
gst_h263rps_repeater_start (GstH263RpsRepeater * repeater)
{
  memset (&repeater->counts, 0, sizeof repeater->counts);
  repeater->credit = 0;
  repeater->looked = 0;
  repeater->is_stopping = FALSE;
  gst_task_start (repeater->task);
}

void
gst_h263rps_repeater_stop (GstH263RpsRepeater * repeater)
{
  g_mutex_lock (&repeater->lock);
  repeater->is_stopping = TRUE;
  g_queue_clear_full (&repeater->waiting, (GDestroyNotify) gst_buffer_unref);
  g_cond_signal (&repeater->cond);
  g_mutex_unlock (&repeater->lock);
  gst_task_stop (repeater->task);
  gst_task_join (repeater->task);
}

/* Another stream, with packets of at most so many bytes. */
gboolean
gst_h263rps_repeater_begin (GstH263RpsRepeater * repeater, guint longest, gint64 in_time)
{
  gboolean is_begun;

  g_mutex_lock (&repeater->lock);
  g_queue_clear_full (&repeater->waiting, (GDestroyNotify) gst_buffer_unref);
  h263rps_repeats_finish (&repeater->kept);
  is_begun = h263rps_repeats_start (&repeater->kept, KEPT, longest) == H263RPS_OK;
  repeater->in_time = in_time;
  g_mutex_unlock (&repeater->lock);
  return is_begun;
}

/* Repeats take no more bytes at once. */
void
gst_h263rps_repeater_limit (GstH263RpsRepeater * repeater, guint64 bytes)
{
  g_mutex_lock (&repeater->lock);
  repeater->most = bytes;
  g_mutex_unlock (&repeater->lock);
}

/* One thread at a time pushes at the pad. */
void
gst_h263rps_repeater_lock (GstH263RpsRepeater * repeater)
{
  g_rec_mutex_lock (&repeater->pushing);
}

void
gst_h263rps_repeater_unlock (GstH263RpsRepeater * repeater)
{
  g_rec_mutex_unlock (&repeater->pushing);
}

void
gst_h263rps_repeater_counts (GstH263RpsRepeater * repeater, GstH263RpsRepeatCounts * counts)
{
  g_mutex_lock (&repeater->lock);
  *counts = repeater->counts;
  g_mutex_unlock (&repeater->lock);
}
