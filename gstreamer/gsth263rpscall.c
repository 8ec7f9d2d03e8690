#include "gsth263rpscall.h"

#include <string.h>

/**
 * gst_h263rps_call_new:
 * @params: those of its receivers
 * @fps_n: pictures
 * @fps_d: in so many seconds
 * @wait: from the least way to the play
 * @fault: (out): why there is none (enum h263rps_status)
 *
 * Returns: (nullable) (transfer full): a session to which nothing came
 */
GstH263RpsCall *
gst_h263rps_call_new (const h263rps_params * params, gint fps_n, gint fps_d, GstClockTime wait,
    guint32 * fault)
{
  GstH263RpsCall * call = g_new0 (GstH263RpsCall, 1);

  call->params = *params;
  call->size = h263rps_picture_size (params->format);
  call->fps_n = fps_n;
  call->fps_d = fps_d;
  call->wait = wait;
  call->next = -1;
  *fault = h263rps_session_start (&call->session, params, fps_n, fps_d, wait, NULL);
  if (*fault != H263RPS_OK) {
    g_free (call);
    return NULL;
  }
  return call;
}

void
gst_h263rps_call_free (GstH263RpsCall * call)
{
  h263rps_session_finish (&call->session);
  g_clear_pointer (&call->tape, gst_h263rps_tape_free);
  if (call->pool) {
    gst_buffer_pool_set_active (call->pool, FALSE);
    gst_object_unref (call->pool);
  }
  g_free (call);
}

/* The session begins anew, as with another party, in the memory that it has. What was recorded ends. */
void
gst_h263rps_call_reset (GstH263RpsCall * call, GstClockTime now)
{
  h263rps_session_reset (&call->session, now);
  call->next = -1;
  call->completed = 0;
  call->complete = 0;
  memset (call->captures, 0, sizeof call->captures);
  call->has_last = FALSE;
  if (call->tape) {
    gst_h263rps_tape_free (call->tape);
    call->tape = gst_h263rps_tape_new ();
  }
}

/* The stream that is followed, if there is one. */
gboolean
gst_h263rps_call_followed (GstH263RpsCall * call, guint32 * source)
{
  return h263rps_session_source (&call->session, H263RPS_FOLLOWED, source) == H263RPS_OK;
}

/* The stream of this run is followed from now on. */
void
gst_h263rps_call_turn (GstH263RpsCall * call, guint run)
{
  call->next = -1;
  memset (call->captures, 0, sizeof call->captures);
  call->has_last = FALSE;
  if (call->tape)
    gst_h263rps_tape_turn (call->tape, run);
}

/* When something is to be played, on the clock of the arrivals: 0 at once, or NONE. */
GstClockTime
gst_h263rps_call_due (GstH263RpsCall * call)
{
  uint64_t due = H263RPS_NEVER;

  h263rps_session_due (&call->session, &due);
  return due == H263RPS_NEVER ? GST_CLOCK_TIME_NONE : due;
}

static GstBufferPool *
new_pool (guint size)
{
  GstBufferPool * pool = gst_buffer_pool_new ();
  GstStructure * config = gst_buffer_pool_get_config (pool);

  gst_buffer_pool_config_set_params (config, NULL, size, 0, 0);
  gst_buffer_pool_set_config (pool, config);
  gst_buffer_pool_set_active (pool, TRUE);
  return pool;
}

/**
 * gst_h263rps_call_picture:
 * @call: a call
 * @shown: the picture on its screen
 *
 * A copy of the picture, first of all where one lay that nobody shows any more: fresh
 * memory costs a fault of the processor for each of its pages.
 *
 * Returns: (transfer full): a writable buffer
 */
GstBuffer *
gst_h263rps_call_picture (GstH263RpsCall * call, const h263rps_lent * shown)
{
  GstBuffer * buffer = NULL;

  if (!call->pool)
    call->pool = new_pool (call->size);
  if (gst_buffer_pool_acquire_buffer (call->pool, &buffer, NULL) != GST_FLOW_OK)
    buffer = gst_buffer_new_allocate (NULL, call->size, NULL);
  gst_buffer_fill (buffer, 0, shown->samples, shown->length);
  return buffer;
}

/* A packet of the stream that is followed says when its picture was captured. */
void
gst_h263rps_call_note_time (GstH263RpsCall * call, guint reference, guint32 timestamp)
{
  call->captures[reference % GST_H263RPS_REFERENCES].timestamp = timestamp;
  call->captures[reference % GST_H263RPS_REFERENCES].is_known = TRUE;
}

/* The timestamp of a picture that is played: where nothing of it came, by the one before. */
gboolean
gst_h263rps_call_take_time (GstH263RpsCall * call, guint32 number, guint32 * timestamp)
{
  guint reference = number % (call->params.clock == H263RPS_CUSTOM_CLOCK ? 1024 : 256);
  guint32 apart = number - call->last;

  if (call->captures[reference].is_known) {
    call->captures[reference].is_known = FALSE;
    call->last = number;
    call->last_timestamp = call->captures[reference].timestamp;
    call->has_last = TRUE;
    apart = 0;
  }
  *timestamp = call->last_timestamp
      + gst_util_uint64_scale (apart, (guint64) 90000 * call->fps_d, call->fps_n);
  return call->has_last;
}
