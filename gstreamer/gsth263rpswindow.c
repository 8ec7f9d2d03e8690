#include "gsth263rpswindow.h"

#define MOST_SLOTS 64
/* Pictures that may come before their play beyond those of the wait: jitter, and a late start; and
 * the least of them (those of tools/live_call). */
#define AHEAD 3
#define LEAST_AHEAD 1

/* The pictures of a wait, a part of one counted as a whole. */
static guint
pictures_in (GstClockTime wait, gint fps_n, gint fps_d)
{
  return gst_util_uint64_scale_ceil (wait, fps_n, fps_d * GST_SECOND);
}

/* The greatest lead beside a sender's window, or -1 where its own lead isn't one. */
static gint
most_lead (const GstH263RpsWindow * window)
{
  if (window->slots < window->lead + 2)
    return -1;
  return MOST_SLOTS - (window->slots - window->lead);
}

/**
 * gst_h263rps_window_own:
 * @window: (inout): the sender's, and then the receiver's own
 * @wait: from the least way to the play
 * @fps_n: pictures
 * @fps_d: in so many seconds
 *
 * A lead that holds the wait, and never a smaller one than the sender's; and as many slots more.
 *
 * Returns: whether there is one
 */
gboolean
gst_h263rps_window_own (GstH263RpsWindow * window, GstClockTime wait, gint fps_n, gint fps_d)
{
  gint most = most_lead (window);
  guint pictures = pictures_in (wait, fps_n, fps_d), lead;

  if (most < (gint) (pictures + LEAST_AHEAD))
    return FALSE;
  lead = MIN (MAX (pictures + AHEAD, window->lead), (guint) most);
  window->slots += lead - window->lead;
  window->lead = lead;
  return TRUE;
}

/**
 * gst_h263rps_window_fault:
 * @window: the sender's
 * @wait: from the least way to the play
 * @fps_n: pictures
 * @fps_d: in so many seconds
 *
 * Returns: (nullable) (transfer full): why there is no window of the receiver's own, in words, and
 * what would help
 */
gchar *
gst_h263rps_window_fault (const GstH263RpsWindow * window, GstClockTime wait, gint fps_n,
    gint fps_d)
{
  GstH263RpsWindow own = *window;
  gint most = most_lead (window);
  guint64 milliseconds;

  if (most < 0)
    return g_strdup_printf ("The sender's %u slots don't hold its lead of %u: slots are at least "
                            "lead + 2.",
        window->slots, window->lead);
  if (gst_h263rps_window_own (&own, wait, fps_n, fps_d))
    return NULL;
  milliseconds = most > LEAST_AHEAD
      ? gst_util_uint64_scale (1000, (most - LEAST_AHEAD) * fps_d, fps_n)
      : 0;
  return g_strdup_printf ("A latency of %" G_GUINT64_FORMAT " ms is %u pictures, and beside the "
                          "sender's window (slots %u, lead %u) there is room for %" G_GUINT64_FORMAT
                          " ms: take a "
                          "smaller latency, or fewer slots at the sender.",
      wait / GST_MSECOND, pictures_in (wait, fps_n, fps_d), window->slots, window->lead,
      milliseconds);
}
