/* A receiver's own slots and lead: how many pictures it keeps, and how many may come before their
 * turn. Its window (slots less lead less 1) must be at least its sender's. */
#ifndef __GST_H263RPS_WINDOW_H__
#define __GST_H263RPS_WINDOW_H__

#include <gst/gst.h>

G_BEGIN_DECLS

typedef struct _GstH263RpsWindow GstH263RpsWindow;

/**
 * GstH263RpsWindow:
 * @slots: pictures that are kept, 2 to 64
 * @lead: pictures that may come before their turn, at most @slots less 2
 */
struct _GstH263RpsWindow {
  guint slots, lead;
};

G_GNUC_INTERNAL
gboolean gst_h263rps_window_own (GstH263RpsWindow * window, GstClockTime wait, gint fps_n,
    gint fps_d);

G_GNUC_INTERNAL
gchar * gst_h263rps_window_fault (const GstH263RpsWindow * window, GstClockTime wait, gint fps_n,
    gint fps_d);

G_END_DECLS

#endif
