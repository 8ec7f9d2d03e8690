#include "gsth263rps.h"

static const struct {
  const gchar * name;
  gint width, height;
} formats[] = { { "none", 0, 0 }, { "sub-qcif", 128, 96 }, { "qcif", 176, 144 },
  { "cif", 352, 288 } };

guint
gst_h263rps_format_of_size (gint width, gint height)
{
  guint format;

  for (format = 1; format < G_N_ELEMENTS (formats); format++) {
    if (formats[format].width == width && formats[format].height == height)
      return format;
  }
  return 0;
}

void
gst_h263rps_size_of_format (guint format, gint * width, gint * height)
{
  g_return_if_fail (format < G_N_ELEMENTS (formats));

  *width = formats[format].width;
  *height = formats[format].height;
}

const gchar *
gst_h263rps_format_name (guint format)
{
  g_return_val_if_fail (format < G_N_ELEMENTS (formats), NULL);

  return formats[format].name;
}

const gchar *
gst_h263rps_mark_name (guint mark)
{
  static const gchar * const names[] = { "exact", "patched", "held" };

  return mark < G_N_ELEMENTS (names) ? names[mark] : "none";
}

/* The id of a stream of this process: GStreamer makes none of its own for an element with two sink
 * pads. */
gchar *
gst_h263rps_new_stream_id (const gchar * what)
{
  return g_strdup_printf ("%08x%08x%08x/%s", g_random_int (), g_random_int (), g_random_int (),
      what);
}
