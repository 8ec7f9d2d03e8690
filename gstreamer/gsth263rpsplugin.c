#ifdef HAVE_CONFIG_H
#include "config.h"
#endif

#include "gsth263rps.h"
#include "gsth263rpsrecv.h"
#include "gsth263rpssend.h"

static gboolean
plugin_init (GstPlugin * plugin)
{
  static const gchar * tags[] = { NULL };

  gst_meta_register_custom (GST_H263RPS_META_NAME, tags, NULL, NULL, NULL);
  return GST_ELEMENT_REGISTER (h263rpssend, plugin) && GST_ELEMENT_REGISTER (h263rpsrecv, plugin);
}

GST_PLUGIN_DEFINE (GST_VERSION_MAJOR, GST_VERSION_MINOR, h263rps,
    "Video calls in H.263 with acknowledged reference pictures", plugin_init, VERSION, GST_LICENSE,
    PACKAGE_NAME, PACKAGE_ORIGIN)
