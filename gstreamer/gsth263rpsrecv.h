#ifndef __GST_H263RPS_RECV_H__
#define __GST_H263RPS_RECV_H__

#include <gst/gst.h>

G_BEGIN_DECLS

#define GST_TYPE_H263RPS_RECV (gst_h263rps_recv_get_type ())

G_DECLARE_FINAL_TYPE (GstH263RpsRecv, gst_h263rps_recv, GST, H263RPS_RECV, GstElement)

GST_ELEMENT_REGISTER_DECLARE (h263rpsrecv);

G_END_DECLS

#endif
