#ifndef __GST_H263RPS_SEND_H__
#define __GST_H263RPS_SEND_H__

#include <gst/rtp/gstrtpbasepayload.h>

#include "h263rps.h"

G_BEGIN_DECLS

#define GST_TYPE_H263RPS_SEND (gst_h263rps_send_get_type ())

G_DECLARE_FINAL_TYPE (GstH263RpsSend, gst_h263rps_send, GST, H263RPS_SEND, GstRTPBasePayload)

GST_ELEMENT_REGISTER_DECLARE (h263rpssend);

/* The messages of this party's receiver, and those in the headers of the other one's pictures. */
G_GNUC_INTERNAL
gboolean gst_h263rps_send_carry (GstH263RpsSend * self, const h263rps_message * message,
    guint clock);

G_GNUC_INTERNAL
void gst_h263rps_send_hear (GstH263RpsSend * self, const h263rps_message * messages, guint count);

G_END_DECLS

#endif
