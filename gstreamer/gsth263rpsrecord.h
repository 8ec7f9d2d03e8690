/* The files of a recorded run: what an end read and wrote, as `h263rps send` and `recv` and the
 * tools read it (docs/LIVE.md, "A recorded call"). Where a write fails the recording ends, and the
 * call goes on. */
#ifndef __GST_H263RPS_RECORD_H__
#define __GST_H263RPS_RECORD_H__

#include <gst/gst.h>

G_BEGIN_DECLS

typedef struct _GstH263RpsRecord GstH263RpsRecord;

/**
 * GstH263RpsRecordFile:
 * @GST_H263RPS_RECORD_LOG: what happened to the end, in entries
 * @GST_H263RPS_RECORD_WIRE: what it sent, in entries
 * @GST_H263RPS_RECORD_VIDEO: its pictures, a Y4M file
 * @GST_H263RPS_RECORD_REPORT: a line a picture
 * @GST_H263RPS_RECORD_STEPS: how a sender was steered, a line each
 */
typedef enum {
  GST_H263RPS_RECORD_LOG,
  GST_H263RPS_RECORD_WIRE,
  GST_H263RPS_RECORD_VIDEO,
  GST_H263RPS_RECORD_REPORT,
  GST_H263RPS_RECORD_STEPS,
  GST_H263RPS_RECORD_FILES
} GstH263RpsRecordFile;

G_GNUC_INTERNAL
GstH263RpsRecord * gst_h263rps_record_new (const gchar * end, const gchar * folder, guint number,
    GError ** error);

G_GNUC_INTERNAL
gint gst_h263rps_record_fault (const GstH263RpsRecord * record);

G_GNUC_INTERNAL
void gst_h263rps_record_free (GstH263RpsRecord * record);

G_GNUC_INTERNAL
void gst_h263rps_record_entry (GstH263RpsRecord * record, GstH263RpsRecordFile file, gchar letter,
    const guint8 * body, gsize length, GstClockTime when);

G_GNUC_INTERNAL
void gst_h263rps_record_head (GstH263RpsRecord * record, gint width, gint height, gint fps_n,
    gint fps_d);

G_GNUC_INTERNAL
void gst_h263rps_record_frame (GstH263RpsRecord * record, const gchar * mark,
    const guint8 * samples, gsize size, GstClockTime when);

G_GNUC_INTERNAL
void gst_h263rps_record_line (GstH263RpsRecord * record, GstH263RpsRecordFile file,
    const gchar * format, ...) G_GNUC_PRINTF (3, 4);

G_GNUC_INTERNAL
void gst_h263rps_record_facts (GstH263RpsRecord * record, const gchar * format, ...)
    G_GNUC_PRINTF (2, 3);

G_END_DECLS

#endif
