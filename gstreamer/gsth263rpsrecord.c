#include "gsth263rpsrecord.h"

#include <errno.h>
#include <glib/gstdio.h>
#include <stdio.h>
#include <stdlib.h>
#include <string.h>

struct _GstH263RpsRecord {
  gchar *folder, *end;
  gchar * names[GST_H263RPS_RECORD_FILES];
  FILE * files[GST_H263RPS_RECORD_FILES];
  FILE * times[GST_H263RPS_RECORD_FILES];
  gint fault;     /* errno of the write that failed */
  gint64 flushed; /* in us */
};

static const struct {
  const gchar *key, *suffix;
  const gchar *send, *recv;
  gboolean send_times, recv_times;
} kinds[GST_H263RPS_RECORD_FILES] = {
  { "log", ".log", "send", "recv", TRUE, TRUE },
  { "wire", ".log", "packets", "messages", TRUE, TRUE },
  { "video", ".y4m", "captured", "shown", FALSE, TRUE },
  { "report", ".txt", "send", "recv", FALSE, FALSE },
  { "steps", ".steps", "send", NULL, FALSE, FALSE },
};

static FILE *
open_file (GstH263RpsRecord * record, const gchar * name, const gchar * mode, GError ** error)
{
  gchar * path = g_build_filename (record->folder, name, NULL);
  FILE * file = g_fopen (path, mode);

  if (!file)
    g_set_error (error, G_FILE_ERROR, g_file_error_from_errno (errno), "%s: %s", path,
        g_strerror (errno));
  g_free (path);
  return file;
}

static const gchar *
stem_of (const GstH263RpsRecord * record, gint kind)
{
  return g_str_equal (record->end, "send") ? kinds[kind].send : kinds[kind].recv;
}

static gboolean
has_times (const GstH263RpsRecord * record, gint kind)
{
  return g_str_equal (record->end, "send") ? kinds[kind].send_times : kinds[kind].recv_times;
}

/* A write failed: nothing more is written, and what was stays. */
static void
stop (GstH263RpsRecord * record, gint fault)
{
  gint kind;

  if (!record->fault)
    record->fault = fault ? fault : EIO;
  for (kind = 0; kind < GST_H263RPS_RECORD_FILES; kind++) {
    g_clear_pointer (&record->files[kind], fclose);
    g_clear_pointer (&record->times[kind], fclose);
  }
}

static void
check (GstH263RpsRecord * record, FILE * file)
{
  if (file && ferror (file))
    stop (record, errno);
}

static gboolean
open_kind (GstH263RpsRecord * record, gint kind, guint number, GError ** error)
{
  const gchar * stem = stem_of (record, kind);
  gchar *name, *times;

  if (!stem)
    return TRUE;
  name = number == 1 ? g_strdup (stem) : g_strdup_printf ("%s-%u", stem, number);
  times = g_strconcat (name, ".times", NULL);
  record->names[kind] = g_strconcat (name, kinds[kind].suffix, NULL);
  record->files[kind] = open_file (record, record->names[kind], "wb", error);
  if (record->files[kind] && has_times (record, kind))
    record->times[kind] = open_file (record, times, "wb", error);
  g_free (name);
  g_free (times);
  return record->files[kind] && (record->times[kind] || !has_times (record, kind));
}

/**
 * gst_h263rps_record_new:
 * @end: "send" or "recv"
 * @folder: where the files go; it is made if it isn't there
 * @number: which run of this end in the folder, from 1
 * @error: (out): why there is none
 *
 * Returns: (transfer full) (nullable): a record
 */
GstH263RpsRecord *
gst_h263rps_record_new (const gchar * end, const gchar * folder, guint number, GError ** error)
{
  GstH263RpsRecord * record;
  gint kind;

  if (g_mkdir_with_parents (folder, 0777) != 0) {
    gint fault = errno;

    g_set_error (error, G_FILE_ERROR, g_file_error_from_errno (fault), "%s: %s", folder,
        g_strerror (fault));
    return NULL;
  }
  record = g_new0 (GstH263RpsRecord, 1);
  record->end = g_strdup (end);
  record->folder = g_strdup (folder);
  for (kind = 0; kind < GST_H263RPS_RECORD_FILES; kind++) {
    if (!open_kind (record, kind, number, error)) {
      gst_h263rps_record_free (record);
      return NULL;
    }
  }
  return record;
}

/* Why nothing more is written (errno), or 0. */
gint
gst_h263rps_record_fault (const GstH263RpsRecord * record)
{
  return record ? record->fault : 0;
}

void
gst_h263rps_record_free (GstH263RpsRecord * record)
{
  gint kind;

  stop (record, 0);
  for (kind = 0; kind < GST_H263RPS_RECORD_FILES; kind++)
    g_free (record->names[kind]);
  g_free (record->folder);
  g_free (record->end);
  g_free (record);
}

static void
check_kind (GstH263RpsRecord * record, gint kind)
{
  check (record, record->files[kind]);
  check (record, record->times[kind]);
}

static void
write_time (GstH263RpsRecord * record, gint kind, GstClockTime when)
{
  if (record->times[kind])
    fprintf (record->times[kind], "%" G_GUINT64_FORMAT ".%06u\n", when / GST_SECOND,
        (guint) (when % GST_SECOND / 1000));
}

/* An entry: a letter, the length in two bytes, and as many bytes. A record of %NULL takes none. */
void
gst_h263rps_record_entry (GstH263RpsRecord * record, GstH263RpsRecordFile file, gchar letter,
    const guint8 * body, gsize length, GstClockTime when)
{
  FILE * to = record ? record->files[file] : NULL;

  if (!to || length > G_MAXUINT16)
    return;
  fputc (letter, to);
  fputc (length >> 8, to);
  fputc (length & 255, to);
  if (length)
    fwrite (body, 1, length, to);
  write_time (record, file, when);
  check_kind (record, file);
}

void
gst_h263rps_record_head (GstH263RpsRecord * record, gint width, gint height, gint fps_n, gint fps_d)
{
  if (record && record->files[GST_H263RPS_RECORD_VIDEO])
    fprintf (record->files[GST_H263RPS_RECORD_VIDEO], "YUV4MPEG2 W%d H%d F%d:%d Ip C420jpeg\n",
        width, height, fps_n, fps_d);
}

static void
flush (GstH263RpsRecord * record, FILE * file)
{
  if (file && fflush (file) != 0)
    stop (record, errno);
}

/* What is recorded outlives the process, whatever ends it. */
static void
flush_each_second (GstH263RpsRecord * record)
{
  gint64 now = g_get_monotonic_time ();
  gint kind;

  if (now - record->flushed < G_USEC_PER_SEC)
    return;
  record->flushed = now;
  for (kind = 0; kind < GST_H263RPS_RECORD_FILES; kind++) {
    flush (record, record->files[kind]);
    flush (record, record->times[kind]);
  }
}

/* A picture with its mark, in capitals, or without one. */
void
gst_h263rps_record_frame (GstH263RpsRecord * record, const gchar * mark, const guint8 * samples,
    gsize size, GstClockTime when)
{
  FILE * file = record ? record->files[GST_H263RPS_RECORD_VIDEO] : NULL;

  if (!file)
    return;
  if (mark) {
    gchar * capitals = g_ascii_strup (mark, -1);

    fprintf (file, "FRAME X%s\n", capitals);
    g_free (capitals);
  } else {
    fputs ("FRAME\n", file);
  }
  fwrite (samples, 1, size, file);
  write_time (record, GST_H263RPS_RECORD_VIDEO, when);
  check_kind (record, GST_H263RPS_RECORD_VIDEO);
  flush_each_second (record);
}

void
gst_h263rps_record_line (GstH263RpsRecord * record, GstH263RpsRecordFile file, const gchar * format,
    ...)
{
  va_list args;

  if (!record || !record->files[file])
    return;
  va_start (args, format);
  vfprintf (record->files[file], format, args);
  va_end (args);
  fputc ('\n', record->files[file]);
  check (record, record->files[file]);
}

/* Adds a line to the end's list of runs, which tools/record_of_elements reads: the files' names and
 * what @format says, the inside of an object of JSON. */
void
gst_h263rps_record_facts (GstH263RpsRecord * record, const gchar * format, ...)
{
  gchar * name = g_strconcat (record->end, ".runs", NULL);
  FILE * file = record->fault ? NULL : open_file (record, name, "a", NULL);
  va_list args;
  gint kind;

  g_free (name);
  if (!file)
    return;
  fputc ('{', file);
  for (kind = 0; kind < GST_H263RPS_RECORD_FILES; kind++) {
    if (record->names[kind])
      fprintf (file, "\"%s\": \"%s\", ", kinds[kind].key, record->names[kind]);
  }
  va_start (args, format);
  vfprintf (file, format, args);
  va_end (args);
  fputs ("}\n", file);
  if (fclose (file) != 0)
    stop (record, errno);
}
