#include "gsth263rpstape.h"

#include <string.h>

/* So many bytes of a stream wait in memory. One that is tried and has more isn't recorded; of one that
 * is followed they are written then. */
#define MOST_HELD (8 << 20)
/* The number of the next play: of a run that begins, and of one whose beginning isn't known. */
#define NEW_RUN -1
#define UNKNOWN_RUN -2

/* A packet, with its answer, or a play without a picture. */
typedef struct {
  gchar letter;
  guint kind, number;
  h263rps_message message;
  GstClockTime when;
  gsize length;
  guint8 bytes[];
} Entry;

GstH263RpsTape *
gst_h263rps_tape_new (void)
{
  GstH263RpsTape * tape = g_new0 (GstH263RpsTape, 1);

  g_queue_init (&tape->followed);
  g_queue_init (&tape->tried);
  tape->next = UNKNOWN_RUN;
  return tape;
}

static Entry *
new_entry (const h263rps_answer * answer, const guint8 * bytes, gsize length, GstClockTime when)
{
  Entry * entry = g_malloc (sizeof *entry + length);

  entry->letter = length ? 'K' : 'P';
  entry->kind = answer->kind;
  entry->number = answer->number;
  entry->message = answer->message;
  entry->when = when;
  entry->length = length;
  if (length)
    memcpy (entry->bytes, bytes, length);
  return entry;
}

/* ---- the record ---- */

static void
record_message (GstH263RpsTape * tape, const h263rps_message * message, GstClockTime when)
{
  if (message->length)
    gst_h263rps_record_entry (tape->record, GST_H263RPS_RECORD_WIRE, 'B', message->bytes,
        message->length, when);
}

/* What waits, or came late, goes into the record; plays of a trial weren't shown, and have no picture
 * there. */
static void
write_followed (GstH263RpsTape * tape, gboolean is_late)
{
  Entry * entry;

  while ((entry = g_queue_peek_head (&tape->followed))
      && (!is_late || (entry->letter == 'K' && entry->kind == H263RPS_LATE))) {
    g_queue_pop_head (&tape->followed);
    tape->waits -= entry->length;
    gst_h263rps_record_entry (tape->record, GST_H263RPS_RECORD_LOG, entry->letter, entry->bytes,
        entry->length, entry->when);
    if (entry->letter == 'K') {
      tape->heard[entry->kind]++;
      record_message (tape, &entry->message, entry->when);
    } else {
      tape->marks[entry->kind]++;
    }
    g_free (entry);
  }
}

/* The last line of a report. A packet that completes its picture is taken, too. */
static void
record_counts (GstH263RpsTape * tape)
{
  const guint64 *marks = tape->marks, *heard = tape->heard;

  gst_h263rps_record_line (tape->record, GST_H263RPS_RECORD_REPORT,
      "played %" G_GINT64_FORMAT " exact %" G_GUINT64_FORMAT " patched %" G_GUINT64_FORMAT
      " held %" G_GUINT64_FORMAT " taken %" G_GUINT64_FORMAT " late %" G_GUINT64_FORMAT
      " early %" G_GUINT64_FORMAT " repeat %" G_GUINT64_FORMAT " refused %" G_GUINT64_FORMAT,
      MAX (tape->next, 0), marks[H263RPS_EXACT], marks[H263RPS_PATCHED], marks[H263RPS_HELD],
      heard[H263RPS_TAKEN] + heard[H263RPS_COMPLETED], heard[H263RPS_LATE], heard[H263RPS_EARLY],
      heard[H263RPS_REPEAT], heard[H263RPS_REFUSED]);
}

static void
end_record (GstH263RpsTape * tape)
{
  if (!tape->record)
    return;
  record_counts (tape);
  g_clear_pointer (&tape->record, gst_h263rps_record_free);
}

void
gst_h263rps_tape_free (GstH263RpsTape * tape)
{
  write_followed (tape, FALSE);
  end_record (tape);
  g_queue_clear_full (&tape->followed, g_free);
  g_queue_clear_full (&tape->tried, g_free);
  g_free (tape);
}

/* ---- what waits ---- */

/* What was held of a trial is another one's. */
static void
forget_trial (GstH263RpsTape * tape)
{
  g_queue_clear_full (&tape->tried, g_free);
  tape->held = 0;
}

/* The packets of one trial are less than half a second apart. */
static void
begin_trial_if_new (GstH263RpsTape * tape, guint32 source, GstClockTime now)
{
  if (tape->source != source || now - tape->last >= GST_H263RPS_SILENT)
    forget_trial (tape);
  tape->source = source;
  tape->last = now;
}

/* A packet was heard, which is as the library has it. */
void
gst_h263rps_tape_packet (GstH263RpsTape * tape, const h263rps_arrived * arrived,
    const guint8 * bytes, gsize length, GstClockTime now, GstClockTime when)
{
  if (arrived->run == H263RPS_FOLLOWED) {
    g_queue_push_tail (&tape->followed, new_entry (&arrived->answer, bytes, length, when));
    tape->waits += length;
    if (tape->waits > MOST_HELD) {
      write_followed (tape, FALSE);
      if (tape->next == NEW_RUN)
        tape->next = UNKNOWN_RUN;
    }
  } else if (arrived->run == H263RPS_TRIED) {
    begin_trial_if_new (tape, arrived->source, now);
    tape->held += length;
    if (tape->held <= MOST_HELD)
      g_queue_push_tail (&tape->tried, new_entry (&arrived->answer, bytes, length, when));
  }
}

/* The stream of this run is followed from now on. A former one's pictures weren't lent meanwhile, so
 * that it has no record any more. */
void
gst_h263rps_tape_turn (GstH263RpsTape * tape, guint run)
{
  write_followed (tape, FALSE);
  end_record (tape);
  tape->next = UNKNOWN_RUN;
  if (run == H263RPS_TRIED && tape->held <= MOST_HELD) {
    tape->followed = tape->tried;
    tape->waits = tape->held;
    g_queue_init (&tape->tried);
    tape->next = NEW_RUN;
  }
  if (run == H263RPS_TRIED)
    forget_trial (tape);
}

/* ---- plays ---- */

/* Whether a record begins with this play. */
gboolean
gst_h263rps_tape_begins (const GstH263RpsTape * tape, const h263rps_turn * turn)
{
  return turn->run == H263RPS_FOLLOWED && tape->next != UNKNOWN_RUN
      && tape->next != turn->answer.number;
}

static void
note_joined (GstH263RpsTape * tape)
{
  const Entry * entry = g_queue_peek_head (&tape->followed);
  h263rps_start start;

  tape->joined = 0;
  if (entry && h263rps_packet_start (entry->bytes, entry->length, &start) == H263RPS_OK)
    tape->joined = start.temporal_reference;
}

/**
 * gst_h263rps_tape_begin:
 * @tape: a tape
 * @record: (transfer full): the record of a run
 * @number: that of the play
 * @when: the time for the record
 *
 * Where a run began anew, what came late before that is of the one before. `recv` counts from 0: the
 * log has the plays before the first one that the session made, too.
 */
void
gst_h263rps_tape_begin (GstH263RpsTape * tape, GstH263RpsRecord * record, guint number,
    GstClockTime when)
{
  guint first = number, plays = 0, i;
  GList * item;

  write_followed (tape, TRUE);
  end_record (tape);
  note_joined (tape);
  for (item = tape->followed.tail; item; item = item->prev) {
    const Entry * entry = item->data;

    if (entry->letter == 'P') {
      first = entry->number;
      plays++;
    }
  }
  tape->record = record;
  tape->skipped = first + plays;
  memset (tape->marks, 0, sizeof tape->marks);
  memset (tape->heard, 0, sizeof tape->heard);
  tape->marks[H263RPS_HELD] = first;
  for (i = 0; i < first; i++)
    gst_h263rps_record_entry (record, GST_H263RPS_RECORD_LOG, 'P', NULL, 0, when);
}

static void
write_play (GstH263RpsTape * tape, const h263rps_answer * answer, const h263rps_lent * shown,
    GstClockTime when)
{
  const gchar * mark = gst_h263rps_mark_name (answer->kind);

  tape->marks[answer->kind]++;
  gst_h263rps_record_entry (tape->record, GST_H263RPS_RECORD_LOG, 'P', NULL, 0, when);
  gst_h263rps_record_frame (tape->record, mark, shown->samples, shown->length, when);
  gst_h263rps_record_line (tape->record, GST_H263RPS_RECORD_REPORT, "%u %s", answer->number, mark);
  record_message (tape, &answer->message, when);
}

/* A picture was played: where its stream is followed it is on the screen. */
void
gst_h263rps_tape_play (GstH263RpsTape * tape, const h263rps_turn * turn, const h263rps_lent * shown,
    GstClockTime when)
{
  if (turn->run == H263RPS_FOLLOWED) {
    write_followed (tape, FALSE);
    write_play (tape, &turn->answer, shown, when);
    tape->next = (gint64) turn->answer.number + 1;
  } else if (turn->run == H263RPS_TRIED && tape->held <= MOST_HELD) {
    g_queue_push_tail (&tape->tried, new_entry (&turn->answer, NULL, 0, when));
  }
}
