/* Who receives what a sender sends. Each picture refers to the newest one that all in the group have, so
 * who says nothing, or has none of the last pictures, leaves it, and joins again when it speaks. */
#include "gsth263rpsreceivers.h"

#include <string.h>

#include "gsth263rps.h"

/* For so much of a stream one is waited for, in us. A longer step between two pictures counts as so much:
 * then nobody sent. */
#define PATIENCE G_USEC_PER_SEC
#define LONGEST_STEP (G_USEC_PER_SEC / 5)
/* The longest time after which one that left may join again: twice the one before each time. */
#define LONGEST_PAUSE (8 * G_USEC_PER_SEC)
/* Where others are there, a stranger is a receiver after so many messages, no further apart than that. */
#define SPOKEN 3
#define APART (G_USEC_PER_SEC / 5)

/**
 * gst_h263rps_receivers_begin:
 * @most: places, 1 to 16
 *
 * A run begins: the first one is waited for, whoever it is.
 */
void
gst_h263rps_receivers_begin (GstH263RpsReceivers * self, guint most)
{
  h263rps_line line = self->places[0].line;
  guint64 joined = self->joined, left = self->left;
  guint i;

  for (i = 1; i < H263RPS_PLACES; i++)
    h263rps_line_finish (&self->places[i].line);
  memset (self, 0, sizeof *self);
  self->joined = joined;
  self->left = left;
  self->most = most;
  self->anew = 1;
  self->places[0].line = line;
  self->places[0].is_in = self->places[0].is_first = TRUE;
  for (i = 0; i < H263RPS_PLACES; i++)
    self->places[i].round_trip = GST_CLOCK_TIME_NONE;
}

void
gst_h263rps_receivers_clear (GstH263RpsReceivers * self)
{
  guint i;

  for (i = 0; i < H263RPS_PLACES; i++)
    h263rps_line_finish (&self->places[i].line);
  memset (self, 0, sizeof *self);
}

/* How many are in the group. */
guint
gst_h263rps_receivers_count (GstH263RpsReceivers * self)
{
  guint count = 0, i;

  for (i = 0; i < self->most; i++)
    count += self->places[i].is_in;
  return count;
}

/* The place of who speaks by this SSRC, or -1. */
gint
gst_h263rps_receivers_find (GstH263RpsReceivers * self, guint32 ssrc)
{
  guint i;

  for (i = 0; i < self->most; i++)
    if (self->places[i].is_taken && self->places[i].ssrc == ssrc)
      return i;
  return -1;
}

static gboolean
is_lately (const GstH263RpsReceiver * receiver, gint64 now)
{
  return now - receiver->heard < (gint64) (GST_H263RPS_SILENT / 1000);
}

static void
enter (GstH263RpsReceivers * self, guint place, gint64 now)
{
  GstH263RpsReceiver * receiver = &self->places[place];

  receiver->is_in = TRUE;
  receiver->since = now;
  receiver->silent = receiver->late = 0;
  self->anew |= 1u << place;
  self->gone &= ~(1u << place);
  self->joined++;
}

static void
go (GstH263RpsReceivers * self, guint place, gint64 now)
{
  GstH263RpsReceiver * receiver = &self->places[place];

  receiver->is_in = FALSE;
  receiver->since = now;
  self->gone |= 1u << place;
  self->anew &= ~(1u << place);
  self->left++;
}

/* A place for a stranger: the first one's, a free one, or that of who is silent; or -1. */
static gint
free_place (GstH263RpsReceivers * self, gint64 now)
{
  guint i;

  for (i = 0; i < self->most; i++)
    if (!self->places[i].is_taken)
      return i;
  for (i = 0; i < self->most; i++)
    if (!is_lately (&self->places[i], now))
      return i;
  return -1;
}

/* Whether a stranger has spoken often enough: by one message each nobody fills the places. */
static gboolean
has_spoken (GstH263RpsReceivers * self, guint32 ssrc, gint64 now)
{
  guint at = ssrc % GST_H263RPS_STRANGERS;

  if (self->strangers[at].ssrc != ssrc || self->strangers[at].count == 0) {
    if (self->strangers[at].count && now - self->strangers[at].since < APART)
      return FALSE;
    self->strangers[at].ssrc = ssrc;
    self->strangers[at].count = 0;
  }
  self->strangers[at].since = now;
  if (++self->strangers[at].count < SPOKEN)
    return FALSE;
  self->strangers[at].count = 0;
  return TRUE;
}

/**
 * gst_h263rps_receivers_hear:
 * @ssrc: of who says a message
 * @is_other: (out): whether it has a place that another had
 *
 * Who speaks has a place, or gets one where one is free.
 *
 * Returns: the place, or -1
 */
gint
gst_h263rps_receivers_hear (GstH263RpsReceivers * self, guint32 ssrc, gint64 now,
    gboolean * is_other)
{
  gint place = gst_h263rps_receivers_find (self, ssrc);
  GstH263RpsReceiver * receiver;

  *is_other = FALSE;
  if (place < 0) {
    place = free_place (self, now);
    if (place < 0
        || (self->most > 1 && !self->places[place].is_first && !has_spoken (self, ssrc, now)))
      return -1;
    receiver = &self->places[place];
    *is_other = receiver->is_taken;
    if (!receiver->is_first) {
      if (self->most > 1) {
        receiver->has_block = receiver->has_fir = FALSE;
        receiver->round_trip = GST_CLOCK_TIME_NONE;
        h263rps_line_finish (&receiver->line);
      }
      enter (self, place, now);
    }
    receiver->is_taken = TRUE;
    receiver->is_first = FALSE;
    receiver->ssrc = ssrc;
    receiver->heard = receiver->since = now;
    receiver->pause = PATIENCE;
  }
  receiver = &self->places[place];
  receiver->silent = 0;
  if (!receiver->is_in && now - receiver->since >= receiver->pause) {
    receiver->pause = MIN (2 * receiver->pause, LONGEST_PAUSE);
    enter (self, place, now);
  }
  return place;
}

/* Whether what this one says counts, be it no message. */
gboolean
gst_h263rps_receivers_counts (GstH263RpsReceivers * self, guint32 ssrc, gint64 now)
{
  return gst_h263rps_receivers_find (self, ssrc) >= 0
      || (self->most == 1 && free_place (self, now) >= 0);
}

/* Who says goodbye leaves its place; the last one is waited for all the same. One alone is silent soon. */
void
gst_h263rps_receivers_bye (GstH263RpsReceivers * self, guint32 ssrc, gint64 now)
{
  gint place = gst_h263rps_receivers_find (self, ssrc);

  if (place < 0 || self->most == 1)
    return;
  self->places[place].is_taken = FALSE;
  if (self->places[place].is_in && gst_h263rps_receivers_count (self) > 1)
    go (self, place, now);
}

/* The next picture is to be one that this one needs no other for; with a negative place, all. */
void
gst_h263rps_receivers_forget (GstH263RpsReceivers * self, gint place)
{
  guint i;

  for (i = 0; i < self->most; i++)
    if (self->places[i].is_in && (place < 0 || (guint) place == i))
      self->anew |= 1u << i;
}

/* There is a picture to send: who holds the others back leaves, but for the last one. */
void
gst_h263rps_receivers_settle (GstH263RpsReceivers * self, gint64 now)
{
  guint i;

  for (i = 0; i < self->most; i++) {
    GstH263RpsReceiver * receiver = &self->places[i];

    if (!receiver->is_in)
      continue;
    if (MAX (receiver->silent, receiver->late) > PATIENCE) {
      if (gst_h263rps_receivers_count (self) > 1)
        go (self, i, now);
    } else if (receiver->late == 0 && now - receiver->since > PATIENCE)
      receiver->pause = PATIENCE;
  }
}

/* A picture has gone out, while the group waited for this one. */
void
gst_h263rps_receivers_sent (GstH263RpsReceivers * self, guint32 waited, gint64 now)
{
  gint64 step = MIN (now - self->last, LONGEST_STEP);
  guint i;

  self->last = now;
  for (i = 0; i < self->most; i++) {
    self->places[i].silent += step;
    self->places[i].late = i == waited ? self->places[i].late + step : 0;
  }
}
