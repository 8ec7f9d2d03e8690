#include "gsth263rpsrepair.h"

/* The round trip as long as no answer told it: short, so that something is asked for. */
#define FIRST_TRIP (20 * GST_MSECOND)
/* Of a round trip for which nothing is asked no answer comes. So one that is this old is tried again:
 * a packet in so much time is asked for as if it were the first. */
#define OLD (5 * GST_SECOND)
/* Nothing is sent again that would come too late, so then no answer tells how long one takes. After so
 * many questions in a row that were asked in vain one is tried in so much time. One question is a NACK:
 * it may ask for seventeen packets, and be lost with all of them. */
#define VAIN 8
#define REST (10 * GST_SECOND)
/* Longer than any wait. */
#define NEVER (60 * GST_SECOND)

static gboolean
is_in_vain (const GstH263RpsRepair * repair)
{
  return repair->unanswered >= VAIN;
}

static gboolean
is_old (const GstH263RpsRepair * repair, GstClockTime now)
{
  return now - repair->told >= (is_in_vain (repair) ? REST : OLD);
}

/* How long an answer takes, as it is to be reckoned with now. */
GstClockTime
gst_h263rps_repair_trip (const GstH263RpsRepair * repair, GstClockTime now)
{
  if (is_old (repair, now))
    return FIRST_TRIP;
  if (is_in_vain (repair))
    return NEVER;
  return repair->is_known ? repair->trip : FIRST_TRIP;
}

static void
note_asked (GstH263RpsRepair * repair, guint16 sequence, GstClockTime now)
{
  guint at = sequence % GST_H263RPS_ASKED;

  if (!repair->asked[at].is_open || repair->asked[at].sequence != sequence)
    repair->asked[at].first = now;
  repair->asked[at].last = now;
  repair->asked[at].sequence = sequence;
  repair->asked[at].is_open = TRUE;
}

/* These packets are asked for; how many they are. */
guint
gst_h263rps_repair_ask (GstH263RpsRepair * repair, const h263rps_nack * nack, GstClockTime now)
{
  guint count = 1, i;

  note_asked (repair, nack->packet, now);
  for (i = 0; i < 16; i++) {
    if (nack->following >> i & 1) {
      note_asked (repair, nack->packet + i + 1, now);
      count++;
    }
  }
  if (is_old (repair, now))
    repair->told = now;
  repair->unanswered++;
  return count;
}

static GstClockTime
apart (GstClockTime one, GstClockTime other)
{
  return one > other ? one - other : other - one;
}

/* A packet that was late by itself looks like a quick answer: the round trip falls slowly, and rises
 * at once. */
static void
learn (GstH263RpsRepair * repair, GstClockTime trip, GstClockTime now)
{
  if (!repair->is_known)
    repair->trip = trip;
  else if (trip > repair->trip)
    repair->trip += (trip - repair->trip) / 2;
  else
    repair->trip -= (repair->trip - trip) / 16;
  repair->is_known = TRUE;
  repair->told = now;
}

/* A packet came. Whether it was asked for before; of one that was so twice it isn't known which of the
 * two is answered, and the one that fits is taken. */
gboolean
gst_h263rps_repair_came (GstH263RpsRepair * repair, guint16 sequence, GstClockTime now)
{
  guint at = sequence % GST_H263RPS_ASKED;
  GstClockTime first, last;

  if (!repair->asked[at].is_open || repair->asked[at].sequence != sequence)
    return FALSE;
  first = now - repair->asked[at].first;
  last = now - repair->asked[at].last;
  repair->asked[at].is_open = FALSE;
  repair->unanswered = 0;
  learn (repair,
      repair->is_known && apart (last, repair->trip) < apart (first, repair->trip) ? last : first,
      now);
  return TRUE;
}
