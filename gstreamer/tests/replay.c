/* Makes the calls that an element made, by its record, on the library alone, and says how many
 * packets, pictures and messages are other than the element's.
 *
 *   replay send FORMAT SLOTS LEAD QUANT RADIUS TARGET LIMIT CLOCK captured.y4m send.log send.steps packets.log
 *   replay recv FORMAT SLOTS LEAD MESSAGES CLOCK FIRST recv.log shown.y4m messages.log */
#include <stdio.h>
#include <stdlib.h>
#include <string.h>

#include "h263rps.h"

static uint8_t body[65536];
static size_t length;
static unsigned others;

static FILE *
opened (const char * name)
{
  FILE * file = fopen (name, "rb");

  if (!file) {
    perror (name);
    exit (2);
  }
  return file;
}

/* The next entry's letter, with its bytes in `body`, or 0 at the end. */
static int
entry (FILE * file)
{
  int letter = fgetc (file), high, low;

  if (letter == EOF)
    return 0;
  high = fgetc (file);
  low = fgetc (file);
  length = (size_t) high << 8 | (size_t) low;
  return fread (body, 1, length, file) == length ? letter : 0;
}

/* The next frame of a Y4M file, whose first line has been read; its line in `line`. */
static int
frame (FILE * file, char * line, size_t room, uint8_t * samples, size_t size)
{
  return fgets (line, (int) room, file) && fread (samples, 1, size, file) == size;
}

static void
compare (int is_equal)
{
  others += !is_equal;
}

typedef struct {
  unsigned number, value;
  char word[16];
  int is_there;
} Step;

static void
next_step (FILE * file, Step * step)
{
  step->is_there = fscanf (file, "%u %15s %u", &step->number, step->word, &step->value) == 3;
}

static int
send (char ** words)
{
  static uint8_t picture[352 * 288 * 3 / 2], packet[9000];
  h263rps_params params;
  h263rps_end end = { 0 };
  unsigned packets = 0;
  FILE *video, *log, *steps, *wire;
  char line[256];
  size_t size;
  Step step;
  int letter;
  uint32_t count;

  h263rps_defaults ((uint32_t) atoi (words[0]), &params);
  params.slots = (uint32_t) atoi (words[1]);
  params.lead = (uint32_t) atoi (words[2]);
  params.quant = (uint8_t) atoi (words[3]);
  params.radius = (uint8_t) atoi (words[4]);
  params.target = (uint32_t) atoi (words[5]);
  params.pace = H263RPS_FOLLOWS;
  params.limit = (uint32_t) atoi (words[6]);
  params.clock = (uint16_t) atoi (words[7]);
  video = opened (words[8]);
  log = opened (words[9]);
  steps = opened (words[10]);
  wire = opened (words[11]);
  size = h263rps_picture_size (params.format);
  if (h263rps_sender_start (&end, &params, NULL) || !fgets (line, sizeof line, video))
    return 2;
  next_step (steps, &step);
  while ((letter = entry (log))) {
    h263rps_reply reply;
    h263rps_coded coded;

    if (letter == 'B') {
      h263rps_sender_feedback (&end, body, length, &reply);
      continue;
    }
    h263rps_sender_sent (&end, &count);
    for (; step.is_there && step.number == count; next_step (steps, &step)) {
      if (strcmp (step.word, "target") == 0)
        h263rps_sender_target (&end, step.value);
      else
        h263rps_sender_forget (&end);
    }
    if (!frame (video, line, sizeof line, picture, size))
      return 2;
    h263rps_sender_code (&end, picture, size, NULL, 0, &coded);
    for (uint32_t i = 0; i < coded.packets; i++, packets++) {
      size_t written;

      h263rps_sender_packet (&end, i, packet, sizeof packet, &written);
      compare (entry (wire) == 'K' && length == written && memcmp (body, packet, written) == 0);
    }
  }
  compare (entry (wire) == 0);
  h263rps_sender_sent (&end, &count);
  printf ("sent %u packets %u other %u\n", count, packets, others);
  h263rps_sender_finish (&end);
  return others != 0;
}

static void
compare_message (const h263rps_message * message, FILE * wire, unsigned * messages)
{
  if (!message->length)
    return;
  ++*messages;
  compare (entry (wire) == 'B' && length == message->length
      && memcmp (body, message->bytes, length) == 0);
}

static int
recv (char ** words)
{
  static const char * const marks[] = { "FRAME XEXACT\n", "FRAME XPATCHED\n", "FRAME XHELD\n" };
  static uint8_t picture[352 * 288 * 3 / 2], packet[65536];
  h263rps_params params;
  h263rps_end end = { 0 };
  unsigned plays = 0, messages = 0, first = (unsigned) atoi (words[5]), skipped = 0;
  FILE *log, *video, *wire;
  char line[256];
  size_t size;
  int letter;

  h263rps_defaults ((uint32_t) atoi (words[0]), &params);
  params.slots = (uint32_t) atoi (words[1]);
  params.lead = (uint32_t) atoi (words[2]);
  params.messages = (uint8_t) atoi (words[3]);
  params.clock = (uint32_t) atoi (words[4]);
  log = opened (words[6]);
  video = opened (words[7]);
  wire = opened (words[8]);
  size = h263rps_picture_size (params.format);
  if (h263rps_receiver_start (&end, &params, NULL) || !fgets (line, sizeof line, video))
    return 2;
  while ((letter = entry (log))) {
    h263rps_answer answer;
    h263rps_lent lent = { picture, size };

    if (letter == 'K') {
      memcpy (packet, body, length);
      h263rps_receiver_packet (&end, packet, length, &answer);
      compare_message (&answer.message, wire, &messages);
      continue;
    }
    h263rps_receiver_play_lent (&end, &lent, &answer);
    /* The element began at this number, and the plays before it are of the log alone. */
    if (skipped++ < first)
      continue;
    compare (frame (video, line, sizeof line, picture, size)
        && strcmp (line, marks[answer.kind]) == 0 && memcmp (picture, lent.samples, size) == 0);
    plays++;
    compare_message (&answer.message, wire, &messages);
  }
  compare (entry (wire) == 0 && !frame (video, line, sizeof line, picture, size));
  printf ("played %u messages %u other %u\n", plays, messages, others);
  h263rps_receiver_finish (&end);
  return others != 0;
}

int
main (int argc, char ** argv)
{
  if (argc == 14 && strcmp (argv[1], "send") == 0)
    return send (argv + 2);
  if (argc == 11 && strcmp (argv[1], "recv") == 0)
    return recv (argv + 2);
  fputs ("replay send|recv ..: see tests/replay.c\n", stderr);
  return 2;
}
