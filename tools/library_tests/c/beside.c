/* beside TABLES FONT FILE WORD..: the microseconds of processor time of a call by a kept plan, and of hb_shape, which keeps
 * its plans with the face; the least of many rounds, in turn. The words of a round come one after another, again and
 * again. A round is shorter than the time that a busy machine leaves a process alone. Under callgrind a round of each side
 * is counted. */
#include <hb-ot.h>
#include <hb.h>
#include <valgrind/callgrind.h>
#include "clock.h"
#include "common.h"

#define MOST 512
#define ROUNDS 400
/* The calls of a round (CALLS) are given where this is compiled. */
#define WORDS 32

/* The OpenType shaper alone: some fonts have rules for others. */
static const char *const shapers[] = { "ot", NULL };

/* The microseconds of a call since a time. */
static double
each_since (long long start)
{
  return (double) (processor_time () - start) / 1e3 / CALLS;
}

static kus_glyph_info_t infos[MOST];
static kus_glyph_position_t positions[MOST];

static char **words;
static int num_words;

static void
shape_own (kus_font_t *font, const char *word, size_t *made)
{
  kus_text_t text = kus_text (word, strlen (word));
  if (kus_shape (font, &text, infos, MOST, positions, MOST, made) != KUS_OK) fail ("not shaped", word);
}

static void
shape_other (hb_font_t *font, hb_buffer_t *buffer, const char *word)
{
  hb_buffer_reset (buffer);
  hb_buffer_add_utf8 (buffer, word, -1, 0, -1);
  hb_buffer_guess_segment_properties (buffer);
  hb_shape_full (font, buffer, NULL, 0, shapers);
}

static double
own (kus_font_t *font)
{
  size_t made;
  long long start = processor_time ();
  for (int k = 0; k < CALLS; k++) shape_own (font, words[k % num_words], &made);
  return each_since (start);
}

static double
other (hb_font_t *font, hb_buffer_t *buffer)
{
  long long start = processor_time ();
  for (int k = 0; k < CALLS; k++) shape_other (font, buffer, words[k % num_words]);
  return each_since (start);
}

/* A round before it has plans and lists made. What is dumped is counted from nothing afterwards. */
static void
count_round (kus_font_t *font, hb_font_t *their_font, hb_buffer_t *buffer)
{
  own (font);
  other (their_font, buffer);
  CALLGRIND_START_INSTRUMENTATION;
  own (font);
  CALLGRIND_DUMP_STATS;
  other (their_font, buffer);
  CALLGRIND_DUMP_STATS;
  CALLGRIND_STOP_INSTRUMENTATION;
}

static int
same (hb_buffer_t *buffer, size_t made)
{
  unsigned count;
  hb_glyph_info_t *i = hb_buffer_get_glyph_infos (buffer, &count);
  hb_glyph_position_t *p = hb_buffer_get_glyph_positions (buffer, &count);
  for (unsigned k = 0; k < count && count == made; k++)
    if (i[k].codepoint != infos[k].codepoint || i[k].cluster != infos[k].cluster || p[k].x_advance != positions[k].x_advance
        || p[k].x_offset != positions[k].x_offset || p[k].y_offset != positions[k].y_offset) return 0;
  return count == made;
}

int
main (int count, char **arguments)
{
  if (count < 5 || count > 4 + WORDS) fail ("beside", "TABLES FONT FILE WORD..");
  words = arguments + 4;
  num_words = count - 4;
  kus_font_t font = open_font (arguments[1], arguments[2]);
  hb_blob_t *blob = hb_blob_create_from_file (arguments[3]);
  hb_face_t *face = hb_face_create (blob, 0);
  hb_font_t *their_font = hb_font_create (face);
  hb_buffer_t *buffer = hb_buffer_create ();
  double mine = 1e9, theirs = 1e9;
  int rounds = RUNNING_ON_VALGRIND ? 0 : ROUNDS;
  if (RUNNING_ON_VALGRIND) count_round (&font, their_font, buffer);
  for (int k = 0; k < rounds; k++) {
    double a = own (&font), b = other (their_font, buffer);
    mine = a < mine ? a : mine;
    theirs = b < theirs ? b : theirs;
  }
  int all_same = 1;
  for (int k = 0; k < num_words; k++) {
    size_t made;
    shape_own (&font, words[k], &made);
    shape_other (their_font, buffer, words[k]);
    all_same &= same (buffer, made);
  }
  printf ("%.3f %.3f %s\n", mine, theirs, all_same ? "same" : "differ");
  hb_buffer_destroy (buffer);
  hb_font_destroy (their_font);
  hb_face_destroy (face);
  hb_blob_destroy (blob);
  kus_font_destroy (&font);
  return 0;
}
