/* libkuspveli and libharfbuzz side by side, on the same font and texts.
 *
 *   driver LANGUAGE TABLES FONT FILE 0 KIND=TEXTS..        prints the glyphs of each text, a line of either's
 *   driver LANGUAGE TABLES FONT FILE ROUNDS KIND=TEXTS..   prints of each KIND=TEXTS the least processor time of a
 *                                                          round in nanoseconds: libkuspveli's, libharfbuzz's
 *
 * TABLES and FONT are what libkuspveli reads, FILE is the font file. TEXTS names a file, whose lines are shaped one
 * after another in a round. The kinds: `kept`, by plans that are kept; `anew`, the plan is made for each text; `open`,
 * the font is opened (over tables that are there) and the first text shaped; `first`, the tables are read too; `file`,
 * FILE is opened by libkuspveli too, over tables that are there; `bare`, without boxes and names.
 *
 * A round of either follows one of the other, after a round of both whose time isn't taken. Nothing is printed in a
 * round. Under callgrind a round of each side is counted, and dumped. */
#define _POSIX_C_SOURCE 200809L
#include <hb-ot.h>
#include <hb.h>
#include <fcntl.h>
#include <sys/mman.h>
#include <sys/stat.h>
#include <unistd.h>
#include <valgrind/callgrind.h>
#include "clock.h"
#include "common.h"

/* A feature that no font has: with another value at each call it has no plan that is kept. */
#define UNKNOWN_FEATURE KUS_TAG ('z', 'z', 'z', 'z')

typedef struct {
  const char *bytes;
  size_t length;
} line_t;

/* The lines of a file. */
typedef struct {
  line_t *lines;
  size_t count;
} texts_t;

typedef enum { KEPT, ANEW, OPEN, FIRST, BY_FILE, BARE } kind_t;

/* What the two sides shape by. */
static const char *language, *tables_file, *json_file, *font_file;
static kus_tables_t tables = KUS_TABLES_INIT, opened_tables = KUS_TABLES_INIT;
static kus_font_t own_font = KUS_FONT_INIT, opened = KUS_FONT_INIT;
static kus_glyph_info_t *infos;
static kus_glyph_position_t *positions;
static size_t room, made;
static hb_language_t their_language;
static hb_font_t *their_font, *their_opened;
static hb_buffer_t *buffer;
static const char *const shapers[] = { "ot", NULL };
static uint32_t calls;

/* ---- libkuspveli */

static void
make_room (size_t count)
{
  room = count;
  infos = realloc (infos, room * sizeof *infos);
  positions = realloc (positions, room * sizeof *positions);
  if (!infos || !positions) fail ("no memory", "glyphs");
}

static void
own_shape (kus_font_t *font, line_t line, const kus_feature_t *feature)
{
  kus_text_t text = kus_text (line.bytes, line.length);
  text.language = (const uint8_t *) language;
  text.language_length = strlen (language);
  if (feature) text.features = feature, text.num_features = 1;
  kus_status_t status = kus_shape (font, &text, infos, room, positions, room, &made);
  if (status != KUS_OK) fail ("not shaped", kus_status_name (status));
  if (made <= room) return;
  /* The first round of a text, whose time isn't taken. */
  make_room (made);
  kus_get_glyphs (font, infos, room, positions, room);
}

/* The font file, mapped as libharfbuzz maps it. */
static kus_font_t
open_mapped (uint32_t flags)
{
  struct stat about;
  int number = open (font_file, O_RDONLY);
  if (number < 0 || fstat (number, &about)) fail ("cannot read", font_file);
  size_t length = (size_t) about.st_size;
  void *bytes = mmap (NULL, length, PROT_READ, MAP_PRIVATE, number, 0);
  if (bytes == MAP_FAILED) fail ("cannot map", font_file);
  kus_font_t font = KUS_FONT_INIT;
  kus_status_t status = kus_font_create_from_bytes (&font, &tables, bytes, length, 0, flags);
  if (status != KUS_OK) fail (font_file, kus_status_name (status));
  munmap (bytes, length);
  close (number);
  return font;
}

static void
own_open (kind_t kind, line_t line)
{
  if (kind == FIRST) opened_tables = open_tables (tables_file);
  if (kind >= BY_FILE)
    opened = open_mapped (kind == BARE ? KUS_FONT_WITHOUT_EXTENTS | KUS_FONT_WITHOUT_NAMES : KUS_FONT_DEFAULT);
  else
    opened = open_font_over (kind == FIRST ? &opened_tables : &tables, json_file);
  own_shape (&opened, line, NULL);
}

static void
own_round (kind_t kind, texts_t texts)
{
  if (kind >= OPEN) own_open (kind, texts.lines[0]);
  for (size_t k = 0; k < texts.count && kind < OPEN; k++) {
    kus_feature_t feature = { UNKNOWN_FEATURE, ++calls, KUS_FEATURE_GLOBAL_START, KUS_FEATURE_GLOBAL_END };
    own_shape (&own_font, texts.lines[k], kind == ANEW ? &feature : NULL);
  }
}

/* ---- libharfbuzz */

static void
fill (line_t line)
{
  hb_buffer_clear_contents (buffer);
  hb_buffer_add_utf8 (buffer, line.bytes, (int) line.length, 0, (int) line.length);
  hb_buffer_set_language (buffer, their_language);
  hb_buffer_guess_segment_properties (buffer);
}

static void
their_shape (hb_font_t *font, line_t line)
{
  fill (line);
  if (!hb_shape_full (font, buffer, NULL, 0, shapers)) fail ("not shaped", "text");
}

static void
their_shape_anew (line_t line)
{
  hb_feature_t feature = { UNKNOWN_FEATURE, ++calls, HB_FEATURE_GLOBAL_START, HB_FEATURE_GLOBAL_END };
  hb_segment_properties_t properties;
  fill (line);
  hb_buffer_get_segment_properties (buffer, &properties);
  hb_shape_plan_t *plan = hb_shape_plan_create (hb_font_get_face (their_font), &properties, &feature, 1, shapers);
  if (!hb_shape_plan_execute (plan, their_font, buffer, &feature, 1)) fail ("not shaped", "text");
  hb_shape_plan_destroy (plan);
}

static hb_font_t *
their_new_font (void)
{
  hb_blob_t *blob = hb_blob_create_from_file_or_fail (font_file);
  if (!blob) fail ("cannot read", font_file);
  hb_face_t *face = hb_face_create (blob, 0);
  hb_font_t *font = hb_font_create (face);
  hb_face_destroy (face);
  hb_blob_destroy (blob);
  return font;
}

static void
their_round (kind_t kind, texts_t texts)
{
  if (kind >= OPEN) their_shape (their_opened = their_new_font (), texts.lines[0]);
  for (size_t k = 0; k < texts.count && kind < OPEN; k++) {
    if (kind == ANEW) their_shape_anew (texts.lines[k]);
    else their_shape (their_font, texts.lines[k]);
  }
}

/* ---- rounds */

/* What a round opened is let go after it. */
static void
close_opened (void)
{
  kus_font_destroy (&opened);
  kus_tables_destroy (&opened_tables);
  hb_font_destroy (their_opened);
  their_opened = NULL;
}

static long long
time_of (void round (kind_t, texts_t), kind_t kind, texts_t texts)
{
  long long start = processor_time ();
  round (kind, texts);
  long long taken = processor_time () - start;
  close_opened ();
  return taken;
}

static void
print_times (kind_t kind, texts_t texts, int rounds)
{
  long long own = 0, theirs = 0;
  for (int k = 0; k < rounds; k++) {
    long long mine = time_of (own_round, kind, texts), other = time_of (their_round, kind, texts);
    if (!k || mine < own) own = mine;
    if (!k || other < theirs) theirs = other;
  }
  printf ("%lld %lld\n", own, theirs);
}

/* A dump counts from the one before it, or from where the counting was set to nothing. */
static void
count_rounds (kind_t kind, texts_t texts)
{
  CALLGRIND_START_INSTRUMENTATION;
  CALLGRIND_ZERO_STATS;
  own_round (kind, texts);
  CALLGRIND_DUMP_STATS;
  their_round (kind, texts);
  CALLGRIND_DUMP_STATS;
  CALLGRIND_STOP_INSTRUMENTATION;
  close_opened ();
}

static void
measure (kind_t kind, texts_t texts, int rounds)
{
  own_round (kind, texts);
  their_round (kind, texts);
  close_opened ();
  if (RUNNING_ON_VALGRIND) count_rounds (kind, texts);
  else print_times (kind, texts, rounds);
}

/* ---- glyphs */

static void
print_theirs (void)
{
  static char piece[1 << 16];
  unsigned count = hb_buffer_get_length (buffer);
  for (unsigned at = 0, written; at < count;) {
    unsigned done = hb_buffer_serialize_glyphs (buffer, at, count, piece, sizeof piece, &written, their_font,
                                                HB_BUFFER_SERIALIZE_FORMAT_TEXT,
                                                HB_BUFFER_SERIALIZE_FLAG_NO_GLYPH_NAMES);
    if (!done) fail ("not printed", "glyphs");
    fwrite (piece, 1, written, stdout);
    at += done;
  }
  putchar ('\n');
}

static void
print_glyphs (texts_t texts)
{
  for (size_t k = 0; k < texts.count; k++) {
    own_shape (&own_font, texts.lines[k], NULL);
    /* HarfBuzz's text has no flags. */
    for (size_t at = 0; at < made; at++) infos[at].mask = 0;
    print_line (infos, positions, made);
    putchar ('\n');
    their_shape (their_font, texts.lines[k]);
    print_theirs ();
  }
}

/* ---- words */

static texts_t
read_texts (const char *name)
{
  bytes_t file = read_file (name);
  texts_t read = { NULL, 0 };
  const char *at = (const char *) file.bytes, *last = at + file.length;
  while (at < last) {
    const char *end = memchr (at, '\n', (size_t) (last - at));
    if (!end) end = last;
    read.lines = realloc (read.lines, (read.count + 1) * sizeof *read.lines);
    read.lines[read.count++] = (line_t){ at, (size_t) (end - at) };
    at = end + 1;
  }
  if (!read.count) fail ("no texts", name);
  return read;
}

static kind_t
kind_of (const char *word, size_t length)
{
  static const char *const names[] = { "kept", "anew", "open", "first", "file", "bare" };
  for (int kind = KEPT; kind <= BARE; kind++)
    if (strlen (names[kind]) == length && !memcmp (names[kind], word, length)) return (kind_t) kind;
  fail ("no such kind", word);
  return KEPT;
}

int
main (int count, char **words)
{
  if (count < 7) fail ("driver", "LANGUAGE TABLES FONT FILE ROUNDS KIND=TEXTS..");
  language = words[1], tables_file = words[2], json_file = words[3], font_file = words[4];
  int rounds = atoi (words[5]);
  tables = open_tables (tables_file);
  own_font = open_font_over (&tables, json_file);
  their_language = hb_language_from_string (language, -1);
  their_font = their_new_font ();
  buffer = hb_buffer_create ();
  make_room (1);
  for (int k = 6; k < count; k++) {
    const char *equals = strchr (words[k], '=');
    if (!equals) fail ("no KIND=TEXTS", words[k]);
    kind_t kind = kind_of (words[k], (size_t) (equals - words[k]));
    texts_t texts = read_texts (equals + 1);
    if (rounds > 0) measure (kind, texts, rounds);
    else print_glyphs (texts);
  }
  return 0;
}
