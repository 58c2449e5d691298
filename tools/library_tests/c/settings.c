/* settings FONT FILE: what a client sets in a font, beside HarfBuzz: each line of the file is a text. The advances that a
 * client measures, by a list and by a function, give the glyphs and positions that HarfBuzz has for a font with this
 * function, and so does a client's character map; in a scale advances and points are HarfBuzz's, within NEAR units. Prints how many texts and glyphs there were,
 * and how many points were a unit off and more. */
#include <hb-ot.h>
#include <hb.h>
#include "common.h"

#define MOST 4096
#define NEAR 3

static const char *const shapers[] = { "ot", NULL };
static kus_glyph_info_t infos[MOST];
static kus_glyph_position_t positions[MOST];

static void
expect (int holds, const char *what, const char *text)
{
  if (!holds) fail (what, text);
}

/* ---- both shapers */

static hb_buffer_t *
shape_other (hb_font_t *font, const char *text)
{
  hb_buffer_t *buffer = hb_buffer_create ();
  hb_buffer_add_utf8 (buffer, text, -1, 0, -1);
  hb_buffer_guess_segment_properties (buffer);
  hb_shape_full (font, buffer, NULL, 0, shapers);
  return buffer;
}

static size_t
shape_own (kus_font_t *font, const char *text)
{
  size_t count;
  kus_text_t given = kus_text (text, strlen (text));
  expect (kus_shape (font, &given, infos, MOST, positions, MOST, &count) == KUS_OK, "not shaped", text);
  expect (count <= MOST, "too long", text);
  return count;
}

static int
has_glyphs (hb_buffer_t *buffer, size_t count)
{
  unsigned length;
  const hb_glyph_info_t *theirs = hb_buffer_get_glyph_infos (buffer, &length);
  for (size_t k = 0; k < count && count == length; k++)
    if (theirs[k].codepoint != infos[k].codepoint || theirs[k].cluster != infos[k].cluster) return 0;
  return count == length;
}

static int
has_positions (hb_buffer_t *buffer, size_t count)
{
  const hb_glyph_position_t *theirs = hb_buffer_get_glyph_positions (buffer, NULL);
  for (size_t k = 0; k < count; k++)
    if (memcmp (&theirs[k], &positions[k], 4 * sizeof (int32_t))) return 0;
  return 1;
}

/* Whether both shape a text alike. */
static int
are_alike (kus_font_t *own, hb_font_t *other, const char *text)
{
  size_t count = shape_own (own, text);
  hb_buffer_t *buffer = shape_other (other, text);
  int alike = has_glyphs (buffer, count) && has_positions (buffer, count);
  hb_buffer_destroy (buffer);
  return alike;
}

/* ---- advances */

/* What the client measures where the font has an advance: another one, as hinting gives. */
static uint32_t
measured (uint32_t glyph, int32_t own)
{
  return own > 0 ? (uint32_t) (own + own / 9 + (int32_t) (glyph % 7) - 3) & 0xFFFF : 0;
}

static hb_position_t
measured_for_other (hb_font_t *font, void *data, hb_codepoint_t glyph, void *user)
{
  (void) data;
  (void) user;
  return (hb_position_t) measured (glyph, hb_font_get_glyph_h_advance (hb_font_get_parent (font), glyph));
}

static uint32_t
measured_for_own (void *data, uint32_t glyph)
{
  return measured (glyph, kus_font_get_glyph_h_advance (data, glyph));
}

static hb_font_t *
with_function (hb_font_t *parent)
{
  hb_font_t *font = hb_font_create_sub_font (parent);
  hb_font_funcs_t *functions = hb_font_funcs_create ();
  hb_font_funcs_set_glyph_h_advance_func (functions, measured_for_other, NULL, NULL);
  hb_font_set_funcs (font, functions, NULL, NULL);
  hb_font_funcs_destroy (functions);
  return font;
}

/* A list of all glyphs of the font. */
static void
set_all (kus_font_t *font, unsigned glyphs)
{
  kus_glyph_advance_t *list = malloc ((glyphs + 1) * sizeof *list);
  for (unsigned k = 0; k < glyphs; k++)
    list[k] = (kus_glyph_advance_t){ k, measured (k, kus_font_get_glyph_h_advance (font, k)) };
  list[glyphs] = (kus_glyph_advance_t){ 0, 65536 };
  expect (kus_font_set_advances (font, list, glyphs + 1) == KUS_ADVANCE_RANGE, "a wide advance", "");
  list[glyphs].glyph = 65536;
  expect (kus_font_set_advances (font, list, glyphs + 1) == KUS_NO_GLYPH, "no glyph", "");
  expect (kus_font_get_glyph_h_advance (font, 1) != (int32_t) list[1].advance || !list[1].advance, "nothing changes", "");
  expect (kus_font_set_advances (font, list, glyphs) == KUS_OK, "a list", "");
  expect (kus_font_get_glyph_h_advance (font, 1) == (int32_t) list[1].advance, "an advance", "");
  free (list);
}

static void
measure (kus_font_t *font, kus_font_t *plain, kus_measures_t *measures, hb_font_t *other, const char *text)
{
  size_t count;
  kus_text_t given = kus_text (text, strlen (text));
  measures->advance = measured_for_own;
  measures->data = plain;
  kus_status_t status = kus_shape_measured (font, &given, infos, MOST, positions, MOST, &count, measures);
  expect (status == KUS_OK, "not shaped", kus_status_name (status));
  hb_buffer_t *buffer = shape_other (other, text);
  expect (has_glyphs (buffer, count) && has_positions (buffer, count), "advances asked for", text);
  hb_buffer_destroy (buffer);
}

/* ---- characters */

#define FIRST 0x300 /* combining marks */
#define LAST 0x36F
#define UNSEEN 4
#define MISSING 9

/* What the client's map has: capital letters for small ones, and no combining mark. */
static hb_bool_t
mapped_for_other (hb_font_t *font, void *data, hb_codepoint_t unicode, hb_codepoint_t *glyph, void *user)
{
  (void) data;
  (void) user;
  if (FIRST <= unicode && unicode <= LAST) return 0;
  return hb_font_get_nominal_glyph (hb_font_get_parent (font), 'a' <= unicode && unicode <= 'z' ? unicode - 32 : unicode, glyph);
}

static hb_font_t *
with_map (hb_font_t *parent)
{
  hb_font_t *font = hb_font_create_sub_font (parent);
  hb_font_funcs_t *functions = hb_font_funcs_create ();
  hb_font_funcs_set_nominal_glyph_func (functions, mapped_for_other, NULL, NULL);
  hb_font_set_funcs (font, functions, NULL, NULL);
  hb_font_funcs_destroy (functions);
  return font;
}

static void
set_map (kus_font_t *font)
{
  kus_character_glyph_t list[26 + LAST - FIRST + 1 + 1];
  size_t count = 0;
  for (uint32_t c = 'a'; c <= 'z'; c++) {
    uint32_t glyph;
    int has = kus_font_get_nominal_glyph (font, c - 32, &glyph);
    list[count++] = (kus_character_glyph_t){ c, 0, has ? glyph : KUS_CODEPOINT_INVALID };
  }
  for (uint32_t c = FIRST; c <= LAST; c++)
    list[count++] = (kus_character_glyph_t){ c, 0, KUS_CODEPOINT_INVALID };
  list[count] = (kus_character_glyph_t){ 0xD800, 0, 1 };
  expect (kus_font_set_glyphs (font, list, count + 1) == KUS_NO_CHARACTER, "a surrogate", "");
  list[count] = (kus_character_glyph_t){ 'a', 0, 65536 };
  expect (kus_font_set_glyphs (font, list, count + 1) == KUS_NO_GLYPH, "no glyph", "");
  expect (kus_font_set_glyphs (font, list, count) == KUS_OK, "a map", "");
}

/* A text with the client's glyphs for default ignorables and for what the font lacks. */
static void
replace (kus_font_t *own, hb_font_t *other, const char *text)
{
  expect (kus_font_set_invisible_glyph (own, UNSEEN) == KUS_OK && kus_font_set_not_found_glyph (own, MISSING) == KUS_OK, "replacements", "");
  size_t count = shape_own (own, text);
  expect (kus_font_set_invisible_glyph (own, 0) == KUS_OK && kus_font_set_not_found_glyph (own, 0) == KUS_OK, "no replacements", "");
  hb_buffer_t *buffer = hb_buffer_create ();
  hb_buffer_add_utf8 (buffer, text, -1, 0, -1);
  hb_buffer_guess_segment_properties (buffer);
  hb_buffer_set_invisible_glyph (buffer, UNSEEN);
  hb_buffer_set_not_found_glyph (buffer, MISSING);
  hb_shape_full (other, buffer, NULL, 0, shapers);
  expect (has_glyphs (buffer, count) && has_positions (buffer, count), "replacements", text);
  hb_buffer_destroy (buffer);
}

/* ---- scale */

typedef struct {
  size_t points, one_off, more_off, advances, advances_off;
} counts_t;

static void
count_difference (counts_t *counts, int64_t own, int64_t other, const char *text)
{
  int64_t off = own < other ? other - own : own - other;
  counts->points++;
  counts->one_off += off == 1;
  counts->more_off += off > 1;
  expect (off <= NEAR, "more than a few units off in a scale", text);
}

/* Points of glyphs from the first pen of each cluster, and advances, in a scale. */
static void
compare_scaled (kus_font_t *own, hb_font_t *other, const char *text, counts_t *counts)
{
  size_t count = shape_own (own, text);
  hb_buffer_t *buffer = shape_other (other, text);
  const hb_glyph_position_t *theirs = hb_buffer_get_glyph_positions (buffer, NULL);
  expect (has_glyphs (buffer, count), "other glyphs in a scale", text);
  int64_t pens[4] = { 0 };
  for (size_t k = 0; k < count; k++) {
    if (k && infos[k].cluster != infos[k - 1].cluster) memset (pens, 0, sizeof pens);
    count_difference (counts, pens[0] + positions[k].x_offset, pens[2] + theirs[k].x_offset, text);
    count_difference (counts, pens[1] + positions[k].y_offset, pens[3] + theirs[k].y_offset, text);
    counts->advances++;
    counts->advances_off += positions[k].x_advance != theirs[k].x_advance || positions[k].y_advance != theirs[k].y_advance;
    pens[0] += positions[k].x_advance;
    pens[1] += positions[k].y_advance;
    pens[2] += theirs[k].x_advance;
    pens[3] += theirs[k].y_advance;
  }
  hb_buffer_destroy (buffer);
}

static void
try_lines (kus_font_t *own, hb_font_t *other)
{
  kus_line_metrics_t metrics = { 0, 0, 0 };
  hb_font_extents_t theirs;
  if (hb_font_get_h_extents (other, &theirs)) {
    expect (kus_font_get_line_metrics (own, &metrics), "metrics of lines", "");
    expect (metrics.ascender == theirs.ascender && metrics.descender == theirs.descender && metrics.line_gap == theirs.line_gap,
            "metrics of lines", "HarfBuzz has others");
  }
}

int
main (int argc, char **arguments)
{
  if (argc != 3) fail ("settings", "FONT FILE");
  hb_blob_t *blob = hb_blob_create_from_file (arguments[1]);
  hb_face_t *face = hb_face_create (blob, 0);
  hb_font_t *plain = hb_font_create (face), *with = with_function (plain), *scaled = hb_font_create (face);
  hb_font_t *other_mapped = with_map (plain);
  kus_font_t mapped = open_font (OWN_TABLES, arguments[1]);
  kus_font_t own = open_font (OWN_TABLES, arguments[1]), listed = open_font (OWN_TABLES, arguments[1]);
  kus_font_t asked = open_font (OWN_TABLES, arguments[1]), other = KUS_FONT_INIT;
  kus_measures_t *measures = calloc (1, sizeof *measures);
  static const int scales[][2] = { { 832, 832 }, { 1664, -1664 }, { -137, 64 }, { 16384, -16384 }, { 64000, 64000 } };
  bytes_t file = read_file (arguments[2]);
  counts_t counts = { 0 };
  size_t texts = 0, skipped = 0, glyphs = 0;
  try_lines (&own, plain);
  set_all (&listed, hb_face_get_glyph_count (face));
  set_map (&mapped);
  expect (kus_font_reference (&listed, &other) == KUS_OK, "a reference", "");
  expect (kus_font_set_advances (&listed, &(kus_glyph_advance_t){ 1, 1 }, 1) == KUS_SHARED_FONT, "a shared font", "");
  expect (kus_font_set_glyphs (&listed, &(kus_character_glyph_t){ 'a', 0, 1 }, 1) == KUS_SHARED_FONT, "a shared font", "");
  kus_font_destroy (&other);
  for (char *text = strtok ((char *) file.bytes, "\n"); text; text = strtok (NULL, "\n")) {
    if (!are_alike (&own, plain, text)) {
      skipped++;
      continue;
    }
    texts++;
    glyphs += shape_own (&own, text);
    expect (are_alike (&listed, with, text), "a list of advances", text);
    measure (&asked, &own, measures, with, text);
    expect (are_alike (&mapped, other_mapped, text), "a map", text);
    replace (&own, plain, text);
    for (size_t k = 0; k < sizeof scales / sizeof *scales; k++) {
      hb_font_set_scale (scaled, scales[k][0], scales[k][1]);
      expect (kus_font_set_scale (&own, scales[k][0], scales[k][1]) == KUS_OK, "a scale", "");
      compare_scaled (&own, scaled, text, &counts);
    }
    expect (kus_font_set_scale (&own, 0, 0) == KUS_OK, "no scale", "");
    expect (are_alike (&own, plain, text), "font units again", text);
  }
  printf ("%zu texts, %zu passed over, %zu glyphs; of %zu points %zu a unit off, %zu more; of %zu advances %zu off\n", texts,
          skipped, glyphs, counts.points, counts.one_off, counts.more_off, counts.advances, counts.advances_off);
  free (measures);
  free (file.bytes);
  kus_font_destroy (&own);
  kus_font_destroy (&listed);
  kus_font_destroy (&asked);
  kus_font_destroy (&mapped);
  hb_font_destroy (with);
  hb_font_destroy (other_mapped);
  hb_font_destroy (plain);
  hb_font_destroy (scaled);
  hb_face_destroy (face);
  hb_blob_destroy (blob);
  return 0;
}
