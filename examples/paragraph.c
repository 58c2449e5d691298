/* paragraph LATIN ARABIC DEVANAGARI PNG: sets a paragraph of three scripts in lines, draws it by cairo, and prints its lines.
 *
 *     gcc -Iinclude examples/paragraph.c out/libkuspveli.a $(pkg-config --cflags --libs cairo freetype2) -o paragraph
 *
 * The fonts are the files of DejaVu Sans, Noto Naskh Arabic and Noto Sans Devanagari, which cairo finds by their names.
 * Glyphs have the advances to which FreeType hints them. Each part of the paragraph is of one script, in UTF-16, and goes on
 * in the line of the part before it. A line may end after a space (UAX 14 has more). Where a line is not the part's own it
 * is shaped again. Carets are drawn as small strokes below the line: in words of Latin also between the letters of a
 * ligature. */
#include <cairo.h>
#include <ft2build.h>
#include <stdio.h>
#include <stdlib.h>
#include <string.h>
#include "kuspveli.h"
#include FT_ADVANCES_H
#include FT_FREETYPE_H

#define ROOM 256
#define FONTS 3
#define PARTS 5
#define SIZE 30
#define WIDTH 640
#define MARGIN 24
#define LEADING 54

static const char *const families[FONTS] = { "DejaVu Sans", "Noto Naskh Arabic", "Noto Sans Devanagari" };

/* A font, and the same one as FreeType opens it, which is asked for the advances of glyphs. */
typedef struct {
  kus_font_t font;
  kus_measures_t measures;
  FT_Face hinted;
} face_t;

/* A part of the paragraph: its font and text, then its lines and carets, and its glyphs. */
typedef struct {
  int font;
  const uint16_t *text;
  size_t length;
  uint32_t direction, script;
  double scale;
  size_t num_lines, num_carets;
  kus_line_t lines[ROOM];
  kus_caret_t carets[ROOM];
  kus_glyph_info_t infos[ROOM];
  kus_glyph_position_t positions[ROOM];
} part_t;

/* Where the next glyph is drawn. */
typedef struct {
  cairo_t *cr;
  double x;
  int line;
} pen_t;

static const struct {
  int font;
  const uint16_t *text;
} texts[PARTS] = {
  { 0, u"Kuspveli sets the words of an office, " },
  { 1, u"السلام عليكم ورحمة الله وبركاته،" },
  { 0, u" and between them " },
  { 2, u"हिन्दी में नमस्ते और स्त्री शक्ति, " },
  { 0, u"in lines that end where a break is safe." },
};

static void
check (kus_status_t status, const char *what)
{
  if (status == KUS_OK) return;
  fprintf (stderr, "paragraph: %s: %s\n", what, kus_status_name (status));
  exit (1);
}

static uint8_t *
read_file (const char *name, size_t *length)
{
  FILE *file = fopen (name, "rb");
  if (!file || fseek (file, 0, SEEK_END)) goto failed;
  *length = (size_t) ftell (file);
  rewind (file);
  uint8_t *bytes = malloc (*length + 1);
  if (!bytes || fread (bytes, 1, *length, file) != *length) goto failed;
  fclose (file);
  return bytes;
failed:
  fprintf (stderr, "paragraph: cannot read %s\n", name);
  exit (1);
}

/* The advance of a glyph in whole pixels, to which FreeType hints it at this size, in font units. */
static uint32_t
hinted_advance (void *hinted, uint32_t glyph)
{
  FT_Face face = hinted;
  FT_Fixed pixels = 0; /* 16.16 */
  FT_Get_Advance (face, glyph, FT_LOAD_DEFAULT, &pixels);
  return (uint32_t) (((int64_t) pixels * face->units_per_EM + SIZE * 32768) / (SIZE * 65536));
}

static size_t
length_of (const uint16_t *text)
{
  size_t length = 0;
  while (text[length]) length++;
  return length;
}

/* Shapes a part as a whole, and cuts it into lines, of which the first is to fit what is left of a line. */
static void
cut (part_t *part, face_t *face, double left)
{
  kus_font_t *font = &face->font;
  size_t breaks[ROOM], stops[ROOM], num_breaks = 0, num_stops = 0, count;
  kus_text_t text = kus_text_utf16 (part->text, part->length);
  text.flags |= KUS_FLAG_PRODUCE_SAFE_BREAKS;
  check (kus_shape_measured (font, &text, part->infos, ROOM, part->positions, ROOM, &count, &face->measures), "shape");
  part->direction = kus_get_direction (font);
  part->script = kus_get_script (font);
  part->scale = (double) SIZE / kus_font_get_upem (font);
  for (size_t at = 1; at <= part->length; at++) {
    if (part->text[at - 1] == ' ') breaks[num_breaks++] = at;
    /* each letter of Latin is a grapheme (UAX 29) */
    if (part->script == KUS_TAG ('L', 'a', 't', 'n')) stops[num_stops++] = at;
  }
  int64_t first = (int64_t) (left / part->scale), width = (int64_t) ((WIDTH - 2 * MARGIN) / part->scale);
  check (kus_cut_lines (font, part->length, breaks, num_breaks, first, width, part->lines, ROOM, &part->num_lines), "lines");
  check (kus_get_carets (font, part->length, stops, num_stops, part->carets, ROOM, &part->num_carets), "carets");
}

/* Draws glyphs; the pen is after them then. */
static void
draw_glyphs (pen_t *pen, const part_t *part, const kus_glyph_info_t *infos, const kus_glyph_position_t *positions, size_t count)
{
  cairo_glyph_t drawn[ROOM];
  double y = LEADING * (pen->line + 1) - 8;
  for (size_t g = 0; g < count; g++) {
    const kus_glyph_position_t *at = &positions[g];
    drawn[g] = (cairo_glyph_t) { infos[g].codepoint, pen->x + at->x_offset * part->scale, y - at->y_offset * part->scale };
    pen->x += at->x_advance * part->scale;
  }
  cairo_select_font_face (pen->cr, families[part->font], CAIRO_FONT_SLANT_NORMAL, CAIRO_FONT_WEIGHT_NORMAL);
  cairo_set_source_rgb (pen->cr, 0, 0, 0);
  cairo_show_glyphs (pen->cr, drawn, (int) count);
}

/* Draws the carets of a line of a part whose left end is at the pen. */
static void
draw_carets (const pen_t *pen, const part_t *part, const kus_line_t *line)
{
  double y = LEADING * (pen->line + 1) - 2;
  int64_t left = INT64_MAX;
  for (int pass = 0; pass < 2; pass++)
    for (size_t k = 0; k < part->num_carets; k++) {
      const kus_caret_t *caret = &part->carets[k];
      if (caret->index < line->start || line->end < caret->index) continue;
      if (!pass) {
        if (caret->position < left) left = caret->position;
        continue;
      }
      double x = pen->x + (double) (caret->position - left) * part->scale;
      cairo_move_to (pen->cr, x, y);
      cairo_line_to (pen->cr, x, y + 5);
    }
  cairo_set_source_rgb (pen->cr, 0.8, 0, 0);
  cairo_set_line_width (pen->cr, 1);
  cairo_stroke (pen->cr);
}

/* Draws a line of a part: its own glyphs, or what shaping it again gives between what is before it and after it. */
static void
draw_line (pen_t *pen, const part_t *part, face_t *face, const kus_line_t *line)
{
  kus_glyph_info_t infos[ROOM];
  kus_glyph_position_t positions[ROOM];
  size_t count;
  if (line->is_own) {
    draw_carets (pen, part, line);
    draw_glyphs (pen, part, part->infos + line->first_glyph, part->positions + line->first_glyph, line->end_glyph - line->first_glyph);
    return;
  }
  kus_text_t text = kus_text_utf16 (part->text + line->start, line->end - line->start);
  text.before = (const uint8_t *) part->text;
  text.before_length = line->start * sizeof *part->text;
  text.after = (const uint8_t *) (part->text + line->end);
  text.after_length = (part->length - line->end) * sizeof *part->text;
  text.direction = part->direction;
  text.script = part->script;
  check (kus_shape_measured (&face->font, &text, infos, ROOM, positions, ROOM, &count, &face->measures), "shape again");
  draw_glyphs (pen, part, infos, positions, count);
}

/* Sets a part after those before it, in a new line where not even its first piece fits the one that is open. */
static void
set_part (pen_t *pen, part_t *part, face_t *face)
{
  double left = WIDTH - MARGIN - pen->x;
  cut (part, face, left);
  if (part->num_lines && pen->x > MARGIN && part->lines[0].width * part->scale > left) {
    pen->x = MARGIN;
    pen->line++;
    /* no line begins with a space */
    if (part->text[0] == ' ') part->text++, part->length--;
    cut (part, face, WIDTH - 2 * MARGIN);
  }
  for (size_t k = 0; k < part->num_lines; k++) {
    const kus_line_t *line = &part->lines[k];
    if (k) {
      pen->x = MARGIN;
      pen->line++;
    }
    printf ("%d: %zu to %zu, %lld units%s\n", pen->line, line->start, line->end, (long long) line->width, line->is_own ? "" : ", shaped again");
    draw_line (pen, part, face, line);
  }
}

static void
open_face (face_t *face, FT_Library freetype, kus_tables_t *tables, const char *name)
{
  size_t length;
  uint8_t *bytes = read_file (name, &length);
  face->font = (kus_font_t) KUS_FONT_INIT;
  check (kus_font_create_from_bytes (&face->font, tables, bytes, length, 0, KUS_FONT_DEFAULT), name);
  free (bytes);
  if (FT_New_Face (freetype, name, 0, &face->hinted) || FT_Set_Pixel_Sizes (face->hinted, 0, SIZE)) {
    fprintf (stderr, "paragraph: %s: FreeType doesn't open it\n", name);
    exit (1);
  }
  face->measures.advance = hinted_advance;
  face->measures.data = face->hinted;
}

int
main (int count, char **words)
{
  if (count != 5) {
    fprintf (stderr, "paragraph LATIN ARABIC DEVANAGARI PNG\n");
    return 2;
  }
  kus_tables_t tables = KUS_TABLES_INIT;
  static face_t faces[FONTS];
  FT_Library freetype;
  check (kus_tables_create_default (&tables), "tables");
  if (FT_Init_FreeType (&freetype)) return 1;
  for (int k = 0; k < FONTS; k++) open_face (&faces[k], freetype, &tables, words[1 + k]);
  cairo_surface_t *drawn = cairo_recording_surface_create (CAIRO_CONTENT_COLOR_ALPHA, NULL);
  pen_t pen = { cairo_create (drawn), MARGIN, 0 };
  cairo_set_font_size (pen.cr, SIZE);
  for (int k = 0; k < PARTS; k++) {
    part_t part = { .font = texts[k].font, .text = texts[k].text, .length = length_of (texts[k].text) };
    set_part (&pen, &part, &faces[part.font]);
  }
  cairo_surface_t *surface = cairo_image_surface_create (CAIRO_FORMAT_RGB24, WIDTH, MARGIN + LEADING * (pen.line + 1));
  cairo_t *cr = cairo_create (surface);
  cairo_set_source_rgb (cr, 1, 1, 1);
  cairo_paint (cr);
  cairo_set_source_surface (cr, drawn, 0, 0);
  cairo_paint (cr);
  cairo_status_t status = cairo_surface_write_to_png (surface, words[4]);
  if (status != CAIRO_STATUS_SUCCESS) fprintf (stderr, "paragraph: %s: %s\n", words[4], cairo_status_to_string (status));
  cairo_destroy (cr);
  cairo_surface_destroy (surface);
  cairo_destroy (pen.cr);
  cairo_surface_destroy (drawn);
  for (int k = 0; k < FONTS; k++) {
    kus_font_destroy (&faces[k].font);
    FT_Done_Face (faces[k].hinted);
  }
  FT_Done_FreeType (freetype);
  kus_tables_destroy (&tables);
  return status == CAIRO_STATUS_SUCCESS ? 0 : 1;
}
