/* Fonts of faces without tables, such as bare CFF: libharfbuzz shapes in them by the client's functions alone. A font
 * file is made of what these answer: glyphs of characters, advances, and boxes where a text has marks, which are placed
 * by them. */
#include <stdlib.h>

#include "instead.h"

#define FIRST_CHARACTER 0x20
#define END_OF_PLANE 0x10000
#define MOST_GLYPHS 65535

typedef struct {
  uint32_t character;
  uint16_t glyph;
} row_t;

/* A glyph as the client has it; the box is that of a glyph of glyf. */
typedef struct {
  int64_t advance, left, bottom, right, top;
  bool is_asked, has_box;
} bare_glyph_t;

struct bare {
  uint16_t *plane; /* the glyphs of the characters of the first plane, 0 for none */
  row_t *rows;     /* of other characters, which rise */
  size_t num_rows;
  bare_glyph_t *glyphs;
  size_t num_glyphs;
  bool has_boxes;
};

void
free_bare (bare_t *bare)
{
  if (!bare)
    return;
  free (bare->plane);
  free (bare->rows);
  free (bare->glyphs);
  free (bare);
}

/* ---- glyphs of characters */

static hb_codepoint_t
glyph_of (hb_font_t *font, hb_codepoint_t unicode)
{
  hb_codepoint_t glyph = 0;
  return hb_font_get_nominal_glyph (font, unicode, &glyph) && glyph < MOST_GLYPHS ? glyph : 0;
}

/* Asks for all characters of the first plane at once: those into which a text composes are among them. */
bare_t *
new_bare (hb_font_t *font)
{
  bare_t *bare = calloc (1, sizeof *bare);
  uint16_t *plane = calloc (END_OF_PLANE, sizeof *plane);
  if (!bare || !plane) {
    free (bare);
    free (plane);
    return NULL;
  }
  for (hb_codepoint_t unicode = FIRST_CHARACTER; unicode < END_OF_PLANE; unicode++)
    if (unicode < 0xD800 || unicode > 0xDFFF)
      plane[unicode] = (uint16_t) glyph_of (font, unicode);
  bare->plane = plane;
  return bare;
}

/* The row of a character of another plane, which is made where it has none. */
static uint16_t *
row_of (bare_t *bare, uint32_t character)
{
  size_t at = bare->num_rows;
  while (at && bare->rows[at - 1].character >= character)
    at--;
  if (at < bare->num_rows && bare->rows[at].character == character)
    return &bare->rows[at].glyph;
  row_t *rows = realloc (bare->rows, (bare->num_rows + 1) * sizeof *rows);
  if (!rows)
    return NULL;
  for (size_t i = bare->num_rows++; i > at; i--)
    rows[i] = rows[i - 1];
  rows[at] = (row_t){ character, 0 };
  bare->rows = rows;
  return &rows[at].glyph;
}

bool
set_bare_characters (bare_t *bare, hb_font_t *font, const kus_character_t *characters, size_t count, bool *is_changed)
{
  for (size_t i = 0; i < count; i++) {
    uint32_t unicode = characters[i].character;
    uint16_t glyph = (uint16_t) glyph_of (font, unicode);
    uint16_t *to = unicode < END_OF_PLANE ? &bare->plane[unicode] : glyph ? row_of (bare, unicode) : &glyph;
    if (!to)
      return false;
    *is_changed |= *to != glyph;
    *to = glyph;
  }
  return true;
}

/* ---- advances and boxes */

static bool
make_glyphs (bare_t *bare, size_t count)
{
  if (count <= bare->num_glyphs)
    return true;
  bare_glyph_t *glyphs = realloc (bare->glyphs, count * sizeof *glyphs);
  if (!glyphs)
    return false;
  for (size_t i = bare->num_glyphs; i < count; i++)
    glyphs[i] = (bare_glyph_t){ 0 };
  bare->glyphs = glyphs;
  bare->num_glyphs = count;
  return true;
}

bool
set_bare_advances (bare_t *bare, const units_t *units, const kus_glyph_info_t *infos, const hb_position_t *advances,
                   size_t count, bool *is_changed)
{
  for (size_t i = 0; i < count; i++) {
    int64_t advance = finer (units, advances[i]);
    size_t glyph = infos[i].codepoint;
    if (advance < 0 || advance > UINT16_MAX || glyph >= MOST_GLYPHS || !make_glyphs (bare, glyph + 1))
      return false;
    *is_changed |= bare->glyphs[glyph].advance != advance;
    bare->glyphs[glyph].advance = advance;
  }
  return true;
}

void
set_bare_boxes (bare_t *bare, hb_font_t *font, const units_t *units, const kus_glyph_info_t *infos, size_t count,
                bool *is_changed)
{
  for (size_t i = 0; i < count; i++) {
    bare_glyph_t *glyph = &bare->glyphs[infos[i].codepoint];
    hb_glyph_extents_t box;
    if (glyph->is_asked)
      continue;
    glyph->is_asked = true;
    if (!hb_font_get_glyph_extents (font, infos[i].codepoint, &box))
      continue;
    *is_changed = bare->has_boxes = glyph->has_box = true;
    glyph->left = finer (units, box.x_bearing);
    glyph->right = finer (units, (int64_t) box.x_bearing + box.width);
    glyph->top = finer (units, box.y_bearing);
    glyph->bottom = finer (units, (int64_t) box.y_bearing + box.height);
  }
}

/* ---- the font file */

/* A table that is written from its beginning. */
typedef struct {
  char *bytes;
  unsigned int length, at;
} written_t;

static written_t
begin_table (size_t length)
{
  char *bytes = calloc (1, length + 1);
  return (written_t){ bytes, bytes ? (unsigned int) length : 0, 0 };
}

static void
put_u16 (written_t *table, int64_t value)
{
  if (table->at + 2 > table->length)
    return;
  table->bytes[table->at++] = (char) ((uint64_t) value >> 8);
  table->bytes[table->at++] = (char) value;
}

static void
put_u32 (written_t *table, uint32_t value)
{
  put_u16 (table, value >> 16);
  put_u16 (table, value & 0xFFFF);
}

static void
add_written (hb_face_t *built, const char *name, written_t table)
{
  hb_blob_t *blob = hb_blob_create (table.bytes, table.length, HB_MEMORY_MODE_WRITABLE, table.bytes, free);
  hb_face_builder_add_table (built, hb_tag_from_string (name, 4), blob);
  hb_blob_destroy (blob);
}

static void
add_headers (hb_face_t *built, size_t glyphs, unsigned int em)
{
  written_t head = begin_table (54), maxp = begin_table (6), hhea = begin_table (36);
  put_u32 (&head, 0x10000);
  head.at = 12;
  put_u32 (&head, 0x5F0F3CF5); /* magicNumber */
  head.at = 18;
  put_u16 (&head, em);
  head.at = 50;
  put_u16 (&head, 1); /* long offsets in loca */
  put_u32 (&maxp, 0x5000);
  put_u16 (&maxp, (int64_t) glyphs);
  put_u32 (&hhea, 0x10000);
  hhea.at = HHEA_METRICS;
  put_u16 (&hhea, (int64_t) glyphs);
  add_written (built, "head", head);
  add_written (built, "maxp", maxp);
  add_written (built, "hhea", hhea);
}

static void
add_metrics (hb_face_t *built, const bare_t *bare, size_t glyphs)
{
  written_t hmtx = begin_table (HMTX_METRIC * glyphs);
  for (size_t i = 0; i < bare->num_glyphs; i++) {
    put_u16 (&hmtx, bare->glyphs[i].advance);
    put_u16 (&hmtx, bare->glyphs[i].left);
  }
  add_written (built, "hmtx", hmtx);
}

static void
put_group (written_t *cmap, uint32_t character, uint16_t glyph)
{
  put_u32 (cmap, character);
  put_u32 (cmap, character);
  put_u32 (cmap, glyph);
}

/* A subtable of format 12 (OpenType, cmap), with a group for each character. */
static void
add_characters (hb_face_t *built, const bare_t *bare)
{
  uint32_t groups = (uint32_t) bare->num_rows;
  for (uint32_t unicode = 0; unicode < END_OF_PLANE; unicode++)
    groups += bare->plane[unicode] != 0;
  written_t cmap = begin_table (12 + 16 + 12 * (size_t) groups);
  put_u32 (&cmap, 1); /* version 0, one subtable */
  put_u32 (&cmap, 3 << 16 | 10);
  put_u32 (&cmap, 12);
  put_u32 (&cmap, 12 << 16);
  put_u32 (&cmap, 16 + 12 * groups);
  put_u32 (&cmap, 0);
  put_u32 (&cmap, groups);
  for (uint32_t unicode = 0; unicode < END_OF_PLANE; unicode++)
    if (bare->plane[unicode])
      put_group (&cmap, unicode, bare->plane[unicode]);
  for (size_t i = 0; i < bare->num_rows; i++)
    put_group (&cmap, bare->rows[i].character, bare->rows[i].glyph);
  add_written (built, "cmap", cmap);
}

/* The bytes of a glyph of which only the box is there. */
#define GLYPH_HEADER 10

static void
add_boxes (hb_face_t *built, const bare_t *bare, size_t glyphs)
{
  written_t glyf = begin_table (GLYPH_HEADER * bare->num_glyphs), loca = begin_table (4 * (glyphs + 1));
  for (size_t i = 0; i <= glyphs; i++) {
    put_u32 (&loca, glyf.at);
    if (i >= bare->num_glyphs || !bare->glyphs[i].has_box)
      continue;
    put_u16 (&glyf, 1); /* contours */
    put_u16 (&glyf, bare->glyphs[i].left);
    put_u16 (&glyf, bare->glyphs[i].bottom);
    put_u16 (&glyf, bare->glyphs[i].right);
    put_u16 (&glyf, bare->glyphs[i].top);
  }
  glyf.length = glyf.at;
  add_written (built, "glyf", glyf);
  add_written (built, "loca", loca);
}

static size_t
count_glyphs (const bare_t *bare)
{
  size_t most = bare->num_glyphs ? bare->num_glyphs - 1 : 0;
  for (uint32_t unicode = 0; unicode < END_OF_PLANE; unicode++)
    most = bare->plane[unicode] > most ? bare->plane[unicode] : most;
  for (size_t i = 0; i < bare->num_rows; i++)
    most = bare->rows[i].glyph > most ? bare->rows[i].glyph : most;
  return most + 1;
}

bool
has_boxes (const bare_t *bare)
{
  return bare->has_boxes;
}

hb_blob_t *
bare_file_of (const bare_t *bare, const units_t *units)
{
  size_t glyphs = count_glyphs (bare);
  hb_face_t *built = hb_face_builder_create ();
  add_headers (built, glyphs, sized_em (units));
  add_metrics (built, bare, glyphs);
  add_characters (built, bare);
  if (bare->has_boxes)
    add_boxes (built, bare, glyphs);
  return file_of_built (built);
}
