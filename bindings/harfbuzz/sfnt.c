/* Font files in memory, made of the tables that a face hands out. */
#include <stdlib.h>

#include "instead.h"
#include "sfnt.h"

/* The tables that Kuspveli reads, and those by which it refuses a font. */
static const char tags[] = "head" "maxp" "hhea" "hmtx" "vhea" "vmtx" "OS/2" "VORG" "cmap" "post" "GDEF" "GSUB" "GPOS"
                           "kern" "glyf" "loca" "CFF " "CFF2" "fvar";

#define TAG_LENGTH 4
#define HHEA_LENGTH 36

bool
has_tables (hb_face_t *face)
{
  bool is_there = false;
  for (const char *at = tags; *at && !is_there; at += TAG_LENGTH) {
    hb_blob_t *table = hb_face_reference_table (face, hb_tag_from_string (at, TAG_LENGTH));
    is_there = hb_blob_get_length (table);
    hb_blob_destroy (table);
  }
  return is_there;
}

/* A face that is built of another's tables, but for those of which `without` says so. */
static hb_face_t *
built_face (hb_face_t *face, bool (*without) (hb_tag_t))
{
  hb_face_t *built = hb_face_builder_create ();
  for (const char *at = tags; *at; at += TAG_LENGTH) {
    hb_tag_t tag = hb_tag_from_string (at, TAG_LENGTH);
    if (without && without (tag))
      continue;
    hb_blob_t *table = hb_face_reference_table (face, tag);
    if (hb_blob_get_length (table))
      hb_face_builder_add_table (built, tag, table);
    hb_blob_destroy (table);
  }
  return built;
}

hb_blob_t *
file_of_built (hb_face_t *built)
{
  hb_blob_t *file = hb_face_reference_blob (built);
  hb_face_destroy (built);
  return file;
}

hb_blob_t *
font_file_of (hb_face_t *face, unsigned int *index)
{
  hb_blob_t *file = hb_face_reference_blob (face);
  *index = hb_face_get_index (face) & 0xFFFF; /* FreeType has a named instance above */
  if (hb_blob_get_length (file))
    return file;
  hb_blob_destroy (file);
  *index = 0;
  return has_tables (face) ? file_of_built (built_face (face, NULL)) : hb_blob_get_empty ();
}

/* ---- fonts in a client's units */

#define HEAD_LENGTH 54
#define HEAD_UPEM 18
#define LEAST_EM 16
#define MOST_EM 16384

/* The tables that are made anew, and those that such a font doesn't need: no box of an outline is read. */
static bool
is_changed (hb_tag_t tag)
{
  static const char changed[] = "head" "hhea" "hmtx" "GPOS" "kern" "vhea" "vmtx" "VORG" "post" "glyf" "loca" "CFF "
                                "CFF2";
  for (const char *at = changed; *at; at += TAG_LENGTH)
    if (tag == hb_tag_from_string (at, TAG_LENGTH))
      return true;
  return false;
}

/* A copy of a table of at least so many bytes with another word in it; an empty one where it is shorter. */
static hb_blob_t *
table_with (hb_face_t *face, hb_tag_t tag, unsigned int least, unsigned int at, unsigned int value)
{
  hb_blob_t *table = hb_face_reference_table (face, tag), *copy = hb_blob_copy_writable_or_fail (table);
  hb_blob_destroy (table);
  unsigned int length = 0;
  char *bytes = copy ? hb_blob_get_data_writable (copy, &length) : NULL;
  if (bytes && length >= least) {
    put_word ((uint8_t *) bytes + at, value);
    return copy;
  }
  hb_blob_destroy (copy);
  return hb_blob_get_empty ();
}

/* The advances of hmtx in finer units, a row for each glyph; NULL where they don't fit. */
static hb_blob_t *
sized_hmtx (const face_font_t *owner, const units_t *units, unsigned int glyphs)
{
  uint8_t *bytes = calloc (glyphs + 1, HMTX_METRIC);
  bool fits = bytes;
  for (unsigned int glyph = 0; fits && glyph < glyphs; glyph++) {
    int64_t advance = scaled (table_advance (owner, glyph), multiplier (units->x_scale, units->upem));
    advance = fraction_of (units->fraction, finer (units, advance));
    fits = 0 <= advance && advance <= UINT16_MAX;
    put_word (bytes + HMTX_METRIC * glyph, advance);
  }
  if (fits)
    return hb_blob_create ((char *) bytes, glyphs * HMTX_METRIC, HB_MEMORY_MODE_WRITABLE, bytes, free);
  free (bytes);
  return NULL;
}

unsigned int
sized_em (const units_t *units)
{
  int64_t em = finer (units, units->x_scale);
  return em < LEAST_EM ? LEAST_EM : em > MOST_EM ? MOST_EM : (unsigned int) em;
}

/* Adds a table, which it owns; one that is missing is none. */
static void
add_table (hb_face_t *built, hb_tag_t tag, hb_blob_t *table)
{
  if (hb_blob_get_length (table))
    hb_face_builder_add_table (built, tag, table);
  hb_blob_destroy (table);
}

hb_blob_t *
sized_file_of (hb_face_t *face, const face_font_t *owner, const units_t *units)
{
  unsigned int glyphs = hb_face_get_glyph_count (face);
  hb_blob_t *gpos = scaled_table (face, HB_OT_TAG_GPOS, units);
  hb_blob_t *kern = scaled_table (face, HB_TAG ('k', 'e', 'r', 'n'), units);
  hb_blob_t *hmtx = sized_hmtx (owner, units, glyphs), *file = NULL;
  if (gpos && kern && hmtx) {
    hb_face_t *built = built_face (face, is_changed);
    add_table (built, HB_OT_TAG_GPOS, hb_blob_reference (gpos));
    add_table (built, HB_TAG ('k', 'e', 'r', 'n'), hb_blob_reference (kern));
    add_table (built, HB_TAG ('h', 'm', 't', 'x'), hb_blob_reference (hmtx));
    add_table (built, HB_TAG ('h', 'h', 'e', 'a'),
               table_with (face, HB_TAG ('h', 'h', 'e', 'a'), HHEA_LENGTH, HHEA_METRICS, glyphs));
    add_table (built, HB_TAG ('h', 'e', 'a', 'd'),
               table_with (face, HB_TAG ('h', 'e', 'a', 'd'), HEAD_LENGTH, HEAD_UPEM, sized_em (units)));
    file = file_of_built (built);
  }
  hb_blob_destroy (gpos);
  hb_blob_destroy (kern);
  hb_blob_destroy (hmtx);
  return file;
}

#define RECORDS 12 /* where the records of tables begin, and what each takes */
#define RECORD 16

size_t
metrics_in (const uint8_t *bytes, size_t length)
{
  sfnt_t file = { bytes, length };
  for (size_t at = RECORDS; at + RECORD <= length && at < RECORDS + RECORD * 256; at += RECORD)
    if (long_word (file, at) == HB_TAG ('h', 'm', 't', 'x'))
      return long_word (file, at + 8) <= length ? long_word (file, at + 8) : 0;
  return 0;
}
