/* Kuspveli: a text shaper that is proved right. Numbers and structs are HarfBuzz's.
 *
 *     kus_font_t font = KUS_FONT_INIT;
 *     kus_glyphs_t glyphs = KUS_GLYPHS_INIT;
 *     kus_font_create_from_bytes (&font, NULL, file, file_length, 0, KUS_FONT_DEFAULT);
 *     kus_text_t text = kus_text ("office", 6);
 *     kus_shape_glyphs (&font, &text, &glyphs);
 *     kus_glyphs_free (&glyphs);
 *     kus_font_destroy (&font);
 *
 * What the caller has to keep, and nothing checks:
 *   - No pointer is NULL, not even one with length 0 (kus_text() fills them in), but for the tables and the bytes of
 *     kus_font_create_from_bytes().
 *   - A pointer and its length are of one array, which lives during the call and which no one writes meanwhile.
 *   - What a call writes (handles, arrays with room, count, glyph, extents) overlaps nothing else that is passed to it.
 *   - A kus_font_t is KUS_FONT_INIT or what the calls left in it. It may be moved, but of two copies one alone is used.
 *     No field of it is written. The same holds of a kus_tables_t.
 *   - One call at a time for one kus_font_t, and for one kus_tables_t. A handle is empty while a call works on it, so a
 *     second thread that breaks this rule mostly gets KUS_NO_FONT or KUS_NO_TABLES; but it may also crash. A handle may
 *     move to another thread between calls; kus_font_reference gives another thread its own, over the same font.
 *   - The stack has 384 KiB left for a call that reads tables or a font, whatever they nest, 128 KiB for any other.
 *   - No call comes from a signal handler.
 *   - malloc, realloc and free are the C library's, and nothing else frees or writes what they gave to the library.
 * No call ends the process, prints, locks, calls back (but the inline kus_shape_measured), or keeps a pointer that it was
 * passed.
 */
#ifndef KUSPVELI_H
#define KUSPVELI_H

#include <stdbool.h>
#include <stddef.h>
#include <stdint.h>
#include <stdlib.h>

#ifdef __cplusplus
extern "C" {
#endif

#define KUS_VERSION_MAJOR 0
#define KUS_VERSION_MINOR 2
#define KUS_VERSION_MICRO 0

/* Tables of characters, syllables and languages, which fonts share. */
typedef struct {
  void *at;
  bool live;
} kus_tables_t;

#define KUS_TABLES_INIT { 0, false }

/* A font with its tables, and the glyphs of the last text. */
typedef struct {
  void *at;
  bool live;
} kus_font_t;

#define KUS_FONT_INIT { 0, false }

typedef uint32_t kus_status_t;

/* The faults' names are those that the programs hb_shape and kuspveli print. */
enum {
  KUS_OK = 0,
  KUS_OUT_OF_MEMORY = 1,
  /* of tables and fonts */
  KUS_NOT_JSON = 2,
  KUS_WRONG_SHAPE = 3,
  KUS_FLOAT_NUMBER = 4,
  KUS_UNKNOWN_NAME = 5,
  KUS_OUT_OF_ORDER = 6,
  KUS_OUT_OF_RANGE = 7,
  KUS_SPLIT_DEPTH = 8,
  KUS_UNLAWFUL = 9,
  /* of texts */
  KUS_NOT_UTF8 = 10,
  KUS_TOO_LONG = 12,
  KUS_STRETCH_RANGE = 13,
  KUS_UNKNOWN_SYLLABLE_KIND = 14,
  /* the handle is empty: nothing was created, or another thread's call works on it */
  KUS_NO_FONT = 16,
  KUS_NO_TABLES = 17,
  /* the last text's glyphs don't fit the text that is given, so it has no slices */
  KUS_NO_SLICES = 18,
  /* a font (JSON) was passed as tables, or tables as a font */
  KUS_OTHER_FORMAT = 19,
  /* of font files: a table, or the file, ends too early; a version or format that isn't known; numbers that fall where
   * they may not; no font with the index; a table that every font has is missing; more rows than a font may have */
  KUS_FONT_SHORT = 20,
  KUS_FONT_KIND = 21,
  KUS_FONT_ORDER = 22,
  KUS_FONT_INDEX = 23,
  KUS_FONT_MISSING = 24,
  KUS_FONT_TOO_LARGE = 25,
  /* of what a client sets: other handles share the font; the font has no advance of a glyph, or no glyph has the number; an
   * advance is above 65535; a number is no character */
  KUS_SHARED_FONT = 26,
  KUS_NO_GLYPH = 27,
  KUS_ADVANCE_RANGE = 28,
  KUS_NO_CHARACTER = 29
};

/* What of a font file is not read. Without the boxes of glyphs no glyph has one, also where marks are placed by boxes,
 * as in a font without GPOS; without their names no glyph has one. */
enum {
  KUS_FONT_DEFAULT = 0,
  KUS_FONT_WITHOUT_EXTENTS = 1,
  KUS_FONT_WITHOUT_NAMES = 2
};

/* hb_direction_t; 0 is guessed from the script, and so is any other number. */
enum {
  KUS_DIRECTION_GUESS = 0,
  KUS_DIRECTION_LTR = 4,
  KUS_DIRECTION_RTL = 5,
  KUS_DIRECTION_TTB = 6,
  KUS_DIRECTION_BTT = 7
};

/* hb_buffer_flags_t */
enum {
  KUS_FLAG_DEFAULT = 0,
  KUS_FLAG_BOT = 1,
  KUS_FLAG_EOT = 2,
  KUS_FLAG_PRESERVE_DEFAULT_IGNORABLES = 4,
  KUS_FLAG_REMOVE_DEFAULT_IGNORABLES = 8,
  KUS_FLAG_DO_NOT_INSERT_DOTTED_CIRCLE = 16,
  KUS_FLAG_PRODUCE_UNSAFE_TO_CONCAT = 64,
  KUS_FLAG_PRODUCE_SAFE_TO_INSERT_TATWEEL = 128,
  KUS_FLAG_PRODUCE_SAFE_BREAKS = 256, /* of Kuspveli alone */
  /* How the characters of the text are passed, of Kuspveli alone: in UTF-16, in UTF-32, or as kus_character_t. Of several
   * the first holds; without them the text is UTF-8. */
  KUS_FLAG_UTF16 = 0x10000,
  KUS_FLAG_UTF32 = 0x20000,
  KUS_FLAG_CHARACTERS = 0x40000
};

/* hb_buffer_cluster_level_t */
enum {
  KUS_CLUSTER_LEVEL_MONOTONE_GRAPHEMES = 0,
  KUS_CLUSTER_LEVEL_MONOTONE_CHARACTERS = 1,
  KUS_CLUSTER_LEVEL_CHARACTERS = 2,
  KUS_CLUSTER_LEVEL_GRAPHEMES = 3
};

/* hb_glyph_flags_t */
enum {
  KUS_GLYPH_FLAG_UNSAFE_TO_BREAK = 1,
  KUS_GLYPH_FLAG_UNSAFE_TO_CONCAT = 2,
  KUS_GLYPH_FLAG_SAFE_TO_INSERT_TATWEEL = 4
};

/* hb_tag_t: a feature's tag, or a script's (hb_script_t), as KUS_TAG ('D', 'e', 'v', 'a') */
#define KUS_TAG(a, b, c, d) (((uint32_t) (a) << 24) | ((uint32_t) (b) << 16) | ((uint32_t) (c) << 8) | (uint32_t) (d))

#define KUS_FEATURE_GLOBAL_START 0
#define KUS_FEATURE_GLOBAL_END ((uint32_t) -1)

/* A character, and the number of its cluster. */
typedef struct {
  uint32_t character, cluster;
} kus_character_t;

/* hb_feature_t: a value for the clusters from start on, without end. */
typedef struct {
  uint32_t tag, value, start, end;
} kus_feature_t;

/* A text, and how it is to be shaped. All lengths are in bytes.
 *
 * Without a flag for it the text is UTF-8, and a glyph's cluster is the index of a byte of it. By KUS_FLAG_UTF16 text,
 * before and after have units of 16 bits in the machine's order, by KUS_FLAG_UTF32 of 32 bits, and a cluster is the index
 * of a unit. By KUS_FLAG_CHARACTERS text has kus_character_t, each with its cluster, and before and after are UTF-32. What
 * is no character there (a surrogate without a partner, a number that is no scalar value) is U+FFFD, and a last unit that
 * is cut is left out. The ranges of features are of clusters. */
typedef struct {
  const uint8_t *text;
  size_t text_length;
  const uint8_t *before; /* the text before it and the text after it, of which five characters count */
  size_t before_length;
  const uint8_t *after;
  size_t after_length;
  const uint8_t *language; /* BCP 47; none where it is empty */
  size_t language_length;
  const kus_feature_t *features;
  size_t num_features;
  uint32_t direction, script; /* 0: guessed from the text */
  uint32_t flags, cluster_level;
} kus_text_t;

/* hb_glyph_info_t: codepoint is the glyph's number, mask has its glyph flags alone. */
typedef struct {
  uint32_t codepoint, mask, cluster, var1, var2;
} kus_glyph_info_t;

/* The advance that a client gives a glyph in a horizontal line, in font units, at most 65535. */
typedef struct {
  uint32_t glyph, advance;
} kus_glyph_advance_t;

/* HB_CODEPOINT_INVALID: no glyph */
#define KUS_CODEPOINT_INVALID ((uint32_t) -1)

/* The glyph that a client gives a character, or where the selector is not 0 a variation sequence of both;
 * KUS_CODEPOINT_INVALID where the font is to have none. */
typedef struct {
  uint32_t character, selector, glyph;
} kus_character_glyph_t;

/* hb_glyph_position_t, in font units or in the scale that is set */
typedef struct {
  int32_t x_advance, y_advance, x_offset, y_offset;
  uint32_t var;
} kus_glyph_position_t;

/* hb_font_extents_t, in font units: the ascender above the baseline, the descender below it, which is mostly negative, and
 * what is left between two lines. */
typedef struct {
  int32_t ascender, descender, line_gap;
} kus_line_metrics_t;

/* hb_glyph_extents_t, in font units; the height is negative where y grows upward. */
typedef struct {
  int32_t x_bearing, y_bearing, width, height;
} kus_glyph_extents_t;

/* A run of glyphs of one cluster, without its end, and the bytes of the text that it comes from, without their end. */
typedef struct {
  size_t first_glyph, end_glyph;
  size_t start, end;
} kus_slice_t;

/* The version of the library, as KUS_VERSION_MAJOR << 16 | KUS_VERSION_MINOR << 8 | KUS_VERSION_MICRO. */
uint32_t kus_version (void);

/* Reads tables (JSON). Tables that were there are let go; on a fault they stay. */
kus_status_t kus_tables_create (kus_tables_t *tables, const uint8_t *json, size_t json_length);

/* Makes the tables that are inside the library, those of Unicode 15.0. Tables that were there are let go; on a fault
 * they stay. */
kus_status_t kus_tables_create_default (kus_tables_t *tables);

/* Makes `other` another handle of the tables; those that `other` had are let go. On a fault both stay as they were. */
kus_status_t kus_tables_reference (kus_tables_t *tables, kus_tables_t *other);

/* Leaves KUS_TABLES_INIT. The tables are freed with their last handle and the last font over them. */
void kus_tables_destroy (kus_tables_t *tables);

/* Reads a font (JSON) over tables, which it shares. A font that was there is dropped; on a fault it stays. */
kus_status_t kus_font_create_with_tables (kus_font_t *font, kus_tables_t *tables, const uint8_t *json,
                                          size_t json_length);

/* Reads tables and a font (JSON), in this order: the font has tables of its own. A font that was there is dropped; on
 * a fault it stays. */
kus_status_t kus_font_create (kus_font_t *font, const uint8_t *tables, size_t tables_length, const uint8_t *json,
                              size_t json_length);

/* How many fonts a font file has: as many as a collection says, 1 in any other file; 0 where the bytes are no font
 * file. */
size_t kus_count_fonts (const uint8_t *bytes, size_t length);

/* Reads the font with an index (0 is the first) of a font file: TrueType or OpenType with outlines of glyf, CFF or CFF2,
 * a variable font at its default instance, or one of a collection. It shares the tables (_over), or has tables of its
 * own, those that are inside the library (_alone). `flags` (KUS_FONT_WITHOUT_..) says what is not read. Nothing of the
 * bytes is kept. A font that was there is dropped; on a fault it stays. */
kus_status_t kus_font_create_from_bytes_over (kus_font_t *font, kus_tables_t *tables, const uint8_t *bytes,
                                              size_t length, size_t index, uint32_t flags);
kus_status_t kus_font_create_from_bytes_alone (kus_font_t *font, const uint8_t *bytes, size_t length, size_t index,
                                               uint32_t flags);

/* The same over tables, or where `tables` is NULL over those that are inside the library. Where `bytes` is NULL the file
 * ends too early. */
static inline kus_status_t
kus_font_create_from_bytes (kus_font_t *font, kus_tables_t *tables, const uint8_t *bytes, size_t length, size_t index,
                            uint32_t flags)
{
  if (!bytes)
    return KUS_FONT_SHORT;
  if (tables)
    return kus_font_create_from_bytes_over (font, tables, bytes, length, index, flags);
  return kus_font_create_from_bytes_alone (font, bytes, length, index, flags);
}

/* Why kus_font_create_from_bytes() doesn't read a font with these arguments, as text: the fault's name, then the table
 * that is at fault and the offset in it (or in the file, where it is of no table), if the fault has them, as in "F1 Short
 * in glyf at 1234". The file is read once more. Writes the text as far as there is room and with no byte 0 after it, and
 * returns its length, which is less than 64; 0 where the font is read. */
size_t kus_describe_fault (const uint8_t *bytes, size_t length, size_t index, uint32_t flags, uint8_t *text,
                           size_t text_room);

/* Makes `other` another handle of the font, which shares what was read, in the same scale and with the same glyphs for
 * what is invisible or not found; a font that `other` had is dropped. On a fault both stay as they were. */
kus_status_t kus_font_reference (kus_font_t *font, kus_font_t *other);

/* Leaves KUS_FONT_INIT. What was read is freed with its last handle. */
void kus_font_destroy (kus_font_t *font);

/* Shapes a text. Glyphs and positions are written as far as there is room, *count is how many there are. Where that is
 * more than the room, kus_get_glyphs with more room gives all of them without shaping again. On a fault there are none,
 * and *count is 0. */
kus_status_t kus_shape (kus_font_t *font, const kus_text_t *text, kus_glyph_info_t *infos, size_t infos_room,
                        kus_glyph_position_t *positions, size_t positions_room, size_t *count);

/* Writes the glyphs of the last text of this handle, as far as there is room, and returns how many there are. */
size_t kus_get_glyphs (kus_font_t *font, kus_glyph_info_t *infos, size_t infos_room, kus_glyph_position_t *positions,
                       size_t positions_room);

/* Arrays of glyphs and positions, KUS_GLYPHS_INIT at first, which kus_shape_glyphs makes as large as a text needs: `count`
 * items of each. */
typedef struct {
  kus_glyph_info_t *infos;
  kus_glyph_position_t *positions;
  size_t count, room;
} kus_glyphs_t;

#define KUS_GLYPHS_INIT { 0, 0, 0, 0 }

/* Gives arrays room for so many glyphs, by realloc(); whether there was the memory. Room that is added a second time is half
 * as much again at least, so that texts of rising length don't move them each time. */
static inline bool
kus_glyphs_reserve (kus_glyphs_t *glyphs, size_t count)
{
  size_t more = glyphs->room + glyphs->room / 2, room = count < more ? more : count;
  void *infos, *positions;
  if (count <= glyphs->room)
    return true;
  if (room > (size_t) -1 / sizeof *glyphs->infos)
    return false;
  infos = realloc (glyphs->infos, room * sizeof *glyphs->infos);
  if (!infos)
    return false;
  glyphs->infos = (kus_glyph_info_t *) infos;
  positions = realloc (glyphs->positions, room * sizeof *glyphs->positions);
  if (!positions)
    return false;
  glyphs->positions = (kus_glyph_position_t *) positions;
  glyphs->room = room;
  return true;
}

/* Shapes a text as kus_shape does, and gives all its glyphs without a room to be guessed; they stay until the next call with
 * the same arrays. On a fault there are none. */
static inline kus_status_t
kus_shape_glyphs (kus_font_t *font, const kus_text_t *text, kus_glyphs_t *glyphs)
{
  size_t count = 0;
  kus_status_t status;
  glyphs->count = 0;
  if (!kus_glyphs_reserve (glyphs, 16))
    return KUS_OUT_OF_MEMORY;
  status = kus_shape (font, text, glyphs->infos, glyphs->room, glyphs->positions, glyphs->room, &count);
  if (count > glyphs->room) {
    if (!kus_glyphs_reserve (glyphs, count))
      return KUS_OUT_OF_MEMORY;
    kus_get_glyphs (font, glyphs->infos, glyphs->room, glyphs->positions, glyphs->room);
  }
  glyphs->count = count;
  return status;
}

/* Frees the arrays, and leaves KUS_GLYPHS_INIT. */
static inline void
kus_glyphs_free (kus_glyphs_t *glyphs)
{
  static const kus_glyphs_t none = KUS_GLYPHS_INIT;
  free (glyphs->infos);
  free (glyphs->positions);
  *glyphs = none;
}

/* A font keeps the room in which it shaped its longest text, for the next one. This gives back what the glyphs of the last
 * text don't need; they stay. Call it after texts much longer than those to come, or before a font is left alone. */
void kus_font_shrink (kus_font_t *font);

/* Gives glyphs advances in a horizontal line, in font units, as a client measures them (hinted ones, say): from then on
 * texts are shaped as in a font with these advances, so marks that are attached and cursive chains have them in their
 * offsets. Of a glyph that is named twice the last advance counts; the other glyphs keep theirs. The first one that can't
 * be set refuses the list: KUS_NO_GLYPH where the font has no advance of the glyph, KUS_ADVANCE_RANGE where it is above
 * 65535. Where other handles share the font, it is KUS_SHARED_FONT. Then nothing changes. The glyphs of the last text stay
 * as they are, and plans are kept. */
kus_status_t kus_font_set_advances (kus_font_t *font, const kus_glyph_advance_t *advances, size_t count);

/* Sets what an em is in the client's units on both axes (hb_font_set_scale); y may be negative. From then on positions are
 * handed out in these units, those of the last text too: an advance is rounded by itself as HarfBuzz does, and within a
 * cluster the point where each glyph is drawn is rounded once, so a mark stays on its base, whatever the advances between
 * them were rounded to. What doesn't fit 32 bits is the nearest number that does. 0 on both axes: font units, as at first.
 * What a font says of itself stays in font units. */
kus_status_t kus_font_set_scale (kus_font_t *font, int32_t x_scale, int32_t y_scale);

/* Gives characters and variation sequences glyphs, as a client's own character map has them
 * (hb_font_funcs_set_nominal_glyph_func, hb_font_funcs_set_variation_glyph_func): from then on texts are shaped as in a font
 * with this map. Of one that is named twice the last glyph counts. The first one that can't be set refuses the list:
 * KUS_NO_CHARACTER where the character or the selector is no scalar value, KUS_NO_GLYPH where the glyph is above 65535. Where
 * other handles share the font, it is KUS_SHARED_FONT. Then nothing changes. On KUS_OUT_OF_MEMORY glyphs at the front of the
 * list are set, and the same list may be given again. A character that is added moves those after it, so many are given
 * in one call. The glyphs of the last text stay as they are, and plans are kept. */
kus_status_t kus_font_set_glyphs (kus_font_t *font, const kus_character_glyph_t *glyphs, size_t count);

/* Sets the glyph of default ignorables in texts that are shaped from then on, 0 for the font's space, as at first
 * (hb_buffer_set_invisible_glyph), and that of characters that the font lacks, 0 at first (hb_buffer_set_not_found_glyph). They
 * answer KUS_NO_GLYPH for a number above 65535, and then nothing changes. */
kus_status_t kus_font_set_invisible_glyph (kus_font_t *font, uint32_t glyph);
kus_status_t kus_font_set_not_found_glyph (kus_font_t *font, uint32_t glyph);

/* The direction and the script by which the last text of this handle was shaped, set or guessed; 0 where there is
 * none. */
uint32_t kus_get_direction (kus_font_t *font);
uint32_t kus_get_script (kus_font_t *font);

/* The slices of the last text, one of UTF-8, which is passed again: each run of glyphs of one cluster, in the order of the glyphs,
 * with its bytes, which end where the next greater cluster begins. They are written as far as there is room, *count is
 * how many there are. Where the glyphs can't be traced to the text, it answers KUS_NO_SLICES: where clusters neither
 * rise nor fall, as they may at the levels that are not monotone and under the Indic shaper, where none is 0, or where
 * one is no first byte of a character. Where it answers no KUS_OK, *count is 0 and nothing is written. */
kus_status_t kus_get_slices (kus_font_t *font, const uint8_t *text, size_t text_length, kus_slice_t *slices,
                             size_t slices_room, size_t *count);

/* What a font says of itself. None of these calls changes the font or the last text's glyphs; a handle without a font
 * answers as a font that says nothing: 0 or false. */

/* The units of the em. */
uint32_t kus_font_get_upem (kus_font_t *font);

/* The height of the ascender above the baseline, in font units; 0 where the font gives none. */
int32_t kus_font_get_ascender (kus_font_t *font);

/* Whether the font's file gives metrics of lines (hb_font_get_h_extents), which are then written: of OS/2 where it prefers
 * its typographic ones, else of hhea, else of OS/2. A font of JSON has none but its ascender. */
bool kus_font_get_line_metrics (kus_font_t *font, kus_line_metrics_t *metrics);

/* Whether the font has a glyph for a character; *glyph is that glyph, else 0. */
bool kus_font_get_nominal_glyph (kus_font_t *font, uint32_t unicode, uint32_t *glyph);

/* Writes the name of a glyph, as far as there is room and with no byte 0 after it, and returns its length; 0 where the
 * font gives none. */
size_t kus_font_get_glyph_name (kus_font_t *font, uint32_t glyph, uint8_t *name, size_t name_room);

/* Whether the font gives the box of a glyph's ink, which is then written. */
bool kus_font_get_glyph_extents (kus_font_t *font, uint32_t glyph, kus_glyph_extents_t *extents);

/* The advance of a glyph in a horizontal line and in a vertical one, where it is at most 0, in font units; 0 where there is
 * no font or a glyph has no such number. */
int32_t kus_font_get_glyph_h_advance (kus_font_t *font, uint32_t glyph);
int32_t kus_font_get_glyph_v_advance (kus_font_t *font, uint32_t glyph);

/* The tags of the features, in the order of their indices (a tag may come more than once), and of the scripts of a
 * layout table, KUS_TAG ('G', 'S', 'U', 'B') or KUS_TAG ('G', 'P', 'O', 'S'), as far as there is room; they return how
 * many there are. */
size_t kus_font_get_feature_tags (kus_font_t *font, uint32_t table, uint32_t *tags, size_t tags_room);
size_t kus_font_get_script_tags (kus_font_t *font, uint32_t table, uint32_t *tags, size_t tags_room);

/* The carets inside of a ligature that the font's file gives (GDEF, LigCaretList), in font units from the glyph's origin along
 * a line and in the file's order, as far as there is room; returns how many there are. kus_get_carets uses them. As in
 * HarfBuzz with its own functions of fonts, one that names a point of the outline is 0. */
size_t kus_font_get_ligature_carets (kus_font_t *font, uint32_t glyph, int32_t *carets, size_t carets_room);

/* A client's advances by a call, which answers that of a glyph in font units. It is asked once for each glyph; what was
 * asked for is noted in `asked`, which begins with zeros. One of these is for one font, whose handle alone has it. */
typedef struct {
  uint32_t (*advance) (void *data, uint32_t glyph);
  void *data;
  uint8_t asked[8192];
} kus_measures_t;

/* Shapes a text by a client's advances: as kus_shape does, then again after glyphs came that no text before had, and whose
 * advances are others than the font's. Where *count is more than the room, glyphs without room were not asked for: more
 * room is given and the text is shaped again. It also answers what kus_font_set_advances does, and then *count is 0. */
static inline kus_status_t
kus_shape_measured (kus_font_t *font, const kus_text_t *text, kus_glyph_info_t *infos, size_t infos_room,
                    kus_glyph_position_t *positions, size_t positions_room, size_t *count, kus_measures_t *measures)
{
  kus_status_t status;
  bool is_other;
  do {
    size_t at;
    is_other = false;
    status = kus_shape (font, text, infos, infos_room, positions, positions_room, count);
    for (at = 0; status == KUS_OK && at < *count && at < infos_room; at++) {
      kus_glyph_advance_t given;
      uint8_t *asked, bit;
      given.glyph = infos[at].codepoint & 0xFFFF;
      asked = &measures->asked[given.glyph >> 3];
      bit = (uint8_t) (1 << (given.glyph & 7));
      if (*asked & bit)
        continue;
      given.advance = measures->advance (measures->data, given.glyph);
      if ((int64_t) given.advance != kus_font_get_glyph_h_advance (font, given.glyph)) {
        status = kus_font_set_advances (font, &given, 1);
        is_other = true;
      }
      if (status == KUS_OK)
        *asked |= bit;
    }
  } while (status == KUS_OK && is_other);
  if (status != KUS_OK)
    *count = 0;
  return status;
}

/* Whether a text writes a request for a feature, which is then in *feature: kern, -liga, aalt=2, "kern"[3:5]=1 and the like
 * (hb_feature_from_string). The numbers in brackets are clusters. */
bool kus_feature_from_string (const char *text, size_t length, kus_feature_t *feature);

/* The script that a tag of ISO 15924 names, in any case, as its tag; Arab for Aran, Zzzz for what is no such tag, 0 for 0
 * (hb_script_from_iso15924_tag). */
uint32_t kus_script_from_iso15924_tag (uint32_t tag);

/* The tag of the first four bytes of a text, filled with spaces; 0 for no bytes (hb_tag_from_string). */
static inline uint32_t
kus_tag_from_string (const char *text, size_t length)
{
  uint32_t tag = 0;
  size_t at, count = 0;
  if (!text)
    return 0;
  while (count < length && count < 4 && text[count])
    count++;
  for (at = 0; count && at < 4; at++)
    tag = tag << 8 | (at < count ? (uint8_t) text[at] : (uint8_t) ' ');
  return tag;
}

/* Writes the four bytes of a tag, with no byte 0 after them (hb_tag_to_string). */
static inline void
kus_tag_to_string (uint32_t tag, char text[4])
{
  int at;
  for (at = 0; at < 4; at++)
    text[at] = (char) (uint8_t) (tag >> (24 - 8 * at));
}

/* The script that a text names by a tag of ISO 15924, 0 for no bytes (hb_script_from_string). */
static inline uint32_t
kus_script_from_string (const char *text, size_t length)
{
  return kus_script_from_iso15924_tag (kus_tag_from_string (text, length));
}

/* The direction that the first letter of a text names, in any case: ltr, rtl, ttb, btt; KUS_DIRECTION_GUESS for any other
 * text (hb_direction_from_string). */
static inline uint32_t
kus_direction_from_string (const char *text, size_t length)
{
  switch (text && length ? text[0] : 0) {
  case 'l': case 'L': return KUS_DIRECTION_LTR;
  case 'r': case 'R': return KUS_DIRECTION_RTL;
  case 't': case 'T': return KUS_DIRECTION_TTB;
  case 'b': case 'B': return KUS_DIRECTION_BTT;
  default: return KUS_DIRECTION_GUESS;
  }
}

/* The name of a direction: "ltr", "rtl", "ttb" or "btt", else "invalid" (hb_direction_to_string). */
static inline const char *
kus_direction_to_string (uint32_t direction)
{
  switch (direction) {
  case KUS_DIRECTION_LTR: return "ltr";
  case KUS_DIRECTION_RTL: return "rtl";
  case KUS_DIRECTION_TTB: return "ttb";
  case KUS_DIRECTION_BTT: return "btt";
  default: return "invalid";
  }
}

/* A text in UTF-8 with all settings to be guessed; `utf8` may be NULL where `length` is 0. */
static inline kus_text_t
kus_text (const char *utf8, size_t length)
{
  static const kus_feature_t no_feature = { 0, 0, 0, 0 };
  const uint8_t *nothing = (const uint8_t *) "";
  kus_text_t text;
  text.text = utf8 ? (const uint8_t *) utf8 : nothing;
  text.text_length = length;
  text.before = nothing;
  text.before_length = 0;
  text.after = nothing;
  text.after_length = 0;
  text.language = nothing;
  text.language_length = 0;
  text.features = &no_feature;
  text.num_features = 0;
  text.direction = KUS_DIRECTION_GUESS;
  text.script = 0;
  text.flags = KUS_FLAG_DEFAULT;
  text.cluster_level = KUS_CLUSTER_LEVEL_MONOTONE_GRAPHEMES;
  return text;
}

/* A text in UTF-16, with the length in units; `utf16` may be NULL where it is 0. More flags are added by |=. */
static inline kus_text_t
kus_text_utf16 (const uint16_t *utf16, size_t length)
{
  kus_text_t text = kus_text ((const char *) utf16, length * sizeof *utf16);
  text.flags = KUS_FLAG_UTF16;
  return text;
}

/* The same in UTF-32. */
static inline kus_text_t
kus_text_utf32 (const uint32_t *utf32, size_t length)
{
  kus_text_t text = kus_text ((const char *) utf32, length * sizeof *utf32);
  text.flags = KUS_FLAG_UTF32;
  return text;
}

/* The same of characters with clusters of the caller's own, which should rise, or fall. */
static inline kus_text_t
kus_text_characters (const kus_character_t *characters, size_t length)
{
  kus_text_t text = kus_text ((const char *) characters, length * sizeof *characters);
  text.flags = KUS_FLAG_CHARACTERS;
  return text;
}

static inline const char *
kus_status_name (kus_status_t status)
{
  static const char *const names[] = {
    "OK",          "OutOfMemory", "J1 NotJson",    "J2 WrongShape", "J3 FloatNumber",  "J4 UnknownName",
    "U1 OutOfOrder", "U2 OutOfRange", "U3 SplitDepth", "Unlawful",      "NotUtf8",         "?",
    "S2 TooLong",  "S3 StretchRange", "S4 UnknownSyllableKind", "?", "NoFont",
    "NoTables", "NoSlices", "OtherFormat", "F1 Short", "F2 Kind", "F3 Order", "F4 Index", "F5 Missing", "F6 TooLarge",
    "SharedFont", "NoGlyph", "AdvanceRange", "NoCharacter"
  };
  static const char *const of_lines[] = { "TooManyGlyphs", "ClustersOutOfOrder", "InvalidBreaks", "InvalidStops" };
  if (30 <= status && status < 34)
    return of_lines[status - 30];
  return status < sizeof names / sizeof *names ? names[status] : "?";
}

/* Lines and carets of the last text of a handle. They count in what its clusters count in: bytes of UTF-8, units of UTF-16
 * or UTF-32, or the caller's own numbers; `end` is how many of them the text has. Widths and positions are in font units,
 * whatever the scale.
 * Neither call changes the font or the text's glyphs. They answer KUS_NO_FONT, KUS_OUT_OF_MEMORY and these; where it is no
 * KUS_OK, *count is 0 and nothing is written. */
enum {
  /* 2^31 glyphs or more for lines, 2^32 for carets */
  KUS_TOO_MANY_GLYPHS = 30,
  /* clusters neither rise nor, from right to left or upward, fall, as they may at the levels that are not monotone */
  KUS_CLUSTERS_OUT_OF_ORDER = 31,
  /* an index at which a line may end is not after 0 and the one before it, or is past the end of the text */
  KUS_INVALID_BREAKS = 32,
  /* the same of an index at which a caret may stand */
  KUS_INVALID_STOPS = 33
};

/* A line: its units, without their end; its width, downward on a vertical line; and the text's glyphs of these units,
 * without their end, which are its own where breaks at both its ends are safe: they are those that shaping the line alone
 * gives, if the text was shaped with KUS_FLAG_PRODUCE_SAFE_BREAKS. Else they are 0, and the line has to be shaped again,
 * between the texts before and after it. */
typedef struct {
  size_t start, end;
  int64_t width;
  size_t first_glyph, end_glyph;
  bool is_own;
} kus_line_t;

/* A caret: the index of the unit before which it stands, and its position from the left end of the text's glyphs, or from
 * the upper one on a vertical line, where it is mostly negative. */
typedef struct {
  size_t index;
  int64_t position;
} kus_caret_t;

/* Cuts the text into lines, which are written as far as there is room, *count is how many there are. A line may end at each
 * of `breaks`, which rise (those of UAX 14), and at the end of the text. It takes the pieces between these as long as they
 * fit `width`, spaces at its end too, and one at least. The first line fits `first_width` instead, for a text that goes on
 * in a line of other ones: where even its first piece is wider, a new line is begun for the text, and it is cut again. */
kus_status_t kus_cut_lines (kus_font_t *font, size_t end, const size_t *breaks, size_t num_breaks, int64_t first_width,
                            int64_t width, kus_line_t *lines, size_t lines_room, size_t *count);

/* What has to hold of a font and its tables for safe breaks to be promised, a bit for each: the tables are lawful; what stands
 * for a character keeps marks, joining types, and in private forms of Thai marks. */
enum {
  KUS_BREAK_PREMISE_LAWFUL = 1u << 0,
  KUS_BREAK_PREMISE_MARKS = 1u << 1,
  KUS_BREAK_PREMISE_TYPES = 1u << 2,
  KUS_BREAK_PREMISE_PRIVATE_MARKS = 1u << 3
};

/* Which of these hold of a font, 0 where there is none. It tests all characters of Unicode: call it once for a font, and
 * anew after kus_font_set_glyphs. */
uint32_t kus_font_get_break_premises (kus_font_t *font);

/* Of lines that kus_cut_lines gave of a text it leaves is_own only to those of which the law of safe breaks speaks: the
 * text may be cut before such a line, and what is left of it after the line; the others have no glyphs then. Three premises
 * it doesn't test: no word is stretched by tiles, the text's direction is its script's, and its merges and nested lookups are
 * within the law's limits. `text` is the text that was shaped, with its settings, `premises` what
 * kus_font_get_break_premises answered: a bit that it didn't answer promises nothing. Of the shapers that find syllables it
 * leaves none, but for a text of one line. Beside OK it answers KUS_NO_FONT, KUS_OUT_OF_MEMORY, KUS_NOT_UTF8 and KUS_TOO_LONG, and then changes no line. */
kus_status_t kus_check_lines (kus_font_t *font, uint32_t premises, const kus_text_t *text, kus_line_t *lines,
                              size_t num_lines);

/* The carets of the text, in its order, which are written as far as there is room, *count is how many there are: one before
 * each cluster and one at the end of the text; and one at each of `stops` inside of a cluster, which rise (where UAX 29 lets
 * a caret stand), as between the letters of a ligature. There it stands where the font's file says (GDEF), on a horizontal
 * line and if that says it for as many carets as there are stops; else the stops divide the cluster's width evenly. Where the
 * glyphs can't be traced to the text it answers KUS_NO_SLICES, as for the text without glyphs. The
 * carets of a line are those of its units, less the position of that at its left end. */
kus_status_t kus_get_carets (kus_font_t *font, size_t end, const size_t *stops, size_t num_stops, kus_caret_t *carets,
                             size_t carets_room, size_t *count);

#ifdef __cplusplus
}
#endif

#endif
