/* What the files of the shared object share. README.md says what it does, and which file does what. */
#ifndef KUSPVELI_INSTEAD_H
#define KUSPVELI_INSTEAD_H

#include <hb-ot.h>
#include <hb.h>
#include <stdbool.h>
#include <stddef.h>
#include <stdint.h>

#include "kuspveli.h"

/* Marks the calls of HarfBuzz that this object defines in front of libharfbuzz's: all else in it is hidden. */
#define IN_FRONT __attribute__ ((visibility ("default")))

/* ---- libharfbuzz's own calls behind those in front of them (calls.c) */

typedef struct {
  hb_bool_t (*shape_full) (hb_font_t *, hb_buffer_t *, const hb_feature_t *, unsigned int, const char *const *);
  hb_bool_t (*shape_plan_execute) (hb_shape_plan_t *, hb_font_t *, hb_buffer_t *, const hb_feature_t *, unsigned int);
  void (*add) (hb_buffer_t *, hb_codepoint_t, unsigned int);
  void (*add_utf8) (hb_buffer_t *, const char *, int, unsigned int, int);
  void (*add_utf16) (hb_buffer_t *, const uint16_t *, int, unsigned int, int);
  void (*add_utf32) (hb_buffer_t *, const uint32_t *, int, unsigned int, int);
  void (*add_latin1) (hb_buffer_t *, const uint8_t *, int, unsigned int, int);
  void (*add_codepoints) (hb_buffer_t *, const hb_codepoint_t *, int, unsigned int, int);
  void (*append) (hb_buffer_t *, const hb_buffer_t *, unsigned int, unsigned int);
  void (*clear_contents) (hb_buffer_t *);
  void (*reset) (hb_buffer_t *);
  hb_bool_t (*set_length) (hb_buffer_t *, unsigned int);
  void (*set_message_func) (hb_buffer_t *, hb_buffer_message_func_t, void *, hb_destroy_func_t);
} real_calls_t;

const real_calls_t *real_calls (void);

/* ---- why a text is left to libharfbuzz (report.c has their sentences) */

typedef enum {
  SHAPED, /* it isn't */
  NO_CHARACTERS,
  NO_DIRECTION,
  OTHER_SHAPER,
  MESSAGES,
  NO_TABLES,
  GRAPHITE,
  APPLE,
  INSTANCE,
  NO_SCALAR_VALUE,
  CLUSTERS_FALL,
  OTHER_GLYPH,
  SMALL_STACK,
  NO_MEMORY,
  OF_FONT, /* and the status of reading the font */
  OF_TEXT = OF_FONT + 32, /* and the status of shaping the text */
  NUM_REASONS = OF_TEXT + 32
} reason_t;

/* ---- what a buffer has around its text, which libharfbuzz doesn't tell (contexts.c) */

#define CONTEXT_LENGTH 5

typedef struct {
  hb_codepoint_t before[CONTEXT_LENGTH], after[CONTEXT_LENGTH]; /* outward from the text */
  unsigned int num_before, num_after;
  bool has_messages; /* a function that is told of each step of shaping */
} context_t;

/* NULL where the buffer has nothing around its text. */
const context_t *context_of (hb_buffer_t *buffer);

/* ---- the fonts of a face (faces.c) */

/* A face's font is read as far as a text needs it: the boxes of outlines in CFF take most of the time. */
typedef enum { WITHOUT_BOXES, WITH_BOXES, NUM_KINDS } kind_t;

/* One thread's handles of a face's fonts, of which those are empty that it didn't need yet. */
typedef struct handle {
  struct handle *next;
  kus_font_t fonts[NUM_KINDS];
} handle_t;

typedef struct face_font face_font_t;

/* Around each call that uses what follows: a child that is forked meanwhile leaves its parent's fonts alone. */
void enter_call (void);
void leave_call (void);

/* What is kept with a face; NULL where nothing can be. */
face_font_t *face_font_of (hb_face_t *face);

/* A handle for one call; NULL where memory is short. */
handle_t *borrow_handle (face_font_t *owner);
void return_handle (face_font_t *owner, handle_t *handle);

/* Has the handle have a font, which is read where it wasn't yet; or why it can't. */
reason_t open_font (hb_face_t *face, face_font_t *owner, handle_t *handle, kind_t kind);

/* Reads a font file; or why it can't. */
reason_t read_font_file (kus_font_t *font, const uint8_t *bytes, size_t length, unsigned int index, uint32_t flags);

/* Whether the face has no table that Kuspveli reads. */
bool is_bare (const face_font_t *owner);

/* Whether the font has rules of Graphite. */
bool has_graphite (const face_font_t *owner);

/* Whether the font's GPOS applies to a script; one of its fonts is open. Else marks are placed by boxes. */
bool applies_gpos (const face_font_t *owner, hb_script_t script);

/* The advance of a glyph by the table hmtx, in font units. */
int table_advance (const face_font_t *owner, hb_codepoint_t glyph);

/* Whether an advance of the font may not depend on hmtx, since a cursive attachment sets it. */
bool has_cursive (const face_font_t *owner);

/* Whether this thread's stack has so many bytes left. */
bool has_stack (size_t needed);

/* ---- a client's units (values.c) */

/* A font's values have 16 bits. Where those in a client's units have more, two fonts have their lower and their higher
 * bits: positions are sums of values, so those by the whole are the sums of those by both. */
typedef enum { WHOLE, LOW, HIGH } fraction_t;

/* The units of a client's font. 2^shift of the font that Kuspveli reads are one of them, so that an offset between two
 * anchors is rounded once. */
typedef struct {
  int x_scale, y_scale, shift;
  fraction_t fraction;
  unsigned int upem, x_ppem, y_ppem;
  const int *coordinates; /* of an instance of a variable font, normalized */
  unsigned int num_coordinates;
} units_t;

int64_t fraction_of (fraction_t fraction, int64_t value);

/* The whole of both. */
int64_t joined (int64_t low, int64_t high);

/* 65536 times what a font unit is in the client's, as libharfbuzz has it. */
int64_t multiplier (int scale, unsigned int upem);

/* Rounds as hb_font_t::em_mult does. */
hb_position_t scaled (int64_t units, int64_t by);

/* Positions of the client in the units of the font that Kuspveli reads, and back. */
int64_t finer (const units_t *units, int64_t position);
int64_t coarser (const units_t *units, int64_t position);

/* What an instance adds to values (variations.c). */
typedef struct variations variations_t;

variations_t *new_variations (hb_face_t *face, const units_t *units);
void free_variations (variations_t *variations);

/* The sum for two indices of a device table, in font units. */
float variation_of (const variations_t *variations, unsigned int outer, unsigned int inner);

/* A copy of a face's GPOS or kern with its values in these units; NULL where they don't fit, or memory is short. */
hb_blob_t *scaled_table (hb_face_t *face, hb_tag_t tag, const units_t *units);

/* ---- fonts of what a client's functions answer (bare.c) */

typedef struct bare bare_t;

bare_t *new_bare (hb_font_t *font);
void free_bare (bare_t *bare);

/* These tell whether an answer is another one than before; false where one doesn't fit, or memory is short. */
bool set_bare_characters (bare_t *bare, hb_font_t *font, const kus_character_t *characters, size_t count,
                          bool *is_changed);
bool set_bare_advances (bare_t *bare, const units_t *units, const kus_glyph_info_t *infos,
                        const hb_position_t *advances, size_t count, bool *is_changed);
void set_bare_boxes (bare_t *bare, hb_font_t *font, const units_t *units, const kus_glyph_info_t *infos, size_t count,
                     bool *is_changed);

bool has_boxes (const bare_t *bare);
hb_blob_t *bare_file_of (const bare_t *bare, const units_t *units);

/* ---- fonts in a client's units (sized.c) */

typedef struct sized sized_t;
typedef struct call call_t;

/* A font of a face in a client's units, which is made where that is asked for; NULL where there is none. */
sized_t *borrow_sized (hb_face_t *face, face_font_t *owner, const units_t *units, bool is_made);
void return_sized (face_font_t *owner, sized_t *sized);
void free_all_sized (sized_t *first);

/* One of its fonts, which is read where its advances are others than when it was read; NULL where it can't be. */
kus_font_t *open_sized (sized_t *sized, size_t at);
const units_t *units_of_sized (const sized_t *sized);

/* Whether it has a second font, of higher bits. */
bool is_split (const sized_t *sized);

/* The same of a face without tables, which has what the client answers for characters; and the boxes of glyphs. */
sized_t *borrow_bare (call_t *call, const units_t *units);
void set_boxes (sized_t *sized, const call_t *call);

typedef enum { SAME_ADVANCES, OTHER_ADVANCES, NO_ADVANCES } setting_t;

/* Gives the text's glyphs the client's advances: whether the font had them, has others now, or can't have them. */
setting_t set_advances (const call_t *call, sized_t *sized);

/* Whether a font of what the client answers is to be read again. */
bool is_stale (const sized_t *sized);

/* The fonts that no thread uses (faces.c has the lock for them). */
sized_t **sized_of (face_font_t *owner);
void lock_fonts (face_font_t *owner);
void unlock_fonts (face_font_t *owner);

/* ---- font files (sfnt.c) */

#define HHEA_METRICS 34 /* where numberOfHMetrics begins */
#define HMTX_METRIC 4   /* the bytes of advanceWidth and lsb */

/* The font file of a face: that which the face was made of, else one of the tables that it hands out. */
hb_blob_t *font_file_of (hb_face_t *face, unsigned int *index);

bool has_tables (hb_face_t *face);

/* A font file of a face's tables in a client's units, without outlines, with the advances of hmtx; NULL where it can't
 * be. */
hb_blob_t *sized_file_of (hb_face_t *face, const face_font_t *owner, const units_t *units);

/* The font file of a face that was built, which is freed. */
hb_blob_t *file_of_built (hb_face_t *built);

/* head.unitsPerEm of a font in a client's units. */
unsigned int sized_em (const units_t *units);

/* Where hmtx begins in a font file. */
size_t metrics_in (const uint8_t *bytes, size_t length);

/* ---- a call (shape.c) */

struct call {
  hb_font_t *font;
  hb_face_t *face;
  hb_buffer_t *buffer;
  hb_segment_properties_t properties;
  face_font_t *owner;
  handle_t *handle;
  kus_font_t *own_font;
  kus_character_t *characters;
  size_t num_characters;
  bool is_rising;          /* no cluster is less than the one before */
  hb_codepoint_t *missing; /* of each character the client's glyph where the font has none; NULL where there is none */
  kus_text_t text;
  /* The font by which the text was shaped, where that is in the client's units; NULL where it is in font units. */
  sized_t *sized;
  kus_glyph_info_t *infos; /* var1 tells which are default ignorables that the client's invisible glyph shows */
  kus_glyph_position_t *positions, *higher; /* the latter by the second font of `sized` */
  size_t room, count;
  hb_position_t *advances; /* the client's of each glyph in a horizontal line */
  /* What the client is given, in its units. */
  hb_glyph_info_t *client_infos;
  hb_glyph_position_t *client_positions;
};

reason_t shape_instead (hb_font_t *font, hb_buffer_t *buffer, const hb_feature_t *features, unsigned int num_features,
                        bool by_graphite);

/* The font by which the text is shaped; NULL where it can't be read. */
kus_font_t *font_of_call (const call_t *call);

/* The index of the first character of a cluster or of a greater one, where clusters rise. */
size_t character_at (const call_t *call, uint32_t cluster);

/* ---- what the client's font functions and settings change (client.c) */

/* Before shaping: the client's glyph for each character of which the font has none. */
reason_t find_client_glyphs (call_t *call);

units_t client_units (hb_font_t *font);

/* Whether the font is an instance of a variable font away from its default. */
bool is_instance (hb_font_t *font);

/* Whether glyphs depend on widths otherwise than by sums: a space that the font lacks is a part of an em, and a mark is
 * stretched over a word. Such a text isn't shaped in the client's units. */
bool compares_widths (const call_t *call);

/* After shaping in font units: whether the client's units or advances are others, and positions have sums of them. */
bool needs_units (const call_t *call);

/* After shaping: glyphs and positions for the client. */
void fill_client_infos (call_t *call);
void fill_client_positions (call_t *call);

/* ---- what is told at the end (report.c) */

typedef enum {
  CLIENT_ADVANCES,
  CLIENT_UNITS,
  CLIENT_ORIGINS,
  MISSING_GLYPHS,
  SLANTED,
  NUM_PATCHES
} patch_t;

typedef enum { EQUAL, NEAR, FLAGS, CLUSTERS, POSITIONS, GLYPHS, NUM_DIFFERENCES } difference_t;

void count_call (reason_t reason, size_t characters);
void count_patch (patch_t patch);
void count_font (uint64_t nanoseconds);
void count_difference (difference_t difference);
const char *difference_name (difference_t difference);
const char *program_name (void);

/* The processor time of this thread in nanoseconds. */
uint64_t now (void);

/* Appends a line to a file in one write, so that those of several processes don't mix. */
void append_line (const char *file, const char *line, size_t length);

/* ---- shaping by both (compare.c) */

/* The file to which differences are written; NULL where nothing is compared. */
const char *compare_file (void);

hb_buffer_t *copy_of (hb_buffer_t *buffer);

/* Shapes the copy by libharfbuzz, and writes where the buffer, which Kuspveli shaped, differs from it. */
void compare (hb_font_t *font, hb_buffer_t *buffer, hb_buffer_t *copy, const hb_feature_t *features,
              unsigned int num_features, const char *const *shapers);

#endif
