/* What a client's font functions and settings change. Kuspveli reads a font file alone, so it is added here to what it
 * shaped: advances, scale, origins of vertical text, glyphs of characters that the font lacks, and the slant of HarfBuzz.
 * Where positions have sums of advances or of scaled values, as those of marks have, the text is shaped by a font in the
 * client's units (sized.c). */
#include <math.h>
#include <stdlib.h>

#include "instead.h"

/* ---- glyphs */

static bool
add_missing (call_t *call, size_t at, hb_codepoint_t glyph)
{
  if (!call->missing)
    call->missing = calloc (call->num_characters, sizeof *call->missing);
  if (call->missing)
    call->missing[at] = glyph;
  return call->missing;
}

reason_t
find_client_glyphs (call_t *call)
{
  for (size_t i = 0; i < call->num_characters; i++) {
    hb_codepoint_t unicode = call->characters[i].character, theirs = 0;
    uint32_t own = 0;
    bool is_theirs = hb_font_get_nominal_glyph (call->font, unicode, &theirs);
    bool is_own = kus_font_get_nominal_glyph (call->own_font, unicode, &own);
    if (is_own && (!is_theirs || own != theirs))
      return OTHER_GLYPH;
    /* A client may give a glyph and say that there is none. */
    if (!is_own && theirs && !add_missing (call, i, theirs))
      return NO_MEMORY;
  }
  return call->missing && !call->is_rising ? CLUSTERS_FALL : SHAPED;
}

/* A run of glyphs of one cluster, without its end, and the characters of the cluster, without their end. */
typedef struct {
  size_t first_glyph, end_glyph, first, end;
} run_t;

static run_t
run_from (const call_t *call, size_t at)
{
  uint32_t cluster = call->infos[at].cluster;
  run_t run = { at, at + 1, character_at (call, cluster), call->num_characters };
  while (run.end_glyph < call->count && call->infos[run.end_glyph].cluster == cluster)
    run.end_glyph++;
  return run;
}

/* Finds the end of a run's characters: where those of the next cluster begin, which a neighbour has. */
static void
find_end (const call_t *call, run_t *run)
{
  uint32_t cluster = call->infos[run->first_glyph].cluster;
  if (run->end_glyph < call->count && call->infos[run->end_glyph].cluster > cluster)
    run->end = character_at (call, call->infos[run->end_glyph].cluster);
  if (run->first_glyph && call->infos[run->first_glyph - 1].cluster > cluster) {
    size_t end = character_at (call, call->infos[run->first_glyph - 1].cluster);
    run->end = end < run->end ? end : run->end;
  }
}

/* Gives the glyphs of a run that stand for characters which the font lacks the client's glyphs of these, in their order. */
static void
replace_missing (call_t *call, run_t run)
{
  bool is_backward = HB_DIRECTION_IS_BACKWARD (call->properties.direction), is_replaced = false;
  hb_codepoint_t not_found = hb_buffer_get_not_found_glyph (call->buffer);
  size_t next = run.first;
  for (size_t i = run.first_glyph; i < run.end_glyph; i++) {
    hb_glyph_info_t *info = &call->client_infos[is_backward ? run.end_glyph - 1 - (i - run.first_glyph) : i];
    if (info->codepoint != not_found)
      continue;
    while (next < run.end && !call->missing[next])
      next++;
    if (next < run.end) {
      info->codepoint = call->missing[next++];
      is_replaced = true;
    }
  }
  if (is_replaced)
    count_patch (MISSING_GLYPHS);
}

static bool
is_hidden (const call_t *call, size_t at)
{
  return call->infos[at].var1;
}

void
fill_client_infos (call_t *call)
{
  hb_codepoint_t invisible = hb_buffer_get_invisible_glyph (call->buffer);
  for (size_t at = 0; at < call->count;) {
    run_t run = run_from (call, at);
    for (; at < run.end_glyph; at++)
      call->client_infos[at] = (hb_glyph_info_t){
        .codepoint = is_hidden (call, at) ? invisible : call->infos[at].codepoint,
        .mask = call->infos[at].mask,
        .cluster = call->infos[at].cluster,
      };
    if (!call->missing)
      continue;
    find_end (call, &run);
    replace_missing (call, run);
  }
}

/* ---- scale */

typedef struct {
  int64_t x, y; /* 65536 times what a font unit is in the client's */
} scale_t;

units_t
client_units (hb_font_t *font)
{
  units_t units = { .upem = hb_face_get_upem (hb_font_get_face (font)) };
  hb_font_get_scale (font, &units.x_scale, &units.y_scale);
  hb_font_get_ppem (font, &units.x_ppem, &units.y_ppem);
  const int *coordinates = hb_font_get_var_coords_normalized (font, &units.num_coordinates);
  unsigned int count = units.num_coordinates;
  while (count && !coordinates[count - 1])
    count--;
  units.coordinates = coordinates;
  units.num_coordinates = count;
  return units;
}

#define ABBREVIATION_MARK 0x70F /* of Syriac, which is stretched over a word */

static bool
is_wide_space (uint32_t unicode)
{
  return (0x2000 <= unicode && unicode <= 0x200A) || unicode == 0x202F || unicode == 0x205F || unicode == 0x3000;
}

bool
compares_widths (const call_t *call)
{
  for (size_t i = 0; i < call->num_characters; i++) {
    uint32_t unicode = call->characters[i].character, glyph;
    if (unicode == ABBREVIATION_MARK)
      return true;
    if (is_wide_space (unicode) && !kus_font_get_nominal_glyph (call->own_font, unicode, &glyph))
      return true;
  }
  return false;
}

bool
is_instance (hb_font_t *font)
{
  return client_units (font).num_coordinates;
}

static scale_t
scale_of (hb_font_t *font)
{
  units_t units = client_units (font);
  return (scale_t){ multiplier (units.x_scale, units.upem), multiplier (units.y_scale, units.upem) };
}

/* ---- advances along a line, and offsets that depend on them */

/* The table's advance of a glyph, in font units. */
static int
advance_before (const call_t *call, size_t at)
{
  return table_advance (call->owner, call->infos[at].codepoint);
}

bool
needs_units (const call_t *call)
{
  scale_t scale = scale_of (call->font);
  if (scale.x <= 0 || !applies_gpos (call->owner, call->properties.script))
    return false;
  if (is_instance (call->font))
    return true;
  int64_t whole = multiplier (1, 1);
  bool has_offsets = has_cursive (call->owner), is_other = scale.x != whole || scale.y != whole;
  for (size_t i = 0; i < call->count; i++) {
    const kus_glyph_position_t *own = &call->positions[i];
    has_offsets |= own->x_offset || own->y_offset || !own->x_advance; /* a mark, whatever its offset is */
    is_other |= call->advances[i] != advance_before (call, i);
  }
  return has_offsets && is_other;
}

/* By how much the client's glyph in the place of a missing one is wider than that. */
static hb_position_t
difference (const call_t *call, size_t at)
{
  hb_codepoint_t glyph = call->client_infos[at].codepoint;
  if (glyph == call->infos[at].codepoint)
    return 0;
  return hb_font_get_glyph_h_advance (call->font, glyph) - call->advances[at];
}

/* A number of a position in the client's units. */
static hb_position_t
whole (const call_t *call, int32_t low, int32_t high)
{
  return (hb_position_t) coarser (units_of_sized (call->sized), call->higher ? joined (low, high) : low);
}

/* A glyph's position by a font in the client's units. */
static void
fill_sized_glyph (call_t *call, size_t at)
{
  static const kus_glyph_position_t none;
  const kus_glyph_position_t *own = &call->positions[at], *high = call->higher ? &call->higher[at] : &none;
  hb_glyph_position_t *to = &call->client_positions[at];
  to->x_advance = whole (call, own->x_advance, high->x_advance);
  to->y_advance = whole (call, own->y_advance, high->y_advance);
  to->x_offset = whole (call, own->x_offset, high->x_offset);
  to->y_offset = whole (call, own->y_offset, high->y_offset);
  if (to->x_advance)
    to->x_advance += difference (call, at);
}

/* A glyph's position scaled, as it is without advances and origins of the client's. */
static hb_glyph_position_t *
fill_scaled_glyph (call_t *call, scale_t scale, size_t at)
{
  const kus_glyph_position_t *own = &call->positions[at];
  hb_glyph_position_t *to = &call->client_positions[at];
  to->x_advance = scaled (own->x_advance, scale.x);
  to->y_advance = scaled (own->y_advance, scale.y);
  to->x_offset = scaled (own->x_offset, scale.x);
  to->y_offset = scaled (own->y_offset, scale.y);
  return to;
}

/* The same by the font in its own units; whether the client's advance is another than the font's. */
static bool
fill_plain_glyph (call_t *call, scale_t scale, size_t at)
{
  const kus_glyph_position_t *own = &call->positions[at];
  hb_glyph_position_t *to = fill_scaled_glyph (call, scale, at);
  hb_position_t before = to->x_advance;
  if (!own->x_advance && (is_hidden (call, at) || advance_before (call, at)))
    return false; /* a mark's, which is zeroed */
  to->x_advance = call->advances[at] + scaled (own->x_advance - advance_before (call, at), scale.x);
  bool is_other = to->x_advance != before;
  to->x_advance += difference (call, at);
  return is_other;
}

static void
fill_horizontal (call_t *call, scale_t scale)
{
  bool is_other = false;
  for (size_t i = 0; i < call->count; i++)
    if (call->sized)
      fill_sized_glyph (call, i);
    else
      is_other |= fill_plain_glyph (call, scale, i);
  if (call->sized)
    count_patch (CLIENT_UNITS);
  if (is_other)
    count_patch (CLIENT_ADVANCES);
}

/* ---- vertical text */

/* Scales one position, and puts the client's advance and origin in the place of those by the font's tables. */
static bool
fill_vertical_glyph (call_t *call, hb_font_t *plain, scale_t scale, size_t at)
{
  const kus_glyph_position_t *own = &call->positions[at];
  hb_glyph_position_t *to = fill_scaled_glyph (call, scale, at), before = *to;
  if (is_hidden (call, at))
    return false; /* it has no origin */
  hb_codepoint_t table_glyph = call->infos[at].codepoint, glyph = call->client_infos[at].codepoint;
  hb_position_t x, y, plain_x, plain_y, table = hb_font_get_glyph_v_advance (plain, table_glyph);
  hb_font_get_glyph_origin_for_direction (call->font, glyph, call->properties.direction, &x, &y);
  hb_font_get_glyph_origin_for_direction (plain, table_glyph, call->properties.direction, &plain_x, &plain_y);
  if (own->y_advance || !table)
    to->y_advance = hb_font_get_glyph_v_advance (call->font, glyph) + scaled (own->y_advance - table, scale.y);
  to->x_offset = scaled (own->x_offset + plain_x, scale.x) - x;
  to->y_offset = scaled (own->y_offset + plain_y, scale.y) - y;
  return to->x_offset != before.x_offset || to->y_offset != before.y_offset;
}

static void
fill_vertical (call_t *call, scale_t scale)
{
  hb_font_t *plain = hb_font_create (call->face); /* by the font's tables alone, in font units */
  bool is_other = false;
  for (size_t i = 0; i < call->count; i++)
    is_other |= fill_vertical_glyph (call, plain, scale, i);
  hb_font_destroy (plain);
  if (is_other)
    count_patch (CLIENT_ORIGINS);
}

/* ---- slant */

/* Leans what stands above or below the line, as HarfBuzz does at the end of GPOS (GPOS::position_finish_offsets). */
static void
slant_offsets (call_t *call)
{
  int x, y;
  float slant = hb_font_get_synthetic_slant (call->font);
  hb_font_get_scale (call->font, &x, &y);
  if (slant == 0 || !y || !applies_gpos (call->owner, call->properties.script))
    return;
  bool is_slanted = false;
  for (size_t i = 0; i < call->count; i++) {
    hb_glyph_position_t *position = &call->client_positions[i];
    is_slanted |= position->y_offset != 0;
    position->x_offset += (hb_position_t) roundf (slant * (float) x / (float) y * (float) position->y_offset);
  }
  if (is_slanted)
    count_patch (SLANTED);
}

void
fill_client_positions (call_t *call)
{
  scale_t scale = scale_of (call->font);
  if (HB_DIRECTION_IS_HORIZONTAL (call->properties.direction))
    fill_horizontal (call, scale);
  else
    fill_vertical (call, scale);
  slant_offsets (call);
}
