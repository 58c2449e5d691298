/* Fonts in a client's units, with the client's advances: attached marks and cursive chains have sums of both in their
 * positions. They are kept with the face, for all its fonts of one size. */
#include <stdlib.h>
#include <string.h>

#include "instead.h"
#include "sfnt.h"

/* How many a face keeps that no thread uses. */
#define MOST_SIZED 8

/* 2^MOST_SHIFT of the font's units are one of the client's, as long as the font's values fit 16 bits with at least
 * 2^LEAST_SHIFT; else 2^SPLIT_SHIFT, and the values are split. */
#define MOST_SHIFT 4
#define LEAST_SHIFT 3
#define SPLIT_SHIFT 8
#define LEAST_SHIFT_OF_BARE -6
#define MOST_EM 16384 /* head.unitsPerEm */

/* A font, and until it is read its file. */
typedef struct {
  kus_font_t font;
  bool is_stale; /* it is to be read */
  uint8_t *file, *metrics;
  size_t length;
} part_t;

struct sized {
  sized_t *next;
  units_t units;
  int *coordinates; /* those of the units */
  part_t parts[2];
  size_t num_parts; /* 0 where the units fit no font */
  unsigned int num_glyphs;
  bare_t *bare; /* in the place of files */
};

static void
free_parts (sized_t *sized)
{
  for (size_t i = 0; i < sizeof sized->parts / sizeof *sized->parts; i++) {
    kus_font_destroy (&sized->parts[i].font);
    free (sized->parts[i].file);
    sized->parts[i].file = NULL;
  }
  sized->num_parts = 0;
}

void
free_all_sized (sized_t *first)
{
  while (first) {
    sized_t *sized = first;
    first = sized->next;
    free_parts (sized);
    free (sized->coordinates);
    free_bare (sized->bare);
    free (sized);
  }
}

const units_t *
units_of_sized (const sized_t *sized)
{
  return &sized->units;
}

bool
is_split (const sized_t *sized)
{
  return sized->num_parts == 2;
}

bool
is_stale (const sized_t *sized)
{
  return sized->parts[0].is_stale;
}

static reason_t
read_bare (sized_t *sized)
{
  unsigned int length;
  hb_blob_t *file = bare_file_of (sized->bare, &sized->units);
  const uint8_t *bytes = (const uint8_t *) hb_blob_get_data (file, &length);
  uint32_t flags = has_boxes (sized->bare) ? 0 : KUS_FONT_WITHOUT_EXTENTS;
  reason_t reason = read_font_file (&sized->parts[0].font, bytes, length, 0, flags);
  hb_blob_destroy (file);
  return reason;
}

kus_font_t *
open_sized (sized_t *sized, size_t at)
{
  part_t *part = &sized->parts[at];
  if (!part->is_stale)
    return &part->font;
  reason_t reason = sized->bare ? read_bare (sized)
                                : read_font_file (&part->font, part->file, part->length, 0, KUS_FONT_WITHOUT_EXTENTS);
  if (reason != SHAPED)
    return NULL;
  part->is_stale = false;
  free (part->file);
  part->file = NULL;
  return &part->font;
}

/* ---- making one */

/* Takes a font file of its own, in which advances are changed before it is read. */
static bool
take_file (sized_t *sized, hb_blob_t *file)
{
  unsigned int length;
  part_t *part = &sized->parts[sized->num_parts];
  const char *bytes = hb_blob_get_data (file, &length);
  size_t at = metrics_in ((const uint8_t *) bytes, length);
  if (!at || at + HMTX_METRIC * (size_t) sized->num_glyphs > length)
    return false;
  part->file = malloc (length);
  if (!part->file)
    return false;
  memcpy (part->file, bytes, length);
  part->length = length;
  part->metrics = part->file + at;
  part->is_stale = true;
  sized->num_parts++;
  return true;
}

static bool
add_part (sized_t *sized, hb_face_t *face, face_font_t *owner, fraction_t fraction)
{
  sized->units.fraction = fraction;
  hb_blob_t *file = sized_file_of (face, owner, &sized->units);
  bool is_added = file && take_file (sized, file);
  hb_blob_destroy (file);
  return is_added;
}

/* The finest units of some whose em is that of a font file, or the last. */
static void
set_shift (units_t *units, int most, int least)
{
  int largest = abs (units->x_scale) > abs (units->y_scale) ? abs (units->x_scale) : abs (units->y_scale);
  for (units->shift = most; units->shift > least && finer (units, largest) > MOST_EM;)
    units->shift--;
}

/* The finest units whose values fit, else both parts; without some it stays empty, so that none are sought again. */
static void
fill_sized (sized_t *sized, hb_face_t *face, face_font_t *owner)
{
  units_t *units = &sized->units;
  sized->num_glyphs = hb_face_get_glyph_count (face);
  for (set_shift (units, MOST_SHIFT, LEAST_SHIFT - 1); units->shift >= LEAST_SHIFT; units->shift--)
    if (add_part (sized, face, owner, WHOLE))
      return;
  units->shift = SPLIT_SHIFT;
  if (!add_part (sized, face, owner, LOW) || !add_part (sized, face, owner, HIGH))
    free_parts (sized);
}

/* ---- keeping them */

static bool
is_of (const sized_t *sized, const units_t *units)
{
  const units_t *own = &sized->units;
  return own->x_scale == units->x_scale && own->y_scale == units->y_scale && own->x_ppem == units->x_ppem
         && own->y_ppem == units->y_ppem && own->num_coordinates == units->num_coordinates
         && (!own->num_coordinates
             || !memcmp (own->coordinates, units->coordinates, own->num_coordinates * sizeof *own->coordinates));
}

/* One with units of its own; NULL where memory is short. */
static sized_t *
new_sized (const units_t *units)
{
  size_t size = units->num_coordinates * sizeof *units->coordinates;
  sized_t *made = calloc (1, sizeof *made);
  int *coordinates = malloc (size + 1);
  if (!made || !coordinates) {
    free (made);
    free (coordinates);
    return NULL;
  }
  if (size)
    memcpy (coordinates, units->coordinates, size);
  made->units = *units;
  made->units.coordinates = made->coordinates = coordinates;
  return made;
}

/* Takes the first of a list that fits. */
static sized_t *
take_from (sized_t **list, const units_t *units)
{
  for (; *list; list = &(*list)->next) {
    sized_t *found = *list;
    if (is_of (found, units)) {
      *list = found->next;
      found->next = NULL;
      return found;
    }
  }
  return NULL;
}

sized_t *
borrow_sized (hb_face_t *face, face_font_t *owner, const units_t *units, bool is_made)
{
  lock_fonts (owner);
  sized_t *found = take_from (sized_of (owner), units);
  unlock_fonts (owner);
  if (!found && is_made && (found = new_sized (units)))
    fill_sized (found, face, owner);
  if (!found || found->num_parts)
    return found;
  return_sized (owner, found);
  return NULL;
}

sized_t *
borrow_bare (call_t *call, const units_t *units)
{
  bool is_changed = false;
  lock_fonts (call->owner);
  sized_t *found = take_from (sized_of (call->owner), units);
  unlock_fonts (call->owner);
  if (!found && (found = new_sized (units))) {
    set_shift (&found->units, 0, LEAST_SHIFT_OF_BARE);
    found->bare = new_bare (call->font);
    found->parts[0].is_stale = true;
  }
  if (found
      && (!found->bare
          || !set_bare_characters (found->bare, call->font, call->characters, call->num_characters, &is_changed))) {
    free_all_sized (found);
    return NULL;
  }
  if (found)
    found->parts[0].is_stale |= is_changed;
  return found;
}

void
return_sized (face_font_t *owner, sized_t *sized)
{
  sized_t *last = NULL;
  int count = 0;
  lock_fonts (owner);
  sized_t **list = sized_of (owner);
  sized->next = *list;
  *list = sized;
  for (; *list && count < MOST_SIZED; count++)
    list = &(*list)->next;
  last = *list;
  *list = NULL;
  unlock_fonts (owner);
  free_all_sized (last);
}

/* ---- advances */

void
set_boxes (sized_t *sized, const call_t *call)
{
  set_bare_boxes (sized->bare, call->font, &sized->units, call->infos, call->count, &sized->parts[0].is_stale);
}

static void
put_advance (part_t *part, kus_glyph_advance_t given)
{
  put_word (part->metrics + HMTX_METRIC * (size_t) given.glyph, given.advance);
}

/* The advances that a part doesn't have yet, in its units; how many, or more than there are glyphs where one doesn't
 * fit. */
static size_t
other_advances (const call_t *call, sized_t *sized, size_t at, kus_glyph_advance_t *others)
{
  part_t *part = &sized->parts[at];
  fraction_t fraction = sized->num_parts == 1 ? WHOLE : at ? HIGH : LOW;
  size_t count = 0;
  for (size_t i = 0; i < call->count; i++) {
    uint32_t glyph = call->infos[i].codepoint;
    int64_t advance = fraction_of (fraction, finer (&sized->units, call->advances[i]));
    if (glyph >= sized->num_glyphs)
      continue;
    if (advance < 0 || advance > UINT16_MAX)
      return call->count + 1;
    if (part->is_stale || kus_font_get_glyph_h_advance (&part->font, glyph) != advance)
      others[count++] = (kus_glyph_advance_t){ glyph, (uint32_t) advance };
  }
  return count;
}

/* Sets the advances of a part: in its file, or in the font that was read. */
static setting_t
set_advances_of (const call_t *call, sized_t *sized, size_t at, kus_glyph_advance_t *others)
{
  part_t *part = &sized->parts[at];
  size_t count = other_advances (call, sized, at, others);
  if (count > call->count)
    return NO_ADVANCES;
  if (!part->is_stale)
    return kus_font_set_advances (&part->font, others, count) != KUS_OK ? NO_ADVANCES
           : count                                                      ? OTHER_ADVANCES
                                                                        : SAME_ADVANCES;
  for (size_t i = 0; i < count; i++)
    put_advance (part, others[i]);
  return OTHER_ADVANCES;
}

static setting_t
set_bare (const call_t *call, sized_t *sized)
{
  bool *is_changed = &sized->parts[0].is_stale;
  if (!set_bare_advances (sized->bare, &sized->units, call->infos, call->advances, call->count, is_changed))
    return NO_ADVANCES;
  return *is_changed ? OTHER_ADVANCES : SAME_ADVANCES;
}

setting_t
set_advances (const call_t *call, sized_t *sized)
{
  if (sized->bare)
    return set_bare (call, sized);
  kus_glyph_advance_t *others = malloc ((call->count + 1) * sizeof *others);
  setting_t setting = others ? SAME_ADVANCES : NO_ADVANCES;
  for (size_t at = 0; at < sized->num_parts && setting != NO_ADVANCES; at++) {
    setting_t own = set_advances_of (call, sized, at, others);
    setting = own == SAME_ADVANCES ? setting : own;
  }
  free (others);
  if (setting == NO_ADVANCES)
    free_parts (sized);
  return setting;
}
