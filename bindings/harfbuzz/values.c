/* Positions in a client's units: the values of GPOS and of kern, changed in a copy of the table. libharfbuzz scales
 * each of them where it reads it, so a font that has them scaled is shaped to the same numbers. */
#include <math.h>
#include <stdlib.h>

#include "instead.h"
#include "sfnt.h"

/* A table whose values are changed. */
typedef struct {
  sfnt_t own;
  uint8_t *bytes;     /* those of `own` */
  uint8_t *is_scaled; /* of each byte: a value that begins there is in the client's units */
  const units_t *units;
  variations_t *variations;
  size_t rest; /* of the steps: subtables that overlap would take too many */
  bool is_halved; /* a value of kern is shared between the pair's two glyphs */
  bool fits;
} table_t;

#define STEPS_OF_BYTE 16

/* ---- numbers */

int64_t
multiplier (int scale, unsigned int upem)
{
  int64_t whole = ((int64_t) (scale < 0 ? -(int64_t) scale : scale)) << 16;
  return (scale < 0 ? -whole : whole) / (upem ? upem : 1);
}

hb_position_t
scaled (int64_t units, int64_t by)
{
  return (hb_position_t) ((units * by + 32768) >> 16);
}

/* The quotient rounded to the nearest number, halves away from 0, as roundf has them. */
static int64_t
rounded (int64_t number, int64_t by)
{
  return (number < 0 ? number - by / 2 : number + by / 2) / by;
}

int64_t
finer (const units_t *units, int64_t position)
{
  return units->shift < 0 ? coarser (&(units_t){ .shift = -units->shift }, position) : position * (1 << units->shift);
}

int64_t
coarser (const units_t *units, int64_t position)
{
  if (units->shift <= 0)
    return position * (1 << -units->shift);
  return (position + (1 << (units->shift - 1))) >> units->shift;
}

#define LOW_BITS 15

int64_t
fraction_of (fraction_t fraction, int64_t value)
{
  return fraction == WHOLE ? value : fraction == LOW ? value & ((1 << LOW_BITS) - 1) : value >> LOW_BITS;
}

int64_t
joined (int64_t low, int64_t high)
{
  return high * (1 << LOW_BITS) + low;
}

/* ---- values of the table */

/* Whether a value is still to be scaled. */
static bool
begin_value (table_t *table, size_t at)
{
  if (at + 2 > table->own.length || table->is_scaled[at])
    return false;
  table->is_scaled[at] = 1;
  return true;
}

/* A fraction of a value; of one that is halved the higher bits are even, so that halves add up too. */
static int64_t
fraction_in (const table_t *table, int64_t whole)
{
  fraction_t fraction = table->units->fraction;
  if (!table->is_halved || fraction == WHOLE)
    return fraction_of (fraction, whole);
  int16_t low = (int16_t) whole;
  return fraction == LOW ? low : fraction_of (HIGH, whole - low);
}

static void
put_value (table_t *table, size_t at, int64_t whole)
{
  int64_t value = fraction_in (table, whole);
  /* A value whose lower bits are 0 is one still for the flags of its glyphs. */
  if (table->units->fraction == LOW && whole && !value)
    value = 1;
  table->fits &= INT16_MIN <= value && value <= INT16_MAX;
  put_word (table->bytes + at, value);
}

static bool
take_step (table_t *table)
{
  if (!table->rest)
    return table->fits = false;
  table->rest--;
  return true;
}

/* ---- device tables (OpenType, chapter 2): what a size in pixels or an instance adds, in the client's units */

#define OF_VARIATIONS 0x8000

/* The pixels of a size; each word has some, of 2, 4 or 8 bits. */
static int
device_pixels (const table_t *table, size_t device, unsigned int ppem)
{
  unsigned int first = word (table->own, device), last = word (table->own, device + 2);
  unsigned int format = word (table->own, device + 4);
  if (!ppem || format < 1 || format > 3 || ppem < first || ppem > last)
    return 0;
  unsigned int bits = 1u << format, in_word = 16 / bits, index = ppem - first;
  unsigned int packed = word (table->own, device + 6 + 2 * (size_t) (index / in_word));
  int pixels = (int) (packed >> (16 - bits * (index % in_word + 1)) & ((1u << bits) - 1));
  return pixels >= 1 << (bits - 1) ? pixels - (1 << bits) : pixels;
}

static int64_t
device_delta (const table_t *table, size_t device, bool is_vertical)
{
  const units_t *units = table->units;
  int scale = is_vertical ? units->y_scale : units->x_scale;
  unsigned int ppem = is_vertical ? units->y_ppem : units->x_ppem;
  if (!device)
    return 0;
  if (word (table->own, device + 4) == OF_VARIATIONS && table->variations) {
    float delta = variation_of (table->variations, word (table->own, device), word (table->own, device + 2));
    return (int64_t) roundf (delta * (float) scale / (float) units->upem);
  }
  int pixels = device_pixels (table, device, ppem);
  return pixels ? pixels * (int64_t) scale / (int64_t) ppem : 0;
}

/* ---- value records and anchors */

static void
scale_value (table_t *table, size_t at, size_t device, bool is_vertical)
{
  const units_t *units = table->units;
  if (!begin_value (table, at))
    return;
  int64_t by = multiplier (is_vertical ? units->y_scale : units->x_scale, units->upem);
  int64_t value = scaled (signed_word (table->own, at), by) + device_delta (table, device, is_vertical);
  /* One that is rounded to nothing stays one for the flags of its glyphs. */
  bool is_lost = !value && units->shift > 0 && word (table->own, at);
  put_value (table, at, is_lost ? 1 : finer (units, value));
}

/* The bits of a value record's format: x and y of the placement and of the advance, and as many for device tables. */
#define NUM_VALUES 4

static size_t
size_of_record (unsigned int format)
{
  size_t size = 0;
  for (; format; format >>= 1)
    size += 2 * (format & 1);
  return size;
}

static void
scale_record (table_t *table, size_t at, unsigned int format, size_t parent)
{
  size_t devices = at + size_of_record (format & ((1 << NUM_VALUES) - 1));
  for (int value = 0; value < NUM_VALUES; value++) {
    size_t device = 0;
    if (format & 1u << (value + NUM_VALUES)) {
      device = word (table->own, devices) ? parent + word (table->own, devices) : 0;
      devices += 2;
    }
    if (!(format & 1u << value))
      continue;
    scale_value (table, at, device, value & 1);
    at += 2;
  }
}

/* libharfbuzz rounds the difference of two anchors, but along the line each anchor of a cursive chain. */
typedef enum { OF_MARKS, OF_CURSIVE } anchor_t;

static void
scale_coordinate (table_t *table, size_t at, size_t device, bool is_vertical, anchor_t kind)
{
  const units_t *units = table->units;
  if (!begin_value (table, at))
    return;
  int64_t value = (int64_t) signed_word (table->own, at) * (is_vertical ? units->y_scale : units->x_scale);
  int64_t delta = finer (units, device_delta (table, device, is_vertical));
  if (kind == OF_CURSIVE && !is_vertical)
    value = finer (units, rounded (value, units->upem));
  else if (units->shift < 0)
    value = rounded (value, (int64_t) units->upem << -units->shift);
  else
    value = rounded (value * (1 << units->shift), units->upem);
  put_value (table, at, value + delta);
}

static void
scale_anchor (table_t *table, size_t parent, unsigned int offset, anchor_t kind)
{
  if (!offset)
    return;
  size_t at = parent + offset;
  bool has_devices = word (table->own, at) == 3;
  unsigned int x_device = has_devices ? word (table->own, at + 6) : 0;
  unsigned int y_device = has_devices ? word (table->own, at + 8) : 0;
  scale_coordinate (table, at + 2, x_device ? at + x_device : 0, false, kind);
  scale_coordinate (table, at + 4, y_device ? at + y_device : 0, true, kind);
}

/* ---- subtables of GPOS (OpenType, GPOS) */

enum { SINGLE = 1, PAIR, CURSIVE, MARK_TO_BASE, MARK_TO_LIGATURE, MARK_TO_MARK, EXTENSION = 9 };

static void
scale_single (table_t *table, size_t at)
{
  unsigned int format = word (table->own, at + 4), count = word (table->own, at) == 1 ? 1 : word (table->own, at + 6);
  size_t first = word (table->own, at) == 1 ? at + 6 : at + 8, size = size_of_record (format);
  for (unsigned int i = 0; i < count && take_step (table); i++)
    scale_record (table, first + i * size, format, at);
}

static void
scale_pair_set (table_t *table, size_t at, unsigned int first, unsigned int second)
{
  size_t size = 2 + size_of_record (first) + size_of_record (second);
  unsigned int count = word (table->own, at);
  for (unsigned int i = 0; i < count && take_step (table); i++) {
    size_t record = at + 2 + i * size + 2;
    scale_record (table, record, first, at);
    scale_record (table, record + size_of_record (first), second, at);
  }
}

static void
scale_pairs (table_t *table, size_t at)
{
  unsigned int first = word (table->own, at + 4), second = word (table->own, at + 6);
  size_t size = size_of_record (first) + size_of_record (second);
  if (word (table->own, at) == 1) {
    unsigned int count = word (table->own, at + 8);
    for (unsigned int i = 0; i < count && take_step (table); i++)
      if (word (table->own, at + 10 + 2 * (size_t) i))
        scale_pair_set (table, at + word (table->own, at + 10 + 2 * (size_t) i), first, second);
    return;
  }
  size_t count = size ? (size_t) word (table->own, at + 12) * word (table->own, at + 14) : 0;
  for (size_t i = 0; i < count && take_step (table); i++) {
    scale_record (table, at + 16 + i * size, first, at);
    scale_record (table, at + 16 + i * size + size_of_record (first), second, at);
  }
}

static void
scale_cursive (table_t *table, size_t at)
{
  size_t count = 2 * (size_t) word (table->own, at + 4);
  for (size_t i = 0; i < count && take_step (table); i++)
    scale_anchor (table, at, word (table->own, at + 6 + 2 * i), OF_CURSIVE);
}

/* A matrix of anchors: one for each class of each base or component. */
static void
scale_matrix (table_t *table, size_t at, unsigned int classes)
{
  size_t count = (size_t) word (table->own, at) * classes;
  for (size_t i = 0; i < count && take_step (table); i++)
    scale_anchor (table, at, word (table->own, at + 2 + 2 * i), OF_MARKS);
}

static void
scale_marks (table_t *table, size_t at, unsigned int type)
{
  unsigned int classes = word (table->own, at + 6);
  size_t marks = at + word (table->own, at + 8), bases = at + word (table->own, at + 10);
  unsigned int count = word (table->own, marks);
  for (unsigned int i = 0; i < count && take_step (table); i++)
    scale_anchor (table, marks, word (table->own, marks + 4 + 4 * (size_t) i), OF_MARKS);
  if (type != MARK_TO_LIGATURE) {
    scale_matrix (table, bases, classes);
    return;
  }
  count = word (table->own, bases);
  for (unsigned int i = 0; i < count && take_step (table); i++)
    scale_matrix (table, bases + word (table->own, bases + 2 + 2 * (size_t) i), classes);
}

static void
scale_subtable (table_t *table, size_t at, unsigned int type)
{
  if (type == EXTENSION) {
    type = word (table->own, at + 2);
    at += long_word (table->own, at + 4);
  }
  if (type == SINGLE)
    scale_single (table, at);
  else if (type == PAIR)
    scale_pairs (table, at);
  else if (type == CURSIVE)
    scale_cursive (table, at);
  else if (type >= MARK_TO_BASE && type <= MARK_TO_MARK)
    scale_marks (table, at, type);
}

static void
scale_gpos (table_t *table)
{
  size_t list = word (table->own, 8);
  unsigned int lookups = list ? word (table->own, list) : 0;
  for (unsigned int i = 0; i < lookups && take_step (table); i++) {
    size_t lookup = list + word (table->own, list + 2 + 2 * (size_t) i);
    unsigned int type = word (table->own, lookup), count = word (table->own, lookup + 4);
    for (unsigned int j = 0; j < count && take_step (table); j++)
      scale_subtable (table, lookup + word (table->own, lookup + 6 + 2 * (size_t) j), type);
  }
}

/* ---- kern (OpenType, kern): subtables of pairs, of either version */

static void
scale_kern (table_t *table)
{
  bool is_apple = word (table->own, 0) == 1;
  size_t at = is_apple ? 8 : 4, head = is_apple ? 8 : 6;
  size_t count = is_apple ? long_word (table->own, 4) : word (table->own, 2);
  for (size_t i = 0; i < count && take_step (table); i++) {
    unsigned int coverage = word (table->own, at + 4), pairs = word (table->own, at + head);
    if ((is_apple ? coverage & 0xFF : coverage >> 8) != 0)
      table->fits = false;
    for (unsigned int j = 0; j < pairs && take_step (table); j++)
      scale_value (table, at + head + 8 + 6 * (size_t) j + 4, 0, false);
    at += is_apple ? long_word (table->own, at) : word (table->own, at + 2);
  }
}

/* ---- the copy */

hb_blob_t *
scaled_table (hb_face_t *face, hb_tag_t tag, const units_t *units)
{
  hb_blob_t *own = hb_face_reference_table (face, tag);
  if (!hb_blob_get_length (own))
    return own;
  hb_blob_t *copy = hb_blob_copy_writable_or_fail (own);
  hb_blob_destroy (own);
  if (!copy)
    return NULL;
  unsigned int length;
  table_t table = { .units = units, .is_halved = tag != HB_OT_TAG_GPOS, .fits = true };
  table.bytes = (uint8_t *) hb_blob_get_data_writable (copy, &length);
  table.own = (sfnt_t){ table.bytes, length };
  table.rest = STEPS_OF_BYTE * (size_t) length;
  table.is_scaled = calloc (1, (size_t) length + 1);
  if (units->num_coordinates)
    table.variations = new_variations (face, units);
  if (table.bytes && table.is_scaled && length)
    tag == HB_OT_TAG_GPOS ? scale_gpos (&table) : scale_kern (&table);
  bool is_whole = table.is_scaled && table.fits;
  free (table.is_scaled);
  free_variations (table.variations);
  if (is_whole)
    return copy;
  hb_blob_destroy (copy);
  return NULL;
}
