/* Variable fonts: what an instance adds to a value of GPOS, by the store of variations in GDEF (OpenType, chapter "Font
 * Variations Common Table Formats"). */
#include <math.h>
#include <stdlib.h>

#include "instead.h"
#include "sfnt.h"

#define STORE_IN_GDEF 14 /* from version 1.3 on */
#define LONG_WORDS 0x8000
#define NONE UINT16_MAX

struct variations {
  hb_blob_t *gdef;
  sfnt_t own; /* the bytes of GDEF */
  size_t store;
  float *scalars; /* of each region, at the instance */
  unsigned int num_regions;
};

/* How much of a region's delta an axis has at a coordinate. */
static float
scalar_of_axis (int first, int peak, int last, int coordinate)
{
  if (!peak || first > peak || peak > last || (first < 0 && last > 0) || coordinate == peak)
    return 1;
  if (coordinate <= first || coordinate >= last)
    return 0;
  return coordinate < peak ? (float) (coordinate - first) / (float) (peak - first)
                           : (float) (last - coordinate) / (float) (last - peak);
}

static float
scalar_of_region (const variations_t *from, size_t region, unsigned int axes, const units_t *units)
{
  float scalar = 1;
  for (unsigned int axis = 0; axis < axes && scalar != 0; axis++) {
    size_t at = region + 6 * (size_t) axis;
    int coordinate = axis < units->num_coordinates ? units->coordinates[axis] : 0;
    int first = signed_word (from->own, at), peak = signed_word (from->own, at + 2);
    int last = signed_word (from->own, at + 4);
    scalar *= scalar_of_axis (first, peak, last, coordinate);
  }
  return scalar;
}

variations_t *
new_variations (hb_face_t *face, const units_t *units)
{
  unsigned int length;
  variations_t *made = calloc (1, sizeof *made);
  if (!made)
    return NULL;
  made->gdef = hb_face_reference_table (face, HB_OT_TAG_GDEF);
  const uint8_t *bytes = (const uint8_t *) hb_blob_get_data (made->gdef, &length);
  made->own = (sfnt_t){ bytes, length };
  if (word (made->own, 0) == 1 && word (made->own, 2) >= 3)
    made->store = long_word (made->own, STORE_IN_GDEF);
  if (!made->store)
    return made;
  size_t regions = made->store + long_word (made->own, made->store + 2);
  unsigned int axes = word (made->own, regions);
  made->num_regions = word (made->own, regions + 2);
  made->scalars = calloc ((size_t) made->num_regions + 1, sizeof *made->scalars);
  for (unsigned int i = 0; made->scalars && i < made->num_regions; i++)
    made->scalars[i] = scalar_of_region (made, regions + 4 + 6 * (size_t) axes * i, axes, units);
  return made;
}

void
free_variations (variations_t *variations)
{
  if (!variations)
    return;
  hb_blob_destroy (variations->gdef);
  free (variations->scalars);
  free (variations);
}

static int32_t
delta_at (const variations_t *from, size_t at, unsigned int size)
{
  if (size == 4)
    return (int32_t) long_word (from->own, at);
  return size == 2 ? signed_word (from->own, at) : (int8_t) (word (from->own, at) >> 8);
}

float
variation_of (const variations_t *from, unsigned int outer, unsigned int inner)
{
  if (!from->scalars || (outer == NONE && inner == NONE) || outer >= word (from->own, from->store + 6))
    return 0;
  size_t data = from->store + long_word (from->own, from->store + 8 + 4 * (size_t) outer);
  unsigned int packed = word (from->own, data + 2), regions = word (from->own, data + 4);
  unsigned int large = packed & ~LONG_WORDS, size = packed & LONG_WORDS ? 4 : 2;
  if (inner >= word (from->own, data) || large > regions)
    return 0;
  size_t row = (size_t) size * large + (size_t) (size / 2) * (regions - large);
  size_t at = data + 6 + 2 * (size_t) regions + row * inner;
  float sum = 0;
  for (unsigned int i = 0; i < regions; i++) {
    unsigned int region = word (from->own, data + 6 + 2 * (size_t) i), own = i < large ? size : size / 2;
    if (region < from->num_regions)
      sum += from->scalars[region] * (float) delta_at (from, at, own);
    at += own;
  }
  return sum;
}
