/* The header's numbers and layouts are HarfBuzz's. */
#include <hb.h>
#include "kuspveli.h"

#define SAME(a, b) _Static_assert ((long long) (a) == (long long) (b), #a " is not " #b)
#define SAME_FIELD(t, f, u, g) \
  SAME (offsetof (t, f), offsetof (u, g)); \
  SAME (sizeof (((t *) 0)->f), sizeof (((u *) 0)->g))

SAME (sizeof (kus_feature_t), sizeof (hb_feature_t));
SAME_FIELD (kus_feature_t, tag, hb_feature_t, tag);
SAME_FIELD (kus_feature_t, value, hb_feature_t, value);
SAME_FIELD (kus_feature_t, start, hb_feature_t, start);
SAME_FIELD (kus_feature_t, end, hb_feature_t, end);

SAME (sizeof (kus_glyph_info_t), sizeof (hb_glyph_info_t));
SAME_FIELD (kus_glyph_info_t, codepoint, hb_glyph_info_t, codepoint);
SAME_FIELD (kus_glyph_info_t, mask, hb_glyph_info_t, mask);
SAME_FIELD (kus_glyph_info_t, cluster, hb_glyph_info_t, cluster);
SAME_FIELD (kus_glyph_info_t, var1, hb_glyph_info_t, var1);
SAME_FIELD (kus_glyph_info_t, var2, hb_glyph_info_t, var2);

SAME (sizeof (kus_glyph_position_t), sizeof (hb_glyph_position_t));
SAME_FIELD (kus_glyph_position_t, x_advance, hb_glyph_position_t, x_advance);
SAME_FIELD (kus_glyph_position_t, y_advance, hb_glyph_position_t, y_advance);
SAME_FIELD (kus_glyph_position_t, x_offset, hb_glyph_position_t, x_offset);
SAME_FIELD (kus_glyph_position_t, y_offset, hb_glyph_position_t, y_offset);
SAME_FIELD (kus_glyph_position_t, var, hb_glyph_position_t, var);

SAME (sizeof (kus_glyph_extents_t), sizeof (hb_glyph_extents_t));
SAME_FIELD (kus_glyph_extents_t, x_bearing, hb_glyph_extents_t, x_bearing);
SAME_FIELD (kus_glyph_extents_t, y_bearing, hb_glyph_extents_t, y_bearing);
SAME_FIELD (kus_glyph_extents_t, width, hb_glyph_extents_t, width);
SAME_FIELD (kus_glyph_extents_t, height, hb_glyph_extents_t, height);

SAME (KUS_DIRECTION_GUESS, HB_DIRECTION_INVALID);
SAME (KUS_DIRECTION_LTR, HB_DIRECTION_LTR);
SAME (KUS_DIRECTION_RTL, HB_DIRECTION_RTL);
SAME (KUS_DIRECTION_TTB, HB_DIRECTION_TTB);
SAME (KUS_DIRECTION_BTT, HB_DIRECTION_BTT);

SAME (KUS_TAG ('D', 'e', 'v', 'a'), HB_SCRIPT_DEVANAGARI);
SAME (0, HB_SCRIPT_INVALID);
SAME (KUS_TAG ('G', 'S', 'U', 'B'), HB_TAG ('G', 'S', 'U', 'B'));

SAME (KUS_FLAG_DEFAULT, HB_BUFFER_FLAG_DEFAULT);
SAME (KUS_FLAG_BOT, HB_BUFFER_FLAG_BOT);
SAME (KUS_FLAG_EOT, HB_BUFFER_FLAG_EOT);
SAME (KUS_FLAG_PRESERVE_DEFAULT_IGNORABLES, HB_BUFFER_FLAG_PRESERVE_DEFAULT_IGNORABLES);
SAME (KUS_FLAG_REMOVE_DEFAULT_IGNORABLES, HB_BUFFER_FLAG_REMOVE_DEFAULT_IGNORABLES);
SAME (KUS_FLAG_DO_NOT_INSERT_DOTTED_CIRCLE, HB_BUFFER_FLAG_DO_NOT_INSERT_DOTTED_CIRCLE);
SAME (KUS_FLAG_PRODUCE_UNSAFE_TO_CONCAT, HB_BUFFER_FLAG_PRODUCE_UNSAFE_TO_CONCAT);
SAME (KUS_FLAG_PRODUCE_SAFE_TO_INSERT_TATWEEL, HB_BUFFER_FLAG_PRODUCE_SAFE_TO_INSERT_TATWEEL);

SAME (KUS_CLUSTER_LEVEL_MONOTONE_GRAPHEMES, HB_BUFFER_CLUSTER_LEVEL_MONOTONE_GRAPHEMES);
SAME (KUS_CLUSTER_LEVEL_MONOTONE_CHARACTERS, HB_BUFFER_CLUSTER_LEVEL_MONOTONE_CHARACTERS);
SAME (KUS_CLUSTER_LEVEL_CHARACTERS, HB_BUFFER_CLUSTER_LEVEL_CHARACTERS);

SAME (KUS_GLYPH_FLAG_UNSAFE_TO_BREAK, HB_GLYPH_FLAG_UNSAFE_TO_BREAK);
SAME (KUS_GLYPH_FLAG_UNSAFE_TO_CONCAT, HB_GLYPH_FLAG_UNSAFE_TO_CONCAT);
SAME (KUS_GLYPH_FLAG_SAFE_TO_INSERT_TATWEEL, HB_GLYPH_FLAG_SAFE_TO_INSERT_TATWEEL);

SAME (KUS_FEATURE_GLOBAL_START, HB_FEATURE_GLOBAL_START);
SAME (KUS_FEATURE_GLOBAL_END, HB_FEATURE_GLOBAL_END);
