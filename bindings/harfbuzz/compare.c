/* Shaping by both, and writing each difference as a line of JSON. */
#include <stdio.h>
#include <stdlib.h>
#include <string.h>

#include "instead.h"

/* By how much a rounded number may differ from one that is rounded otherwise. */
#define MOST_ROUNDING 1
#define GLYPH_FLAGS 7
#define MOST_GLYPHS 4096 /* bytes of a printed line of glyphs */

static const char *file;

__attribute__ ((constructor)) static void
begin (void)
{
  file = getenv ("KUSPVELI_COMPARE");
}

const char *
compare_file (void)
{
  return file;
}

hb_buffer_t *
copy_of (hb_buffer_t *buffer)
{
  hb_buffer_t *copy = hb_buffer_create_similar (buffer);
  hb_segment_properties_t properties;
  real_calls ()->append (copy, buffer, 0, hb_buffer_get_length (buffer));
  hb_buffer_get_segment_properties (buffer, &properties);
  hb_buffer_set_segment_properties (copy, &properties);
  hb_buffer_set_flags (copy, hb_buffer_get_flags (buffer));
  hb_buffer_set_cluster_level (copy, hb_buffer_get_cluster_level (buffer));
  hb_buffer_set_invisible_glyph (copy, hb_buffer_get_invisible_glyph (buffer));
  return copy;
}

/* ---- what differs */

typedef struct {
  difference_t what;
  long worst;    /* of advances and offsets */
  unsigned less; /* glyphs that lack UNSAFE_TO_BREAK */
} found_t;

static long
larger (long most, long left, long right)
{
  long by = labs (left - right);
  return by > most ? by : most;
}

static found_t
difference_of (hb_buffer_t *own, hb_buffer_t *theirs)
{
  unsigned int count, other;
  const hb_glyph_info_t *left = hb_buffer_get_glyph_infos (own, &count);
  const hb_glyph_info_t *right = hb_buffer_get_glyph_infos (theirs, &other);
  const hb_glyph_position_t *to = hb_buffer_get_glyph_positions (own, NULL);
  const hb_glyph_position_t *from = hb_buffer_get_glyph_positions (theirs, NULL);
  found_t found = { GLYPHS, 0, 0 };
  if (count != other)
    return found;
  bool has_clusters = false, has_flags = false;
  for (unsigned int i = 0; i < count; i++) {
    if (left[i].codepoint != right[i].codepoint)
      return found;
    found.worst = larger (found.worst, to[i].x_advance, from[i].x_advance);
    found.worst = larger (found.worst, to[i].y_advance, from[i].y_advance);
    found.worst = larger (found.worst, to[i].x_offset, from[i].x_offset);
    found.worst = larger (found.worst, to[i].y_offset, from[i].y_offset);
    has_clusters |= left[i].cluster != right[i].cluster;
    has_flags |= (left[i].mask & GLYPH_FLAGS) != (right[i].mask & GLYPH_FLAGS);
    found.less += right[i].mask & ~left[i].mask & HB_GLYPH_FLAG_UNSAFE_TO_BREAK;
  }
  found.what = found.worst > MOST_ROUNDING ? POSITIONS
               : has_clusters              ? CLUSTERS
               : has_flags                 ? FLAGS
               : found.worst               ? NEAR
                                           : EQUAL;
  return found;
}

/* ---- its line */

static void
print_text (FILE *to, const char *key, const char *text)
{
  fprintf (to, ",\"%s\":\"", key);
  for (; *text; text++)
    if ((unsigned char) *text < ' ' || *text == '"' || *text == '\\')
      fprintf (to, "\\u%04x", (unsigned char) *text);
    else
      fputc (*text, to);
  fputc ('"', to);
}

static void
print_name (FILE *to, hb_face_t *face)
{
  char name[256] = "";
  unsigned int length = sizeof name;
  hb_ot_name_get_utf8 (face, HB_OT_NAME_ID_FULL_NAME, HB_LANGUAGE_INVALID, &length, name);
  print_text (to, "font", name);
}

static void
print_numbers (FILE *to, const char *key, const hb_codepoint_t *numbers, unsigned int count)
{
  fprintf (to, ",\"%s\":[", key);
  for (unsigned int i = 0; i < count; i++)
    fprintf (to, "%s%u", i ? "," : "", numbers[i]);
  fputc (']', to);
}

static void
print_characters (FILE *to, hb_buffer_t *text)
{
  unsigned int length;
  const hb_glyph_info_t *infos = hb_buffer_get_glyph_infos (text, &length);
  fputs (",\"text\":[", to);
  for (unsigned int i = 0; i < length; i++)
    fprintf (to, "%s%u", i ? "," : "", infos[i].codepoint);
  fputs ("],\"clusters\":[", to);
  for (unsigned int i = 0; i < length; i++)
    fprintf (to, "%s%u", i ? "," : "", infos[i].cluster);
  fputc (']', to);
}

static void
print_features (FILE *to, const hb_feature_t *features, unsigned int count)
{
  fputs (",\"features\":\"", to);
  for (unsigned int i = 0; i < count; i++) {
    char name[128];
    hb_feature_t feature = features[i];
    hb_feature_to_string (&feature, name, sizeof name);
    fprintf (to, "%s%s", i ? "," : "", name);
  }
  fputc ('"', to);
}

static void
print_settings (FILE *to, hb_font_t *font, hb_buffer_t *buffer)
{
  int x, y;
  char script[5] = "";
  hb_segment_properties_t properties;
  hb_font_get_scale (font, &x, &y);
  hb_buffer_get_segment_properties (buffer, &properties);
  hb_tag_to_string (hb_script_to_iso15924_tag (properties.script), script);
  const char *language = hb_language_to_string (properties.language);
  print_text (to, "script", script);
  print_text (to, "language", language ? language : "");
  print_text (to, "direction", hb_direction_to_string (properties.direction));
  fprintf (to, ",\"flags\":%u,\"level\":%u", (unsigned int) hb_buffer_get_flags (buffer),
           (unsigned int) hb_buffer_get_cluster_level (buffer));
  fprintf (to, ",\"scale\":[%d,%d]", x, y);
}

/* The glyphs as HarfBuzz writes them: a longer list is cut. */
static void
print_glyphs (FILE *to, const char *key, hb_font_t *font, hb_buffer_t *buffer)
{
  char line[MOST_GLYPHS] = "";
  unsigned int length, end = hb_buffer_get_length (buffer);
  hb_buffer_serialize_glyphs (buffer, 0, end, line, sizeof line, &length, font, HB_BUFFER_SERIALIZE_FORMAT_TEXT,
                              HB_BUFFER_SERIALIZE_FLAG_NO_GLYPH_NAMES | HB_BUFFER_SERIALIZE_FLAG_GLYPH_FLAGS);
  print_text (to, key, line);
}

static void
print_difference (FILE *to, found_t found, hb_font_t *font, hb_buffer_t *text, const hb_feature_t *features,
                  unsigned int num_features, const context_t *context)
{
  fprintf (to, "{\"what\":\"%s\",\"worst\":%ld,\"lacking\":%u", difference_name (found.what), found.worst, found.less);
  print_text (to, "program", program_name ());
  print_name (to, hb_font_get_face (font));
  print_settings (to, font, text);
  print_features (to, features, num_features);
  print_characters (to, text);
  print_numbers (to, "before", context ? context->before : NULL, context ? context->num_before : 0);
  print_numbers (to, "after", context ? context->after : NULL, context ? context->num_after : 0);
}

void
compare (hb_font_t *font, hb_buffer_t *buffer, hb_buffer_t *copy, const hb_feature_t *features,
         unsigned int num_features, const char *const *shapers)
{
  hb_buffer_t *theirs = copy_of (copy);
  char *line = NULL;
  size_t length = 0;
  real_calls ()->shape_full (font, theirs, features, num_features, shapers);
  found_t found = difference_of (buffer, theirs);
  count_difference (found.what);
  FILE *to = found.what > NEAR ? open_memstream (&line, &length) : NULL;
  if (to) {
    print_difference (to, found, font, copy, features, num_features, context_of (buffer));
    print_glyphs (to, "kuspveli", font, buffer);
    print_glyphs (to, "harfbuzz", font, theirs);
    fputs ("}\n", to);
    if (!fclose (to))
      append_line (file, line, length);
    free (line);
  }
  hb_buffer_destroy (theirs);
}
