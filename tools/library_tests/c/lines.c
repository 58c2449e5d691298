/* lines TABLES FONT ROOM < cases: a line for each case, or its fault. FONT is JSON or a font file, and TABLES is JSON, or -
 * for those that are inside the library. ROOM is the room that the first call is given. */
#include "common.h"

#define MOST 4096

/* direction script flags level language features text: numbers, `-` or a tag, `-` or tag:value:start:end with commas
 * between, and the text's bytes in hexadecimal (`-` for none). */
static int
read_case (char *line, kus_text_t *text, kus_feature_t *features, uint8_t *bytes)
{
  static char language[256], requests[1024], digits[4 * MOST];
  if (sscanf (line, "%u %u %u %u %255s %1023s %16383s", &text->direction, &text->script, &text->flags,
              &text->cluster_level, language, requests, digits) != 7) return 0;
  text->language = (const uint8_t *) language;
  text->language_length = strcmp (language, "-") ? strlen (language) : 0;
  text->features = features;
  text->num_features = 0;
  for (char *part = strtok (requests, ","); part && strcmp (part, "-"); part = strtok (NULL, ",")) {
    kus_feature_t *f = features + text->num_features++;
    if (sscanf (part, "%u:%u:%u:%u", &f->tag, &f->value, &f->start, &f->end) != 4) fail ("no feature", part);
  }
  text->text = bytes;
  text->text_length = strcmp (digits, "-") ? unhex (digits, bytes, MOST) : 0;
  return 1;
}

int
main (int count, char **words)
{
  if (count != 4) fail ("lines", "TABLES FONT ROOM");
  static char line[8 * MOST];
  static uint8_t bytes[MOST];
  kus_feature_t features[64];
  size_t room = strtoul (words[3], NULL, 10), made = 0;
  kus_glyph_info_t *infos = malloc (MOST * sizeof *infos);
  kus_glyph_position_t *positions = malloc (MOST * sizeof *positions);
  kus_slice_t *slices = malloc (MOST * sizeof *slices);
  kus_font_t font = open_font (words[1], words[2]);
  while (fgets (line, sizeof line, stdin)) {
    kus_text_t text = kus_text ("", 0);
    if (!read_case (line, &text, features, bytes)) fail ("no case", line);
    kus_status_t status = kus_shape (&font, &text, infos, room, positions, room, &made);
    if (made > room && kus_get_glyphs (&font, infos, MOST, positions, MOST) != made) fail ("another count", line);
    if (status != KUS_OK) {
      printf ("%s\n", made ? "glyphs of a fault" : kus_status_name (status));
      continue;
    }
    print_line (infos, positions, made);
    status = kus_get_slices (&font, text.text, text.text_length, slices, MOST, &made);
    print_slices (status, slices, made);
  }
  kus_font_destroy (&font);
  if (font.live || font.at) fail ("destroy", "left a font");
  free (infos);
  free (positions);
  free (slices);
  return 0;
}
