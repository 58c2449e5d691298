/* shape FONT TEXT: the line of a text, as hb-shape --no-glyph-names prints it. */

#include <kuspveli.h>
#include <stdio.h>
#include <string.h>

#define ROOM 64

static uint8_t file[1 << 26];

static size_t
read_file (const char *name)
{
  FILE *from = fopen (name, "rb");
  size_t length = from ? fread (file, 1, sizeof file, from) : 0;
  if (from)
    fclose (from);
  return length;
}

int
main (int count, char **words)
{
  kus_font_t font = KUS_FONT_INIT;
  kus_glyph_info_t infos[ROOM];
  kus_glyph_position_t at[ROOM];
  kus_text_t text;
  size_t glyphs, k;
  if (count != 3
      || kus_font_create_from_bytes (&font, NULL, file, read_file (words[1]), 0, KUS_FONT_DEFAULT) != KUS_OK)
    return 1;
  text = kus_text (words[2], strlen (words[2]));
  if (kus_shape (&font, &text, infos, ROOM, at, ROOM, &glyphs) != KUS_OK || glyphs > ROOM)
    return 2;
  for (k = 0; k < glyphs; k++)
    {
      printf ("%s%u=%u", k ? "|" : "", infos[k].codepoint, infos[k].cluster);
      if (at[k].x_offset || at[k].y_offset)
        printf ("@%d,%d", at[k].x_offset, at[k].y_offset);
      printf ("+%d", at[k].x_advance);
    }
  puts ("");
  kus_font_destroy (&font);
  return 0;
}
