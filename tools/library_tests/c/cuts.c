/* cuts FONT: the lines and carets of a text in UTF-16 in a font (JSON), which has an a, a ligature of f and i, and a b. */
#include <stdio.h>
#include <string.h>
#include "kuspveli.h"

#define MOST 8

static const uint16_t text[] = { 0xD83D, 0xDE00, 'a', 'f', 'i', 'b' };
static const size_t length = sizeof text / sizeof *text;

static void
print_lines (kus_font_t *font, const size_t *breaks, size_t num_breaks, int64_t first, int64_t width, size_t room)
{
  kus_line_t lines[MOST];
  size_t count = 77;
  memset (lines, 0, sizeof lines);
  kus_status_t status = kus_cut_lines (font, length, breaks, num_breaks, first, width, lines, room, &count);
  printf ("%s %zu:", kus_status_name (status), count);
  for (size_t k = 0; k < room; k++) {
    const kus_line_t *l = &lines[k];
    printf (" %zu-%zu@%lld", l->start, l->end, (long long) l->width);
    if (l->is_own) printf ("=%zu-%zu", l->first_glyph, l->end_glyph);
  }
  printf ("\n");
}

static void
print_carets (kus_font_t *font, size_t end, const size_t *stops, size_t num_stops, size_t room)
{
  kus_caret_t carets[MOST];
  size_t count = 77;
  memset (carets, 0, sizeof carets);
  kus_status_t status = kus_get_carets (font, end, stops, num_stops, carets, room, &count);
  printf ("%s %zu:", kus_status_name (status), count);
  for (size_t k = 0; k < room; k++) printf (" %zu@%lld", carets[k].index, (long long) carets[k].position);
  printf ("\n");
}

int
main (int argc, char **argv)
{
  static const size_t breaks[] = { 2, 4, 5 }, turned[] = { 5, 4 }, past[] = { 7 };
  static char json[1 << 16];
  kus_glyph_info_t infos[MOST];
  kus_glyph_position_t positions[MOST];
  kus_font_t font = KUS_FONT_INIT;
  FILE *file = argc == 2 ? fopen (argv[1], "rb") : NULL;
  if (!file) return 2;
  size_t size = fread (json, 1, sizeof json, file), count;
  fclose (file);
  print_lines (&font, breaks, 3, 0, 0, 0);
  print_carets (&font, length, breaks, 3, 0);
  if (kus_font_create (&font, (const uint8_t *) "{}", 2, (const uint8_t *) json, size)) return 3;
  kus_text_t given = kus_text_utf16 (text, length);
  given.flags |= KUS_FLAG_PRODUCE_SAFE_BREAKS;
  if (kus_shape (&font, &given, infos, MOST, positions, MOST, &count)) return 4;
  print_lines (&font, breaks, 3, 500, 1120, 3);
  print_lines (&font, breaks, 3, 1020, 599, 2);
  print_lines (&font, breaks, 3, 0, 0, 1);
  print_lines (&font, turned, 2, 0, 0, 0);
  print_lines (&font, past, 1, 0, 0, 0);
  print_carets (&font, length, breaks, 0, 5);
  print_carets (&font, length, breaks, 3, 6);
  print_carets (&font, length, breaks, 3, 2);
  print_carets (&font, length, turned, 2, 0);
  print_carets (&font, 5, breaks, 0, 0);
  print_carets (&font, (size_t) 1 << 62, breaks, 0, 5);
  kus_font_destroy (&font);
  return 0;
}
