/* fonts TABLES FILE COLLECTION COUNT DAMAGES TEXT: what the calls for font files answer. COUNT is how many fonts the
 * collection has; a font file that is damaged so many times is read or refused, and what is read is shaped. Prints how
 * many were read and how many refused. */
#include "common.h"

#define MOST 512

static kus_glyph_info_t infos[MOST], first_infos[MOST];
static kus_glyph_position_t positions[MOST], first_positions[MOST];
static const char *word;

static void
expect (int holds, const char *what)
{
  if (!holds) fail ("not as it is to be", what);
}

/* Shapes the text; how many glyphs it has. */
static size_t
shape (kus_font_t *font)
{
  size_t count;
  kus_text_t text = kus_text (word, strlen (word));
  expect (kus_shape (font, &text, infos, MOST, positions, MOST, &count) == KUS_OK, "a text that is shaped");
  return count < MOST ? count : MOST;
}

/* Whether a font shapes the text as the first one did. */
static int
shapes_alike (kus_font_t *font, size_t count)
{
  return shape (font) == count && !memcmp (infos, first_infos, count * sizeof *infos)
         && !memcmp (positions, first_positions, count * sizeof *positions);
}

/* The first font of a file, over tables. */
static kus_font_t
read_font (kus_tables_t *tables, bytes_t file, uint32_t flags)
{
  kus_font_t font = KUS_FONT_INIT;
  kus_status_t status = kus_font_create_from_bytes (&font, tables, file.bytes, file.length, 0, flags);
  if (status != KUS_OK) fail ("not read", kus_status_name (status));
  return font;
}

/* Over tables of JSON, shared ones and own ones the text has the same glyphs; how many. */
static size_t
try_tables (const char *name, bytes_t file)
{
  kus_tables_t none = KUS_TABLES_INIT, given = open_tables (name), own = open_tables (OWN_TABLES);
  kus_font_t font = read_font (NULL, file, KUS_FONT_DEFAULT);
  size_t count = shape (&font);
  memcpy (first_infos, infos, sizeof infos);
  memcpy (first_positions, positions, sizeof positions);
  kus_tables_t *each[] = { &given, &own };
  for (int k = 0; k < 2; k++) {
    kus_font_t other = read_font (each[k], file, KUS_FONT_DEFAULT);
    kus_tables_destroy (each[k]);
    expect (shapes_alike (&other, count), "the same glyphs over other tables");
    kus_font_destroy (&other);
  }
  kus_status_t status = kus_font_create_from_bytes (&font, &none, file.bytes, file.length, 0, KUS_FONT_DEFAULT);
  expect (status == KUS_NO_TABLES && shapes_alike (&font, count), "an empty handle of tables");
  kus_font_destroy (&font);
  return count;
}

/* Without boxes and names a font has none; its glyphs stay. */
static void
try_flags (bytes_t file, size_t count)
{
  uint8_t name[64];
  kus_glyph_extents_t box;
  uint32_t glyph = first_infos[0].codepoint;
  for (uint32_t flags = 0; flags < 4; flags++) {
    kus_font_t font = read_font (NULL, file, flags);
    int has_name = kus_font_get_glyph_name (&font, glyph, name, sizeof name) > 0;
    expect (has_name == !(flags & KUS_FONT_WITHOUT_NAMES), "names");
    int has_box = kus_font_get_glyph_extents (&font, glyph, &box);
    expect (has_box == !(flags & KUS_FONT_WITHOUT_EXTENTS), "boxes");
    expect (shapes_alike (&font, count), "the same glyphs without boxes and names");
    kus_font_destroy (&font);
  }
}

/* A collection has so many fonts, and none after them; a fault leaves the font that was there. */
static void
try_collection (bytes_t file, bytes_t collection, size_t fonts, size_t count)
{
  expect (kus_count_fonts (file.bytes, file.length) == 1, "one font");
  expect (kus_count_fonts (collection.bytes, collection.length) == fonts, "the fonts of a collection");
  expect (kus_count_fonts (file.bytes + 1, file.length - 1) == 0, "no font file");
  expect (kus_count_fonts (file.bytes, 0) == 0, "no bytes");
  kus_font_t font = KUS_FONT_INIT;
  for (size_t k = 0; k < fonts; k += fonts - 1) {
    kus_status_t status = kus_font_create_from_bytes (&font, NULL, collection.bytes, collection.length, k, KUS_FONT_WITHOUT_EXTENTS);
    expect (status == KUS_OK && kus_font_get_upem (&font), "a font of a collection");
  }
  kus_font_destroy (&font);
  font = read_font (NULL, file, KUS_FONT_DEFAULT);
  size_t past[] = { fonts, (size_t) -1 };
  for (int k = 0; k < 2; k++) {
    kus_status_t status = kus_font_create_from_bytes (&font, NULL, collection.bytes, collection.length, past[k], KUS_FONT_DEFAULT);
    expect (status == KUS_FONT_INDEX, "an index past the count");
  }
  expect (kus_font_create_from_bytes (&font, NULL, file.bytes, 4, 0, KUS_FONT_DEFAULT) == KUS_FONT_SHORT, "four bytes");
  expect (kus_font_create_from_bytes (&font, NULL, file.bytes + 4, file.length - 4, 0, KUS_FONT_DEFAULT) == KUS_FONT_KIND, "no font");
  expect (shapes_alike (&font, count), "the font that was there");
  kus_font_destroy (&font);
}

/* What is told of a font of a file: a fault's text, as long as it is, or nothing; as far as there is room. */
static void
expect_text (bytes_t file, size_t length, size_t index, const char *text)
{
  uint8_t told[64], few[4] = "....";
  size_t found = kus_describe_fault (file.bytes, length, index, KUS_FONT_DEFAULT, told, sizeof told);
  expect (found == strlen (text) && !memcmp (told, text, found), text);
  expect (kus_describe_fault (file.bytes, length, index, KUS_FONT_DEFAULT, few, 2) == found, "its length without room");
  expect (!memcmp (few, found ? (uint8_t[]) { told[0], told[1], '.', '.' } : (const uint8_t *) "....", 4), "two bytes of it");
}

/* What is wrong with a file, and where: by the list of its tables (OpenType, chapter 4), of which one is cut. */
static void
try_texts (bytes_t file)
{
  static char json[] = "{\"upem\":1000}";
  bytes_t other = { (uint8_t *) json, sizeof json - 1 };
  expect_text (file, file.length, 0, "");
  expect_text (file, file.length, 1, "F4 Index");
  expect_text (file, 4, 0, "F1 Short at 0");
  expect_text (other, other.length, 0, "F2 Kind at 0");
  for (uint8_t *row = file.bytes + 12; memcmp (row, "maxp", 4) <= 0; row += 16)
    if (!memcmp (row, "head", 4) || !memcmp (row, "maxp", 4)) {
      char missing[] = "F5 Missing in ....";
      memcpy (missing + strlen (missing) - 4, row, 4);
      row[0]++;
      expect_text (file, file.length, 0, missing);
      row[0]--;
    }
}

/* The text as characters, each in the cluster of its byte; how many. */
static size_t
characters_of (kus_character_t *characters)
{
  size_t count = 0;
  for (const char *at = word; *at; at++) {
    uint8_t byte = (uint8_t) *at;
    if ((byte & 0xC0) != 0x80)
      characters[count++] = (kus_character_t) { byte < 0x80 ? byte : byte < 0xE0 ? byte & 31u : byte < 0xF0 ? byte & 15u : byte & 7u,
                                                (uint32_t) (at - word) };
    else
      characters[count - 1].character = characters[count - 1].character << 6 | (byte & 63u);
  }
  return count;
}

/* Whether a text has the first one's glyphs and positions, and its clusters are those that `clusters` has in their place. */
static void
expect_alike (kus_font_t *font, const kus_text_t *text, size_t count, const uint32_t *clusters, const char *what)
{
  size_t found;
  kus_status_t status = kus_shape (font, text, infos, MOST, positions, MOST, &found);
  expect (status == KUS_OK && found == count, what);
  for (size_t k = 0; k < count; k++) {
    expect (infos[k].codepoint == first_infos[k].codepoint && infos[k].cluster == clusters[first_infos[k].cluster], what);
    expect (!memcmp (&positions[k], &first_positions[k], sizeof *positions), what);
  }
}

/* The text in UTF-16, in UTF-32 and as characters with clusters has the same glyphs. */
static void
try_units (bytes_t file, size_t count)
{
  kus_character_t characters[MOST];
  uint16_t utf16[2 * MOST];
  uint32_t utf32[MOST], of_bytes[MOST], of_utf16[MOST], of_utf32[MOST];
  size_t length = characters_of (characters), units = 0;
  for (size_t k = 0; k < length; k++) {
    uint32_t c = characters[k].character, byte = characters[k].cluster;
    of_bytes[byte] = byte, of_utf16[byte] = (uint32_t) units, of_utf32[byte] = (uint32_t) k, utf32[k] = c;
    if (c >= 0x10000) utf16[units++] = (uint16_t) (0xD7C0 + (c >> 10));
    utf16[units++] = (uint16_t) (c < 0x10000 ? c : 0xDC00 + (c & 0x3FF));
  }
  kus_font_t font = read_font (NULL, file, KUS_FONT_DEFAULT);
  kus_text_t texts[] = { kus_text_utf16 (utf16, units), kus_text_utf32 (utf32, length), kus_text_characters (characters, length) };
  expect_alike (&font, &texts[0], count, of_utf16, "the text in UTF-16");
  expect_alike (&font, &texts[1], count, of_utf32, "the text in UTF-32");
  expect_alike (&font, &texts[2], count, of_bytes, "the text as characters");
  texts[0].flags |= KUS_FLAG_UTF32 | KUS_FLAG_CHARACTERS;
  expect_alike (&font, &texts[0], count, of_utf16, "the first of several encodings");
  kus_font_destroy (&font);
}

/* What texts name: features, tags, scripts and directions, as HarfBuzz reads them. */
static void
try_names (void)
{
  kus_feature_t feature = { 1, 2, 3, 4 };
  char text[4];
  expect (kus_feature_from_string ("aalt[3:5]=2", 11, &feature) && feature.tag == KUS_TAG ('a', 'a', 'l', 't'), "a feature");
  expect (feature.value == 2 && feature.start == 3 && feature.end == 5, "a feature's value and range");
  expect (!kus_feature_from_string ("ligature", 8, &feature) && feature.value == 2, "no feature");
  expect (kus_feature_from_string ("-liga", 5, &feature) && !feature.value, "a feature that is off");
  expect (feature.start == KUS_FEATURE_GLOBAL_START && feature.end == KUS_FEATURE_GLOBAL_END, "the whole text");
  expect (kus_tag_from_string ("abc", 3) == KUS_TAG ('a', 'b', 'c', ' ') && !kus_tag_from_string ("", 0), "tags");
  kus_tag_to_string (KUS_TAG ('a', 'b', 'c', ' '), text);
  expect (!memcmp (text, "abc ", 4), "a tag's text");
  expect (kus_script_from_string ("aran", 4) == KUS_TAG ('A', 'r', 'a', 'b'), "a script");
  expect (kus_script_from_string ("1234", 4) == KUS_TAG ('Z', 'z', 'z', 'z') && !kus_script_from_string ("", 0), "no script");
  for (uint32_t direction = KUS_DIRECTION_LTR; direction <= KUS_DIRECTION_BTT; direction++)
    expect (kus_direction_from_string (kus_direction_to_string (direction), 3) == direction, "directions");
  expect (kus_direction_from_string ("x", 1) == KUS_DIRECTION_GUESS, "no direction");
}

/* A font (JSON) that is passed as tables and tables that are passed as a font are told. */
static void
try_formats (void)
{
  static const char own[] = "{ \"format\": \"kuspveli-font\", \"upem\": 1000 }", tables[] = "{\"format\":\"kuspveli-tables\"}";
  const uint8_t *font_json = (const uint8_t *) own, *tables_json = (const uint8_t *) tables;
  kus_tables_t shared = KUS_TABLES_INIT;
  kus_font_t font = KUS_FONT_INIT;
  expect (kus_tables_create (&shared, font_json, sizeof own - 1) == KUS_OTHER_FORMAT && !shared.live, "a font as tables");
  expect (kus_tables_create (&shared, tables_json, sizeof tables - 1) == KUS_OK, "tables as tables");
  expect (kus_font_create_with_tables (&font, &shared, tables_json, sizeof tables - 1) == KUS_OTHER_FORMAT, "tables as a font");
  expect (kus_font_create (&font, font_json, sizeof own - 1, font_json, sizeof own - 1) == KUS_OTHER_FORMAT, "two fonts");
  expect (kus_font_create (&font, tables_json, sizeof tables - 1, tables_json, sizeof tables - 1) == KUS_OTHER_FORMAT, "tables twice");
  expect (kus_font_create (&font, tables_json, sizeof tables - 1, font_json, sizeof own - 1) == KUS_OK, "each as itself");
  expect (!strcmp (kus_status_name (KUS_OTHER_FORMAT), "OtherFormat"), "its name");
  kus_tables_destroy (&shared);
  kus_font_destroy (&font);
}

/* The next number of a sequence that each run has alike. */
static uint32_t
next (void)
{
  static uint32_t state = 1;
  return state = state * 1664525u + 1013904223u, state >> 8;
}

/* Damaged font files, each by a few bytes or cut, are read or refused; what is read is shaped, and a fault leaves no
 * font. */
static void
try_damage (bytes_t file, int damages)
{
  int read = 0, refused = 0;
  for (int k = 0; k < damages; k++) {
    bytes_t copy = { malloc (file.length), k % 4 ? file.length : next () % file.length };
    memcpy (copy.bytes, file.bytes, file.length);
    /* Every second one is damaged in the list of tables or in their headers. */
    for (int each = 0; each < 4; each++) copy.bytes[next () % (k % 2 ? 512 : file.length)] = (uint8_t) next ();
    kus_font_t font = KUS_FONT_INIT;
    size_t count;
    kus_status_t status = kus_font_create_from_bytes (&font, NULL, copy.bytes, copy.length, 0, KUS_FONT_DEFAULT);
    free (copy.bytes);
    expect (status == KUS_OK ? font.live : !font.live && status >= KUS_FONT_SHORT && status <= KUS_FONT_TOO_LARGE, "a damaged font");
    kus_text_t text = kus_text (word, strlen (word));
    if (font.live) kus_shape (&font, &text, infos, MOST, positions, MOST, &count);
    *(status == KUS_OK ? &read : &refused) += 1;
    kus_font_destroy (&font);
  }
  printf ("%d damaged, %d read, %d refused\n", damages, read, refused);
}

int
main (int count, char **words)
{
  if (count != 7) fail ("fonts", "TABLES FILE COLLECTION COUNT DAMAGES TEXT");
  word = words[6];
  bytes_t file = read_file (words[2]), collection = read_file (words[3]);
  size_t glyphs = try_tables (words[1], file);
  try_flags (file, glyphs);
  try_collection (file, collection, strtoul (words[4], NULL, 10), glyphs);
  try_texts (file);
  try_units (file, glyphs);
  try_names ();
  try_formats ();
  try_damage (file, atoi (words[5]));
  free (file.bytes);
  free (collection.bytes);
  return 0;
}
