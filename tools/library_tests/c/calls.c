/* calls SEED COUNT FONT ..: makes so many calls, of all that the header has, with arguments drawn by a seed: texts in each
 * encoding and of each setting, also cut and malformed; font files whole and damaged, JSON whole and cut; rooms too small;
 * handles that are empty, shared and moved. Each array has its own block of memory without a byte more, so that valgrind
 * sees an access past it. Prints what the calls answered. */
#include "common.h"

#define NUM_FONTS 6
#define NUM_TABLES 3
#define NUM_STATUSES 64
#define MOST_CHARACTERS 40
#define MOST_ROOM 64

static kus_font_t fonts[NUM_FONTS];
static kus_tables_t tables[NUM_TABLES];
static kus_glyphs_t all = KUS_GLYPHS_INIT;
static size_t statuses[NUM_STATUSES], shaped, glyphs;
static bytes_t *files;
static unsigned num_files;

/* ---- what is drawn */

static uint64_t state;

/* xorshift64 (Marsaglia 2003) */
static uint64_t
drawn (void)
{
  state ^= state << 13;
  state ^= state >> 7;
  state ^= state << 17;
  return state;
}

/* A number below another one. */
static uint32_t
below (uint32_t end)
{
  return (uint32_t) ((drawn () >> 16) % end);
}

static int
once_in (uint32_t times)
{
  return !below (times);
}

static kus_font_t *
some_font (void)
{
  return &fonts[below (NUM_FONTS)];
}

static kus_tables_t *
some_tables (void)
{
  return &tables[below (NUM_TABLES)];
}

/* A block of memory of its own; one of 0 bytes is none that may be read. */
static void *
block (size_t length)
{
  void *made = malloc (length ? length : 1);
  if (!made) fail ("memory", "short");
  return length ? made : (char *) made + 1;
}

static void
free_block (void *made, size_t length)
{
  free (length ? made : (char *) made - 1);
}

static uint32_t
some_character (void)
{
  static const uint32_t ranges[][2] = {
    { 0x20, 0x7E },     { 0xA0, 0x17F },     { 0x300, 0x34F },     { 0x5B0, 0x5EA },     { 0x620, 0x65F },
    { 0x900, 0x965 },   { 0xB80, 0xBCD },    { 0xE01, 0xE3A },     { 0x1000, 0x103F },   { 0x1100, 0x1112 },
    { 0x1780, 0x17D3 }, { 0x200B, 0x200F },  { 0x2000, 0x200A },   { 0xAC00, 0xAC20 },   { 0xFE00, 0xFE0F },
    { 0xD7F0, 0xE010 }, { 0x1F600, 0x1F64F }, { 0xE0100, 0xE0110 }, { 0x10FFF0, 0x110010 }, { 0, 0x1F },
  };
  uint32_t at = once_in (3) ? below (sizeof ranges / sizeof *ranges) : 0;
  return ranges[at][0] + below (ranges[at][1] - ranges[at][0] + 1);
}

static uint32_t
some_tag (void)
{
  static const char names[][5] = { "liga", "kern", "mark", "curs", "aalt", "rand", "GSUB", "GPOS", "Latn", "Arab", "Deva" };
  const char *name = names[below (sizeof names / sizeof *names)];
  return once_in (8) ? (uint32_t) drawn () : KUS_TAG (name[0], name[1], name[2], name[3]);
}

/* ---- texts */

static size_t
put_utf8 (uint8_t *to, uint32_t c)
{
  size_t length = c < 0x80 ? 1 : c < 0x800 ? 2 : c < 0x10000 ? 3 : 4;
  static const uint8_t leads[] = { 0, 0, 0xC0, 0xE0, 0xF0 };
  for (size_t i = length; i-- > 1; c >>= 6) to[i] = (uint8_t) (0x80 | (c & 0x3F));
  to[0] = (uint8_t) (leads[length] | c);
  return length;
}

static size_t
put_utf16 (uint8_t *to, uint32_t c)
{
  uint16_t units[2] = { (uint16_t) c, 0 };
  if (c > 0xFFFF) {
    units[0] = (uint16_t) (0xD800 + ((c - 0x10000) >> 10));
    units[1] = (uint16_t) (0xDC00 + (c & 0x3FF));
  }
  memcpy (to, units, sizeof units);
  return c > 0xFFFF ? 4 : 2;
}

/* Characters in an encoding, one time in eight cut; the bytes are in a block of their own. */
static uint8_t *
some_text (uint32_t encoding, size_t *length)
{
  uint8_t bytes[8 * MOST_CHARACTERS];
  size_t end = 0;
  uint32_t cluster = 0;
  for (uint32_t left = below (MOST_CHARACTERS); left; left--) {
    uint32_t c = some_character ();
    kus_character_t character = { c, once_in (9) ? below (9) : cluster++ };
    if (encoding & KUS_FLAG_UTF16) end += put_utf16 (bytes + end, c);
    else if (encoding & (KUS_FLAG_UTF32 | KUS_FLAG_CHARACTERS)) {
      size_t size = encoding & KUS_FLAG_UTF32 ? sizeof c : sizeof character;
      memcpy (bytes + end, &character, size);
      end += size;
    } else if (c < 0xD800 || c > 0xDFFF || once_in (400)) end += put_utf8 (bytes + end, c);
  }
  *length = once_in (8) ? below ((uint32_t) end + 1) : end;
  uint8_t *made = block (*length);
  memcpy (made, bytes, *length);
  return made;
}

static void
set_features (kus_text_t *text)
{
  text->num_features = once_in (3) ? below (5) : 0;
  kus_feature_t *made = block (text->num_features * sizeof *made);
  for (size_t i = 0; i < text->num_features; i++) {
    uint32_t start = once_in (2) ? 0 : below (9), end = once_in (2) ? KUS_FEATURE_GLOBAL_END : below (20);
    made[i] = (kus_feature_t){ some_tag (), once_in (2) ? below (2) : (uint32_t) drawn (), start, end };
  }
  text->features = made;
}

static kus_text_t
drawn_text (void)
{
  static const uint32_t encodings[] = { 0, 0, KUS_FLAG_UTF16, KUS_FLAG_UTF32, KUS_FLAG_CHARACTERS, KUS_FLAG_UTF16 | KUS_FLAG_CHARACTERS };
  static const char languages[][8] = { "", "en", "ar", "zh-Hant", "tr", "\xFF", "x-hbot" };
  uint32_t encoding = encodings[below (6)];
  uint32_t around = encoding & KUS_FLAG_UTF16 ? KUS_FLAG_UTF16 : encoding ? KUS_FLAG_UTF32 : 0;
  kus_text_t text;
  text.text = some_text (encoding, &text.text_length);
  text.before = some_text (around, &text.before_length);
  text.after = some_text (around, &text.after_length);
  const char *language = once_in (4) ? languages[below (7)] : "";
  text.language_length = strlen (language);
  uint8_t *made = block (text.language_length);
  memcpy (made, language, text.language_length);
  text.language = made;
  set_features (&text);
  text.direction = once_in (2) ? 0 : once_in (9) ? (uint32_t) drawn () : 4 + below (4);
  text.script = once_in (4) ? some_tag () : 0;
  text.flags = encoding | (once_in (2) ? below (512) : 0);
  text.cluster_level = once_in (9) ? (uint32_t) drawn () : below (4);
  return text;
}

static void
free_text (kus_text_t *text)
{
  free_block ((void *) (uintptr_t) text->text, text->text_length);
  free_block ((void *) (uintptr_t) text->before, text->before_length);
  free_block ((void *) (uintptr_t) text->after, text->after_length);
  free_block ((void *) (uintptr_t) text->language, text->language_length);
  free_block ((void *) (uintptr_t) text->features, text->num_features * sizeof *text->features);
}

/* ---- calls */

static void
note (kus_status_t status)
{
  if (status >= NUM_STATUSES || !strcmp (kus_status_name (status), "?")) fail ("a status", "of no name");
  statuses[status]++;
}

/* Reads each byte that a call wrote: valgrind tells of one that it left as it was. */
static void
read_all (const void *of, size_t length)
{
  volatile uint8_t sum = 0;
  for (size_t i = 0; i < length; i++)
    if (((const uint8_t *) of)[i]) sum++;
}

static size_t
less (size_t left, size_t right)
{
  return left < right ? left : right;
}

static void
try_slices (kus_font_t *font, const kus_text_t *text)
{
  size_t room = below (MOST_ROOM), count = 1;
  kus_slice_t *slices = block (room * sizeof *slices);
  kus_status_t status = kus_get_slices (font, text->text, text->text_length, slices, room, &count);
  note (status);
  if (status != KUS_OK && count) fail ("slices", "of a fault");
  read_all (slices, less (room, count) * sizeof *slices);
  free_block (slices, room * sizeof *slices);
}

/* What clusters of a text count up to; those of the caller's own are below 40 or as many as there are characters. */
static size_t
end_of (const kus_text_t *text)
{
  if (text->flags & KUS_FLAG_CHARACTERS) return MOST_CHARACTERS;
  if (text->flags & KUS_FLAG_UTF32) return text->text_length / 4;
  return text->flags & KUS_FLAG_UTF16 ? text->text_length / 2 : text->text_length;
}

/* Indices that mostly rise. */
static size_t *
some_indices (size_t count)
{
  size_t *indices = block (count * sizeof *indices), last = 0;
  for (size_t i = 0; i < count; i++)
    indices[i] = last = once_in (60) ? (size_t) drawn () : last + (once_in (30) ? 0 : 1 + below (4));
  return indices;
}

/* Of checked lines some are no longer the text's own, and nothing else changes; of none where the answer is a fault. */
static void
try_checks (kus_font_t *font, const kus_text_t *text, kus_line_t *lines, size_t num_lines)
{
  kus_line_t *before = block (num_lines * sizeof *before);
  memcpy (before, lines, num_lines * sizeof *before);
  uint32_t premises = once_in (500) ? kus_font_get_break_premises (font) : below (32);
  kus_status_t status = kus_check_lines (font, premises, text, lines, num_lines);
  note (status);
  for (size_t i = 0; i < num_lines; i++) {
    const kus_line_t *old = &before[i], *new = &lines[i];
    if (new->start != old->start || new->end != old->end || new->width != old->width) fail ("a checked line", "that is another");
    if (new->is_own == old->is_own && new->first_glyph == old->first_glyph && new->end_glyph == old->end_glyph) continue;
    if (status != KUS_OK || new->is_own || new->first_glyph || new->end_glyph) fail ("a checked line", "that wasn't left out");
  }
  free_block (before, num_lines * sizeof *before);
}

/* Lines join from the text's beginning to its end, and each of glyphs has some. */
static void
try_lines (kus_font_t *font, const kus_text_t *text, size_t end)
{
  size_t num_breaks = below (8), room = below (MOST_ROOM), count = 1, last = 0;
  size_t *breaks = some_indices (num_breaks);
  kus_line_t *lines = block (room * sizeof *lines);
  int64_t first = once_in (9) ? (int64_t) drawn () : below (4000), width = once_in (9) ? (int64_t) drawn () : below (4000);
  kus_status_t status = kus_cut_lines (font, end, breaks, num_breaks, first, width, lines, room, &count);
  note (status);
  if (status != KUS_OK && count) fail ("lines", "of a fault");
  for (size_t i = 0; i < less (room, count); i++) {
    if (lines[i].start != last || lines[i].end <= last) fail ("lines", "that don't join");
    if (lines[i].first_glyph > lines[i].end_glyph) fail ("a line's glyphs", "turned");
    last = lines[i].end;
  }
  if (status == KUS_OK && count <= room && last != end) fail ("lines", "that don't end");
  if (once_in (2)) try_checks (font, text, lines, less (room, count));
  free_block (breaks, num_breaks * sizeof *breaks);
  free_block (lines, room * sizeof *lines);
}

/* Carets rise from the text's beginning to its end. */
static void
try_carets (kus_font_t *font, size_t end)
{
  size_t num_stops = below (8), room = below (MOST_ROOM), count = 1;
  size_t *stops = some_indices (num_stops);
  kus_caret_t *carets = block (room * sizeof *carets);
  kus_status_t status = kus_get_carets (font, end, stops, num_stops, carets, room, &count);
  note (status);
  if (status != KUS_OK && count) fail ("carets", "of a fault");
  read_all (carets, less (room, count) * sizeof *carets);
  for (size_t i = 0; i < less (room, count); i++)
    if (i ? carets[i].index <= carets[i - 1].index : carets[i].index) fail ("carets", "that don't rise");
  if (count && count <= room && carets[count - 1].index != end) fail ("carets", "that don't end");
  free_block (stops, num_stops * sizeof *stops);
  free_block (carets, room * sizeof *carets);
}

/* Glyphs with rooms of two lengths; how many there are. */
static size_t
try_glyphs (kus_font_t *font, const kus_text_t *text)
{
  size_t first = below (MOST_ROOM), second = below (MOST_ROOM), count = 0;
  kus_glyph_info_t *infos = block (first * sizeof *infos);
  kus_glyph_position_t *positions = block (second * sizeof *positions);
  if (text) {
    kus_status_t status = kus_shape (font, text, infos, first, positions, second, &count);
    note (status);
    if (status != KUS_OK && count) fail ("glyphs", "of a fault");
    shaped += status == KUS_OK;
    glyphs += count;
  } else
    count = kus_get_glyphs (font, infos, first, positions, second);
  read_all (infos, less (first, count) * sizeof *infos);
  read_all (positions, less (second, count) * sizeof *positions);
  free_block (infos, first * sizeof *infos);
  free_block (positions, second * sizeof *positions);
  return count;
}

/* All glyphs of a text in arrays that grow, beside those that the handle gives again; how many there are. */
static size_t
try_all_glyphs (kus_font_t *font, const kus_text_t *text)
{
  kus_status_t status = kus_shape_glyphs (font, text, &all);
  note (status);
  if (status != KUS_OK && all.count) fail ("glyphs", "of a fault");
  shaped += status == KUS_OK;
  glyphs += all.count;
  if (once_in (3)) kus_font_shrink (font);
  size_t count = all.count;
  kus_glyph_info_t *infos = block (count * sizeof *infos);
  kus_glyph_position_t *positions = block (count * sizeof *positions);
  if (kus_get_glyphs (font, infos, count, positions, count) != count) fail ("glyphs", "of another number");
  if (memcmp (infos, all.infos, count * sizeof *infos)) fail ("glyphs", "that are others");
  if (memcmp (positions, all.positions, count * sizeof *positions)) fail ("positions", "that are others");
  free_block (infos, count * sizeof *infos);
  free_block (positions, count * sizeof *positions);
  if (once_in (9)) kus_glyphs_free (&all);
  return count;
}

static void
call_shape (void)
{
  kus_text_t text = drawn_text ();
  kus_font_t *font = some_font ();
  size_t count = once_in (4) ? try_all_glyphs (font, &text) : try_glyphs (font, &text);
  if (once_in (3) && try_glyphs (font, NULL) != count) fail ("glyphs", "of another number");
  if (once_in (3)) try_slices (font, &text);
  size_t end = once_in (20) ? below (2 * MOST_CHARACTERS) : end_of (&text);
  if (once_in (3)) try_lines (font, &text, end);
  if (once_in (3)) try_carets (font, once_in (9) ? (size_t) drawn () : end);
  kus_get_direction (font);
  kus_get_script (font);
  free_text (&text);
}

static uint32_t
some_advance (void *answers, uint32_t glyph)
{
  return ((uint32_t *) answers)[glyph] = below (once_in (200) ? 70000 : 3000);
}

/* Shapes by advances that are asked for, which the glyphs then have that there was room for. */
static void
call_measured (void)
{
  static uint32_t answers[0x10000];
  kus_text_t text = drawn_text ();
  kus_font_t *font = some_font ();
  size_t room = below (MOST_ROOM), count = 1;
  kus_glyph_info_t *infos = block (room * sizeof *infos);
  kus_glyph_position_t *positions = block (room * sizeof *positions);
  kus_measures_t *measures = calloc (1, sizeof *measures);
  if (!measures) fail ("memory", "short");
  measures->advance = some_advance;
  measures->data = answers;
  kus_status_t status = kus_shape_measured (font, &text, infos, room, positions, room, &count, measures);
  note (status);
  if (status != KUS_OK && count) fail ("glyphs", "of a fault");
  read_all (infos, less (room, count) * sizeof *infos);
  read_all (positions, less (room, count) * sizeof *positions);
  for (size_t i = 0; i < less (room, count); i++)
    if (kus_font_get_glyph_h_advance (font, infos[i].codepoint) != (int32_t) answers[infos[i].codepoint & 0xFFFF])
      fail ("an advance", "that wasn't answered");
  free (measures);
  free_block (infos, room * sizeof *infos);
  free_block (positions, room * sizeof *positions);
  free_text (&text);
}

/* A list that is taken gives each glyph its last advance; one that is refused leaves them as they were. */
static void
call_advances (void)
{
  kus_font_t *font = some_font ();
  size_t count = below (9);
  kus_glyph_advance_t *given = block (count * sizeof *given);
  int32_t *own = block (count * sizeof *own);
  for (size_t i = 0; i < count; i++) {
    uint32_t glyph = once_in (60) ? (uint32_t) drawn () : below (40);
    given[i] = (kus_glyph_advance_t){ glyph, once_in (60) ? (uint32_t) drawn () : below (65536) };
    own[i] = kus_font_get_glyph_h_advance (font, glyph);
  }
  kus_status_t status = kus_font_set_advances (font, given, count);
  note (status);
  for (size_t i = 0; i < count; i++) {
    int64_t wanted = own[i];
    for (size_t j = 0; j < count && status == KUS_OK; j++)
      if (given[j].glyph == given[i].glyph) wanted = given[j].advance;
    if (kus_font_get_glyph_h_advance (font, given[i].glyph) != wanted) fail ("an advance", "that wasn't given");
  }
  free_block (given, count * sizeof *given);
  free_block (own, count * sizeof *own);
}

static uint32_t
nominal_glyph (kus_font_t *font, uint32_t character)
{
  uint32_t glyph;
  return kus_font_get_nominal_glyph (font, character, &glyph) ? glyph : KUS_CODEPOINT_INVALID;
}

/* A list that is taken gives each character its last glyph, or none; one that is refused leaves them as they were. */
static void
call_glyphs (void)
{
  kus_font_t *font = some_font ();
  size_t count = below (9);
  kus_character_glyph_t *given = block (count * sizeof *given);
  uint32_t *own = block (count * sizeof *own);
  for (size_t i = 0; i < count; i++) {
    given[i].character = once_in (60) ? (uint32_t) drawn () : once_in (2) ? some_character () : 0x60 + below (8);
    given[i].selector = once_in (60) ? (uint32_t) drawn () : once_in (3) ? 0xFE00 + below (2) : 0;
    given[i].glyph = once_in (60) ? (uint32_t) drawn () : once_in (4) ? KUS_CODEPOINT_INVALID : below (40);
    own[i] = nominal_glyph (font, given[i].character);
  }
  kus_status_t status = kus_font_set_glyphs (font, given, count);
  note (status);
  for (size_t i = 0; i < count; i++) {
    uint32_t wanted = own[i];
    for (size_t j = 0; j < count && status == KUS_OK; j++)
      if (given[j].character == given[i].character && !given[j].selector) wanted = given[j].glyph;
    if (nominal_glyph (font, given[i].character) != wanted) fail ("a glyph", "that wasn't given");
  }
  free_block (given, count * sizeof *given);
  free_block (own, count * sizeof *own);
}

static void
call_replacements (void)
{
  uint32_t glyph = once_in (20) ? (uint32_t) drawn () : below (0x10001);
  kus_status_t status = once_in (2) ? kus_font_set_invisible_glyph (some_font (), glyph) : kus_font_set_not_found_glyph (some_font (), glyph);
  note (status);
  if (status != KUS_NO_FONT && (status == KUS_NO_GLYPH) != (glyph > 0xFFFF)) fail ("a glyph", "that none has");
}

static void
call_settings (void)
{
  kus_line_metrics_t metrics;
  if (kus_font_get_line_metrics (some_font (), &metrics)) read_all (&metrics, sizeof metrics);
  switch (below (4)) {
  case 0: call_advances (); break;
  case 1: call_glyphs (); break;
  case 2: call_replacements (); break;
  default:
    note (kus_font_set_scale (some_font (), once_in (3) ? 0 : (int32_t) drawn (), once_in (3) ? 0 : (int32_t) drawn ()));
  }
}

/* A copy of a file, one time in three damaged or cut. */
static bytes_t
some_file (void)
{
  const bytes_t *file = &files[below (num_files)];
  bytes_t copy = { NULL, once_in (6) ? below ((uint32_t) file->length + 1) : file->length };
  copy.bytes = block (copy.length);
  memcpy (copy.bytes, file->bytes, copy.length);
  for (uint32_t times = once_in (4) && copy.length ? 1 + below (9) : 0; times; times--)
    copy.bytes[below ((uint32_t) copy.length)] = (uint8_t) drawn ();
  return copy;
}

static void
call_fonts (void)
{
  bytes_t file = some_file ();
  kus_font_t *font = some_font ();
  uint32_t flags = below (4), index = once_in (9) ? below (9) : 0;
  uint8_t said[64], *text = block (flags);
  if (is_json (file)) {
    static const uint8_t none[] = "{}";
    note (once_in (2) ? kus_font_create (font, none, 2, file.bytes, file.length)
                      : kus_font_create_with_tables (font, some_tables (), file.bytes, file.length));
  } else {
    kus_status_t status = once_in (8) ? kus_font_create_from_bytes (font, NULL, file.bytes, file.length, index, flags)
                                      : kus_font_create_from_bytes (font, some_tables (), file.bytes, file.length, index, flags);
    size_t length = kus_describe_fault (file.bytes, file.length, index, flags, said, sizeof said);
    note (status);
    if (status != KUS_NO_TABLES && (status == KUS_OK) != !length) fail ("a fault", "of a font that is read");
    read_all (text, less (flags, kus_describe_fault (file.bytes, file.length, index, flags, text, flags)));
  }
  kus_count_fonts (file.bytes, file.length);
  free_block (text, flags);
  free_block (file.bytes, file.length);
}

static void
call_tables (void)
{
  static const char *const json[] = { "{}", "{\"version\":1", "[]", "", "{\"classes\":[[65,1],[66,2]]}" };
  const char *text = json[below (5)];
  kus_tables_t *to = some_tables (), *other = some_tables ();
  size_t length = strlen (text);
  uint8_t *copy = block (length);
  memcpy (copy, text, length);
  switch (below (4)) {
  case 0: note (kus_tables_create_default (to)); break;
  case 1: note (kus_tables_create (to, copy, length)); break;
  case 2: if (to != other) note (kus_tables_reference (to, other)); break;
  default: if (once_in (3)) kus_tables_destroy (to); break;
  }
  free_block (copy, length);
}

/* Handles are shared, dropped and moved. */
static void
call_handles (void)
{
  kus_font_t *font = some_font (), *other = some_font ();
  if (font == other) return;
  switch (below (12)) {
  case 0: kus_font_destroy (font); break;
  case 1: case 2: case 3: { kus_font_t moved = *font; *font = *other; *other = moved; break; }
  default: note (kus_font_reference (font, other)); break;
  }
}

static void
call_tags (kus_font_t *font)
{
  size_t room = below (20);
  uint32_t *tags = block (room * sizeof *tags), table = some_tag ();
  size_t count = once_in (2) ? kus_font_get_feature_tags (font, table, tags, room)
                             : kus_font_get_script_tags (font, table, tags, room);
  read_all (tags, less (room, count) * sizeof *tags);
  free_block (tags, room * sizeof *tags);
}

static void
call_questions (void)
{
  kus_font_t *font = some_font ();
  uint32_t glyph = once_in (4) ? (uint32_t) drawn () : below (400), nominal = 0;
  kus_glyph_extents_t box;
  size_t room = below (40);
  uint8_t *name = block (room);
  read_all (name, less (room, kus_font_get_glyph_name (font, glyph, name, room)));
  free_block (name, room);
  if (kus_font_get_glyph_extents (font, glyph, &box)) read_all (&box, sizeof box);
  if (!kus_font_get_nominal_glyph (font, some_character (), &nominal) && nominal) fail ("a glyph", "that is none");
  kus_font_get_glyph_h_advance (font, glyph);
  if (kus_font_get_glyph_v_advance (font, glyph) > 0) fail ("an advance", "upward");
  if (kus_version () >> 16 != KUS_VERSION_MAJOR) fail ("a version", "of another header");
  int32_t *carets = block (room * sizeof *carets);
  read_all (carets, less (room, kus_font_get_ligature_carets (font, glyph, carets, room)) * sizeof *carets);
  free_block (carets, room * sizeof *carets);
  kus_font_get_upem (font);
  kus_font_get_ascender (font);
  call_tags (font);
}

static void
call_words (void)
{
  static const char *const words[] = { "kern", "-liga", "aalt=2", "\"kern\"[3:5]=1", "x[", "kern=99999999999", "", "+a b", "Latn", "arab", "Qaai", "rtl" };
  const char *from = words[below (12)];
  size_t length = below ((uint32_t) strlen (from) + 1);
  char *word = block (length), tag[4];
  memcpy (word, from, length);
  if (length && once_in (4)) word[below ((uint32_t) length)] = (char) drawn ();
  kus_feature_t feature;
  if (kus_feature_from_string (word, length, &feature)) read_all (&feature, sizeof feature);
  kus_tag_to_string (kus_script_from_string (word, length), tag);
  kus_tag_to_string (kus_tag_from_string (word, length), tag);
  kus_script_from_iso15924_tag (some_tag ());
  kus_direction_to_string (kus_direction_from_string (word, length));
  free_block (word, length);
}

/* How often each kind of call is made, of a hundred. */
static void
make_call (void)
{
  uint32_t at = below (100);
  if (at < 50) call_shape ();
  else if (at < 52) call_measured ();
  else if (at < 55) call_settings ();
  else if (at < 80) call_questions ();
  else if (at < 90) call_words ();
  else if (at < 94) call_handles ();
  else if (at < 99) call_fonts ();
  else call_tables ();
}

int
main (int argc, char **argv)
{
  if (argc < 4) fail ("usage", "calls SEED COUNT FONT ..");
  state = strtoull (argv[1], NULL, 10) * 2654435769u + 1;
  num_files = (unsigned) argc - 3;
  files = block (num_files * sizeof *files);
  for (unsigned i = 0; i < num_files; i++) files[i] = read_file (argv[i + 3]);
  unsigned long count = strtoul (argv[2], NULL, 10);
  for (unsigned long at = 0; at < count; at++) make_call ();
  for (int i = 0; i < NUM_FONTS; i++) kus_font_destroy (&fonts[i]);
  for (int i = 0; i < NUM_TABLES; i++) kus_tables_destroy (&tables[i]);
  kus_glyphs_free (&all);
  for (unsigned i = 0; i < num_files; i++) free (files[i].bytes);
  free (files);
  printf ("%lu calls, %zu texts shaped to %zu glyphs", count, shaped, glyphs);
  for (uint32_t i = 0; i < NUM_STATUSES; i++)
    if (statuses[i]) printf (", %zu %s", statuses[i], kus_status_name (i));
  printf ("\n");
  return 0;
}
