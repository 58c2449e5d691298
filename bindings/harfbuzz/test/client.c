/* client FONT CASE ..: a program that uses libharfbuzz in one of many ways, and prints the glyphs. The tests run it with
 * Kuspveli in front of libharfbuzz and without, and both have to print the same. */
#include <hb-ot.h>
#include <hb.h>
#include <pthread.h>
#include <stdbool.h>
#include <stdio.h>
#include <stdlib.h>
#include <string.h>
#include <sys/wait.h>
#include <unistd.h>

static hb_blob_t *file;

static hb_face_t *
new_face (void)
{
  return hb_face_create (file, 0);
}

static hb_font_t *
new_font (hb_face_t *face)
{
  hb_font_t *font = hb_font_create (face);
  hb_face_destroy (face);
  return font;
}

static hb_buffer_t *
buffer_of (const char *text)
{
  hb_buffer_t *buffer = hb_buffer_create ();
  hb_buffer_add_utf8 (buffer, text, -1, 0, -1);
  hb_buffer_guess_segment_properties (buffer);
  return buffer;
}

static void
print_buffer (const char *name, hb_font_t *font, hb_buffer_t *buffer)
{
  char line[65536] = "";
  unsigned int length = hb_buffer_get_length (buffer);
  hb_buffer_serialize_glyphs (buffer, 0, length, line, sizeof line, NULL, font, HB_BUFFER_SERIALIZE_FORMAT_TEXT,
                              HB_BUFFER_SERIALIZE_FLAG_NO_GLYPH_NAMES);
  printf ("%s %s\n", name, line);
}

/* Shapes, prints and frees a buffer. */
static void
shape_buffer (const char *name, hb_font_t *font, hb_buffer_t *buffer)
{
  hb_shape (font, buffer, NULL, 0);
  print_buffer (name, font, buffer);
  hb_buffer_destroy (buffer);
}

static const char *const words[] = {
  "office AVATAR", "e\xCC\x8A\xCC\x81x\xCC\xA3", "\xD9\x85\xD9\x8F\xD8\xAD\xD9\x8E\xD9\x85\xD9\x91\xD9\x8E\xD8\xAF",
  "\xD7\xA9\xD6\xB8\xD7\x81\xD7\x9C\xD7\x95\xD6\xB9\xD7\x9D", "a\xC2\xAD" "b\xE2\x80\x8D" "c",
};
#define NUM_WORDS (sizeof words / sizeof *words)

static void
shape_words (const char *name, hb_font_t *font)
{
  for (size_t i = 0; i < NUM_WORDS; i++)
    shape_buffer (name, font, buffer_of (words[i]));
}

/* ---- faces */

static void
of_file (void)
{
  hb_font_t *font = new_font (new_face ());
  shape_words ("file", font);
  hb_font_destroy (font);
}

static hb_blob_t *
table_of (hb_face_t *face, hb_tag_t tag, void *data)
{
  (void) face;
  return tag ? hb_face_reference_table (data, tag) : NULL;
}

static void
of_tables (void)
{
  hb_face_t *whole = new_face ();
  hb_font_t *font = new_font (hb_face_create_for_tables (table_of, whole, NULL));
  shape_words ("tables", font);
  hb_font_destroy (font);
  hb_face_destroy (whole);
}

static void
of_nothing (void)
{
  hb_font_t *font = new_font (hb_face_create (hb_blob_get_empty (), 0));
  shape_buffer ("nothing", font, buffer_of ("office"));
  hb_font_destroy (font);
  hb_buffer_t *buffer = buffer_of ("office");
  hb_shape (hb_font_get_empty (), buffer, NULL, 0);
  printf ("empty %u\n", hb_buffer_get_length (buffer));
  hb_buffer_destroy (buffer);
}

/* ---- the ways to shape */

static void
by_calls (void)
{
  hb_font_t *font = new_font (new_face ());
  hb_feature_t features[] = { { HB_TAG ('l', 'i', 'g', 'a'), 0, 2, 5 }, { HB_TAG ('k', 'e', 'r', 'n'), 0, 0, -1u } };
  const char *const ot[] = { "graphite2", "coretext_aat", "ot", NULL }, *const fallback[] = { "fallback", "ot", NULL };
  hb_buffer_t *buffer = buffer_of ("office office AV");
  hb_shape_full (font, buffer, features, 2, ot);
  print_buffer ("full", font, buffer);
  hb_buffer_destroy (buffer);
  buffer = buffer_of ("office");
  hb_shape_full (font, buffer, NULL, 0, fallback);
  print_buffer ("fallback", font, buffer);
  hb_buffer_destroy (buffer);
  buffer = buffer_of ("office AV");
  hb_segment_properties_t properties;
  hb_buffer_get_segment_properties (buffer, &properties);
  hb_shape_plan_t *plan = hb_shape_plan_create_cached (hb_font_get_face (font), &properties, NULL, 0, NULL);
  hb_shape_plan_execute (plan, font, buffer, NULL, 0);
  print_buffer ("plan", font, buffer);
  hb_shape_plan_destroy (plan);
  hb_buffer_destroy (buffer);
  hb_font_destroy (font);
}

/* ---- buffers */

static void
set_arabic (hb_buffer_t *buffer)
{
  hb_buffer_set_direction (buffer, HB_DIRECTION_RTL);
  hb_buffer_set_script (buffer, HB_SCRIPT_ARABIC);
}

/* Beh between two others: its form depends on what stands around it. */
static void
of_contexts (void)
{
  static const char utf8[] = "\xD8\xA8\xD8\xA8\xD8\xA8";
  static const uint16_t utf16[] = { 0x628, 0x628, 0x628, 0 };
  static const uint32_t utf32[] = { 0x628, 0x628, 0x628, 0 };
  hb_font_t *font = new_font (new_face ());
  hb_buffer_t *buffer = hb_buffer_create (), *other = hb_buffer_create ();
  for (int way = 0; way < 8; way++) {
    hb_buffer_clear_contents (buffer);
    switch (way) {
    case 0:
      hb_buffer_add_utf8 (buffer, utf8, -1, 2, 2);
      break;
    case 1:
      hb_buffer_add_utf16 (buffer, utf16, -1, 1, 1);
      break;
    case 2:
      hb_buffer_add_utf32 (buffer, utf32, 3, 1, -1);
      break;
    case 3:
      hb_buffer_add_codepoints (buffer, utf32, 3, 0, 2);
      break;
    case 4: /* what follows is added later */
      hb_buffer_add_utf8 (buffer, utf8, 6, 2, 0);
      hb_buffer_add (buffer, 0x628, 0);
      break;
    case 5:
      hb_buffer_reset (other);
      hb_buffer_add_utf8 (other, utf8, -1, 0, -1);
      hb_buffer_append (buffer, other, 1, 2);
      break;
    case 6: /* the context is gone */
      hb_buffer_add_utf8 (buffer, utf8, -1, 2, 2);
      hb_buffer_reset (buffer);
      hb_buffer_add_utf8 (buffer, utf8, 2, 0, 2);
      break;
    case 7:
      hb_buffer_add_utf8 (buffer, "x\xD8", 2, 0, 0);
      hb_buffer_add_utf8 (buffer, utf8, 2, 0, 2);
      break;
    }
    set_arabic (buffer);
    hb_shape (font, buffer, NULL, 0);
    print_buffer ("context", font, buffer);
  }
  hb_buffer_destroy (other);
  hb_buffer_destroy (buffer);
  hb_font_destroy (font);
}

static void
of_clusters (void)
{
  hb_font_t *font = new_font (new_face ());
  hb_buffer_t *buffer = hb_buffer_create ();
  for (int way = 0; way < 4; way++) {
    hb_buffer_reset (buffer);
    for (const char *at = "office"; *at; at++)
      hb_buffer_add (buffer, (unsigned char) *at, (unsigned int) (way == 1 ? 1 : way == 2 ? 100 - *at : 7 * *at));
    if (way == 3)
      hb_buffer_add (buffer, 0xD800, 9999);
    if (way == 0) {
      hb_buffer_reset (buffer);
      for (unsigned int i = 0; i < 6; i++)
        hb_buffer_add (buffer, (unsigned char) "office"[i], 10 * i + 3);
    }
    hb_buffer_set_content_type (buffer, HB_BUFFER_CONTENT_TYPE_UNICODE);
    hb_buffer_guess_segment_properties (buffer);
    hb_shape (font, buffer, NULL, 0);
    print_buffer ("clusters", font, buffer);
  }
  hb_buffer_destroy (buffer);
  hb_font_destroy (font);
}

/* Characters of clusters that fall. */
static hb_buffer_t *
falling (const char *text)
{
  hb_buffer_t *buffer = buffer_of (text);
  unsigned int length;
  hb_glyph_info_t *infos = hb_buffer_get_glyph_infos (buffer, &length);
  for (unsigned int i = 0; i < length; i++)
    infos[i].cluster = length - i;
  return buffer;
}

static void
of_settings (void)
{
  hb_font_t *font = new_font (new_face ());
  hb_codepoint_t glyph = 0, joining = 0;
  hb_font_get_nominal_glyph (font, '*', &glyph);
  hb_font_get_nominal_glyph (font, 'i', &joining);
  static const char ignorables[] = "a\xC2\xAD" "b\xE2\x80\x8D" "c", lacking[] = "a\xEE\x80\x80" "b";
  for (int way = 0; way < 9; way++) {
    hb_buffer_t *buffer = way == 7 ? falling (ignorables)
                                   : buffer_of (way == 6   ? "\xC2\xAD"
                                                : way == 4 ? lacking
                                                : way == 8 ? "f\xEE\x80\x80"
                                                           : ignorables);
    if (way == 1 || way == 7)
      hb_buffer_set_invisible_glyph (buffer, glyph);
    if (way == 2 || way == 6) /* of the last one nothing is left */
      hb_buffer_set_flags (buffer, HB_BUFFER_FLAG_REMOVE_DEFAULT_IGNORABLES | HB_BUFFER_FLAG_BOT);
    if (way == 3)
      hb_buffer_set_flags (buffer, HB_BUFFER_FLAG_PRESERVE_DEFAULT_IGNORABLES);
    if (way == 4)
      hb_buffer_set_not_found_glyph (buffer, glyph);
    if (way == 5)
      hb_buffer_set_cluster_level (buffer, HB_BUFFER_CLUSTER_LEVEL_CHARACTERS);
    if (way == 8) /* the font's rules apply to it */
      hb_buffer_set_not_found_glyph (buffer, joining);
    shape_buffer ("settings", font, buffer);
  }
  hb_font_destroy (font);
}

/* Glyphs of numbers that no font has, as Pango has them. */
static void
of_wide_glyphs (void)
{
  static const char text[] = "a\xC2\xAD" "b\xEE\x80\x80";
  hb_font_t *font = new_font (new_face ());
  for (int way = 0; way < 3; way++) {
    hb_buffer_t *buffer = buffer_of (text);
    if (way != 1)
      hb_buffer_set_invisible_glyph (buffer, 0x0FFFFFFF);
    if (way == 1)
      hb_buffer_set_not_found_glyph (buffer, 0x10000);
    if (way == 2)
      hb_font_set_scale (font, 832, 832);
    shape_buffer ("wide", font, buffer);
  }
  hb_font_destroy (font);
}

static hb_bool_t
follow (hb_buffer_t *buffer, hb_font_t *font, const char *message, void *data)
{
  (void) buffer, (void) font, (void) message;
  ++*(int *) data;
  return true;
}

static void
of_messages (void)
{
  int steps = 0;
  hb_font_t *font = new_font (new_face ());
  hb_buffer_t *buffer = buffer_of ("office");
  hb_buffer_set_message_func (buffer, follow, &steps, NULL);
  shape_buffer ("messages", font, buffer);
  printf ("followed %d\n", steps > 0);
  hb_font_destroy (font);
}

/* ---- what a client's font changes */

static void
of_scale (void)
{
  static const int scales[][2] = { { 768, 768 }, { 12 * 64, -12 * 64 }, { 100000, 50000 }, { -700, 700 } };
  for (size_t i = 0; i < sizeof scales / sizeof *scales; i++) {
    hb_font_t *font = new_font (new_face ());
    hb_font_set_scale (font, scales[i][0], scales[i][1]);
    shape_words ("scale", font);
    hb_font_destroy (font);
  }
}

static void
of_slant (void)
{
  hb_font_t *font = new_font (new_face ());
  hb_font_set_scale (font, 2000, 2000);
  hb_font_set_synthetic_slant (font, 0.25f);
  shape_words ("slant", font);
  hb_font_destroy (font);
}

/* Advances that are whole pixels and a little wider, as hinted ones are. */
static hb_position_t
hinted (hb_font_t *font, void *data, hb_codepoint_t glyph, void *user)
{
  (void) data, (void) user;
  hb_position_t advance = hb_font_get_glyph_h_advance (hb_font_get_parent (font), glyph);
  return advance ? (advance + 95) / 64 * 64 : 0;
}

static void
of_advances (void)
{
  hb_font_t *parent = new_font (new_face ());
  hb_font_set_scale (parent, 832, 832);
  hb_font_t *font = hb_font_create_sub_font (parent);
  hb_font_funcs_t *functions = hb_font_funcs_create ();
  hb_font_funcs_set_glyph_h_advance_func (functions, hinted, NULL, NULL);
  hb_font_set_funcs (font, functions, NULL, NULL);
  shape_words ("advances", font);
  hb_font_funcs_destroy (functions);
  hb_font_destroy (font);
  hb_font_destroy (parent);
}

/* A box of the client's for what the font lacks, as Pango has it. */
static hb_bool_t
boxed (hb_font_t *font, void *data, hb_codepoint_t unicode, hb_codepoint_t *glyph, void *user)
{
  (void) data, (void) user;
  if (hb_font_get_nominal_glyph (hb_font_get_parent (font), unicode, glyph))
    return true;
  *glyph = 0x10000000 | unicode;
  return false;
}

static void
of_missing (void)
{
  hb_font_t *parent = new_font (new_face ()), *font = hb_font_create_sub_font (parent);
  hb_font_funcs_t *functions = hb_font_funcs_create ();
  hb_font_funcs_set_nominal_glyph_func (functions, boxed, NULL, NULL);
  hb_font_set_funcs (font, functions, NULL, NULL);
  shape_buffer ("missing", font, buffer_of ("a\xEE\x80\x80" "b\xEE\x80\x81\xEE\x80\x82"));
  hb_font_funcs_destroy (functions);
  hb_font_destroy (font);
  hb_font_destroy (parent);
}

static hb_bool_t
nominal_of_parent (hb_font_t *font, void *data, hb_codepoint_t unicode, hb_codepoint_t *glyph, void *user)
{
  (void) font, (void) user;
  return hb_font_get_nominal_glyph (data, unicode, glyph);
}

static hb_position_t
advance_of_parent (hb_font_t *font, void *data, hb_codepoint_t glyph, void *user)
{
  (void) font, (void) user;
  return hb_font_get_glyph_h_advance (data, glyph);
}

static hb_bool_t
extents_of_parent (hb_font_t *font, void *data, hb_codepoint_t glyph, hb_glyph_extents_t *extents, void *user)
{
  (void) font, (void) user;
  return hb_font_get_glyph_extents (data, glyph, extents);
}

static hb_blob_t *
no_table (hb_face_t *face, hb_tag_t tag, void *data)
{
  (void) face, (void) tag, (void) data;
  return NULL;
}

/* A face without tables, as of bare CFF: all that is known of it is what the functions answer. */
static void
of_bare (void)
{
  hb_font_t *whole = new_font (new_face ()), *font = new_font (hb_face_create_for_tables (no_table, NULL, NULL));
  hb_font_funcs_t *functions = hb_font_funcs_create ();
  hb_font_funcs_set_nominal_glyph_func (functions, nominal_of_parent, NULL, NULL);
  hb_font_funcs_set_glyph_h_advance_func (functions, advance_of_parent, NULL, NULL);
  hb_font_funcs_set_glyph_extents_func (functions, extents_of_parent, NULL, NULL);
  hb_font_set_scale (whole, 1600, 1600);
  hb_font_set_scale (font, 1600, 1600);
  hb_font_set_funcs (font, functions, whole, NULL);
  static const char *const bare_words[] = { "office AVATAR", "e\xCC\x8A\xCC\x81x\xCC\xA3", "\xF0\x9D\x90\x80\xC3\xA9" };
  for (size_t i = 0; i < sizeof bare_words / sizeof *bare_words; i++)
    shape_buffer ("bare", font, buffer_of (bare_words[i]));
  hb_font_funcs_destroy (functions);
  hb_font_destroy (font);
  hb_font_destroy (whole);
}

static void
of_vertical (void)
{
  hb_font_t *font = new_font (new_face ());
  hb_font_set_scale (font, 1500, 1500);
  for (int way = 0; way < 2; way++) {
    hb_buffer_t *buffer = buffer_of (way ? "off\xC2\xADice" : "office");
    hb_buffer_set_direction (buffer, HB_DIRECTION_TTB);
    if (way)
      hb_buffer_set_invisible_glyph (buffer, 7);
    shape_buffer ("vertical", font, buffer);
  }
  hb_font_destroy (font);
}

/* ---- threads and processes */

#define NUM_THREADS 8
#define NUM_ROUNDS 200

typedef struct {
  hb_font_t *font;
  char *lines;
} worker_t;

static void *
work (void *data)
{
  worker_t *worker = data;
  worker->lines = calloc (NUM_WORDS, 4096);
  for (int round = 0; round < NUM_ROUNDS; round++)
    for (size_t i = 0; i < NUM_WORDS; i++) {
      hb_buffer_t *buffer = buffer_of (words[i]);
      hb_shape (worker->font, buffer, NULL, 0);
      hb_buffer_serialize_glyphs (buffer, 0, hb_buffer_get_length (buffer), worker->lines + 4096 * i, 4096, NULL,
                                  worker->font, HB_BUFFER_SERIALIZE_FORMAT_TEXT,
                                  HB_BUFFER_SERIALIZE_FLAG_NO_GLYPH_NAMES);
      hb_buffer_destroy (buffer);
    }
  return NULL;
}

static void
of_threads (void)
{
  pthread_t threads[NUM_THREADS];
  worker_t workers[NUM_THREADS];
  hb_font_t *font = new_font (new_face ());
  hb_font_make_immutable (font);
  for (int i = 0; i < NUM_THREADS; i++) {
    workers[i].font = font;
    pthread_create (&threads[i], NULL, work, &workers[i]);
  }
  for (int i = 0; i < NUM_THREADS; i++) {
    pthread_join (threads[i], NULL);
    for (size_t j = 0; j < NUM_WORDS; j++)
      printf ("thread %s\n", workers[i].lines + 4096 * j);
    free (workers[i].lines);
  }
  hb_font_destroy (font);
}

/* A thread with less of a stack than reading a font takes. */
static void *
work_narrowly (void *data)
{
  hb_buffer_t *buffer = buffer_of ("office");
  hb_shape (data, buffer, NULL, 0);
  hb_glyph_info_t *infos = hb_buffer_get_glyph_infos (buffer, NULL);
  printf ("narrow %u\n", infos[0].codepoint);
  hb_buffer_destroy (buffer);
  return NULL;
}

static void
of_stack (void)
{
  pthread_t thread;
  pthread_attr_t attributes;
  hb_font_t *font = new_font (new_face ());
  pthread_attr_init (&attributes);
  pthread_attr_setstacksize (&attributes, 256 << 10);
  pthread_create (&thread, &attributes, work_narrowly, font);
  pthread_join (thread, NULL);
  pthread_attr_destroy (&attributes);
  shape_buffer ("narrow", font, buffer_of ("office"));
  hb_font_destroy (font);
}

static void
of_fork (void)
{
  int status = 1;
  hb_font_t *font = new_font (new_face ());
  shape_buffer ("parent", font, buffer_of ("office"));
  fflush (stdout);
  pid_t child = fork ();
  if (!child) {
    shape_words ("child", font);
    fflush (stdout);
    _exit (3);
  }
  waitpid (child, &status, 0);
  printf ("child %d\n", WEXITSTATUS (status));
  hb_font_destroy (font);
}

#define NUM_FORKS 20

static volatile bool is_over;

static void *
work_on (void *data)
{
  while (!is_over)
    for (size_t i = 0; i < NUM_WORDS; i++) {
      hb_buffer_t *buffer = buffer_of (words[i]);
      hb_shape (data, buffer, NULL, 0);
      hb_buffer_destroy (buffer);
    }
  return NULL;
}

/* Children that are forked while other threads shape: none waits for them. */
static void
of_forks (void)
{
  pthread_t threads[3];
  hb_font_t *font = new_font (new_face ());
  for (int i = 0; i < 3; i++)
    pthread_create (&threads[i], NULL, work_on, font);
  for (int i = 0; i < NUM_FORKS; i++) {
    int status = 0;
    usleep (1000);
    fflush (stdout);
    pid_t child = fork ();
    if (!child) {
      alarm (60);
      shape_buffer ("forked", font, buffer_of (words[0]));
      fflush (stdout);
      _exit (0);
    }
    waitpid (child, &status, 0);
    printf ("status %d\n", status);
  }
  is_over = true;
  for (int i = 0; i < 3; i++)
    pthread_join (threads[i], NULL);
  hb_font_destroy (font);
}

static const struct {
  const char *name;
  void (*run) (void);
} cases[] = {
  { "file", of_file },         { "tables", of_tables },     { "nothing", of_nothing },   { "calls", by_calls },
  { "contexts", of_contexts }, { "clusters", of_clusters }, { "settings", of_settings }, { "wide", of_wide_glyphs },
  { "messages", of_messages }, { "scale", of_scale },       { "slant", of_slant },       { "advances", of_advances },
  { "missing", of_missing },   { "bare", of_bare },         { "vertical", of_vertical }, { "threads", of_threads },
  { "stack", of_stack },       { "fork", of_fork },         { "forks", of_forks },
};

int
main (int count, char **given)
{
  file = hb_blob_create_from_file_or_fail (count > 1 ? given[1] : "");
  if (!file)
    return 2;
  for (int i = 2; i < count; i++)
    for (size_t j = 0; j < sizeof cases / sizeof *cases; j++)
      if (!strcmp (cases[j].name, given[i]))
        cases[j].run ();
  hb_blob_destroy (file);
  return 0;
}
