/* many TABLES FONT CALLS WORD..: calls on four threads, each with a handle of its own over one font, give the glyphs
 * that the first call gave; memory is counted, and none is left; each allocation of a call is refused in turn, and of a
 * font file each allocation of the call that reads it; a font gives back the room of a long text. The linker passes the
 * library's calls of malloc and its kin through the counters here (--wrap). */
#include <malloc.h>
#include <pthread.h>
#include <stdatomic.h>
#include "common.h"

#define MOST 512
#define THREADS 4
#define WORDS 16

void *__real_malloc (size_t);
void *__real_realloc (void *, size_t);
void *__real_aligned_alloc (size_t, size_t);
void __real_free (void *);

static atomic_long live, live_bytes;
/* The allocation of this number is refused; 0 for none. Volatile, since a compiler knows realloc() and that it writes none of
 * the program's own variables. */
static _Thread_local volatile long refused;

static int
refuses (void)
{
  return refused && !--refused;
}

void *
__wrap_malloc (size_t size)
{
  if (refuses ()) return NULL;
  void *at = __real_malloc (size);
  live += at != NULL;
  live_bytes += (long) malloc_usable_size (at);
  return at;
}

void *
__wrap_realloc (void *from, size_t size)
{
  if (refuses ()) return NULL;
  long before = (long) malloc_usable_size (from);
  void *at = __real_realloc (from, size);
  live += !from && at;
  if (at) live_bytes += (long) malloc_usable_size (at) - before;
  return at;
}

void *
__wrap_aligned_alloc (size_t alignment, size_t size)
{
  if (refuses ()) return NULL;
  void *at = __real_aligned_alloc (alignment, size);
  live += at != NULL;
  live_bytes += (long) malloc_usable_size (at);
  return at;
}

void
__wrap_free (void *at)
{
  live -= at != NULL;
  live_bytes -= (long) malloc_usable_size (at);
  __real_free (at);
}

typedef struct {
  kus_glyph_info_t infos[MOST];
  kus_glyph_position_t positions[MOST];
  size_t count;
} result_t;

static const char *words[WORDS];
static int num_words;
static result_t first[WORDS];
static long calls;

static kus_status_t
shape (kus_font_t *font, const char *word, result_t *into)
{
  kus_text_t text = kus_text (word, strlen (word));
  return kus_shape (font, &text, into->infos, MOST, into->positions, MOST, &into->count);
}

static int
same (const result_t *a, const result_t *b)
{
  return a->count == b->count && !memcmp (a->infos, b->infos, a->count * sizeof *a->infos)
         && !memcmp (a->positions, b->positions, a->count * sizeof *a->positions);
}

static void *
run (void *of)
{
  kus_font_t *font = of;
  result_t *made = __real_malloc (sizeof *made);
  for (long k = 0; k < calls / THREADS; k++) {
    int word = (int) (k % 64 / 4) % num_words;
    if (shape (font, words[word], made) != KUS_OK || !same (made, &first[word])) fail ("another result", words[word]);
  }
  kus_font_destroy (font);
  __real_free (made);
  return NULL;
}

/* Each allocation of a call is refused in turn: the call says so and gives no glyphs, or does without; then it shapes
 * again. */
static int
refuse_each (kus_font_t *font)
{
  static result_t made;
  int told = 0;
  for (int at = 1;; at++) {
    kus_font_t other = KUS_FONT_INIT;
    if (kus_font_reference (font, &other) != KUS_OK) fail ("no reference", "");
    refused = at;
    kus_status_t status = shape (&other, words[0], &made);
    int reached = !refused;
    refused = 0;
    if (status == KUS_OUT_OF_MEMORY ? !reached || made.count : status != KUS_OK || !same (&made, &first[0]))
      fail ("refused memory", kus_status_name (status));
    told += status == KUS_OUT_OF_MEMORY;
    if (shape (&other, words[0], &made) != KUS_OK || !same (&made, &first[0])) fail ("refused memory", "and then another result");
    kus_font_destroy (&other);
    if (!reached && !told) fail ("refused memory", "and no call said so");
    if (!reached) return at - 1;
  }
}

static int
are_first (const kus_glyphs_t *glyphs)
{
  return glyphs->count == first[0].count && !memcmp (glyphs->infos, first[0].infos, glyphs->count * sizeof *glyphs->infos)
         && !memcmp (glyphs->positions, first[0].positions, glyphs->count * sizeof *glyphs->positions);
}

/* The same of a call that gives all glyphs in arrays that grow. */
static int
refuse_arrays (kus_font_t *font)
{
  kus_text_t text = kus_text (words[0], strlen (words[0]));
  for (int at = 1;; at++) {
    kus_glyphs_t glyphs = KUS_GLYPHS_INIT;
    refused = at;
    kus_status_t status = kus_shape_glyphs (font, &text, &glyphs);
    int reached = !refused;
    refused = 0;
    if (status == KUS_OUT_OF_MEMORY ? !reached || glyphs.count : status != KUS_OK || !are_first (&glyphs))
      fail ("refused memory", "of arrays");
    if (kus_shape_glyphs (font, &text, &glyphs) != KUS_OK || !are_first (&glyphs)) fail ("refused memory", "and then other arrays");
    kus_glyphs_free (&glyphs);
    if (!reached) return at - 1;
  }
}

/* After a text of LONG times the first word a font keeps its room; once it is shrunk over the first word it has at most
 * SPARE bytes more than before (a list that malloc mapped keeps a page), and the glyphs of the last text are still there. */
#define LONG 10000
#define SPARE (4 * 4096)

static void
shrink (kus_font_t *font)
{
  static result_t made;
  size_t length = strlen (words[0]);
  char *bytes = __real_malloc (LONG * length);
  for (size_t k = 0; k < LONG; k++) memcpy (bytes + k * length, words[0], length);
  kus_text_t text = kus_text (bytes, LONG * length);
  kus_glyphs_t all = KUS_GLYPHS_INIT;
  if (shape (font, words[0], &made) != KUS_OK) fail ("not shaped", words[0]);
  kus_font_shrink (font);
  long before = live_bytes;
  if (kus_shape_glyphs (font, &text, &all) != KUS_OK || all.count < LONG) fail ("not shaped", "a long text");
  kus_glyphs_free (&all);
  if (shape (font, words[0], &made) != KUS_OK || live_bytes < before + LONG) fail ("a long text", "left no room");
  kus_font_shrink (font);
  if (live_bytes > before + SPARE) fail ("shrink", "keeps the room of a long text");
  made.count = kus_get_glyphs (font, made.infos, MOST, made.positions, MOST);
  if (!same (&made, &first[0])) fail ("shrink", "changes glyphs");
  __real_free (bytes);
}

static int
same_lines (const kus_line_t *a, const kus_line_t *b, size_t count)
{
  for (size_t k = 0; k < count; k++)
    if (a[k].start != b[k].start || a[k].end != b[k].end || a[k].width != b[k].width || a[k].is_own != b[k].is_own
        || a[k].first_glyph != b[k].first_glyph || a[k].end_glyph != b[k].end_glyph)
      return 0;
  return 1;
}

/* The same of lines and carets of a text that was shaped: a call that is refused writes nothing. */
static int
refuse_lines (kus_font_t *font)
{
  static result_t made;
  static kus_line_t lines[2][MOST];
  static kus_caret_t carets[2][MOST];
  size_t length = strlen (words[0]), breaks[] = { length }, counts[2];
  int reached = 1, at = 0;
  if (shape (font, words[0], &made) != KUS_OK) fail ("not shaped", words[0]);
  if (kus_cut_lines (font, length, breaks, 1, 1, 1, lines[0], MOST, &counts[0]) != KUS_OK) fail ("no lines", words[0]);
  if (kus_get_carets (font, length, breaks, 1, carets[0], MOST, &counts[1]) != KUS_OK) fail ("no carets", words[0]);
  while (reached) {
    size_t cut, stand;
    refused = ++at;
    kus_status_t status = kus_cut_lines (font, length, breaks, 1, 1, 1, lines[1], MOST, &cut);
    kus_status_t other = kus_get_carets (font, length, breaks, 1, carets[1], MOST, &stand);
    reached = !refused;
    refused = 0;
    if (status == KUS_OUT_OF_MEMORY ? cut : status != KUS_OK || cut != counts[0] || !same_lines (lines[0], lines[1], cut))
      fail ("refused memory", "of lines");
    if (other == KUS_OUT_OF_MEMORY ? stand : other != KUS_OK || stand != counts[1] || memcmp (carets[0], carets[1], stand * sizeof **carets))
      fail ("refused memory", "of carets");
    if (reached ? status == KUS_OK && other == KUS_OK : status != KUS_OK || other != KUS_OK) fail ("refused memory", "and lines or carets");
  }
  return at - 1;
}

/* Each allocation of the call that reads a font file is refused in turn: the call says so and the handle has the font
 * that it had, or none; or it does without. */
static int
refuse_reading (const char *name)
{
  static result_t made;
  bytes_t file = read_file (name);
  kus_font_t kept = KUS_FONT_INIT;
  if (kus_font_create_from_bytes (&kept, NULL, file.bytes, file.length, 0, KUS_FONT_DEFAULT) != KUS_OK) fail ("not read", name);
  long steady = live;
  int at = 0;
  for (int reached = 1; reached;) {
    kus_font_t font = KUS_FONT_INIT;
    kus_font_t *into = ++at % 2 ? &font : &kept;
    refused = at;
    kus_status_t status = kus_font_create_from_bytes (into, NULL, file.bytes, file.length, 0, KUS_FONT_DEFAULT);
    reached = !refused;
    refused = 0;
    if (status != KUS_OK && (status != KUS_OUT_OF_MEMORY || !reached)) fail ("refused memory", kus_status_name (status));
    if (status != KUS_OK && font.live) fail ("refused memory", "and a font is there");
    if (status == KUS_OK && (shape (into, words[0], &made) != KUS_OK || !same (&made, &first[0]))) fail ("refused memory", "and another result");
    kus_font_destroy (&font);
    if (into == &kept && status == KUS_OK) {
      /* What it keeps of the text is not counted. */
      kus_font_destroy (&kept);
      if (kus_font_create_from_bytes (&kept, NULL, file.bytes, file.length, 0, KUS_FONT_DEFAULT) != KUS_OK) fail ("not read", name);
    }
    if (live != steady) fail ("refused reading leaves memory", name);
  }
  if (shape (&kept, words[0], &made) != KUS_OK || !same (&made, &first[0])) fail ("refused reading", "and then another result");
  kus_font_destroy (&kept);
  free (file.bytes);
  return at - 1;
}

int
main (int count, char **arguments)
{
  if (count < 5) fail ("many", "TABLES FONT CALLS WORD..");
  calls = strtol (arguments[3], NULL, 10);
  for (; num_words < WORDS && 4 + num_words < count; num_words++) words[num_words] = arguments[4 + num_words];
  long before = live;
  kus_font_t font = open_font (arguments[1], arguments[2]), handles[THREADS];
  for (int k = 0; k < num_words; k++)
    if (shape (&font, words[k], &first[k]) != KUS_OK) fail ("not shaped", words[k]);
  long steady = live;
  pthread_t threads[THREADS];
  for (int k = 0; k < THREADS; k++) {
    handles[k] = (kus_font_t) KUS_FONT_INIT;
    if (kus_font_reference (&font, &handles[k]) != KUS_OK) fail ("no reference", "");
    if (pthread_create (&threads[k], NULL, run, &handles[k])) fail ("no thread", "");
  }
  for (int k = 0; k < THREADS; k++) pthread_join (threads[k], NULL);
  if (live != steady) fail ("calls leave memory", "");
  int refusals = refuse_each (&font);
  refusals += refuse_lines (&font);
  refusals += refuse_arrays (&font);
  shrink (&font);
  if (live != steady) fail ("refused calls leave memory", "");
  kus_font_destroy (&font);
  if (live != before) fail ("fonts leave memory", "");
  if (are_own (arguments[1])) refusals += refuse_reading (arguments[2]);
  if (live != before) fail ("refused reading leaves memory", "");
  printf ("%ld calls on %d threads, %d allocations refused\n", calls / THREADS * THREADS, THREADS, refusals);
  return 0;
}
