/* stack TABLES FONT TEXT FILE: the calls run on threads whose whole stacks are as large as the header asks for what is left, with a
 * page below them that no one may write. Prints the statuses of the calls, and the most that each kind of call took. */
#define _GNU_SOURCE
#include <pthread.h>
#include <sys/mman.h>
#include <unistd.h>
#include "common.h"

/* What include/kuspveli.h says: the bytes that a call needs which reads tables or a font, and any other. */
#define READING (384 * 1024)
#define OTHER (128 * 1024)
#define MOST 65536
#define PATTERN 0xA5

static bytes_t tables, json, own, file;
static kus_tables_t shared = KUS_TABLES_INIT, inside = KUS_TABLES_INIT;
static kus_font_t font = KUS_FONT_INIT, whole = KUS_FONT_INIT, over = KUS_FONT_INIT, alone = KUS_FONT_INIT;
static kus_status_t status;
static kus_glyph_info_t infos[MOST];
static kus_glyph_position_t positions[MOST];
static kus_slice_t slices[MOST];
static kus_line_t lines[MOST];
static kus_caret_t carets[MOST];
static size_t middle[1];

static void *
create_tables (void *none)
{
  status = kus_tables_create (&shared, tables.bytes, tables.length);
  return none;
}

static void *
create_font (void *none)
{
  status = kus_font_create_with_tables (&font, &shared, json.bytes, json.length);
  return none;
}

static void *
create_both (void *none)
{
  status = kus_font_create (&whole, tables.bytes, tables.length, json.bytes, json.length);
  return none;
}

static void *
create_default (void *none)
{
  status = kus_tables_create_default (&inside);
  return none;
}

static void *
create_over (void *none)
{
  status = kus_font_create_from_bytes (&over, &inside, file.bytes, file.length, 0, KUS_FONT_DEFAULT);
  return none;
}

static void *
create_alone (void *none)
{
  status = kus_font_create_from_bytes (&alone, NULL, file.bytes, file.length, 0, KUS_FONT_DEFAULT);
  return none;
}

static void *
shape (void *none)
{
  size_t count;
  kus_text_t text = kus_text ((const char *) own.bytes, own.length);
  status = kus_shape (&font, &text, infos, MOST, positions, MOST, &count);
  return none;
}

static void *
slice (void *none)
{
  size_t count;
  status = kus_get_slices (&font, own.bytes, own.length, slices, MOST, &count);
  return none;
}

static void *
cut (void *none)
{
  size_t count;
  status = kus_cut_lines (&font, own.length, middle, middle[0] > 0, 1, 1, lines, MOST, &count);
  return none;
}

static void *
stand (void *none)
{
  size_t count;
  status = kus_get_carets (&font, own.length, middle, middle[0] > 0, carets, MOST, &count);
  return none;
}

/* How many bytes of a stack of that size a call writes. */
static size_t
taken (void *(*call) (void *), size_t size)
{
  size_t page = (size_t) sysconf (_SC_PAGESIZE);
  uint8_t *all = mmap (NULL, size + page, PROT_READ | PROT_WRITE, MAP_PRIVATE | MAP_ANONYMOUS, -1, 0);
  if (all == MAP_FAILED || mprotect (all, page, PROT_NONE)) fail ("no stack", "");
  uint8_t *stack = all + page;
  memset (stack, PATTERN, size);
  pthread_attr_t how;
  pthread_t thread;
  pthread_attr_init (&how);
  if (pthread_attr_setstack (&how, stack, size) || pthread_create (&thread, &how, call, NULL)) fail ("no thread", "");
  pthread_join (thread, NULL);
  size_t free_bytes = 0;
  while (free_bytes < size && stack[free_bytes] == PATTERN) free_bytes++;
  munmap (all, size + page);
  return size - free_bytes;
}

static size_t
run (void *(*call) (void *), size_t size)
{
  size_t bytes = taken (call, size);
  printf ("%s, ", kus_status_name (status));
  return bytes;
}

static size_t
greater (size_t a, size_t b)
{
  return a > b ? a : b;
}

int
main (int count, char **words)
{
  if (count != 5) fail ("stack", "TABLES FONT TEXT FILE");
  tables = read_file (words[1]);
  json = read_file (words[2]);
  own = read_file (words[3]);
  file = read_file (words[4]);
  void *(*readers[]) (void *) = { create_tables, create_font, create_both, create_default, create_over, create_alone };
  size_t reading = 0;
  for (size_t k = 0; k < sizeof readers / sizeof *readers; k++) reading = greater (reading, run (readers[k], READING));
  size_t other = run (shape, OTHER);
  other = greater (other, run (slice, OTHER));
  middle[0] = own.length / 2;
  other = greater (other, run (cut, OTHER));
  other = greater (other, run (stand, OTHER));
  printf ("%zu %zu\n", reading, other);
  kus_font_destroy (&font);
  kus_font_destroy (&whole);
  kus_font_destroy (&over);
  kus_font_destroy (&alone);
  kus_tables_destroy (&shared);
  kus_tables_destroy (&inside);
  return 0;
}
