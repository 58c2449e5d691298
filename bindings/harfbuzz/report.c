/* How many texts each shaped, why, and what was changed after shaping: a line of JSON at the end of a process. */
#include <errno.h>
#include <fcntl.h>
#include <inttypes.h>
#include <pthread.h>
#include <stdatomic.h>
#include <stdio.h>
#include <stdlib.h>
#include <string.h>
#include <sys/syscall.h>
#include <time.h>
#include <unistd.h>

#include "instead.h"

static const char *const reason_names[OF_FONT] = {
  [SHAPED] = "shaped by Kuspveli",
  [NO_CHARACTERS] = "the buffer has no characters",
  [NO_DIRECTION] = "the buffer has no direction",
  [OTHER_SHAPER] = "another shaper is asked for",
  [MESSAGES] = "the client follows the steps of shaping",
  [NO_TABLES] = "the face has no tables",
  [GRAPHITE] = "the font has rules of Graphite",
  [APPLE] = "the font has rules of Apple Advanced Typography",
  [INSTANCE] = "the font is an instance of a variable font",
  [NO_SCALAR_VALUE] = "a character is no Unicode scalar value",
  [CLUSTERS_FALL] = "clusters fall",
  [OTHER_GLYPH] = "the client has another glyph for a character than the font",
  [SMALL_STACK] = "the thread's stack is too small",
  [NO_MEMORY] = "memory is short",
};

static const char *const patch_names[NUM_PATCHES] = {
  [CLIENT_ADVANCES] = "texts with the client's advances",
  [CLIENT_UNITS] = "texts in the client's units",
  [CLIENT_ORIGINS] = "vertical texts with the client's origins",
  [MISSING_GLYPHS] = "clusters with the client's glyphs for missing characters",
  [SLANTED] = "slanted texts",
};

static const char *const difference_names[NUM_DIFFERENCES] = {
  [EQUAL] = "equal",         [NEAR] = "within 1 unit", [FLAGS] = "flags",
  [CLUSTERS] = "clusters", [POSITIONS] = "positions", [GLYPHS] = "glyphs",
};

static atomic_uint_fast64_t reasons[NUM_REASONS], patches[NUM_PATCHES], differences[NUM_DIFFERENCES];
static atomic_uint_fast64_t characters, fonts, font_time;
static const char *file;
static pid_t process;

uint64_t
now (void)
{
  struct timespec time;
  clock_gettime (CLOCK_THREAD_CPUTIME_ID, &time);
  return (uint64_t) time.tv_sec * 1000000000u + (uint64_t) time.tv_nsec;
}

const char *
difference_name (difference_t difference)
{
  return difference_names[difference];
}

static void
add (atomic_uint_fast64_t *to, uint64_t number)
{
  atomic_fetch_add_explicit (to, number, memory_order_relaxed);
}

void
count_call (reason_t reason, size_t length)
{
  if (!file)
    return;
  add (&reasons[reason], 1);
  add (&characters, length);
}

void
count_patch (patch_t patch)
{
  if (file)
    add (&patches[patch], 1);
}

void
count_font (uint64_t nanoseconds)
{
  add (&fonts, 1);
  add (&font_time, nanoseconds);
}

void
count_difference (difference_t difference)
{
  add (&differences[difference], 1);
}

const char *
program_name (void)
{
  return program_invocation_short_name;
}

void
append_line (const char *name, const char *line, size_t length)
{
  int number = open (name, O_WRONLY | O_CREAT | O_APPEND | O_CLOEXEC, 0666);
  if (number < 0)
    return;
  while (length) {
    ssize_t written = write (number, line, length);
    if (written < 0 && errno == EINTR)
      continue;
    if (written <= 0)
      break;
    line += written;
    length -= (size_t) written;
  }
  close (number);
}

static void
print_reason (FILE *to, int reason, const char *before)
{
  fprintf (to, "%s\"", before);
  if (reason >= OF_TEXT)
    fprintf (to, "text: %s", kus_status_name ((kus_status_t) (reason - OF_TEXT)));
  else if (reason >= OF_FONT)
    fprintf (to, "font: %s", kus_status_name ((kus_status_t) (reason - OF_FONT)));
  else
    fputs (reason_names[reason], to);
  fprintf (to, "\":%" PRIuFAST64, atomic_load (&reasons[reason]));
}

static void
print_counts (FILE *to, const char *name, const atomic_uint_fast64_t *counts, const char *const *names, int count)
{
  const char *before = "";
  fprintf (to, ",\"%s\":{", name);
  for (int i = 0; i < count; i++)
    if (atomic_load (&counts[i])) {
      fprintf (to, "%s\"%s\":%" PRIuFAST64, before, names[i], atomic_load (&counts[i]));
      before = ",";
    }
  fputc ('}', to);
}

static void
print_report (FILE *to)
{
  const char *before = "";
  fputs ("{\"program\":\"", to);
  for (const char *at = program_name (); *at; at++)
    fprintf (to, *at < ' ' || *at == '"' || *at == '\\' ? "\\u%04x" : "%c", (unsigned char) *at);
  fprintf (to, "\",\"process\":%ld,\"characters\":%" PRIuFAST64, (long) process, atomic_load (&characters));
  fprintf (to, ",\"fonts\":%" PRIuFAST64 ",\"font_ns\":%" PRIuFAST64, atomic_load (&fonts), atomic_load (&font_time));
  fputs (",\"calls\":{", to);
  for (int i = 0; i < NUM_REASONS; i++)
    if (atomic_load (&reasons[i])) {
      print_reason (to, i, before);
      before = ",";
    }
  fputc ('}', to);
  print_counts (to, "patches", patches, patch_names, NUM_PATCHES);
  print_counts (to, "differences", differences, difference_names, NUM_DIFFERENCES);
  fputs ("}\n", to);
}

/* Writes the report once. A process that shaped nothing has none, and neither has a child that only shares this one's
 * memory until it becomes another program. */
static void
report (void)
{
  static atomic_flag is_done = ATOMIC_FLAG_INIT;
  uint64_t calls = 0;
  char *line = NULL;
  size_t length = 0;
  for (int i = 0; i < NUM_REASONS; i++)
    calls += atomic_load (&reasons[i]);
  if (!file || !calls || getpid () != process || atomic_flag_test_and_set (&is_done))
    return;
  FILE *to = open_memstream (&line, &length);
  if (!to)
    return;
  print_report (to);
  if (!fclose (to))
    append_line (file, line, length);
  free (line);
}

static void
clear (atomic_uint_fast64_t *counts, int count)
{
  for (int i = 0; i < count; i++)
    atomic_store (&counts[i], 0);
}

/* A child that is forked counts its own. */
static void
begin_child (void)
{
  process = getpid ();
  clear (reasons, NUM_REASONS);
  clear (patches, NUM_PATCHES);
  clear (differences, NUM_DIFFERENCES);
  clear (&characters, 1);
  clear (&fonts, 1);
  clear (&font_time, 1);
}

__attribute__ ((constructor)) static void
begin (void)
{
  file = getenv ("KUSPVELI_REPORT");
  process = getpid ();
  if (file)
    pthread_atfork (NULL, NULL, begin_child);
}

__attribute__ ((destructor)) static void
end (void)
{
  report ();
}

/* A program that ends by these runs no destructor. */
IN_FRONT _Noreturn void
_exit (int status)
{
  report ();
  for (;;)
    syscall (SYS_exit_group, status);
}

IN_FRONT _Noreturn void
_Exit (int status)
{
  _exit (status);
}
