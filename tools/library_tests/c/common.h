/* What the drivers share: files, cases and their lines. */
#ifndef COMMON_H
#define COMMON_H
#include <stdio.h>
#include <stdlib.h>
#include <string.h>
#include "kuspveli.h"

typedef struct {
  uint8_t *bytes;
  size_t length;
} bytes_t;

static inline void
fail (const char *what, const char *of)
{
  fprintf (stderr, "%s: %s\n", what, of);
  exit (1);
}

static inline bytes_t
read_file (const char *name)
{
  FILE *file = fopen (name, "rb");
  if (!file || fseek (file, 0, SEEK_END)) fail ("cannot read", name);
  bytes_t read = { NULL, (size_t) ftell (file) };
  rewind (file);
  read.bytes = malloc (read.length + 1);
  if (fread (read.bytes, 1, read.length, file) != read.length) fail ("cannot read", name);
  read.bytes[read.length] = 0;
  fclose (file);
  return read;
}

/* In the place of a file of tables: those that are inside the library. */
#define OWN_TABLES "-"

static inline int
are_own (const char *tables)
{
  return !strcmp (tables, OWN_TABLES);
}

static inline kus_tables_t
open_tables (const char *name)
{
  kus_tables_t tables = KUS_TABLES_INIT;
  kus_status_t status;
  if (are_own (name))
    status = kus_tables_create_default (&tables);
  else {
    bytes_t json = read_file (name);
    status = kus_tables_create (&tables, json.bytes, json.length);
    free (json.bytes);
  }
  if (status != KUS_OK) fail (name, kus_status_name (status));
  return tables;
}

/* A font file has no brace as its first byte. */
static inline int
is_json (bytes_t file)
{
  return file.length && file.bytes[0] == '{';
}

/* A font of JSON over tables; a font file over tables, or where these are NULL over those that are inside the library. */
static inline kus_font_t
open_font_over (kus_tables_t *tables, const char *name)
{
  kus_font_t font = KUS_FONT_INIT;
  bytes_t file = read_file (name);
  kus_status_t status = is_json (file)
                            ? kus_font_create_with_tables (&font, tables, file.bytes, file.length)
                            : kus_font_create_from_bytes (&font, tables, file.bytes, file.length, 0, KUS_FONT_DEFAULT);
  if (status != KUS_OK) fail (name, kus_status_name (status));
  /* A font keeps nothing of its bytes. */
  memset (file.bytes, 0xA5, file.length);
  free (file.bytes);
  return font;
}

/* A font over tables, which are let go as soon as the font has them. */
static inline kus_font_t
open_font (const char *tables, const char *name)
{
  if (are_own (tables)) return open_font_over (NULL, name);
  kus_tables_t shared = open_tables (tables);
  kus_font_t font = open_font_over (&shared, name);
  kus_tables_destroy (&shared);
  return font;
}

/* The line that hb_shape prints with --no-glyph-names --show-flags, but for its end. */
static inline void
print_line (const kus_glyph_info_t *infos, const kus_glyph_position_t *positions, size_t count)
{
  for (size_t k = 0; k < count; k++) {
    printf ("%s%u=%u", k ? "|" : "", infos[k].codepoint, infos[k].cluster);
    if (positions[k].x_offset || positions[k].y_offset) printf ("@%d,%d", positions[k].x_offset, positions[k].y_offset);
    printf ("+%d", positions[k].x_advance);
    if (positions[k].y_advance) printf (",%d", positions[k].y_advance);
    if (infos[k].mask) printf ("#%x", infos[k].mask);
  }
}

/* The lines that hb_shape prints with --slices, with commas between, after a semicolon. */
static inline void
print_slices (kus_status_t status, const kus_slice_t *slices, size_t count)
{
  for (size_t k = 0; k < count; k++) printf ("%c%zu %zu", k ? ',' : ';', slices[k].start, slices[k].end);
  if (status == KUS_NO_SLICES) printf (";no slices");
  else if (status != KUS_OK) printf (";%s", kus_status_name (status));
  putchar ('\n');
}

/* A text in hexadecimal digits, as bytes. */
static inline size_t
unhex (const char *digits, uint8_t *into, size_t room)
{
  size_t n = 0;
  unsigned byte;
  for (; n < room && sscanf (digits + 2 * n, "%2x", &byte) == 1; n++) into[n] = (uint8_t) byte;
  return n;
}

#endif
