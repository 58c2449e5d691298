/* Numbers of font files, which are big-endian (OpenType, chapter "The OpenType Font File", Data Types). */
#ifndef KUSPVELI_SFNT_H
#define KUSPVELI_SFNT_H

#include <stddef.h>
#include <stdint.h>

/* The bytes of a table, or of a font file. */
typedef struct {
  const uint8_t *bytes;
  size_t length;
} sfnt_t;

/* The uint16 at an index; 0 where it isn't whole. */
static inline unsigned int
word (sfnt_t from, size_t at)
{
  return at + 2 <= from.length ? (unsigned int) from.bytes[at] << 8 | from.bytes[at + 1] : 0;
}

/* The uint32 at an index, of two words. */
static inline size_t
long_word (sfnt_t from, size_t at)
{
  return (size_t) word (from, at) << 16 | word (from, at + 2);
}

/* The int16 at an index. */
static inline int
signed_word (sfnt_t from, size_t at)
{
  return (int16_t) word (from, at);
}

/* Writes the lower 16 bits of a number. */
static inline void
put_word (uint8_t *to, int64_t value)
{
  to[0] = (uint8_t) ((uint64_t) value >> 8);
  to[1] = (uint8_t) value;
}

#endif
