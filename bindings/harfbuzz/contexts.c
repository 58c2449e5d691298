/* The characters before and after a buffer's text. libharfbuzz keeps them and tells nobody, so the calls that give
 * them stand in front of its own. */
#include <stdlib.h>
#include <string.h>

#include "instead.h"

static hb_user_data_key_t key;

const context_t *
context_of (hb_buffer_t *buffer)
{
  return hb_buffer_get_user_data (buffer, &key);
}

/* The context of a buffer, made where it has none; NULL where it can't have one. */
static context_t *
made_context (hb_buffer_t *buffer)
{
  context_t *context = hb_buffer_get_user_data (buffer, &key);
  if (context)
    return context;
  context = calloc (1, sizeof *context);
  if (context && !hb_buffer_set_user_data (buffer, &key, context, free, true)) {
    free (context);
    return NULL;
  }
  return context;
}

static void
clear_context (hb_buffer_t *buffer, bool with_before)
{
  context_t *context = hb_buffer_get_user_data (buffer, &key);
  if (!context)
    return;
  context->num_after = 0;
  if (with_before)
    context->num_before = 0;
}

/* Notes what libharfbuzz's own reading made of the text before the buffer's. */
static void
note_before (hb_buffer_t *buffer, hb_buffer_t *read)
{
  unsigned int length;
  hb_glyph_info_t *infos = hb_buffer_get_glyph_infos (read, &length);
  context_t *context = made_context (buffer);
  if (!context)
    return;
  for (context->num_before = 0; length && context->num_before < CONTEXT_LENGTH; context->num_before++)
    context->before[context->num_before] = infos[--length].codepoint;
}

static void
note_after (hb_buffer_t *buffer, hb_buffer_t *read)
{
  unsigned int length;
  hb_glyph_info_t *infos = hb_buffer_get_glyph_infos (read, &length);
  context_t *context = made_context (buffer);
  if (!context)
    return;
  for (context->num_after = 0; context->num_after < length && context->num_after < CONTEXT_LENGTH; context->num_after++)
    context->after[context->num_after] = infos[context->num_after].codepoint;
}

/* The five calls that add an item of a text differ in its units. `most` of them hold the characters that count. */
typedef enum { UTF8, UTF16, UTF32, LATIN1, CODEPOINTS } encoding_t;

static const struct {
  size_t size;
  int most;
} units_of[] = {
  [UTF8] = { 1, 4 * CONTEXT_LENGTH },
  [UTF16] = { 2, 2 * CONTEXT_LENGTH },
  [UTF32] = { 4, CONTEXT_LENGTH },
  [LATIN1] = { 1, CONTEXT_LENGTH },
  [CODEPOINTS] = { 4, CONTEXT_LENGTH },
};

static int
length_of (const void *text, encoding_t encoding)
{
  static const char zero[4];
  size_t size = units_of[encoding].size;
  int length = 0;
  for (const char *at = text; memcmp (at, zero, size); at += size)
    length++;
  return length;
}

static void
add_units (hb_buffer_t *buffer, const void *text, encoding_t encoding, int start, int count)
{
  const real_calls_t *calls = real_calls ();
  const void *from = (const char *) text + (size_t) start * units_of[encoding].size;
  switch (encoding) {
  case UTF8:
    calls->add_utf8 (buffer, from, count, 0, count);
    break;
  case UTF16:
    calls->add_utf16 (buffer, from, count, 0, count);
    break;
  case UTF32:
    calls->add_utf32 (buffer, from, count, 0, count);
    break;
  case LATIN1:
    calls->add_latin1 (buffer, from, count, 0, count);
    break;
  case CODEPOINTS:
    calls->add_codepoints (buffer, from, count, 0, count);
    break;
  }
}

/* Notes what stands around an item of a text. As in libharfbuzz the text before it counts where the buffer was empty,
 * that after it always. A piece of `most` units may begin or end within a character, but not within one that counts. */
static void
note_around (hb_buffer_t *buffer, bool was_empty, const void *text, encoding_t encoding, int text_length,
             unsigned int item_offset, int item_length)
{
  int most = units_of[encoding].most, length = text_length < 0 ? length_of (text, encoding) : text_length;
  int start = (int) item_offset, end = item_length < 0 ? length : start + item_length;
  bool has_before = was_empty && start > 0, has_after = end < length;
  clear_context (buffer, has_before);
  if (!has_before && !has_after)
    return;
  hb_buffer_t *read = hb_buffer_create ();
  if (has_before) {
    int units = start < most ? start : most;
    add_units (read, text, encoding, start - units, units);
    note_before (buffer, read);
    real_calls ()->clear_contents (read);
  }
  if (has_after) {
    add_units (read, text, encoding, end, length - end < most ? length - end : most);
    note_after (buffer, read);
  }
  hb_buffer_destroy (read);
}

IN_FRONT void
hb_buffer_add_utf8 (hb_buffer_t *buffer, const char *text, int text_length, unsigned int item_offset, int item_length)
{
  bool was_empty = !hb_buffer_get_length (buffer);
  real_calls ()->add_utf8 (buffer, text, text_length, item_offset, item_length);
  note_around (buffer, was_empty, text, UTF8, text_length, item_offset, item_length);
}

IN_FRONT void
hb_buffer_add_utf16 (hb_buffer_t *buffer, const uint16_t *text, int text_length, unsigned int item_offset,
                     int item_length)
{
  bool was_empty = !hb_buffer_get_length (buffer);
  real_calls ()->add_utf16 (buffer, text, text_length, item_offset, item_length);
  note_around (buffer, was_empty, text, UTF16, text_length, item_offset, item_length);
}

IN_FRONT void
hb_buffer_add_utf32 (hb_buffer_t *buffer, const uint32_t *text, int text_length, unsigned int item_offset,
                     int item_length)
{
  bool was_empty = !hb_buffer_get_length (buffer);
  real_calls ()->add_utf32 (buffer, text, text_length, item_offset, item_length);
  note_around (buffer, was_empty, text, UTF32, text_length, item_offset, item_length);
}

IN_FRONT void
hb_buffer_add_latin1 (hb_buffer_t *buffer, const uint8_t *text, int text_length, unsigned int item_offset,
                      int item_length)
{
  bool was_empty = !hb_buffer_get_length (buffer);
  real_calls ()->add_latin1 (buffer, text, text_length, item_offset, item_length);
  note_around (buffer, was_empty, text, LATIN1, text_length, item_offset, item_length);
}

IN_FRONT void
hb_buffer_add_codepoints (hb_buffer_t *buffer, const hb_codepoint_t *text, int text_length, unsigned int item_offset,
                          int item_length)
{
  bool was_empty = !hb_buffer_get_length (buffer);
  real_calls ()->add_codepoints (buffer, text, text_length, item_offset, item_length);
  note_around (buffer, was_empty, text, CODEPOINTS, text_length, item_offset, item_length);
}

IN_FRONT void
hb_buffer_add (hb_buffer_t *buffer, hb_codepoint_t codepoint, unsigned int cluster)
{
  real_calls ()->add (buffer, codepoint, cluster);
  clear_context (buffer, false);
}

/* Appends the characters outward from an index of a list, then those of its own context. */
static unsigned int
outward (hb_codepoint_t *to, const hb_glyph_info_t *infos, long at, long end, int step, const hb_codepoint_t *rest,
         unsigned int num_rest)
{
  unsigned int count = 0;
  for (; at != end && count < CONTEXT_LENGTH; at += step)
    to[count++] = infos[at].codepoint;
  for (unsigned int i = 0; i < num_rest && count < CONTEXT_LENGTH; i++)
    to[count++] = rest[i];
  return count;
}

IN_FRONT void
hb_buffer_append (hb_buffer_t *buffer, const hb_buffer_t *source, unsigned int start, unsigned int end)
{
  bool was_empty = !hb_buffer_get_length (buffer);
  hb_buffer_t *from = (hb_buffer_t *) (uintptr_t) source; /* the calls that only read it take no const */
  context_t theirs = { 0 };
  const context_t *found = context_of (from);
  if (found)
    theirs = *found;
  real_calls ()->append (buffer, source, start, end);
  unsigned int length;
  const hb_glyph_info_t *infos = hb_buffer_get_glyph_infos (from, &length);
  end = end < length ? end : length;
  start = start < end ? start : end;
  bool has_before = was_empty && start + theirs.num_before > 0, has_after = end < length || theirs.num_after;
  clear_context (buffer, has_before);
  context_t *context = has_before || has_after ? made_context (buffer) : NULL;
  if (context && has_before)
    context->num_before = outward (context->before, infos, (long) start - 1, -1, -1, theirs.before, theirs.num_before);
  if (context)
    context->num_after = outward (context->after, infos, end, length, 1, theirs.after, theirs.num_after);
}

IN_FRONT void
hb_buffer_clear_contents (hb_buffer_t *buffer)
{
  clear_context (buffer, true);
  real_calls ()->clear_contents (buffer);
}

IN_FRONT void
hb_buffer_reset (hb_buffer_t *buffer)
{
  clear_context (buffer, true);
  real_calls ()->reset (buffer);
}

IN_FRONT hb_bool_t
hb_buffer_set_length (hb_buffer_t *buffer, unsigned int length)
{
  clear_context (buffer, !length);
  return real_calls ()->set_length (buffer, length);
}

IN_FRONT void
hb_buffer_set_message_func (hb_buffer_t *buffer, hb_buffer_message_func_t func, void *user_data,
                            hb_destroy_func_t destroy)
{
  context_t *context = made_context (buffer);
  if (context)
    context->has_messages = func;
  real_calls ()->set_message_func (buffer, func, user_data, destroy);
}
