/* The calls of HarfBuzz that stand in front of libharfbuzz's: those that shape. */
#include <dlfcn.h>
#include <pthread.h>
#include <stdio.h>
#include <stdlib.h>
#include <string.h>

#include "instead.h"

static real_calls_t real;
static pthread_once_t once = PTHREAD_ONCE_INIT;

static void
find (const char *name, void *call, size_t size)
{
  void *found = dlsym (RTLD_NEXT, name);
  if (!found) {
    fprintf (stderr, "kuspveli-instead: libharfbuzz has no %s\n", name);
    abort ();
  }
  memcpy (call, &found, size);
}

#define FIND(name, field) find (name, &real.field, sizeof real.field)

static void
find_all (void)
{
  FIND ("hb_shape_full", shape_full);
  FIND ("hb_shape_plan_execute", shape_plan_execute);
  FIND ("hb_buffer_add", add);
  FIND ("hb_buffer_add_utf8", add_utf8);
  FIND ("hb_buffer_add_utf16", add_utf16);
  FIND ("hb_buffer_add_utf32", add_utf32);
  FIND ("hb_buffer_add_latin1", add_latin1);
  FIND ("hb_buffer_add_codepoints", add_codepoints);
  FIND ("hb_buffer_append", append);
  FIND ("hb_buffer_clear_contents", clear_contents);
  FIND ("hb_buffer_reset", reset);
  FIND ("hb_buffer_set_length", set_length);
  FIND ("hb_buffer_set_message_func", set_message_func);
}

const real_calls_t *
real_calls (void)
{
  pthread_once (&once, find_all);
  return &real;
}

/* libharfbuzz's calls for shaping are built on each other, and may find those here in front. */
static _Thread_local bool is_inside;

typedef enum { BY_OTHER, BY_OPENTYPE, BY_GRAPHITE } shaper_t;

static bool
is_listed (const char *name, const char *const *names)
{
  for (; *names; names++)
    if (!strcmp (name, *names))
      return true;
  return false;
}

/* By which shaper libharfbuzz would shape: that of OpenType, Graphite where the font has its rules and else that of
 * OpenType, or another one. A name that libharfbuzz was built without is passed over. */
static shaper_t
first_shaper (const char *const *shapers)
{
  shaper_t found = BY_OPENTYPE;
  const char *const *built = (const char *const *) hb_shape_list_shapers ();
  for (const char *const *each = shapers ? shapers : built; *each; each++) {
    if (!is_listed (*each, built))
      continue;
    if (!strcmp (*each, "ot"))
      return found;
    if (strcmp (*each, "graphite2"))
      return BY_OTHER;
    found = BY_GRAPHITE;
  }
  return BY_OTHER;
}

/* Whether Kuspveli shaped the buffer. */
static bool
try_kuspveli (hb_font_t *font, hb_buffer_t *buffer, const hb_feature_t *features, unsigned int num_features,
              const char *const *shapers)
{
  size_t characters = hb_buffer_get_length (buffer);
  if (is_inside || !characters)
    return false;
  is_inside = true;
  shaper_t shaper = first_shaper (shapers);
  hb_buffer_t *copy = compare_file () ? copy_of (buffer) : NULL;
  reason_t reason = OTHER_SHAPER;
  if (shaper != BY_OTHER)
    reason = shape_instead (font, buffer, features, num_features, shaper == BY_GRAPHITE);
  if (copy) {
    if (reason == SHAPED)
      compare (font, buffer, copy, features, num_features, shapers);
    hb_buffer_destroy (copy);
  }
  count_call (reason, characters);
  is_inside = false;
  return reason == SHAPED;
}

IN_FRONT hb_bool_t
hb_shape_full (hb_font_t *font, hb_buffer_t *buffer, const hb_feature_t *features, unsigned int num_features,
               const char *const *shaper_list)
{
  const real_calls_t *calls = real_calls ();
  if (try_kuspveli (font, buffer, features, num_features, shaper_list))
    return true;
  bool was_inside = is_inside;
  is_inside = true;
  hb_bool_t is_shaped = calls->shape_full (font, buffer, features, num_features, shaper_list);
  is_inside = was_inside;
  return is_shaped;
}

IN_FRONT void
hb_shape (hb_font_t *font, hb_buffer_t *buffer, const hb_feature_t *features, unsigned int num_features)
{
  hb_shape_full (font, buffer, features, num_features, NULL);
}

IN_FRONT hb_bool_t
hb_shape_plan_execute (hb_shape_plan_t *plan, hb_font_t *font, hb_buffer_t *buffer, const hb_feature_t *features,
                       unsigned int num_features)
{
  const real_calls_t *calls = real_calls ();
  const char *shapers[] = { hb_shape_plan_get_shaper (plan), NULL };
  if (try_kuspveli (font, buffer, features, num_features, shapers))
    return true;
  bool was_inside = is_inside;
  is_inside = true;
  hb_bool_t is_shaped = calls->shape_plan_execute (plan, font, buffer, features, num_features);
  is_inside = was_inside;
  return is_shaped;
}
