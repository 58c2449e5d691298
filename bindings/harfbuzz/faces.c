/* The font of each face, which is read once and kept with the face, and handles for the threads that shape in it. */
#include <pthread.h>
#include <stdatomic.h>
#include <stdlib.h>

#include "instead.h"
#include "sfnt.h"

/* What kuspveli.h says of the stack. */
#define STACK_OF_READING (384 << 10)

/* A font of a face that was read, or why it can't be. */
typedef struct {
  kus_font_t font;
  reason_t fault;
  bool is_read;
} read_font_t;

struct face_font {
  pthread_mutex_t lock; /* for the two that follow; not held while a thread shapes */
  read_font_t read[NUM_KINDS];
  handle_t *free; /* the handles that no thread uses, and fonts in clients' units */
  sized_t *sized;
  /* Set before the face has it. */
  hb_blob_t *hmtx;
  const uint8_t *metrics; /* the data of hmtx */
  unsigned int num_metrics;
  bool is_bare, has_gpos, has_graphite, has_apple;
  /* Set once, with the first font that is read. */
  bool is_known, has_hebrew, has_cursive;
};

/* ---- forks: a child has none of the threads that were in a call, and they may have held locks */

#define NUM_KEYS 64

static hb_user_data_key_t keys[NUM_KEYS];
/* The key of this process; at NUM_KEYS nothing is kept any more. */
static unsigned int key;
static atomic_uint num_calls;

void
enter_call (void)
{
  atomic_fetch_add (&num_calls, 1);
}

void
leave_call (void)
{
  atomic_fetch_sub (&num_calls, 1);
}

/* ---- tables of characters, of which each font has a handle */

static pthread_mutex_t tables_lock = PTHREAD_MUTEX_INITIALIZER;
static kus_tables_t all_tables = KUS_TABLES_INIT;

static kus_status_t
take_tables (kus_tables_t *tables)
{
  pthread_mutex_lock (&tables_lock);
  kus_status_t status = all_tables.live ? KUS_OK : kus_tables_create_default (&all_tables);
  if (status == KUS_OK)
    status = kus_tables_reference (&all_tables, tables);
  pthread_mutex_unlock (&tables_lock);
  return status;
}

/* Leaves all fonts that the child has from its parent where a thread was in a call: they are read again. */
static void
begin_child (void)
{
  if (!atomic_exchange (&num_calls, 0))
    return;
  key += key < NUM_KEYS;
  all_tables = (kus_tables_t) KUS_TABLES_INIT;
  pthread_mutex_init (&tables_lock, NULL);
}

__attribute__ ((constructor)) static void
begin (void)
{
  pthread_atfork (NULL, NULL, begin_child);
}

/* ---- reading a font */

reason_t
read_font_file (kus_font_t *font, const uint8_t *bytes, size_t length, unsigned int index, uint32_t flags)
{
  if (!length)
    return NO_TABLES;
  if (!has_stack (STACK_OF_READING))
    return SMALL_STACK;
  uint64_t begun = now ();
  kus_tables_t tables = KUS_TABLES_INIT;
  kus_status_t status = take_tables (&tables);
  if (status == KUS_OK)
    status = kus_font_create_from_bytes (font, &tables, bytes, length, index, KUS_FONT_WITHOUT_NAMES | flags);
  kus_tables_destroy (&tables);
  count_font (now () - begun);
  return status == KUS_OK ? SHAPED : status == KUS_OUT_OF_MEMORY ? NO_MEMORY : OF_FONT + status;
}

static bool
has_table (hb_face_t *face, hb_tag_t tag)
{
  hb_blob_t *table = hb_face_reference_table (face, tag);
  bool is_there = hb_blob_get_length (table) > 0;
  hb_blob_destroy (table);
  return is_there;
}

/* The tags of GPOS's features, or of its scripts. */
typedef size_t (*get_tags_t) (kus_font_t *, uint32_t, uint32_t *, size_t);

static bool
has_tag (kus_font_t *font, get_tags_t get_tags, uint32_t tag)
{
  uint32_t none;
  size_t count = get_tags (font, HB_OT_TAG_GPOS, &none, 0);
  uint32_t *tags = malloc ((count + 1) * sizeof *tags);
  bool is_there = false;
  if (!tags)
    return false;
  get_tags (font, HB_OT_TAG_GPOS, tags, count);
  for (size_t i = 0; i < count && !is_there; i++)
    is_there = tags[i] == tag;
  free (tags);
  return is_there;
}

static void
read_font (hb_face_t *face, face_font_t *owner, kind_t kind)
{
  read_font_t *to = &owner->read[kind];
  bool has_boxes = kind == WITH_BOXES || !owner->has_gpos;
  unsigned int index = 0;
  if (owner->has_apple)
    to->fault = APPLE;
  else {
    unsigned int length;
    hb_blob_t *file = font_file_of (face, &index);
    const uint8_t *bytes = (const uint8_t *) hb_blob_get_data (file, &length);
    to->fault = read_font_file (&to->font, bytes, length, index, has_boxes ? 0 : KUS_FONT_WITHOUT_EXTENTS);
    hb_blob_destroy (file);
  }
  to->is_read = to->fault != SMALL_STACK; /* another thread may have a larger one */
  if (to->fault == SHAPED && !owner->is_known) {
    owner->is_known = true;
    owner->has_hebrew = has_tag (&to->font, kus_font_get_script_tags, KUS_TAG ('h', 'e', 'b', 'r'));
    owner->has_cursive = has_tag (&to->font, kus_font_get_feature_tags, KUS_TAG ('c', 'u', 'r', 's'));
  }
}

/* ---- keeping it with the face */

static void
free_face_font (void *data)
{
  face_font_t *owner = data;
  while (owner->free) {
    handle_t *handle = owner->free;
    owner->free = handle->next;
    for (int kind = 0; kind < NUM_KINDS; kind++)
      kus_font_destroy (&handle->fonts[kind]);
    free (handle);
  }
  free_all_sized (owner->sized);
  for (int kind = 0; kind < NUM_KINDS; kind++)
    kus_font_destroy (&owner->read[kind].font);
  hb_blob_destroy (owner->hmtx);
  pthread_mutex_destroy (&owner->lock);
  free (owner);
}

static unsigned int
metrics_of (hb_face_t *face)
{
  hb_blob_t *table = hb_face_reference_table (face, HB_TAG ('h', 'h', 'e', 'a'));
  unsigned int length;
  const uint8_t *bytes = (const uint8_t *) hb_blob_get_data (table, &length);
  unsigned int count = word ((sfnt_t){ bytes, length }, HHEA_METRICS);
  hb_blob_destroy (table);
  return count;
}

static face_font_t *
made_face_font (hb_face_t *face)
{
  face_font_t *owner = calloc (1, sizeof *owner);
  if (!owner)
    return NULL;
  pthread_mutex_init (&owner->lock, NULL);
  owner->hmtx = hb_face_reference_table (face, HB_TAG ('h', 'm', 't', 'x'));
  owner->num_metrics = metrics_of (face);
  unsigned int length;
  owner->metrics = (const uint8_t *) hb_blob_get_data (owner->hmtx, &length);
  if (owner->num_metrics > length / HMTX_METRIC)
    owner->num_metrics = length / HMTX_METRIC;
  owner->is_bare = !has_tables (face);
  owner->has_gpos = has_table (face, HB_OT_TAG_GPOS);
  owner->has_graphite = has_table (face, HB_TAG ('S', 'i', 'l', 'f'));
  owner->has_apple = has_table (face, HB_TAG ('m', 'o', 'r', 'x')) || has_table (face, HB_TAG ('k', 'e', 'r', 'x'));
  return owner;
}

/* Of two threads that come at once, one's is kept. */
face_font_t *
face_font_of (hb_face_t *face)
{
  if (key == NUM_KEYS)
    return NULL;
  face_font_t *owner = hb_face_get_user_data (face, &keys[key]);
  if (owner)
    return owner;
  owner = made_face_font (face);
  if (owner && hb_face_set_user_data (face, &keys[key], owner, free_face_font, false))
    return owner;
  if (owner)
    free_face_font (owner);
  return hb_face_get_user_data (face, &keys[key]);
}

/* ---- handles */

handle_t *
borrow_handle (face_font_t *owner)
{
  pthread_mutex_lock (&owner->lock);
  handle_t *handle = owner->free;
  if (handle)
    owner->free = handle->next;
  pthread_mutex_unlock (&owner->lock);
  return handle ? handle : calloc (1, sizeof *handle);
}

void
return_handle (face_font_t *owner, handle_t *handle)
{
  pthread_mutex_lock (&owner->lock);
  handle->next = owner->free;
  owner->free = handle;
  pthread_mutex_unlock (&owner->lock);
}

reason_t
open_font (hb_face_t *face, face_font_t *owner, handle_t *handle, kind_t kind)
{
  if (handle->fonts[kind].live)
    return SHAPED;
  read_font_t *read = &owner->read[kind];
  pthread_mutex_lock (&owner->lock);
  if (!read->is_read)
    read_font (face, owner, kind);
  reason_t fault = read->fault;
  if (fault == SHAPED && kus_font_reference (&read->font, &handle->fonts[kind]) != KUS_OK)
    fault = NO_MEMORY;
  pthread_mutex_unlock (&owner->lock);
  return fault;
}

void
lock_fonts (face_font_t *owner)
{
  pthread_mutex_lock (&owner->lock);
}

void
unlock_fonts (face_font_t *owner)
{
  pthread_mutex_unlock (&owner->lock);
}

sized_t **
sized_of (face_font_t *owner)
{
  return &owner->sized;
}

/* ---- what a font has */

bool
is_bare (const face_font_t *owner)
{
  return owner->is_bare;
}

bool
has_graphite (const face_font_t *owner)
{
  return owner->has_graphite;
}

/* The shaper of Hebrew takes no positions for other scripts (hb_ot_shaper_t::gpos_tag). */
bool
applies_gpos (const face_font_t *owner, hb_script_t script)
{
  return owner->has_gpos && (script != HB_SCRIPT_HEBREW || owner->has_hebrew);
}

int
table_advance (const face_font_t *owner, hb_codepoint_t glyph)
{
  if (!owner->num_metrics)
    return 0;
  unsigned int last = owner->num_metrics - 1;
  const uint8_t *metric = owner->metrics + HMTX_METRIC * (glyph < last ? glyph : last);
  return (int) word ((sfnt_t){ metric, HMTX_METRIC }, 0);
}

bool
has_cursive (const face_font_t *owner)
{
  return owner->has_cursive;
}

/* ---- the stack */

bool
has_stack (size_t needed)
{
  static _Thread_local uintptr_t low, high;
  if (!high) {
    pthread_attr_t attributes;
    void *start;
    size_t size;
    if (pthread_getattr_np (pthread_self (), &attributes))
      return false;
    int fault = pthread_attr_getstack (&attributes, &start, &size);
    pthread_attr_destroy (&attributes);
    if (fault)
      return false;
    low = (uintptr_t) start;
    high = low + size;
  }
  uintptr_t here = (uintptr_t) &needed;
  return here > low && here < high && here - low >= needed;
}
