/* A buffer shaped by Kuspveli: its characters with their clusters, and the glyphs back. */
#include <stdlib.h>
#include <string.h>

#include "instead.h"

/* What kuspveli.h says of the stack. */
#define STACK_OF_SHAPING (128 << 10)

/* Of HarfBuzz's flags those that Kuspveli has: VERIFY is none of shaping. */
#define KNOWN_FLAGS                                                                                                    \
  (KUS_FLAG_BOT | KUS_FLAG_EOT | KUS_FLAG_PRESERVE_DEFAULT_IGNORABLES | KUS_FLAG_REMOVE_DEFAULT_IGNORABLES             \
   | KUS_FLAG_DO_NOT_INSERT_DOTTED_CIRCLE | KUS_FLAG_PRODUCE_UNSAFE_TO_CONCAT                                          \
   | KUS_FLAG_PRODUCE_SAFE_TO_INSERT_TATWEEL)

/* ---- the text */

static bool
is_scalar_value (hb_codepoint_t unicode)
{
  return unicode < 0xD800 || (unicode >= 0xE000 && unicode < 0x110000);
}

/* Reads the buffer's characters. */
static reason_t
read_characters (call_t *call, const hb_glyph_info_t *infos)
{
  call->is_rising = true;
  for (size_t i = 0; i < call->num_characters; i++) {
    if (!is_scalar_value (infos[i].codepoint))
      return NO_SCALAR_VALUE;
    call->is_rising &= !i || infos[i].cluster >= infos[i - 1].cluster;
    call->characters[i] = (kus_character_t){ infos[i].codepoint, infos[i].cluster };
  }
  return SHAPED;
}

size_t
character_at (const call_t *call, uint32_t cluster)
{
  size_t low = 0, high = call->num_characters;
  while (low < high) {
    size_t middle = (low + high) / 2;
    if (call->characters[middle].cluster < cluster)
      low = middle + 1;
    else
      high = middle;
  }
  return low;
}

static void
set_features (call_t *call, kus_feature_t *to, const hb_feature_t *features, unsigned int count)
{
  for (unsigned int i = 0; i < count; i++)
    to[i] = (kus_feature_t){ features[i].tag, features[i].value, features[i].start, features[i].end };
  if (count) {
    call->text.features = to;
    call->text.num_features = count;
  }
}

/* The texts around the buffer's, in the order of reading. */
typedef struct {
  uint32_t before[CONTEXT_LENGTH], after[CONTEXT_LENGTH];
} around_t;

static void
set_context (call_t *call, around_t *around)
{
  const context_t *context = context_of (call->buffer);
  if (!context)
    return;
  size_t before = 0, after = 0;
  for (unsigned int i = context->num_before; i--;)
    if (is_scalar_value (context->before[i]))
      around->before[before++] = context->before[i];
  for (unsigned int i = 0; i < context->num_after; i++)
    if (is_scalar_value (context->after[i]))
      around->after[after++] = context->after[i];
  call->text.before = (const uint8_t *) around->before;
  call->text.before_length = before * sizeof *around->before;
  call->text.after = (const uint8_t *) around->after;
  call->text.after_length = after * sizeof *around->after;
}

static void
set_properties (call_t *call)
{
  const char *language = hb_language_to_string (call->properties.language);
  if (language) {
    call->text.language = (const uint8_t *) language;
    call->text.language_length = strlen (language);
  }
  call->text.direction = call->properties.direction;
  /* A script that isn't set is not to be guessed. */
  call->text.script = call->properties.script ? (uint32_t) call->properties.script : HB_SCRIPT_UNKNOWN;
  call->text.flags |= hb_buffer_get_flags (call->buffer) & KNOWN_FLAGS;
  call->text.cluster_level = hb_buffer_get_cluster_level (call->buffer);
}

/* ---- the glyphs */

static bool
make_room (call_t *call, size_t room)
{
  kus_glyph_info_t *infos = realloc (call->infos, room * sizeof *infos);
  if (infos)
    call->infos = infos;
  kus_glyph_position_t *positions = realloc (call->positions, room * sizeof *positions);
  if (positions)
    call->positions = positions;
  if (!infos || !positions)
    return false;
  call->room = room;
  return true;
}

kus_font_t *
font_of_call (const call_t *call)
{
  return call->sized ? open_sized (call->sized, 0) : call->own_font;
}

static reason_t
reason_of (kus_status_t status)
{
  return status == KUS_OK ? SHAPED : status == KUS_OUT_OF_MEMORY ? NO_MEMORY : OF_TEXT + status;
}

/* A number that no font's glyph has: what the library shows default ignorables by, where the client has a glyph for them,
 * whose number may have more than 16 bits. */
#define HIDDEN 65535

/* Shapes by a font, which shows what is invisible and what it lacks as the buffer does. */
static kus_status_t
shape_as_buffer (const call_t *call, kus_font_t *font, kus_glyph_info_t *infos, kus_glyph_position_t *positions,
                 size_t room, size_t *count)
{
  kus_status_t status = kus_font_set_invisible_glyph (font, hb_buffer_get_invisible_glyph (call->buffer) ? HIDDEN : 0);
  if (status == KUS_OK)
    status = kus_font_set_not_found_glyph (font, hb_buffer_get_not_found_glyph (call->buffer));
  return status == KUS_OK ? kus_shape (font, &call->text, infos, room, positions, room, count) : status;
}

/* Notes which glyphs are hidden ones. Until the client's glyph stands there they are .notdef, of which a client may be
 * asked. */
static void
note_hidden (call_t *call)
{
  for (size_t i = 0; i < call->count; i++) {
    kus_glyph_info_t *info = &call->infos[i];
    info->var1 = info->codepoint == HIDDEN;
    if (info->var1)
      info->codepoint = 0;
  }
}

static reason_t
shape_by (call_t *call, kus_font_t *font)
{
  /* Few texts have more glyphs; those are read again. */
  if (!call->room && !make_room (call, 2 * call->num_characters + 16))
    return NO_MEMORY;
  kus_status_t status = shape_as_buffer (call, font, call->infos, call->positions, call->room, &call->count);
  if (status != KUS_OK || call->count <= call->room)
    return reason_of (status);
  if (!make_room (call, call->count))
    return NO_MEMORY;
  kus_get_glyphs (font, call->infos, call->room, call->positions, call->room);
  return SHAPED;
}

/* Shapes by the font of higher bits, which has the same glyphs. */
static reason_t
shape_higher (call_t *call)
{
  size_t count;
  kus_font_t *font = open_sized (call->sized, 1);
  kus_glyph_info_t *infos = malloc ((call->count + 1) * sizeof *infos);
  free (call->higher);
  call->higher = malloc ((call->count + 1) * sizeof *call->higher);
  reason_t reason = font && infos && call->higher ? SHAPED : NO_MEMORY;
  if (reason == SHAPED)
    reason = reason_of (shape_as_buffer (call, font, infos, call->higher, call->count, &count));
  bool is_same = reason == SHAPED && count == call->count;
  for (size_t i = 0; is_same && i < count; i++)
    is_same = infos[i].codepoint == call->infos[i].codepoint;
  free (infos);
  if (reason == SHAPED && !is_same)
    return NO_MEMORY;
  return reason;
}

static reason_t
shape_text (call_t *call)
{
  if (!has_stack (STACK_OF_SHAPING))
    return SMALL_STACK;
  kus_font_t *font = font_of_call (call);
  if (!font)
    return SMALL_STACK;
  reason_t reason = shape_by (call, font);
  if (reason == SHAPED && call->sized && is_split (call->sized))
    reason = shape_higher (call);
  if (reason == SHAPED)
    note_hidden (call);
  return reason;
}

static reason_t
ask_advances (call_t *call)
{
  hb_position_t *advances = realloc (call->advances, (call->count + 1) * sizeof *advances);
  if (!advances)
    return NO_MEMORY;
  call->advances = advances;
  hb_font_get_glyph_h_advances (call->font, (unsigned int) call->count, &call->infos->codepoint, sizeof *call->infos,
                                advances, sizeof *advances);
  return SHAPED;
}

/* Leaves the client's units, which the text doesn't fit. */
static void
leave_units (call_t *call)
{
  return_sized (call->owner, call->sized);
  call->sized = NULL;
  free (call->higher);
  call->higher = NULL;
}

/* Shapes a text that was shaped once more, where it needs the client's units or advances. */
static reason_t
shape_in_units (call_t *call, const units_t *units)
{
  bool is_new = !call->sized && needs_units (call) && !compares_widths (call);
  if (is_new)
    call->sized = borrow_sized (call->face, call->owner, units, true);
  if (!call->sized)
    return SHAPED;
  setting_t setting = set_advances (call, call->sized);
  if (setting == SAME_ADVANCES && !is_new)
    return SHAPED;
  reason_t reason = setting == NO_ADVANCES ? SMALL_STACK : shape_text (call);
  if (reason == SHAPED)
    return SHAPED;
  leave_units (call);
  return shape_text (call);
}

static reason_t
shape_horizontal (call_t *call)
{
  units_t units = client_units (call->font);
  if (applies_gpos (call->owner, call->properties.script) && !compares_widths (call))
    call->sized = borrow_sized (call->face, call->owner, &units, false);
  reason_t reason = shape_text (call);
  if (reason != SHAPED && call->sized) {
    leave_units (call);
    reason = shape_text (call);
  }
  if (reason == SHAPED)
    reason = ask_advances (call);
  if (reason == SHAPED)
    reason = shape_in_units (call, &units);
  return reason == SHAPED && units.num_coordinates && !call->sized ? INSTANCE : reason;
}

/* ---- a face without tables */

static bool
has_marks (const call_t *call)
{
  hb_unicode_funcs_t *functions = hb_unicode_funcs_get_default ();
  for (size_t i = 0; i < call->num_characters; i++) {
    hb_unicode_general_category_t kind = hb_unicode_general_category (functions, call->characters[i].character);
    if (kind == HB_UNICODE_GENERAL_CATEGORY_NON_SPACING_MARK || kind == HB_UNICODE_GENERAL_CATEGORY_ENCLOSING_MARK)
      return true;
  }
  return false;
}

/* The glyphs tell of which of them advances and boxes are needed; with these the text is shaped again. */
static reason_t
shape_bare (call_t *call)
{
  units_t units = client_units (call->font);
  bool wants_boxes = has_marks (call);
  call->sized = units.x_scale > 0 ? borrow_bare (call, &units) : NULL;
  if (!call->sized)
    return NO_TABLES;
  reason_t reason = shape_text (call);
  if (reason == SHAPED)
    reason = ask_advances (call);
  if (reason != SHAPED)
    return reason;
  if (set_advances (call, call->sized) == NO_ADVANCES)
    return NO_TABLES;
  if (wants_boxes)
    set_boxes (call->sized, call);
  return is_stale (call->sized) ? shape_text (call) : SHAPED;
}

/* Gives the buffer what was shaped. Before the first step it is as it was. */
static reason_t
fill_buffer (call_t *call)
{
  call->client_infos = malloc ((call->count + 1) * sizeof *call->client_infos);
  call->client_positions = malloc ((call->count + 1) * sizeof *call->client_positions);
  if (!call->client_infos || !call->client_positions)
    return NO_MEMORY;
  fill_client_infos (call);
  fill_client_positions (call);
  if (!real_calls ()->set_length (call->buffer, (unsigned int) call->count))
    return NO_MEMORY;
  hb_buffer_set_content_type (call->buffer, HB_BUFFER_CONTENT_TYPE_GLYPHS);
  unsigned int length;
  hb_glyph_info_t *infos = hb_buffer_get_glyph_infos (call->buffer, &length);
  hb_glyph_position_t *positions = hb_buffer_get_glyph_positions (call->buffer, &length);
  if (call->count) {
    memcpy (infos, call->client_infos, call->count * sizeof *infos);
    memcpy (positions, call->client_positions, call->count * sizeof *positions);
  }
  return SHAPED;
}

/* ---- the call */

/* The index of the lookups that stand for those of features (OpenType, FeatureVariations); -1 where none do. */
static int64_t
other_lookups (hb_font_t *font, hb_tag_t table, bool is_default)
{
  unsigned int count, index;
  const int *coordinates = hb_font_get_var_coords_normalized (font, &count);
  int *none = calloc ((size_t) count + 1, sizeof *none);
  bool is_there = none
                  && hb_ot_layout_table_find_feature_variations (hb_font_get_face (font), table,
                                                                 is_default ? none : coordinates, count, &index);
  free (none);
  return is_there ? (int64_t) index : -1;
}

/* Whether an instance has other lookups than the default one, which Kuspveli reads. */
static bool
has_other_lookups (hb_font_t *font)
{
  return other_lookups (font, HB_OT_TAG_GSUB, true) != other_lookups (font, HB_OT_TAG_GSUB, false)
         || other_lookups (font, HB_OT_TAG_GPOS, true) != other_lookups (font, HB_OT_TAG_GPOS, false);
}

/* The buffer's own state, which decides before a font is read. */
static reason_t
check_buffer (call_t *call)
{
  const context_t *context = context_of (call->buffer);
  if (hb_buffer_get_content_type (call->buffer) != HB_BUFFER_CONTENT_TYPE_UNICODE)
    return NO_CHARACTERS;
  if (!HB_DIRECTION_IS_VALID (call->properties.direction))
    return NO_DIRECTION;
  if (context && context->has_messages)
    return MESSAGES;
  bool is_vertical = !HB_DIRECTION_IS_HORIZONTAL (call->properties.direction);
  return is_instance (call->font) && (is_vertical || has_other_lookups (call->font)) ? INSTANCE : SHAPED;
}

/* Opens the font of which the text needs no more. */
static reason_t
choose_font (call_t *call)
{
  kind_t kind = HB_DIRECTION_IS_HORIZONTAL (call->properties.direction) ? WITHOUT_BOXES : WITH_BOXES;
  reason_t reason = open_font (call->face, call->owner, call->handle, kind);
  if (reason == SHAPED && !applies_gpos (call->owner, call->properties.script)) {
    kind = WITH_BOXES;
    reason = open_font (call->face, call->owner, call->handle, kind);
  }
  call->own_font = &call->handle->fonts[kind];
  return reason;
}

/* What a call allocates for its text. */
typedef struct {
  around_t around;
  kus_feature_t *features;
} room_t;

static reason_t
shape_by_handle (call_t *call, room_t *room, const hb_glyph_info_t *infos, const hb_feature_t *features,
                 unsigned int num_features)
{
  bool is_horizontal = HB_DIRECTION_IS_HORIZONTAL (call->properties.direction);
  bool by_client = is_horizontal && is_bare (call->owner);
  reason_t reason = read_characters (call, infos);
  if (reason == SHAPED && !by_client)
    reason = choose_font (call);
  if (reason == SHAPED && !by_client)
    reason = find_client_glyphs (call);
  if (reason != SHAPED)
    return reason;
  call->text = kus_text_characters (call->characters, call->num_characters);
  set_properties (call);
  set_context (call, &room->around);
  set_features (call, room->features, features, num_features);
  reason = by_client ? shape_bare (call) : is_horizontal ? shape_horizontal (call) : shape_text (call);
  return reason == SHAPED ? fill_buffer (call) : reason;
}

static void
free_call (call_t *call)
{
  free (call->characters);
  free (call->infos);
  free (call->positions);
  free (call->higher);
  free (call->missing);
  free (call->advances);
  free (call->client_infos);
  free (call->client_positions);
}

static reason_t
shape_in_room (call_t *call, const hb_feature_t *features, unsigned int num_features)
{
  unsigned int length;
  const hb_glyph_info_t *infos = hb_buffer_get_glyph_infos (call->buffer, &length);
  call->num_characters = length;
  call->characters = malloc (((size_t) length + 1) * sizeof *call->characters);
  room_t room = { .features = malloc (((size_t) num_features + 1) * sizeof *room.features) };
  reason_t reason = NO_MEMORY;
  if (call->characters && room.features)
    reason = shape_by_handle (call, &room, infos, features, num_features);
  free (room.features);
  return reason;
}

static reason_t
shape_in_face (call_t *call, const hb_feature_t *features, unsigned int num_features, bool by_graphite)
{
  call->owner = face_font_of (call->face);
  if (!call->owner)
    return NO_TABLES; /* the empty face keeps nothing */
  if (by_graphite && has_graphite (call->owner))
    return GRAPHITE;
  call->handle = borrow_handle (call->owner);
  if (!call->handle)
    return NO_MEMORY;
  reason_t reason = shape_in_room (call, features, num_features);
  return_handle (call->owner, call->handle);
  if (call->sized)
    return_sized (call->owner, call->sized);
  free_call (call);
  return reason;
}

reason_t
shape_instead (hb_font_t *font, hb_buffer_t *buffer, const hb_feature_t *features, unsigned int num_features,
               bool by_graphite)
{
  call_t call = { .font = font, .face = hb_font_get_face (font), .buffer = buffer };
  hb_buffer_get_segment_properties (buffer, &call.properties);
  reason_t reason = check_buffer (&call);
  if (reason != SHAPED)
    return reason;
  enter_call ();
  reason = shape_in_face (&call, features, num_features, by_graphite);
  leave_call ();
  return reason;
}
