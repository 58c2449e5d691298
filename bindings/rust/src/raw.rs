//! The structs and calls of `include/kuspveli.h`.

use crate::settings::Feature;
use std::ffi::c_void;
use std::ptr;
use std::sync::{Mutex, PoisonError};

/// `kus_font_t` and `kus_tables_t`.
#[repr(C)]
pub(crate) struct Handle {
    at: *mut c_void,
    live: bool,
}

impl Handle {
    const EMPTY: Handle = Handle {
        at: ptr::null_mut(),
        live: false,
    };
}

// What is behind a handle may be moved between threads (include/kuspveli.h).
unsafe impl Send for Handle {}

/// A handle that threads may share: each call has it alone.
pub(crate) struct Shared(Mutex<Handle>);

impl Shared {
    pub(crate) const fn empty() -> Shared {
        Shared(Mutex::new(Handle::EMPTY))
    }

    /// The handle, where nothing else can have it: no lock is taken.
    pub(crate) fn own(&mut self) -> &mut Handle {
        self.0.get_mut().unwrap_or_else(PoisonError::into_inner)
    }

    /// What a call answers that has the handle meanwhile. No call of the library panics, so a handle is whole after one.
    pub(crate) fn with<T>(&self, call: impl FnOnce(&mut Handle) -> T) -> T {
        call(&mut self.0.lock().unwrap_or_else(PoisonError::into_inner))
    }
}

/// A glyph: `codepoint` is its number, `mask` has its glyph flags, `cluster` is that of its text's units (of a `str` the
/// index of a byte).
#[repr(C)]
#[derive(Clone, Copy, PartialEq, Eq, Debug, Default)]
pub struct GlyphInfo {
    pub codepoint: u32,
    pub mask: u32,
    pub cluster: u32,
    var1: u32,
    var2: u32,
}

/// The advance that a client gives a glyph in a horizontal line, in font units.
#[repr(C)]
#[derive(Clone, Copy)]
pub(crate) struct GlyphAdvance {
    pub glyph: u32,
    pub advance: u32,
}

/// The glyph that a client gives a character, or with a selector, which is not 0, a variation sequence.
#[repr(C)]
#[derive(Clone, Copy)]
pub(crate) struct CharacterGlyph {
    pub character: u32,
    pub selector: u32,
    pub glyph: u32,
}

/// No glyph (`KUS_CODEPOINT_INVALID`).
pub(crate) const NO_GLYPH: u32 = u32::MAX;

/// What is above and below the baseline, where the descender is mostly negative, and what is left between two lines, in font
/// units.
#[repr(C)]
#[derive(Clone, Copy, PartialEq, Eq, Debug, Default)]
pub struct LineMetrics {
    pub ascender: i32,
    pub descender: i32,
    pub line_gap: i32,
}

/// The position of a glyph, in font units or in the scale that is set.
#[repr(C)]
#[derive(Clone, Copy, PartialEq, Eq, Debug, Default)]
pub struct GlyphPosition {
    pub x_advance: i32,
    pub y_advance: i32,
    pub x_offset: i32,
    pub y_offset: i32,
    var: u32,
}

/// The box of a glyph's ink, in font units; the height is negative where y grows upward.
#[repr(C)]
#[derive(Clone, Copy, PartialEq, Eq, Debug, Default)]
pub struct GlyphExtents {
    pub x_bearing: i32,
    pub y_bearing: i32,
    pub width: i32,
    pub height: i32,
}

/// A run of glyphs of one cluster, without its end, and the bytes of the text that it comes from, without their end.
#[repr(C)]
#[derive(Clone, Copy, PartialEq, Eq, Debug, Default)]
pub struct Slice {
    pub first_glyph: usize,
    pub end_glyph: usize,
    pub start: usize,
    pub end: usize,
}

/// A line of a text: its units, without their end, its width in font units, and the text's glyphs of these units where
/// `is_own`.
#[repr(C)]
#[derive(Clone, Copy, PartialEq, Eq, Debug, Default)]
pub struct Line {
    pub start: usize,
    pub end: usize,
    pub width: i64,
    pub first_glyph: usize,
    pub end_glyph: usize,
    /// Whether the glyphs are those that shaping the line alone gives; else it has to be shaped again.
    pub is_own: bool,
}

/// A caret: the index of the unit before which it stands, and its position from the left end of the text's glyphs, or from
/// the upper one on a vertical line, in font units.
#[repr(C)]
#[derive(Clone, Copy, PartialEq, Eq, Debug, Default)]
pub struct Caret {
    pub index: usize,
    pub position: i64,
}

#[repr(C)]
pub(crate) struct RawText {
    pub text: *const u8,
    pub text_length: usize,
    pub before: *const u8,
    pub before_length: usize,
    pub after: *const u8,
    pub after_length: usize,
    pub language: *const u8,
    pub language_length: usize,
    pub features: *const Feature,
    pub num_features: usize,
    pub direction: u32,
    pub script: u32,
    pub flags: u32,
    pub cluster_level: u32,
}

extern "C" {
    pub(crate) fn kus_version() -> u32;
    pub(crate) fn kus_tables_create(tables: *mut Handle, json: *const u8, json_length: usize) -> u32;
    pub(crate) fn kus_tables_create_default(tables: *mut Handle) -> u32;
    pub(crate) fn kus_tables_reference(tables: *mut Handle, other: *mut Handle) -> u32;
    pub(crate) fn kus_tables_destroy(tables: *mut Handle);
    pub(crate) fn kus_font_create(
        font: *mut Handle,
        tables: *const u8,
        tables_length: usize,
        json: *const u8,
        json_length: usize,
    ) -> u32;
    pub(crate) fn kus_font_create_with_tables(
        font: *mut Handle,
        tables: *mut Handle,
        json: *const u8,
        json_length: usize,
    ) -> u32;
    pub(crate) fn kus_count_fonts(bytes: *const u8, length: usize) -> usize;
    pub(crate) fn kus_font_create_from_bytes_over(
        font: *mut Handle,
        tables: *mut Handle,
        bytes: *const u8,
        length: usize,
        index: usize,
        flags: u32,
    ) -> u32;
    pub(crate) fn kus_font_create_from_bytes_alone(
        font: *mut Handle,
        bytes: *const u8,
        length: usize,
        index: usize,
        flags: u32,
    ) -> u32;
    pub(crate) fn kus_describe_fault(
        bytes: *const u8,
        length: usize,
        index: usize,
        flags: u32,
        text: *mut u8,
        text_room: usize,
    ) -> usize;
    pub(crate) fn kus_font_reference(font: *mut Handle, other: *mut Handle) -> u32;
    pub(crate) fn kus_font_destroy(font: *mut Handle);
    pub(crate) fn kus_shape(
        font: *mut Handle,
        text: *const RawText,
        infos: *mut GlyphInfo,
        infos_room: usize,
        positions: *mut GlyphPosition,
        positions_room: usize,
        count: *mut usize,
    ) -> u32;
    pub(crate) fn kus_get_glyphs(
        font: *mut Handle,
        infos: *mut GlyphInfo,
        infos_room: usize,
        positions: *mut GlyphPosition,
        positions_room: usize,
    ) -> usize;
    pub(crate) fn kus_font_set_advances(font: *mut Handle, advances: *const GlyphAdvance, count: usize) -> u32;
    pub(crate) fn kus_font_set_glyphs(font: *mut Handle, glyphs: *const CharacterGlyph, count: usize) -> u32;
    pub(crate) fn kus_font_set_invisible_glyph(font: *mut Handle, glyph: u32) -> u32;
    pub(crate) fn kus_font_set_not_found_glyph(font: *mut Handle, glyph: u32) -> u32;
    pub(crate) fn kus_font_set_scale(font: *mut Handle, x_scale: i32, y_scale: i32) -> u32;
    pub(crate) fn kus_font_shrink(font: *mut Handle);
    pub(crate) fn kus_get_direction(font: *mut Handle) -> u32;
    pub(crate) fn kus_get_script(font: *mut Handle) -> u32;
    pub(crate) fn kus_get_slices(
        font: *mut Handle,
        text: *const u8,
        text_length: usize,
        slices: *mut Slice,
        slices_room: usize,
        count: *mut usize,
    ) -> u32;
    pub(crate) fn kus_font_get_upem(font: *mut Handle) -> u32;
    pub(crate) fn kus_font_get_ascender(font: *mut Handle) -> i32;
    pub(crate) fn kus_font_get_line_metrics(font: *mut Handle, metrics: *mut LineMetrics) -> bool;
    pub(crate) fn kus_font_get_nominal_glyph(font: *mut Handle, unicode: u32, glyph: *mut u32) -> bool;
    pub(crate) fn kus_font_get_glyph_name(font: *mut Handle, glyph: u32, name: *mut u8, name_room: usize) -> usize;
    pub(crate) fn kus_font_get_glyph_extents(font: *mut Handle, glyph: u32, extents: *mut GlyphExtents) -> bool;
    pub(crate) fn kus_font_get_glyph_h_advance(font: *mut Handle, glyph: u32) -> i32;
    pub(crate) fn kus_font_get_glyph_v_advance(font: *mut Handle, glyph: u32) -> i32;
    pub(crate) fn kus_font_get_feature_tags(font: *mut Handle, table: u32, tags: *mut u32, tags_room: usize) -> usize;
    pub(crate) fn kus_font_get_script_tags(font: *mut Handle, table: u32, tags: *mut u32, tags_room: usize) -> usize;
    pub(crate) fn kus_font_get_ligature_carets(
        font: *mut Handle,
        glyph: u32,
        carets: *mut i32,
        carets_room: usize,
    ) -> usize;
    pub(crate) fn kus_cut_lines(
        font: *mut Handle,
        end: usize,
        breaks: *const usize,
        num_breaks: usize,
        first_width: i64,
        width: i64,
        lines: *mut Line,
        lines_room: usize,
        count: *mut usize,
    ) -> u32;
    pub(crate) fn kus_font_get_break_premises(font: *mut Handle) -> u32;
    pub(crate) fn kus_check_lines(
        font: *mut Handle,
        premises: u32,
        text: *const RawText,
        lines: *mut Line,
        num_lines: usize,
    ) -> u32;
    pub(crate) fn kus_get_carets(
        font: *mut Handle,
        end: usize,
        stops: *const usize,
        num_stops: usize,
        carets: *mut Caret,
        carets_room: usize,
        count: *mut usize,
    ) -> u32;
}
