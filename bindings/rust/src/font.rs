//! A font, and the glyphs of the last text that was shaped in it.

use crate::fault::Fault;
use crate::raw::*;
use crate::settings::{Direction, Tag, Text, Units};
use crate::tables::Tables;
use std::collections::HashSet;
use std::fmt;
use std::ptr;

/// The glyphs of a text, each with its position, in the order in which they are drawn. They are the font's, until it shapes
/// the next text; `into_owned` keeps them.
#[derive(Clone, Copy, PartialEq, Eq, Debug, Default)]
pub struct Glyphs<'a> {
    pub infos: &'a [GlyphInfo],
    pub positions: &'a [GlyphPosition],
}

/// The glyphs of a text, on their own: they outlive what the font shapes next, and the font.
#[derive(Clone, PartialEq, Eq, Debug, Default)]
pub struct OwnedGlyphs {
    pub infos: Vec<GlyphInfo>,
    pub positions: Vec<GlyphPosition>,
}

impl Glyphs<'_> {
    /// A copy that is on its own.
    pub fn into_owned(self) -> OwnedGlyphs {
        OwnedGlyphs {
            infos: self.infos.to_vec(),
            positions: self.positions.to_vec(),
        }
    }
}

impl OwnedGlyphs {
    /// The same as those of a font are passed.
    pub fn as_glyphs(&self) -> Glyphs<'_> {
        Glyphs {
            infos: &self.infos,
            positions: &self.positions,
        }
    }
}

/// A client's advances by a function, which answers that of a glyph in font units and is asked once for each glyph. One of
/// these is for one font, whose handle alone has it.
#[derive(Debug)]
pub struct Measures<F> {
    advance: F,
    asked: HashSet<u32>,
}

impl<F: FnMut(u32) -> u32> Measures<F> {
    pub fn new(advance: F) -> Self {
        Measures { advance, asked: HashSet::new() }
    }
}

/// A layout table of a font.
#[derive(Clone, Copy, PartialEq, Eq, Debug)]
pub enum Table {
    Gsub,
    Gpos,
}

impl Table {
    const fn tag(self) -> Tag {
        match self {
            Table::Gsub => Tag::new(b"GSUB"),
            Table::Gpos => Tag::new(b"GPOS"),
        }
    }
}

/// How many glyphs a font has room for at least.
const LEAST_ROOM: usize = 64;

/// How many fonts the bytes of a font file have; 0 where they are no font file.
pub fn count_fonts(bytes: &[u8]) -> usize {
    unsafe { kus_count_fonts(bytes.as_ptr(), bytes.len()) }
}

/// Why the font with an index of the bytes of a font file isn't read, if it isn't: the fault's name, then the table that is
/// at fault and the offset in it (or in the file, where it is of no table), if the fault has them. The file is read once
/// more.
pub fn describe_fault(bytes: &[u8], index: usize) -> Option<String> {
    let mut text = [0; 64];
    let length = unsafe {
        kus_describe_fault(bytes.as_ptr(), bytes.len(), index, 0, text.as_mut_ptr(), text.len())
    };
    let told = &text[..length.min(text.len())];
    if told.is_empty() { None } else { String::from_utf8(told.to_vec()).ok() }
}

/// A font with its tables, and the glyphs of the last text. What it says of itself threads may ask it at once, and wait for
/// each other; each thread that shapes has its own, by `another`.
pub struct Font {
    handle: Shared,
    infos: Vec<GlyphInfo>,
    positions: Vec<GlyphPosition>,
    /// How many glyphs the last text has; there may be room for more.
    count: usize,
}

impl Font {
    fn empty() -> Font {
        Font {
            handle: Shared::empty(),
            infos: vec![GlyphInfo::default(); LEAST_ROOM],
            positions: vec![GlyphPosition::default(); LEAST_ROOM],
            count: 0,
        }
    }

    /// Reads tables and a font (JSON): the font has tables of its own.
    pub fn new(tables: &[u8], json: &[u8]) -> Result<Font, Fault> {
        let mut font = Font::empty();
        Fault::check(unsafe {
            kus_font_create(font.handle.own(), tables.as_ptr(), tables.len(), json.as_ptr(), json.len())
        })?;
        Ok(font)
    }

    /// Reads a font (JSON) over tables, which it shares.
    pub fn with_tables(tables: &Tables, json: &[u8]) -> Result<Font, Fault> {
        let mut font = Font::empty();
        Fault::check(tables.handle.with(|tables| unsafe {
            kus_font_create_with_tables(font.handle.own(), tables, json.as_ptr(), json.len())
        }))?;
        Ok(font)
    }

    /// Reads the font with an index of the bytes of a font file (TrueType, OpenType, a collection) over tables of its
    /// own, those that are inside the library. Nothing of the bytes is kept.
    pub fn from_slice(bytes: &[u8], index: usize) -> Result<Font, Fault> {
        let mut font = Font::empty();
        Fault::check(unsafe {
            kus_font_create_from_bytes_alone(font.handle.own(), bytes.as_ptr(), bytes.len(), index, 0)
        })?;
        Ok(font)
    }

    /// Reads the font with an index of the bytes of a font file over tables, which it shares.
    pub fn from_slice_with_tables(tables: &Tables, bytes: &[u8], index: usize) -> Result<Font, Fault> {
        let mut font = Font::empty();
        let (at, length) = (bytes.as_ptr(), bytes.len());
        Fault::check(tables.handle.with(|tables| unsafe {
            kus_font_create_from_bytes_over(font.handle.own(), tables, at, length, index, 0)
        }))?;
        Ok(font)
    }

    /// The same font for another thread, in the same scale and with the same glyphs for what is invisible or not found. Both
    /// share what was read.
    pub fn another(&self) -> Result<Font, Fault> {
        let mut font = Font::empty();
        Fault::check(self.handle.with(|shared| unsafe { kus_font_reference(shared, font.handle.own()) }))?;
        Ok(font)
    }

    /// Shapes a text. On a fault there are no glyphs.
    pub fn shape<T: Units + ?Sized>(&mut self, text: &Text<'_, T>) -> Result<Glyphs<'_>, Fault> {
        self.count = 0;
        let mut count = 0;
        let room = self.infos.len();
        Fault::check(unsafe {
            kus_shape(
                self.handle.own(),
                &text.raw(),
                self.infos.as_mut_ptr(),
                room,
                self.positions.as_mut_ptr(),
                room,
                &mut count,
            )
        })?;
        if count > room {
            self.read_again(count);
        }
        self.count = count;
        Ok(self.glyphs())
    }

    /// Shapes a text by a client's advances: again after glyphs came that no text before had, and whose advances are others
    /// than the font's. On a fault, also of `set_advances`, there are no glyphs.
    pub fn shape_measured<T: Units + ?Sized, F: FnMut(u32) -> u32>(
        &mut self,
        text: &Text<'_, T>,
        measures: &mut Measures<F>,
    ) -> Result<Glyphs<'_>, Fault> {
        loop {
            self.shape(text)?;
            let count = std::mem::take(&mut self.count);
            let glyphs = self.infos[..count].iter().map(|info| info.codepoint);
            let new: HashSet<u32> = glyphs.filter(|glyph| !measures.asked.contains(glyph)).collect();
            let given: Vec<_> = new.iter().map(|&glyph| (glyph, (measures.advance)(glyph))).collect();
            let others: Vec<_> =
                given.into_iter().filter(|&(glyph, advance)| self.glyph_h_advance(glyph) as i64 != advance.into()).collect();
            if !others.is_empty() {
                self.set_advances(&others)?;
            }
            measures.asked.extend(new);
            if others.is_empty() {
                self.count = count;
                return Ok(self.glyphs());
            }
        }
    }

    /// Reads the glyphs of the last text again, with room for all of them.
    fn read_again(&mut self, count: usize) {
        self.infos.resize(count, GlyphInfo::default());
        self.positions.resize(count, GlyphPosition::default());
        unsafe {
            kus_get_glyphs(
                self.handle.own(),
                self.infos.as_mut_ptr(),
                count,
                self.positions.as_mut_ptr(),
                count,
            )
        };
    }

    /// The glyphs of the last text, beside which the font may be asked.
    pub fn glyphs(&self) -> Glyphs<'_> {
        Glyphs {
            infos: &self.infos[..self.count],
            positions: &self.positions[..self.count],
        }
    }

    /// Gives back the memory that the last text's glyphs don't need: a font keeps that of its longest text, for the next
    /// one.
    pub fn shrink_to_fit(&mut self) {
        unsafe { kus_font_shrink(self.handle.own()) };
        let room = self.count.max(LEAST_ROOM);
        self.infos.truncate(room);
        self.infos.shrink_to_fit();
        self.positions.truncate(room);
        self.positions.shrink_to_fit();
    }

    /// The slices of the last text, one of a `str`, which is passed again: each run of glyphs of one cluster, in the order of the
    /// glyphs, with its bytes. The text without characters has none.
    pub fn slices(&self, text: &str) -> Result<Vec<Slice>, Fault> {
        if text.is_empty() && self.count == 0 {
            return Ok(Vec::new());
        }
        let mut slices = vec![Slice::default(); self.count];
        let mut count = 0;
        let room = slices.len();
        Fault::check(self.handle.with(|font| unsafe {
            kus_get_slices(font, text.as_ptr(), text.len(), slices.as_mut_ptr(), room, &mut count)
        }))?;
        slices.truncate(count);
        Ok(slices)
    }

    /// The direction by which the last text was shaped, `Guess` where there was none.
    pub fn direction(&self) -> Direction {
        match self.handle.with(|font| unsafe { kus_get_direction(font) }) {
            4 => Direction::LeftToRight,
            5 => Direction::RightToLeft,
            6 => Direction::TopToBottom,
            7 => Direction::BottomToTop,
            _ => Direction::Guess,
        }
    }

    /// The script by which the last text was shaped, if there was one.
    pub fn script(&self) -> Option<Tag> {
        match self.handle.with(|font| unsafe { kus_get_script(font) }) {
            0 => None,
            number => Some(Tag::from_number(number)),
        }
    }

    /// Gives glyphs advances in a horizontal line, in font units, as a client measures them: from then on texts are shaped
    /// as in a font with these advances. Where one of them is refused (`NoGlyph`, `AdvanceRange`), or other handles share the
    /// font (`SharedFont`), nothing changes.
    pub fn set_advances(&mut self, advances: &[(u32, u32)]) -> Result<(), Fault> {
        let given: Vec<_> = advances.iter().map(|&(glyph, advance)| GlyphAdvance { glyph, advance }).collect();
        Fault::check(unsafe { kus_font_set_advances(self.handle.own(), given.as_ptr(), given.len()) })
    }

    /// Gives characters glyphs, and variation sequences (a character and its selector), as a client's own character map has them;
    /// `None` where the font is to have no glyph. From then on texts are shaped as in a font with this map; of one that is
    /// named twice the last glyph counts. Where a glyph is above 65535 (`NoGlyph`), or other handles share the font
    /// (`SharedFont`), nothing changes; on `OutOfMemory` those at the front are set, and the same ones may be given again.
    pub fn set_glyphs(&mut self, glyphs: &[(char, Option<char>, Option<u32>)]) -> Result<(), Fault> {
        let mut given = Vec::with_capacity(glyphs.len());
        for &(character, selector, glyph) in glyphs {
            // A number that would say that there is none is no glyph's either.
            if glyph == Some(NO_GLYPH) {
                return Err(Fault::NoGlyph);
            }
            given.push(CharacterGlyph {
                character: character.into(),
                selector: selector.map_or(0, u32::from),
                glyph: glyph.unwrap_or(NO_GLYPH),
            });
        }
        Fault::check(unsafe { kus_font_set_glyphs(self.handle.own(), given.as_ptr(), given.len()) })
    }

    /// Sets the glyph of default ignorables in the texts that are shaped from then on; `None` for the font's space.
    pub fn set_invisible_glyph(&mut self, glyph: Option<u32>) -> Result<(), Fault> {
        Fault::check(unsafe { kus_font_set_invisible_glyph(self.handle.own(), glyph.unwrap_or(0)) })
    }

    /// Sets the glyph of characters that the font lacks, 0 at first, in the texts that are shaped from then on.
    pub fn set_not_found_glyph(&mut self, glyph: u32) -> Result<(), Fault> {
        Fault::check(unsafe { kus_font_set_not_found_glyph(self.handle.own(), glyph) })
    }

    /// Sets what an em is on both axes in units of the caller, in which positions are answered from the next text on: an
    /// advance is rounded by itself, and within a cluster each glyph's point is rounded once. 0 on both axes for font units.
    pub fn set_scale(&mut self, x_scale: i32, y_scale: i32) -> Result<(), Fault> {
        Fault::check(unsafe { kus_font_set_scale(self.handle.own(), x_scale, y_scale) })
    }

    /// The metrics of a line, in font units, if the font was read from a file that has them.
    pub fn line_metrics(&self) -> Option<LineMetrics> {
        let mut metrics = LineMetrics::default();
        self.handle.with(|font| unsafe { kus_font_get_line_metrics(font, &mut metrics) }).then_some(metrics)
    }

    /// The units of the em.
    pub fn upem(&self) -> u32 {
        self.handle.with(|font| unsafe { kus_font_get_upem(font) })
    }

    /// The height of the ascender above the baseline, in font units; 0 where the font gives none.
    pub fn ascender(&self) -> i32 {
        self.handle.with(|font| unsafe { kus_font_get_ascender(font) })
    }

    /// The glyph that the font has for a character, if it has one.
    pub fn nominal_glyph(&self, character: char) -> Option<u32> {
        let mut glyph = 0;
        self.handle.with(|font| unsafe { kus_font_get_nominal_glyph(font, character as u32, &mut glyph) }).then_some(glyph)
    }

    /// The name of a glyph, if the font gives one. What a font names a glyph may hold any character.
    pub fn glyph_name(&self, glyph: u32) -> Option<String> {
        let nowhere = ptr::NonNull::dangling().as_ptr();
        let room = self.handle.with(|font| unsafe { kus_font_get_glyph_name(font, glyph, nowhere, 0) });
        let mut name = vec![0; room];
        self.handle.with(|font| unsafe { kus_font_get_glyph_name(font, glyph, name.as_mut_ptr(), room) });
        if room == 0 { None } else { String::from_utf8(name).ok() }
    }

    /// The box of a glyph's ink, if the font gives one.
    pub fn glyph_extents(&self, glyph: u32) -> Option<GlyphExtents> {
        let mut extents = GlyphExtents::default();
        self.handle.with(|font| unsafe { kus_font_get_glyph_extents(font, glyph, &mut extents) }).then_some(extents)
    }

    /// The advance of a glyph in a horizontal line, in font units.
    pub fn glyph_h_advance(&self, glyph: u32) -> i32 {
        self.handle.with(|font| unsafe { kus_font_get_glyph_h_advance(font, glyph) })
    }

    /// The advance of a glyph in a vertical line, in font units, at most 0.
    pub fn glyph_v_advance(&self, glyph: u32) -> i32 {
        self.handle.with(|font| unsafe { kus_font_get_glyph_v_advance(font, glyph) })
    }

    /// The carets inside of a ligature that the font's file gives (GDEF), in font units from the glyph's origin.
    pub fn ligature_carets(&self, glyph: u32) -> Vec<i32> {
        let call = |carets: *mut i32, room: usize| {
            self.handle.with(|font| unsafe { kus_font_get_ligature_carets(font, glyph, carets, room) })
        };
        let mut carets = vec![0; call(ptr::NonNull::dangling().as_ptr(), 0)];
        call(carets.as_mut_ptr(), carets.len());
        carets
    }

    /// The tags of the features of a table, in the order of their indices; a tag may come more than once.
    pub fn feature_tags(&self, table: Table) -> Vec<Tag> {
        self.tags(kus_font_get_feature_tags, table)
    }

    /// The tags of the scripts of a table.
    pub fn script_tags(&self, table: Table) -> Vec<Tag> {
        self.tags(kus_font_get_script_tags, table)
    }

    fn tags(&self, call: TagsCall, table: Table) -> Vec<Tag> {
        let table = table.tag().number();
        let nowhere = ptr::NonNull::dangling().as_ptr();
        let room = self.handle.with(|font| unsafe { call(font, table, nowhere, 0) });
        let mut tags = vec![0; room];
        self.handle.with(|font| unsafe { call(font, table, tags.as_mut_ptr(), room) });
        tags.into_iter().map(Tag::from_number).collect()
    }

    /// The lines of the last text, whose clusters count up to `end` (of a `str`, its length): they may end at `breaks`, which
    /// rise, as those of UAX 14. Each takes what fits `width`, in font units, and one piece between breaks at least; the
    /// first one what fits `first_width`, for a text that goes on in a line of other ones. Of a text that was shaped with
    /// `Flags::PRODUCE_SAFE_BREAKS` a line has its own glyphs, or has to be shaped again.
    pub fn cut_lines(
        &self,
        end: usize,
        breaks: &[usize],
        first_width: i64,
        width: i64,
    ) -> Result<Vec<Line>, Fault> {
        let mut lines = vec![Line::default(); breaks.len() + 1];
        let (mut count, room) = (0, lines.len());
        Fault::check(self.handle.with(|font| unsafe {
            kus_cut_lines(
                font,
                end,
                breaks.as_ptr(),
                breaks.len(),
                first_width,
                width,
                lines.as_mut_ptr(),
                room,
                &mut count,
            )
        }))?;
        lines.truncate(count);
        Ok(lines)
    }

    /// What has to hold of the font and its tables for safe breaks to be promised. It tests all characters of Unicode: call it
    /// once, and anew after `set_glyphs`.
    pub fn break_premises(&self) -> BreakPremises {
        BreakPremises(self.handle.with(|font| unsafe { kus_font_get_break_premises(font) }))
    }

    /// Of lines that `cut_lines` gave of a text it leaves `is_own` only to those of which the law of safe breaks speaks: the
    /// text may be cut before such a line, and what is left of it after the line. `text` is the one that was shaped. On a
    /// fault no line changes.
    pub fn check_lines<T: Units + ?Sized>(
        &self,
        premises: BreakPremises,
        text: &Text<'_, T>,
        lines: &mut [Line],
    ) -> Result<(), Fault> {
        Fault::check(self.handle.with(|font| unsafe {
            kus_check_lines(font, premises.0, &text.raw(), lines.as_mut_ptr(), lines.len())
        }))
    }

    /// The carets of the last text, whose clusters count up to `end`, in its order: between clusters and at both ends, and at
    /// those of `stops`, which rise, that are inside of clusters, as between the letters of a ligature: where its font's
    /// file says (`ligature_carets`), else they divide its width evenly. The text without characters has one caret.
    pub fn carets(&self, end: usize, stops: &[usize]) -> Result<Vec<Caret>, Fault> {
        if end == 0 && self.count == 0 {
            return Ok(vec![Caret::default()]);
        }
        let mut carets = vec![Caret::default(); self.count + stops.len() + 1];
        let (mut count, room) = (0, carets.len());
        Fault::check(self.handle.with(|font| unsafe {
            kus_get_carets(font, end, stops.as_ptr(), stops.len(), carets.as_mut_ptr(), room, &mut count)
        }))?;
        carets.truncate(count);
        Ok(carets)
    }
}

/// What holds of a font and its tables, for safe breaks to be promised (`Font::break_premises`).
#[derive(Clone, Copy, PartialEq, Eq, Debug)]
pub struct BreakPremises(u32);

impl fmt::Debug for Font {
    fn fmt(&self, f: &mut fmt::Formatter<'_>) -> fmt::Result {
        f.debug_struct("Font").field("upem", &self.upem()).field("glyphs", &self.count).finish_non_exhaustive()
    }
}

/// A call that writes tags of a table.
type TagsCall = unsafe extern "C" fn(*mut Handle, u32, *mut u32, usize) -> usize;

impl Drop for Font {
    fn drop(&mut self) {
        unsafe { kus_font_destroy(self.handle.own()) }
    }
}
