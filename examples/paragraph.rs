//! paragraph SVG LATIN ARABIC DEVANAGARI: sets a paragraph of three scripts in lines, and writes it as SVG, with the outlines
//! of the fonts' table glyf.
//!
//!     cd bindings/rust; cargo run --offline --release --example paragraph -- ..
//!
//! Glyphs have the advances to which FreeType hints them: its library is opened as the program runs. Each part of the
//! paragraph is of one script, and goes on in the line of the part before it. A line may end after a space (UAX 14 has
//! more). Where a line is not the part's own it is shaped again. Carets are drawn as small strokes below the line: in words
//! of Latin also between the letters of a ligature. The lines are printed.

use kuspveli::{Caret, Direction, Fault, Flags, Font, GlyphInfo, GlyphPosition, Glyphs, Line, Measures, Tables, Tag, Text};
use std::error::Error;
use std::ffi::{CStr, CString, c_char, c_int, c_long, c_uint, c_void};
use std::fmt::Write;
use std::{env, fs, mem, ptr};

const SIZE: f64 = 30.0;
const WIDTH: f64 = 640.0;
const MARGIN: f64 = 24.0;
const LEADING: f64 = 54.0;
/// Each part of the paragraph: its font's number, and its text.
const PARTS: [(usize, &str); 5] = [
    (0, "Kuspveli sets the words of an office, "),
    (1, "السلام عليكم ورحمة الله وبركاته،"),
    (0, " and between them "),
    (2, "हिन्दी में नमस्ते और स्त्री शक्ति, "),
    (0, "in lines that end where a break is safe."),
];

unsafe extern "C" {
    fn dlopen(name: *const c_char, flags: c_int) -> *mut c_void;
    fn dlsym(library: *mut c_void, name: *const c_char) -> *mut c_void;
}

type InitFreeType = unsafe extern "C" fn(*mut *mut c_void) -> c_int;
type NewFace = unsafe extern "C" fn(*mut c_void, *const c_char, c_long, *mut *mut c_void) -> c_int;
type SetPixelSizes = unsafe extern "C" fn(*mut c_void, c_uint, c_uint) -> c_int;
type GetAdvance = unsafe extern "C" fn(*mut c_void, c_uint, i32, *mut c_long) -> c_int;

/// A call of FreeType by its name.
unsafe fn freetype(name: &CStr) -> Result<*mut c_void, String> {
    // RTLD_NOW
    let library = unsafe { dlopen(c"libfreetype.so.6".as_ptr(), 2) };
    if library.is_null() {
        return Err("no libfreetype.so.6".into());
    }
    let call = unsafe { dlsym(library, name.as_ptr()) };
    if call.is_null() { Err(format!("no {}", name.to_string_lossy())) } else { Ok(call) }
}

/// A font, and a client's advances for it.
struct Face {
    font: Font,
    measures: Measures<Box<dyn FnMut(u32) -> u32>>,
}

impl Face {
    /// A font whose glyphs have the advances in whole pixels to which FreeType hints them at this size.
    fn open(name: &str, bytes: &[u8], tables: &Tables) -> Result<Face, Box<dyn Error>> {
        let font = Font::from_slice_with_tables(tables, bytes, 0)?;
        let (mut library, mut hinted) = (ptr::null_mut(), ptr::null_mut());
        let file = CString::new(name)?;
        // the types are those of freetype/freetype.h and ftadvanc.h
        let (failed, get_advance) = unsafe {
            let init: InitFreeType = mem::transmute(freetype(c"FT_Init_FreeType")?);
            let new_face: NewFace = mem::transmute(freetype(c"FT_New_Face")?);
            let set_sizes: SetPixelSizes = mem::transmute(freetype(c"FT_Set_Pixel_Sizes")?);
            let failed = init(&mut library) != 0
                || new_face(library, file.as_ptr(), 0, &mut hinted) != 0
                || set_sizes(hinted, 0, SIZE as c_uint) != 0;
            (failed, mem::transmute::<*mut c_void, GetAdvance>(freetype(c"FT_Get_Advance")?))
        };
        if failed {
            return Err(format!("{name}: FreeType doesn't open it").into());
        }
        let (size, upem) = (SIZE as i64, i64::from(font.upem()));
        let advance = move |glyph| {
            let mut pixels = 0; // 16.16
            unsafe { get_advance(hinted, glyph, 0, &mut pixels) };
            ((pixels as i64 * upem + size * 32768) / (size * 65536)) as u32
        };
        Ok(Face { font, measures: Measures::new(Box::new(advance)) })
    }

    fn shape(&mut self, text: &Text) -> Result<Glyphs<'_>, Fault> {
        self.font.shape_measured(text, &mut self.measures)
    }
}

/// A part that was shaped as a whole, with its lines and its carets.
struct Part<'a> {
    text: &'a str,
    direction: Direction,
    script: Option<Tag>,
    scale: f64,
    infos: Vec<GlyphInfo>,
    positions: Vec<GlyphPosition>,
    lines: Vec<Line>,
    carets: Vec<Caret>,
}

/// Where the next glyph is drawn.
struct Pen {
    x: f64,
    line: usize,
    svg: String,
}

/// Shapes a part, and cuts it into lines, of which the first is to fit what is left of a line.
fn cut<'a>(text: &'a str, face: &mut Face, left: f64) -> Result<Part<'a>, Box<dyn Error>> {
    let safe = Text { flags: Flags::PRODUCE_SAFE_BREAKS, ..Text::new(text) };
    let glyphs = face.shape(&safe)?;
    let (infos, positions) = (glyphs.infos.to_vec(), glyphs.positions.to_vec());
    let font = &mut face.font;
    let (direction, script, scale) = (font.direction(), font.script(), SIZE / f64::from(font.upem()));
    let breaks: Vec<usize> = text.match_indices(' ').map(|(at, space)| at + space.len()).collect();
    // each letter of Latin is a grapheme (UAX 29)
    let letters = text.char_indices().skip(1).map(|(at, _)| at);
    let stops: Vec<usize> = if script == Some(Tag::new(b"Latn")) { letters.collect() } else { Vec::new() };
    let (first, width) = ((left / scale) as i64, ((WIDTH - 2.0 * MARGIN) / scale) as i64);
    let lines = font.cut_lines(text.len(), &breaks, first, width)?;
    let carets = font.carets(text.len(), &stops)?;
    Ok(Part { text, direction, script, scale, infos, positions, lines, carets })
}

/// Draws glyphs of a part; the pen is after them then.
fn draw_glyphs(pen: &mut Pen, part: &Part, infos: &[GlyphInfo], positions: &[GlyphPosition], outlines: &Outlines) -> Result<(), Box<dyn Error>> {
    let y = LEADING * (pen.line + 1) as f64 - 8.0;
    for (info, at) in infos.iter().zip(positions) {
        let place = (pen.x + f64::from(at.x_offset) * part.scale, y - f64::from(at.y_offset) * part.scale);
        let path = outlines.path(info.codepoint as usize, &|u, v| (place.0 + u * part.scale, place.1 - v * part.scale));
        let path = path.ok_or("a font's table glyf is not whole")?;
        if !path.is_empty() {
            writeln!(pen.svg, "<path d=\"{path}\"/>")?;
        }
        pen.x += f64::from(at.x_advance) * part.scale;
    }
    Ok(())
}

/// Draws the carets of a line of a part whose left end is at the pen.
fn draw_carets(pen: &mut Pen, part: &Part, line: &Line) -> Result<(), Box<dyn Error>> {
    let y = LEADING * (pen.line + 1) as f64 - 2.0;
    let own = part.carets.iter().filter(|caret| (line.start..=line.end).contains(&caret.index));
    let left = own.clone().map(|caret| caret.position).min().unwrap_or(0);
    for caret in own {
        let x = pen.x + (caret.position - left) as f64 * part.scale;
        writeln!(pen.svg, "<path stroke=\"#c00\" d=\"M{x:.2} {y:.2}v5\"/>")?;
    }
    Ok(())
}

/// Draws a line of a part: its own glyphs, or what shaping it again gives between what is before it and after it.
fn draw_line(pen: &mut Pen, part: &Part, line: &Line, face: &mut Face, outlines: &Outlines) -> Result<(), Box<dyn Error>> {
    if line.is_own {
        let own = line.first_glyph..line.end_glyph;
        draw_carets(pen, part, line)?;
        return draw_glyphs(pen, part, &part.infos[own.clone()], &part.positions[own], outlines);
    }
    let text = Text {
        before: &part.text[..line.start],
        after: &part.text[line.end..],
        direction: part.direction,
        script: part.script,
        ..Text::new(&part.text[line.start..line.end])
    };
    let glyphs = face.shape(&text)?;
    draw_glyphs(pen, part, glyphs.infos, glyphs.positions, outlines)
}

/// Sets a part after those before it, in a new line where not even its first piece fits the one that is open.
fn set_part(pen: &mut Pen, text: &str, face: &mut Face, outlines: &Outlines) -> Result<(), Box<dyn Error>> {
    let left = WIDTH - MARGIN - pen.x;
    let mut part = cut(text, face, left)?;
    let is_wider = part.lines.first().is_some_and(|line| line.width as f64 * part.scale > left);
    if pen.x > MARGIN && is_wider {
        (pen.x, pen.line) = (MARGIN, pen.line + 1);
        // no line begins with a space
        part = cut(text.strip_prefix(' ').unwrap_or(text), face, WIDTH - 2.0 * MARGIN)?;
    }
    for (at, line) in part.lines.iter().enumerate() {
        if at > 0 {
            (pen.x, pen.line) = (MARGIN, pen.line + 1);
        }
        let again = if line.is_own { "" } else { ", shaped again" };
        println!("{}: {} to {}, {} units{again}", pen.line, line.start, line.end, line.width);
        draw_line(pen, &part, line, face, outlines)?;
    }
    Ok(())
}

/// The outlines of a font file (OpenType, tables head, loca and glyf).
struct Outlines {
    file: Vec<u8>,
    glyf: usize,
    loca: usize,
    has_long_offsets: bool,
}

type Place<'a> = &'a dyn Fn(f64, f64) -> (f64, f64);

impl Outlines {
    fn new(file: Vec<u8>) -> Option<Outlines> {
        let mut font = Outlines {
            file,
            glyf: 0,
            loca: 0,
            has_long_offsets: false,
        };
        font.glyf = font.table(b"glyf")?;
        font.loca = font.table(b"loca")?;
        font.has_long_offsets = font.number(font.table(b"head")? + 50)? != 0;
        Some(font)
    }

    fn table(&self, tag: &[u8; 4]) -> Option<usize> {
        (0..self.number(4)?)
            .map(|at| 12 + 16 * at as usize)
            .find(|at| self.file.get(*at..at + 4) == Some(tag))
            .and_then(|at| self.long(at + 8))
    }

    fn byte(&self, at: usize) -> Option<u8> {
        self.file.get(at).copied()
    }

    /// A number of 16 bits with a sign.
    fn number(&self, at: usize) -> Option<i16> {
        Some(i16::from_be_bytes([self.byte(at)?, self.byte(at + 1)?]))
    }

    fn long(&self, at: usize) -> Option<usize> {
        Some(u32::from_be_bytes(self.file.get(at..at + 4)?.try_into().ok()?) as usize)
    }

    /// Where the outline of a glyph begins and ends.
    fn range(&self, glyph: usize) -> Option<(usize, usize)> {
        let offset = |at: usize| match self.has_long_offsets {
            true => self.long(self.loca + 4 * at),
            false => self.number(self.loca + 2 * at).map(|half| 2 * usize::from(half as u16)),
        };
        Some((self.glyf + offset(glyph)?, self.glyf + offset(glyph + 1)?))
    }

    /// The path of a glyph, whose points are placed by a function of font units.
    fn path(&self, glyph: usize, place: Place<'_>) -> Option<String> {
        let (at, end) = self.range(glyph)?;
        if at == end {
            return Some(String::new());
        }
        match self.number(at)? {
            contours @ 0.. => self.simple(at + 10, contours as usize, place),
            _ => self.composite(at + 10, place),
        }
    }

    /// The parts of a composite glyph, moved, and scaled where their flags say so.
    fn composite(&self, mut at: usize, place: Place<'_>) -> Option<String> {
        let mut path = String::new();
        loop {
            let (flags, glyph) = (self.number(at)?, self.number(at + 2)? as u16);
            let (x, y, after) = match flags & 1 {
                0 => (f64::from(self.byte(at + 4)? as i8), f64::from(self.byte(at + 5)? as i8), at + 6),
                _ => (f64::from(self.number(at + 4)?), f64::from(self.number(at + 6)?), at + 8),
            };
            let part = |k: usize| self.number(after + 2 * k).map(|n| f64::from(n) / 16384.0);
            let (a, b, c, d, size) = match flags & 0xC8 {
                0x08 => (part(0)?, 0.0, 0.0, part(0)?, 2),
                0x40 => (part(0)?, 0.0, 0.0, part(1)?, 4),
                0x80 => (part(0)?, part(1)?, part(2)?, part(3)?, 8),
                _ => (1.0, 0.0, 0.0, 1.0, 0),
            };
            path += &self.path(usize::from(glyph), &|u, v| place(a * u + c * v + x, b * u + d * v + y))?;
            if flags & 0x20 == 0 {
                return Some(path);
            }
            at = after + size;
        }
    }

    fn simple(&self, at: usize, contours: usize, place: Place<'_>) -> Option<String> {
        let ends = (0..contours).map(|k| self.number(at + 2 * k).map(|end| end as usize + 1)).collect::<Option<Vec<_>>>()?;
        let count = ends.last().copied().unwrap_or(0);
        let mut next = at + 2 * contours;
        next += 2 + self.number(next)? as usize;
        let mut flags = Vec::with_capacity(count);
        while flags.len() < count {
            let flag = self.byte(next)?;
            next += 1;
            let mut times = 1;
            if flag & 8 != 0 {
                times += usize::from(self.byte(next)?);
                next += 1;
            }
            flags.extend(std::iter::repeat_n(flag, times));
        }
        let xs = self.coordinates(&flags, &mut next, 2, 16)?;
        let ys = self.coordinates(&flags, &mut next, 4, 32)?;
        let mut path = String::new();
        let mut first = 0;
        for end in ends {
            let points: Vec<_> = (first..end).map(|k| (place(xs[k], ys[k]), flags[k] & 1 != 0)).collect();
            write_contour(&mut path, &points);
            first = end;
        }
        Some(path)
    }

    fn coordinates(&self, flags: &[u8], next: &mut usize, short: u8, same: u8) -> Option<Vec<f64>> {
        let mut value = 0.0;
        let mut found = Vec::with_capacity(flags.len());
        for flag in flags {
            if flag & short != 0 {
                let step = f64::from(self.byte(*next)?);
                value += if flag & same != 0 { step } else { -step };
                *next += 1;
            } else if flag & same == 0 {
                value += f64::from(self.number(*next)?);
                *next += 2;
            }
            found.push(value);
        }
        Some(found)
    }
}

type Point = (f64, f64);

fn middle(a: Point, b: Point) -> Point {
    ((a.0 + b.0) / 2.0, (a.1 + b.1) / 2.0)
}

/// A contour of points on and off the curve; between two points off it lies one on it.
fn write_contour(path: &mut String, points: &[(Point, bool)]) {
    let Some((last, is_last_on)) = points.last().copied() else {
        return;
    };
    let (first, is_first_on) = points[0];
    let start = if is_first_on {
        first
    } else if is_last_on {
        last
    } else {
        middle(first, last)
    };
    *path += &format!("M{:.2} {:.2}", start.0, start.1);
    let mut off: Option<Point> = None;
    for (point, is_on) in points.iter().copied().skip(usize::from(is_first_on)).chain([(start, true)]) {
        match (off, is_on) {
            (None, true) => *path += &format!("L{:.2} {:.2}", point.0, point.1),
            (None, false) => off = Some(point),
            (Some(by), true) => {
                *path += &format!("Q{:.2} {:.2} {:.2} {:.2}", by.0, by.1, point.0, point.1);
                off = None;
            }
            (Some(by), false) => {
                let to = middle(by, point);
                *path += &format!("Q{:.2} {:.2} {:.2} {:.2}", by.0, by.1, to.0, to.1);
                off = Some(point);
            }
        }
    }
    path.push('Z');
}

fn main() -> Result<(), Box<dyn Error>> {
    let words: Vec<String> = env::args().skip(1).collect();
    let [svg_file, files @ ..] = words.as_slice() else {
        return Err("paragraph SVG LATIN ARABIC DEVANAGARI".into());
    };
    let tables = Tables::library()?;
    let (mut faces, mut outlines) = (Vec::new(), Vec::new());
    for file in files {
        let bytes = fs::read(file)?;
        faces.push(Face::open(file, &bytes, &tables)?);
        outlines.push(Outlines::new(bytes).ok_or_else(|| format!("{file}: no outlines"))?);
    }
    if faces.len() != 3 {
        return Err("three font files are wanted".into());
    }
    let mut pen = Pen { x: MARGIN, line: 0, svg: String::new() };
    for (number, text) in PARTS {
        set_part(&mut pen, text, &mut faces[number], &outlines[number])?;
    }
    let height = MARGIN + LEADING * (pen.line + 1) as f64;
    let mut svg = format!("<svg xmlns=\"http://www.w3.org/2000/svg\" width=\"{WIDTH}\" height=\"{height}\">\n");
    svg += "<rect width=\"100%\" height=\"100%\" fill=\"white\"/>\n";
    svg += &pen.svg;
    svg += "</svg>\n";
    Ok(fs::write(svg_file, svg)?)
}
