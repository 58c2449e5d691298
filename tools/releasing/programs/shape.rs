//! shape FONT TEXT: the line of a text, as hb-shape --no-glyph-names prints it.

use kuspveli::{Font, GlyphInfo, GlyphPosition, Text};
use std::{env, error::Error, fs};

fn shown((info, at): (&GlyphInfo, &GlyphPosition)) -> String {
    let offsets = match (at.x_offset, at.y_offset) {
        (0, 0) => String::new(),
        (x, y) => format!("@{},{}", x, y),
    };
    format!("{}={}{}+{}", info.codepoint, info.cluster, offsets, at.x_advance)
}

fn main() -> Result<(), Box<dyn Error>> {
    let words: Vec<String> = env::args().collect();
    let mut font = Font::from_slice(&fs::read(&words[1])?, 0)?;
    let glyphs = font.shape(&Text::new(&words[2]))?;
    let line: Vec<String> = glyphs.infos.iter().zip(glyphs.positions).map(shown).collect();
    println!("{}", line.join("|"));
    Ok(())
}
