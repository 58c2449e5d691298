//! words LATIN ARABIC DEVANAGARI: shapes a word in each of three font files, and prints its glyphs.

use kuspveli::{Font, Tables, Text};
use std::{env, error::Error, fs};

fn main() -> Result<(), Box<dyn Error>> {
    let tables = Tables::library()?;
    for (file, word) in env::args().skip(1).zip(["office", "السلام", "हिन्दी"]) {
        let mut font = Font::from_slice_with_tables(&tables, &fs::read(file)?, 0)?;
        let glyphs = font.shape(&Text::new(word))?;
        for (info, position) in glyphs.infos.iter().zip(glyphs.positions) {
            print!("{}={}+{} ", info.codepoint, info.cluster, position.x_advance);
        }
        println!("{word}");
    }
    Ok(())
}
