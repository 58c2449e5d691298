//! A font and tables that threads share, and glyphs that outlive them. Of crates/paragraph_example/data/font.ttf hb-shape
//! prints 7=0+520|2=2+600 for "fib" and 2=0+600 for "b".

use kuspveli::{Fault, Font, Glyphs, OwnedGlyphs, Tables, Text};
use std::thread;

const FILE: &[u8] = include_bytes!("../../../crates/paragraph_example/data/font.ttf");

fn rows(glyphs: Glyphs<'_>) -> Vec<(u32, u32, i32)> {
    let pairs = glyphs.infos.iter().zip(glyphs.positions);
    pairs.map(|(info, at)| (info.codepoint, info.cluster, at.x_advance)).collect()
}

/// Refused by the compiler where a type may not be moved to another thread, or shared.
fn is_for_threads<T: Send + Sync>() {}

#[test]
fn fonts_tables_and_glyphs_are_for_threads() {
    is_for_threads::<Font>();
    is_for_threads::<Tables>();
    is_for_threads::<OwnedGlyphs>();
}

/// Each thread asks the shared font, takes its own of it and of the shared tables, and shapes in them.
#[test]
fn threads_share_a_font() -> Result<(), Fault> {
    let tables = Tables::library()?;
    let font = Font::from_slice_with_tables(&tables, FILE, 0)?;
    let work = || -> Result<(), Fault> {
        for round in 0..200 {
            assert_eq!((font.upem(), font.nominal_glyph('b'), font.glyph_h_advance(7)), (1000, Some(2), 520));
            let mut own = font.another()?;
            assert_eq!(rows(own.shape(&Text::new("fib"))?), [(7, 0, 520), (2, 2, 600)]);
            if round % 50 == 0 {
                let mut read = Font::from_slice_with_tables(&tables, FILE, 0)?;
                assert_eq!(rows(read.shape(&Text::new("b"))?), [(2, 0, 600)]);
            }
        }
        Ok(())
    };
    thread::scope(|scope| {
        let threads: Vec<_> = (0..4).map(|_| scope.spawn(work)).collect();
        threads.into_iter().try_for_each(|each| each.join().expect("a thread panicked"))
    })
}

/// The font is asked beside glyphs that are borrowed from it, and its next text leaves those that are owned.
#[test]
fn glyphs_are_kept() -> Result<(), Fault> {
    let mut font = Font::from_slice(FILE, 0)?;
    font.shape(&Text::new("fib"))?;
    let glyphs = font.glyphs();
    assert_eq!((glyphs.infos.len(), font.upem(), font.slices("fib")?.len()), (2, 1000, 2));
    let kept = glyphs.into_owned();
    assert_eq!(rows(font.shape(&Text::new("b"))?), [(2, 0, 600)]);
    drop(font);
    assert_eq!(rows(kept.as_glyphs()), [(7, 0, 520), (2, 2, 600)]);
    assert_eq!(kept.clone(), kept);
    Ok(())
}

#[test]
fn handles_say_what_they_are() -> Result<(), Fault> {
    let mut font = Font::from_slice(FILE, 0)?;
    font.shape(&Text::new("fib"))?;
    assert_eq!(format!("{font:?}"), "Font { upem: 1000, glyphs: 2, .. }");
    assert_eq!(format!("{:?}", Tables::library()?), "Tables { .. }");
    Ok(())
}
