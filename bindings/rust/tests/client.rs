//! What a client sets in a font, of a font of four characters whose numbers stand in examples/ligature_font.json.

use kuspveli::{Fault, Font, LineMetrics, Measures, Text};

const FONT: &[u8] = include_bytes!("../../../examples/ligature_font.json");

fn advances(font: &mut Font, text: &str) -> Result<Vec<i32>, Fault> {
    Ok(font.shape(&Text::new(text))?.positions.iter().map(|at| at.x_advance).collect())
}

#[test]
fn advances_are_the_clients() -> Result<(), Fault> {
    let mut font = Font::new(b"{}", FONT)?;
    let own = advances(&mut font, "b")?;
    assert_eq!(font.set_advances(&[(2, 700), (999, 1)]), Err(Fault::NoGlyph));
    assert_eq!(font.set_advances(&[(2, 700), (2, 65536)]), Err(Fault::AdvanceRange));
    assert_eq!(advances(&mut font, "b")?, own);
    font.set_advances(&[(2, 700), (2, 900)])?;
    assert_eq!(advances(&mut font, "b")?, [900]);
    let other = font.another()?;
    assert_eq!(font.set_advances(&[(2, 1)]), Err(Fault::SharedFont));
    drop(other);
    font.set_advances(&[(2, 1)])?;
    assert_eq!(advances(&mut font, "b")?, [1]);
    Ok(())
}

/// A function is asked once for each glyph, also where it was refused before, and text by text.
#[test]
fn advances_are_asked_for() -> Result<(), Fault> {
    let mut font = Font::new(b"{}", FONT)?;
    let mut asked = Vec::new();
    let mut measures = Measures::new(|glyph| {
        asked.push(glyph);
        100 * glyph
    });
    let refused = Font::new(b"{}", FONT)?.shape_measured(&Text::new("a"), &mut Measures::new(|_| 65536)).map(|_| ());
    assert_eq!(refused, Err(Fault::AdvanceRange));
    for (text, wanted) in [("ab", vec![100, 200]), ("bb", vec![200, 200]), ("fib", vec![700, 200])] {
        let glyphs = font.shape_measured(&Text::new(text), &mut measures)?;
        assert_eq!(glyphs.positions.iter().map(|at| at.x_advance).collect::<Vec<_>>(), wanted);
    }
    asked.sort();
    assert_eq!(asked, [1, 2, 7]);
    Ok(())
}

/// The glyphs of a text.
fn glyphs(font: &mut Font, text: &str) -> Result<Vec<u32>, Fault> {
    Ok(font.shape(&Text::new(text))?.infos.iter().map(|info| info.codepoint).collect())
}

/// a is glyph 1, b 2, f 3, i 4, and f with i the ligature 7.
#[test]
fn characters_are_the_clients() -> Result<(), Fault> {
    let mut font = Font::new(b"{}", FONT)?;
    for refused in [65536, u32::MAX] {
        assert_eq!(font.set_glyphs(&[('a', None, Some(2)), ('b', None, Some(refused))]), Err(Fault::NoGlyph));
    }
    assert_eq!(glyphs(&mut font, "ab")?, [1, 2]);
    font.set_glyphs(&[('x', None, Some(3)), ('a', None, None), ('i', None, Some(2)), ('i', None, Some(4))])?;
    assert_eq!(glyphs(&mut font, "xiba")?, [7, 2, 0]);
    font.set_glyphs(&[('b', Some('\u{fe00}'), Some(6))])?;
    assert_eq!(glyphs(&mut font, "b\u{fe00}b")?, [6, 2]);
    let other = font.another()?;
    assert_eq!(font.set_glyphs(&[('a', None, Some(1))]), Err(Fault::SharedFont));
    drop(other);
    font.set_glyphs(&[])?;
    font.set_glyphs(&[('a', None, Some(1)), ('b', Some('\u{fe00}'), None)])?;
    assert_eq!(glyphs(&mut font, "a")?, [1]);
    Ok(())
}

/// U+200B is a default ignorable, and the font has no c.
#[test]
fn replacements_are_the_clients() -> Result<(), Fault> {
    let mut font = Font::new(b"{}", FONT)?;
    assert_eq!(font.set_invisible_glyph(Some(65536)), Err(Fault::NoGlyph));
    assert_eq!(font.set_not_found_glyph(65536), Err(Fault::NoGlyph));
    font.set_invisible_glyph(Some(5))?;
    font.set_not_found_glyph(6)?;
    assert_eq!(glyphs(&mut font, "a\u{200b}c")?, [1, 5, 6]);
    assert_eq!(glyphs(&mut font.another()?, "c")?, [6]);
    font.set_invisible_glyph(None)?;
    font.set_not_found_glyph(0)?;
    assert_eq!(glyphs(&mut font, "ac")?, [1, 0]);
    Ok(())
}

/// b is 600 units wide, and an em has 1000: (600 * (scale * 65536 / 1000) + 32768) >> 16 (hb_font_t::em_mult).
#[test]
fn positions_are_scaled() -> Result<(), Fault> {
    let mut font = Font::new(b"{}", FONT)?;
    for (scale, wanted) in [(2001, 1201), (-499, -299), (0, 600)] {
        font.set_scale(scale, scale)?;
        assert_eq!(advances(&mut font, "b")?, [wanted]);
        assert_eq!(advances(&mut font.another()?, "b")?, [wanted]);
    }
    Ok(())
}

/// hhea of crates/paragraph_example/data/font.ttf has 800, -200 and 0.
#[test]
fn lines_have_metrics() -> Result<(), Fault> {
    let file = include_bytes!("../../../crates/paragraph_example/data/font.ttf");
    let wanted = LineMetrics { ascender: 800, descender: -200, line_gap: 0 };
    assert_eq!(Font::from_slice(file, 0)?.line_metrics(), Some(wanted));
    assert_eq!(Font::new(b"{}", FONT)?.line_metrics(), None);
    Ok(())
}

/// The glyphs stay; a later text has its own.
#[test]
fn room_is_given_back() -> Result<(), Fault> {
    let mut font = Font::new(b"{}", FONT)?;
    font.shrink_to_fit();
    assert_eq!(glyphs(&mut font, &"ab".repeat(5000))?.len(), 10000);
    for text in ["fi", &"ba".repeat(100), ""] {
        let last = font.shape(&Text::new(text))?.into_owned();
        font.shrink_to_fit();
        assert_eq!(font.glyphs(), last.as_glyphs());
        assert_eq!(font.shape(&Text::new(text))?, last.as_glyphs());
    }
    Ok(())
}
