//! Lines and carets of a text: an a, a ligature of f and i, and a b, of 500, 520 and 600 units.

use kuspveli::{Caret, Direction, Fault, Font, Line, Text};

const FONT: &[u8] = b"{\"upem\":1000,\"cmap\":[[97,1],[98,2],[102,3],[105,4]],
    \"h\":[[1,500],[2,600],[3,300],[4,250],[7,520]],
    \"gsub\":{\"scripts\":[[\"DFLT\",{\"features\":[0]},[]]],\"features\":[[\"liga\",[0]]],
    \"lookups\":[{\"type\":\"ligature\",\"subtables\":[[[3,[[[4],7]]]]]}]}}";

const fn own(start: usize, end: usize, width: i64, first_glyph: usize, end_glyph: usize) -> Line {
    Line { start, end, width, first_glyph, end_glyph, is_own: true }
}

const fn again(start: usize, end: usize, width: i64) -> Line {
    Line { start, end, width, first_glyph: 0, end_glyph: 0, is_own: false }
}

fn carets(found: &[(usize, i64)]) -> Vec<Caret> {
    found.iter().map(|&(index, position)| Caret { index, position }).collect()
}

#[test]
fn texts_have_lines() -> Result<(), Fault> {
    let mut font = Font::new(b"{}", FONT)?;
    font.shape(&Text::new("afib"))?;
    assert_eq!(font.cut_lines(4, &[2, 3], 1020, 599)?, [own(0, 3, 1020, 0, 2), own(3, 4, 600, 2, 3)]);
    assert_eq!(font.cut_lines(4, &[2, 3], 1019, 600)?, [again(0, 2, 1020), again(2, 4, 600)]);
    assert_eq!(font.cut_lines(4, &[2, 5], 1, 1), Err(Fault::InvalidBreaks));
    assert_eq!(font.cut_lines(4, &[3, 3], 1, 1), Err(Fault::InvalidBreaks));
    // three units of UTF-16 before the last one
    let utf16: Vec<u16> = "fi\u{1F600}b".encode_utf16().collect();
    font.shape(&Text::utf16(&utf16))?;
    assert_eq!(font.cut_lines(5, &[2, 4], 520, 1100)?, [own(0, 4, 520, 0, 2), own(4, 5, 600, 2, 3)]);
    font.shape(&Text::new(""))?;
    assert_eq!(font.cut_lines(0, &[], 1, 1)?, []);
    Ok(())
}

#[test]
fn lines_are_checked() -> Result<(), Fault> {
    let mut font = Font::new(b"{}", FONT)?;
    let premises = font.break_premises();
    let plain = Text::new("afib");
    font.shape(&plain)?;
    let mut lines = font.cut_lines(4, &[2, 3], 1020, 599)?;
    font.check_lines(premises, &plain, &mut lines)?;
    assert_eq!(lines, [own(0, 3, 1020, 0, 2), own(3, 4, 600, 2, 3)]);
    // one line has a mark, the other one none
    let marked = Text::new("a\u{301}b");
    font.shape(&marked)?;
    let mut lines = font.cut_lines(4, &[3], 1, 1)?;
    assert_eq!(lines, [own(0, 3, 500, 0, 2), own(3, 4, 600, 2, 3)]);
    font.check_lines(premises, &marked, &mut lines)?;
    assert_eq!(lines, [again(0, 3, 500), again(3, 4, 600)]);
    // no line is lawful where a variation sequence of U+034F has a glyph
    let mut other = Font::new(b"{}", br#"{"cmap":[[97,1],[98,2]],"h":[[1,500],[2,600]],"variants":[[847,65024,1]]}"#)?;
    let text = Text::new("ab");
    other.shape(&text)?;
    let mut lines = other.cut_lines(2, &[1], 1, 1)?;
    other.check_lines(premises, &text, &mut lines)?;
    assert_eq!(lines, [own(0, 1, 500, 0, 1), own(1, 2, 600, 1, 2)]);
    assert_ne!(other.break_premises(), premises);
    other.check_lines(other.break_premises(), &text, &mut lines)?;
    assert_eq!(lines, [again(0, 1, 500), again(1, 2, 600)]);
    Ok(())
}

#[test]
fn texts_have_carets() -> Result<(), Fault> {
    let mut font = Font::new(b"{}", FONT)?;
    font.shape(&Text::new("afib"))?;
    assert_eq!(font.carets(4, &[])?, carets(&[(0, 0), (1, 500), (3, 1020), (4, 1620)]));
    assert_eq!(font.carets(4, &[1, 2, 3])?, carets(&[(0, 0), (1, 500), (2, 760), (3, 1020), (4, 1620)]));
    assert_eq!(font.carets(4, &[0]), Err(Fault::InvalidStops));
    assert_eq!(font.carets(3, &[]), Err(Fault::NoSlices));
    // the letters are turned before they could join
    font.shape(&Text { direction: Direction::RightToLeft, ..Text::new("afib") })?;
    assert_eq!(font.carets(4, &[])?, carets(&[(0, 1650), (1, 1150), (2, 850), (3, 600), (4, 0)]));
    font.shape(&Text::new(""))?;
    assert_eq!(font.carets(0, &[])?, carets(&[(0, 0)]));
    Ok(())
}
