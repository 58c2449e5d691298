//! What a font says of itself, of a font of four characters whose numbers stand in examples/ligature_font.json.

use kuspveli::{count_fonts, describe_fault, Fault, Font, Tables, Text};

#[test]
fn fonts_answer_from_their_json() -> Result<(), Fault> {
    let font = Font::new(b"{}", include_bytes!("../../../examples/ligature_font.json"))?;
    assert_eq!((font.upem(), font.ascender()), (1000, 800));
    assert_eq!((font.nominal_glyph('b'), font.nominal_glyph('c')), (Some(2), None));
    let silent = Font::new(b"{}", b"{\"ascender\":-8}")?;
    assert_eq!((silent.upem(), silent.ascender()), (0, -8));
    Ok(())
}

/// Of crates/paragraph_example/data/font.ttf hb-shape prints 7=0+520|2=2+600 for "fib".
#[test]
fn fonts_are_read_from_files() -> Result<(), Fault> {
    let file = include_bytes!("../../../crates/paragraph_example/data/font.ttf");
    let tables = Tables::library()?;
    for mut font in [Font::from_slice(file, 0)?, Font::from_slice_with_tables(&tables, file, 0)?] {
        assert_eq!((font.upem(), font.ascender(), font.nominal_glyph('b')), (1000, 800, Some(2)));
        let glyphs = font.shape(&Text::new("fib"))?;
        let pairs = glyphs.infos.iter().zip(glyphs.positions);
        let shaped: Vec<_> = pairs.map(|(info, at)| (info.codepoint, info.cluster, at.x_advance)).collect();
        assert_eq!(shaped, [(7, 0, 520), (2, 2, 600)]);
    }
    assert_eq!(Font::from_slice(file, 1).err(), Some(Fault::FontIndex));
    assert_eq!(Font::from_slice(&file[..11], 0).err(), Some(Fault::FontShort));
    assert_eq!(Font::from_slice(b"{\"upem\":1000}", 0).err(), Some(Fault::FontKind));
    assert_eq!([count_fonts(file), count_fonts(b"ttcf\0\x01\0\0\0\0\0\x03"), count_fonts(b"")], [1, 3, 0]);
    Ok(())
}

/// The list of tables begins at 0 and has at least 12 bytes (OpenType, chapter 4).
#[test]
fn faults_of_files_are_described() {
    let file = include_bytes!("../../../crates/paragraph_example/data/font.ttf");
    let json = b"{\"upem\":1000}";
    let told = |bytes: &[u8], index| describe_fault(bytes, index);
    assert_eq!(told(file, 0), None);
    assert_eq!(told(file, 1).as_deref(), Some("F4 Index"));
    assert_eq!(told(&file[..11], 0).as_deref(), Some("F1 Short at 0"));
    assert_eq!(told(json, 0).as_deref(), Some("F2 Kind at 0"));
}

#[test]
fn other_formats_are_refused() {
    let (font, tables) = (b"{\"format\":\"kuspveli-font\"}", b"{\"format\":\"kuspveli-tables\"}");
    assert_eq!(Tables::new(font).err(), Some(Fault::OtherFormat));
    assert_eq!(Font::new(tables, tables).err(), Some(Fault::OtherFormat));
    assert!(Font::new(tables, font).is_ok());
}
