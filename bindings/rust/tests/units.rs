//! Texts in UTF-16, in UTF-32, and of characters with clusters: which characters units spell (Unicode, 3.9 D76, D90, D91,
//! with U+FFFD for what is none), and that clusters and features' ranges count units.

use kuspveli::{Character, Fault, Feature, Font, Tag, Text, Units};

const FONT: &[u8] = b"{\"upem\":1000,\"cmap\":[[97,1],[98,2],[102,3],[105,4],[65533,8]],\"h\":[[1,500]],
    \"gsub\":{\"scripts\":[[\"DFLT\",{\"features\":[0]},[]]],\"features\":[[\"liga\",[0]]],
    \"lookups\":[{\"type\":\"ligature\",\"subtables\":[[[3,[[[4],7]]]]]}]}}";

fn shaped<T: Units + ?Sized>(text: &Text<'_, T>) -> Result<Vec<(u32, u32)>, Fault> {
    let mut font = Font::new(b"{}", FONT)?;
    let glyphs = font.shape(text)?;
    Ok(glyphs.infos.iter().map(|info| (info.codepoint, info.cluster)).collect())
}

#[test]
fn clusters_are_indices_of_units() -> Result<(), Fault> {
    let text = "b\u{1F600}fi";
    let (utf16, utf32): (Vec<u16>, Vec<u32>) = (text.encode_utf16().collect(), text.chars().map(u32::from).collect());
    assert_eq!(shaped(&Text::new(text))?, [(2, 0), (0, 1), (7, 5)]);
    assert_eq!(shaped(&Text::utf16(&utf16))?, [(2, 0), (0, 1), (7, 3)]);
    assert_eq!(shaped(&Text::utf32(&utf32))?, [(2, 0), (0, 1), (7, 2)]);
    Ok(())
}

#[test]
fn what_is_no_character_is_replaced() -> Result<(), Fault> {
    let apart = [0xD800, 0x61, 0xDC00, 0xD83D, 0xDE00, 0x62, 0xD83D];
    assert_eq!(shaped(&Text::utf16(&apart))?, [(8, 0), (1, 1), (8, 2), (0, 3), (2, 5), (8, 6)]);
    assert_eq!(shaped(&Text::utf32(&[0x61, 0xD800, 0x11_0000, 0x62]))?, [(1, 0), (8, 1), (8, 2), (2, 3)]);
    let own = [(0x61, 7), (0xDFFF, 9), (0x62, 9)].map(|(character, cluster)| Character { character, cluster });
    assert_eq!(shaped(&Text::characters(&own))?, [(1, 7), (8, 9), (2, 9)]);
    Ok(())
}

#[test]
fn features_count_units() -> Result<(), Fault> {
    let utf16: Vec<u16> = "\u{1F600}fi".encode_utf16().collect();
    for (start, want) in [(2, vec![(0, 0), (3, 2), (4, 3)]), (4, vec![(0, 0), (7, 2)])] {
        let end = start + 1;
        let off = [Feature { tag: Tag::new(b"liga"), value: 0, start, end }];
        assert_eq!(shaped(&Text { features: &off, ..Text::utf16(&utf16) })?, want);
    }
    Ok(())
}

#[test]
fn glyphs_have_advances() -> Result<(), Fault> {
    let font = Font::new(b"{}", FONT)?;
    let widths = [1, 2, 0x1_0001].map(|glyph| font.glyph_h_advance(glyph));
    assert_eq!((widths, font.glyph_v_advance(1), font.glyph_v_advance(0x1_0001)), ([500, 0, 0], -1000, 0));
    Ok(())
}
