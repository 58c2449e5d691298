//! What is checked before a call: words of features, tags and flags. Expected values are those of hb_feature_from_string.

use kuspveli::{Feature, Flags, NoFeature, NoTag, Tag};

fn feature(tag: &[u8; 4], value: u32, start: u32, end: u32) -> Feature {
    Feature {
        tag: Tag::new(tag),
        value,
        start,
        end,
    }
}

#[test]
fn features_are_read_as_harfbuzz_reads_them() {
    let all = u32::MAX;
    for (text, want) in [
        ("kern", feature(b"kern", 1, 0, all)),
        ("+kern", feature(b"kern", 1, 0, all)),
        ("-kern", feature(b"kern", 0, 0, all)),
        ("kern=0", feature(b"kern", 0, 0, all)),
        ("aalt=2", feature(b"aalt", 2, 0, all)),
        ("kern[]", feature(b"kern", 1, 0, all)),
        ("kern[:]", feature(b"kern", 1, 0, all)),
        ("kern[5:]", feature(b"kern", 1, 5, all)),
        ("kern[:5]", feature(b"kern", 1, 0, 5)),
        ("kern[3:5]", feature(b"kern", 1, 3, 5)),
        ("kern[3]", feature(b"kern", 1, 3, 4)),
        ("aalt[3:5]=2", feature(b"aalt", 2, 3, 5)),
        ("abc", feature(b"abc ", 1, 0, all)),
    ] {
        assert_eq!(text.parse(), Ok(want), "{text}");
    }
}

#[test]
fn other_words_are_refused() {
    for text in ["", "-", "ligature", "liga=x", "liga=", "liga=4294967296", "liga[0:3", "-liga=1", "l\u{131}ga", "liga[a]"] {
        assert_eq!(text.parse::<Feature>(), Err(NoFeature), "{text}");
    }
    for text in ["", "abcdefghi", "a\u{e9}"] {
        assert_eq!(text.parse::<Tag>(), Err(NoTag), "{text}");
    }
}

#[test]
fn flags_are_those_of_the_header() {
    assert_eq!(Flags::from_number(0x1DF).is_some(), true);
    assert_eq!(Flags::from_number(32), None);
    assert_eq!(Flags::from_number(1 << 31), None);
    assert_eq!(Some(Flags::BOT | Flags::EOT), Flags::from_number(3));
}

#[test]
fn tags_are_printed_as_they_are_read() {
    for text in ["liga", "abc", "Deva", "a"] {
        assert_eq!(text.parse::<Tag>().map(|tag| tag.to_string()), Ok(text.to_owned()));
    }
}
