//! A text, and how it is to be shaped.

use crate::raw::RawText;
use std::fmt;
use std::mem::size_of_val;
use std::ops::BitOr;
use std::str::FromStr;

/// A tag of a feature or a script: one to four printed ASCII characters.
#[repr(transparent)]
#[derive(Clone, Copy, PartialEq, Eq, PartialOrd, Ord, Hash)]
pub struct Tag(u32);

/// What was given is no tag of one to four printed ASCII characters.
#[derive(Clone, Copy, PartialEq, Eq, Debug)]
pub struct NoTag;

impl Tag {
    /// The tag of four printed ASCII characters; others are refused where the constant is compiled.
    pub const fn new(letters: &[u8; 4]) -> Tag {
        let mut at = 0;
        while at < 4 {
            assert!(0x20 <= letters[at] && letters[at] <= 0x7E, "a tag is of printed ASCII characters");
            at += 1;
        }
        Tag(u32::from_be_bytes(*letters))
    }

    /// A tag by its number, `hb_tag_t`.
    pub const fn from_number(number: u32) -> Tag {
        Tag(number)
    }

    /// The number of the tag, `hb_tag_t`.
    pub const fn number(self) -> u32 {
        self.0
    }
}

impl FromStr for Tag {
    type Err = NoTag;

    fn from_str(text: &str) -> Result<Tag, NoTag> {
        let bytes = text.as_bytes();
        if bytes.is_empty() || bytes.len() > 4 || !bytes.iter().all(|byte| (0x20..=0x7E).contains(byte)) {
            return Err(NoTag);
        }
        let mut letters = [b' '; 4];
        letters[..bytes.len()].copy_from_slice(bytes);
        Ok(Tag(u32::from_be_bytes(letters)))
    }
}

impl fmt::Display for Tag {
    fn fmt(&self, f: &mut fmt::Formatter<'_>) -> fmt::Result {
        let text: String = self.0.to_be_bytes().iter().map(|byte| char::from(*byte)).collect();
        f.write_str(text.trim_end_matches(' '))
    }
}

impl fmt::Debug for Tag {
    fn fmt(&self, f: &mut fmt::Formatter<'_>) -> fmt::Result {
        write!(f, "Tag({:?})", self.to_string())
    }
}

impl fmt::Display for NoTag {
    fn fmt(&self, f: &mut fmt::Formatter<'_>) -> fmt::Result {
        f.write_str("no tag of one to four printed ASCII characters")
    }
}

impl std::error::Error for NoTag {}

/// A request for a feature, for the clusters from `start` on, without `end`.
#[repr(C)]
#[derive(Clone, Copy, PartialEq, Eq, Debug)]
pub struct Feature {
    pub tag: Tag,
    pub value: u32,
    pub start: u32,
    pub end: u32,
}

/// What was given is not of the form of a feature, `liga`, `-liga`, `liga=0`, `liga[0:3]=0`, or a number in it is past 32
/// bits, of which HarfBuzz takes the low ones.
#[derive(Clone, Copy, PartialEq, Eq, Debug)]
pub struct NoFeature;

impl Feature {
    /// A feature with a value, for the whole text.
    pub const fn new(tag: Tag, value: u32) -> Feature {
        Feature {
            tag,
            value,
            start: 0,
            end: u32::MAX,
        }
    }
}

impl FromStr for Feature {
    type Err = NoFeature;

    fn from_str(text: &str) -> Result<Feature, NoFeature> {
        let (is_off, rest) = match text.strip_prefix('-') {
            Some(rest) => (true, rest),
            None => (false, text.strip_prefix('+').unwrap_or(text)),
        };
        let (front, value) = match rest.split_once('=') {
            Some((front, value)) if !is_off => (front, number(value)?),
            Some(_) => return Err(NoFeature),
            None => (rest, u32::from(!is_off)),
        };
        let (tag, (start, end)) = match front.split_once('[') {
            Some((tag, range)) => (tag, range_of(range.strip_suffix(']').ok_or(NoFeature)?)?),
            None => (front, (0, u32::MAX)),
        };
        Ok(Feature {
            tag: tag.parse().map_err(|NoTag| NoFeature)?,
            value,
            start,
            end,
        })
    }
}

/// A number of decimal digits alone.
fn number(text: &str) -> Result<u32, NoFeature> {
    if !text.bytes().all(|byte| byte.is_ascii_digit()) {
        return Err(NoFeature);
    }
    text.parse().map_err(|_| NoFeature)
}

/// The clusters of `3:5`, `3:`, `:5`, `3` (one alone) and of nothing (all).
fn range_of(text: &str) -> Result<(u32, u32), NoFeature> {
    if text.is_empty() {
        return Ok((0, u32::MAX));
    }
    match text.split_once(':') {
        None => {
            let start = number(text)?;
            Ok((start, start.checked_add(1).ok_or(NoFeature)?))
        }
        Some((start, end)) => {
            let start = if start.is_empty() { 0 } else { number(start)? };
            let end = if end.is_empty() { u32::MAX } else { number(end)? };
            Ok((start, end))
        }
    }
}

impl fmt::Display for NoFeature {
    fn fmt(&self, f: &mut fmt::Formatter<'_>) -> fmt::Result {
        f.write_str("not of the form liga, -liga, liga=0 or liga[0:3]=0, with numbers up to 4294967295")
    }
}

impl std::error::Error for NoFeature {}

/// The direction of a line.
#[derive(Clone, Copy, PartialEq, Eq, Debug, Default)]
pub enum Direction {
    #[default]
    Guess = 0,
    LeftToRight = 4,
    RightToLeft = 5,
    TopToBottom = 6,
    BottomToTop = 7,
}

/// Which characters share a cluster, and whether clusters may merge.
#[derive(Clone, Copy, PartialEq, Eq, Debug, Default)]
pub enum ClusterLevel {
    #[default]
    MonotoneGraphemes = 0,
    MonotoneCharacters = 1,
    Characters = 2,
    Graphemes = 3,
}

/// The requests for a text, joined by `|`.
#[derive(Clone, Copy, PartialEq, Eq, Default)]
pub struct Flags(u32);

impl Flags {
    pub const DEFAULT: Flags = Flags(0);
    pub const BOT: Flags = Flags(1);
    pub const EOT: Flags = Flags(2);
    pub const PRESERVE_DEFAULT_IGNORABLES: Flags = Flags(4);
    pub const REMOVE_DEFAULT_IGNORABLES: Flags = Flags(8);
    pub const DO_NOT_INSERT_DOTTED_CIRCLE: Flags = Flags(16);
    pub const PRODUCE_UNSAFE_TO_CONCAT: Flags = Flags(64);
    pub const PRODUCE_SAFE_TO_INSERT_TATWEEL: Flags = Flags(128);
    pub const PRODUCE_SAFE_BREAKS: Flags = Flags(256);

    /// The flags of a number, `hb_buffer_flags_t`; none where it has a bit that no flag has.
    pub const fn from_number(number: u32) -> Option<Flags> {
        if number & !0x1DF == 0 { Some(Flags(number)) } else { None }
    }
}

impl fmt::Debug for Flags {
    fn fmt(&self, f: &mut fmt::Formatter<'_>) -> fmt::Result {
        let names = [
            (Flags::BOT, "BOT"),
            (Flags::EOT, "EOT"),
            (Flags::PRESERVE_DEFAULT_IGNORABLES, "PRESERVE_DEFAULT_IGNORABLES"),
            (Flags::REMOVE_DEFAULT_IGNORABLES, "REMOVE_DEFAULT_IGNORABLES"),
            (Flags::DO_NOT_INSERT_DOTTED_CIRCLE, "DO_NOT_INSERT_DOTTED_CIRCLE"),
            (Flags::PRODUCE_UNSAFE_TO_CONCAT, "PRODUCE_UNSAFE_TO_CONCAT"),
            (Flags::PRODUCE_SAFE_TO_INSERT_TATWEEL, "PRODUCE_SAFE_TO_INSERT_TATWEEL"),
            (Flags::PRODUCE_SAFE_BREAKS, "PRODUCE_SAFE_BREAKS"),
        ];
        let set: Vec<&str> = names.iter().filter(|(flag, _)| self.0 & flag.0 != 0).map(|(_, name)| *name).collect();
        write!(f, "Flags({})", if set.is_empty() { "DEFAULT".to_owned() } else { set.join(" | ") })
    }
}

impl BitOr for Flags {
    type Output = Flags;

    fn bitor(self, other: Flags) -> Flags {
        Flags(self.0 | other.0)
    }
}

/// A character, and the number of its cluster.
#[repr(C)]
#[derive(Clone, Copy, PartialEq, Eq, Debug, Default)]
pub struct Character {
    pub character: u32,
    pub cluster: u32,
}

/// What a text is made of: `str`, `[u16]` (UTF-16), `[u32]` (UTF-32) or `[Character]`. What is no character in the last
/// three is U+FFFD.
pub trait Units: sealed::Units + fmt::Debug {
    /// What the texts before and after it are made of.
    type Around: Units + ?Sized;
}

mod sealed {
    pub trait Units: 'static {
        /// The flag by which the library knows them.
        const FLAG: u32;

        const EMPTY: &'static Self;

        /// Where they are, and how many bytes they have.
        fn bytes(&self) -> (*const u8, usize);
    }
}

macro_rules! units {
    ($units:ty, $around:ty, $flag:expr, $empty:expr) => {
        impl sealed::Units for $units {
            const FLAG: u32 = $flag;

            const EMPTY: &'static $units = $empty;

            fn bytes(&self) -> (*const u8, usize) {
                (self.as_ptr().cast(), size_of_val(self))
            }
        }

        impl Units for $units {
            type Around = $around;
        }
    };
}

units!(str, str, 0, "");
units!([u16], [u16], 0x1_0000, &[]);
units!([u32], [u32], 0x2_0000, &[]);
units!([Character], [u32], 0x4_0000, &[]);

/// A text, and how it is to be shaped. A script that is not given is guessed. A cluster is the index of a unit: of a byte
/// of a `str`; a `Character` has its own.
#[derive(Debug)]
pub struct Text<'a, T: Units + ?Sized = str> {
    pub text: &'a T,
    /// The text before it and the text after it, of which five characters count.
    pub before: &'a T::Around,
    pub after: &'a T::Around,
    /// BCP 47; none where it is empty.
    pub language: &'a str,
    /// Their ranges are of clusters.
    pub features: &'a [Feature],
    pub direction: Direction,
    pub script: Option<Tag>,
    pub flags: Flags,
    pub cluster_level: ClusterLevel,
}

impl<T: Units + ?Sized> Clone for Text<'_, T> {
    fn clone(&self) -> Self {
        *self
    }
}

impl<T: Units + ?Sized> Copy for Text<'_, T> {}

impl<'a> Text<'a> {
    /// A text in UTF-8 all of whose settings are guessed.
    pub fn new(text: &'a str) -> Text<'a> {
        Text::of(text)
    }
}

impl<'a> Text<'a, [u16]> {
    /// A text in UTF-16 all of whose settings are guessed.
    pub fn utf16(text: &'a [u16]) -> Text<'a, [u16]> {
        Text::of(text)
    }
}

impl<'a> Text<'a, [u32]> {
    /// A text in UTF-32 all of whose settings are guessed.
    pub fn utf32(text: &'a [u32]) -> Text<'a, [u32]> {
        Text::of(text)
    }
}

impl<'a> Text<'a, [Character]> {
    /// Characters with clusters of the caller's own, which should rise, or fall; all settings are guessed.
    pub fn characters(text: &'a [Character]) -> Text<'a, [Character]> {
        Text::of(text)
    }
}

impl Default for Text<'_> {
    fn default() -> Self {
        Text::new("")
    }
}

impl<'a, T: Units + ?Sized> Text<'a, T> {
    fn of(text: &'a T) -> Text<'a, T> {
        Text {
            text,
            before: <T::Around as sealed::Units>::EMPTY,
            after: <T::Around as sealed::Units>::EMPTY,
            language: "",
            features: &[],
            direction: Direction::default(),
            script: None,
            flags: Flags::default(),
            cluster_level: ClusterLevel::default(),
        }
    }

    pub(crate) fn raw(&self) -> RawText {
        let (text, text_length) = sealed::Units::bytes(self.text);
        let (before, before_length) = sealed::Units::bytes(self.before);
        let (after, after_length) = sealed::Units::bytes(self.after);
        RawText {
            text,
            text_length,
            before,
            before_length,
            after,
            after_length,
            language: self.language.as_ptr(),
            language_length: self.language.len(),
            features: self.features.as_ptr(),
            num_features: self.features.len(),
            direction: self.direction as u32,
            script: self.script.map_or(0, Tag::number),
            flags: self.flags.0 | T::FLAG,
            cluster_level: self.cluster_level as u32,
        }
    }
}
