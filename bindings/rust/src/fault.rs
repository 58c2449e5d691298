//! Why a call was refused.

use std::fmt;

/// Why a call was refused. Its text is the name that the programs `hb_shape` and `kuspveli` print.
#[derive(Clone, Copy, PartialEq, Eq, Debug)]
pub enum Fault {
    OutOfMemory,
    NotJson,
    WrongShape,
    FloatNumber,
    UnknownName,
    OutOfOrder,
    OutOfRange,
    SplitDepth,
    Unlawful,
    NotUtf8,
    TooLong,
    StretchRange,
    UnknownSyllableKind,
    /// The last text's glyphs can't be traced to the text that was given.
    NoSlices,
    /// A font (JSON) was passed as tables, or tables as a font.
    OtherFormat,
    /// A table of the font file, or the file, ends too early.
    FontShort,
    /// A version or format of the font file is not known.
    FontKind,
    /// Numbers of the font file fall where they may not.
    FontOrder,
    /// The file has no font with the index.
    FontIndex,
    /// A table that every font has is missing.
    FontMissing,
    /// The font has more rows than a font may have.
    FontTooLarge,
    /// Other handles share the font that was to be changed.
    SharedFont,
    /// The font has no advance of a glyph that was given one, or no glyph has the number.
    NoGlyph,
    /// An advance is above 65535.
    AdvanceRange,
    /// A number that was given a glyph is no character.
    NoCharacter,
    /// The last text has 2^31 glyphs or more.
    TooManyGlyphs,
    /// The clusters of the last text's glyphs aren't in order.
    ClustersOutOfOrder,
    /// An index at which a line may end isn't after 0 and the one before it, or is past the end of the text.
    InvalidBreaks,
    /// The same of an index at which a caret may stand.
    InvalidStops,
    /// A status that the header does not name.
    Other(u32),
}

impl Fault {
    fn of(status: u32) -> Fault {
        match status {
            1 => Fault::OutOfMemory,
            2 => Fault::NotJson,
            3 => Fault::WrongShape,
            4 => Fault::FloatNumber,
            5 => Fault::UnknownName,
            6 => Fault::OutOfOrder,
            7 => Fault::OutOfRange,
            8 => Fault::SplitDepth,
            9 => Fault::Unlawful,
            10 => Fault::NotUtf8,
            12 => Fault::TooLong,
            13 => Fault::StretchRange,
            14 => Fault::UnknownSyllableKind,
            18 => Fault::NoSlices,
            19 => Fault::OtherFormat,
            20 => Fault::FontShort,
            21 => Fault::FontKind,
            22 => Fault::FontOrder,
            23 => Fault::FontIndex,
            24 => Fault::FontMissing,
            25 => Fault::FontTooLarge,
            26 => Fault::SharedFont,
            27 => Fault::NoGlyph,
            28 => Fault::AdvanceRange,
            29 => Fault::NoCharacter,
            30 => Fault::TooManyGlyphs,
            31 => Fault::ClustersOutOfOrder,
            32 => Fault::InvalidBreaks,
            33 => Fault::InvalidStops,
            other => Fault::Other(other),
        }
    }

    pub(crate) fn check(status: u32) -> Result<(), Fault> {
        match status {
            0 => Ok(()),
            other => Err(Fault::of(other)),
        }
    }
}

impl fmt::Display for Fault {
    fn fmt(&self, f: &mut fmt::Formatter<'_>) -> fmt::Result {
        f.write_str(match self {
            Fault::OutOfMemory => "OutOfMemory",
            Fault::NotJson => "J1 NotJson",
            Fault::WrongShape => "J2 WrongShape",
            Fault::FloatNumber => "J3 FloatNumber",
            Fault::UnknownName => "J4 UnknownName",
            Fault::OutOfOrder => "U1 OutOfOrder",
            Fault::OutOfRange => "U2 OutOfRange",
            Fault::SplitDepth => "U3 SplitDepth",
            Fault::Unlawful => "Unlawful",
            Fault::NotUtf8 => "NotUtf8",
            Fault::TooLong => "S2 TooLong",
            Fault::StretchRange => "S3 StretchRange",
            Fault::UnknownSyllableKind => "S4 UnknownSyllableKind",
            Fault::NoSlices => "NoSlices",
            Fault::OtherFormat => "OtherFormat",
            Fault::FontShort => "F1 Short",
            Fault::FontKind => "F2 Kind",
            Fault::FontOrder => "F3 Order",
            Fault::FontIndex => "F4 Index",
            Fault::FontMissing => "F5 Missing",
            Fault::FontTooLarge => "F6 TooLarge",
            Fault::SharedFont => "SharedFont",
            Fault::NoGlyph => "NoGlyph",
            Fault::AdvanceRange => "AdvanceRange",
            Fault::NoCharacter => "NoCharacter",
            Fault::TooManyGlyphs => "TooManyGlyphs",
            Fault::ClustersOutOfOrder => "ClustersOutOfOrder",
            Fault::InvalidBreaks => "InvalidBreaks",
            Fault::InvalidStops => "InvalidStops",
            Fault::Other(status) => return write!(f, "status {status}"),
        })
    }
}

impl std::error::Error for Fault {}
