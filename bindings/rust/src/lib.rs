//! A safe wrapper of libkuspveli, a text shaper that is proved right. What the header asks of a caller is kept by the
//! types here: slices are never null and live during the call, a call has its handle alone (by `&mut self`, or by a lock),
//! and what it writes is borrowed by no one else.
//!
//! ```no_run
//! use kuspveli::{Font, Text};
//!
//! let mut font = Font::from_slice(&std::fs::read("DejaVuSans.ttf")?, 0)?;
//! let glyphs = font.shape(&Text::new("office"))?;
//! # Ok::<(), Box<dyn std::error::Error>>(())
//! ```

mod fault;
mod font;
mod raw;
mod settings;
mod tables;

pub use fault::Fault;
pub use font::{BreakPremises, Font, Glyphs, Measures, OwnedGlyphs, Table, count_fonts, describe_fault};
pub use raw::{Caret, GlyphExtents, GlyphInfo, GlyphPosition, Line, LineMetrics, Slice};
pub use settings::{Character, ClusterLevel, Direction, Feature, Flags, NoFeature, NoTag, Tag, Text, Units};
pub use tables::Tables;

/// The version of the library that is linked: its three numbers.
pub fn version() -> (u8, u8, u8) {
    let [_, major, minor, micro] = unsafe { raw::kus_version() }.to_be_bytes();
    (major, minor, micro)
}
