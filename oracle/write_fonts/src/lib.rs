//! A stand-in for the parts of `write-fonts` and `read-fonts` that the carried text names.
//!
//! Only the names are theirs: the reading is written from the OpenType chapters "Font Variations
//! Common Table Formats", HVAR and VVAR. An object that does not lie wholly inside its table can't be read.

pub mod read;
pub mod types;

/// Where a subsetter gathers its tables; the carried text hands it on and does nothing with it.
#[derive(Default)]
pub struct FontBuilder;
