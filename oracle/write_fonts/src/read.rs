//! Tables as they are read.

pub mod collections;
pub mod tables;

use crate::types::{Scalar, Tag};

/// Why a table can't be read.
#[derive(Clone, Copy, Debug, PartialEq, Eq)]
pub enum ReadError {
    OutOfBounds,
    NullOffset,
    InvalidFormat(i64),
}

/// A font; the carried text hands it on and does nothing with it.
pub struct FontRef<'a>(pub &'a [u8]);

/// A table that stands in a font's directory.
pub trait TopLevelTable {
    const TAG: Tag;
}

/// A table whose bytes can be copied as they stand.
pub trait MinByteRange<'a> {
    fn min_table_bytes(&self) -> &'a [u8];
}

/// Bytes from which a table is read.
#[derive(Clone, Copy)]
pub struct FontData<'a>(&'a [u8]);

impl<'a> FontData<'a> {
    pub fn new(bytes: &'a [u8]) -> Self {
        Self(bytes)
    }

    pub fn as_bytes(&self) -> &'a [u8] {
        self.0
    }

    /// The number at a place; `None` where it isn't wholly inside.
    pub(crate) fn at<T: Scalar>(&self, place: usize) -> Option<T> {
        T::read(self.0.get(place..)?)
    }

    /// The bytes from an offset to the end: where an object that the offset names is read.
    pub(crate) fn at_offset(&self, offset: u32) -> Result<FontData<'a>, ReadError> {
        if offset == 0 {
            return Err(ReadError::NullOffset);
        }
        self.0.get(offset as usize..).map(FontData).ok_or(ReadError::OutOfBounds)
    }

    /// That the first `length` bytes are there.
    pub(crate) fn holds(&self, length: usize) -> Result<(), ReadError> {
        if length <= self.0.len() {
            Ok(())
        } else {
            Err(ReadError::OutOfBounds)
        }
    }
}
