//! Chapter "Font Variations Common Table Formats": the store, its region list and subtables, and the map.
//!
//! Reading here asks that an object lies wholly inside its table, and of a map's format that it is 0 or 1.
//! It doesn't look at a store's format, at the number of words, at a map's count or at how many bits an inner has.

use crate::read::{FontData, ReadError};
use crate::types::{u16s, BigEndian, Offset32, Scalar};
use std::ops::Range;

/// An item variation store.
pub struct ItemVariationStore<'a> {
    data: FontData<'a>,
    count: u16,
}

impl<'a> ItemVariationStore<'a> {
    pub fn read(data: FontData<'a>) -> Result<Self, ReadError> {
        let count = data.at::<u16>(6).ok_or(ReadError::OutOfBounds)?;
        data.holds(8 + 4 * count as usize)?;
        Ok(Self { data, count })
    }

    pub fn format(&self) -> u16 {
        self.data.at(0).unwrap_or_default()
    }

    pub fn variation_region_list_offset(&self) -> Offset32 {
        Offset32::new(self.data.at(2).unwrap_or_default())
    }

    pub fn variation_region_list(&self) -> Result<VariationRegionList<'a>, ReadError> {
        VariationRegionList::read(self.data.at_offset(self.variation_region_list_offset().to_u32())?)
    }

    pub fn item_variation_data_count(&self) -> u16 {
        self.count
    }

    pub fn item_variation_data(&self) -> ItemVariationDataArray<'a> {
        ItemVariationDataArray { store: self.data, count: self.count }
    }
}

/// A store's array of offsets of subtables.
pub struct ItemVariationDataArray<'a> {
    store: FontData<'a>,
    count: u16,
}

impl<'a> ItemVariationDataArray<'a> {
    /// The subtable at an index; `None` where its offset is 0.
    pub fn get(&self, index: usize) -> Option<Result<ItemVariationData<'a>, ReadError>> {
        if index >= self.count as usize {
            return Some(Err(ReadError::OutOfBounds));
        }
        match self.store.at(8 + 4 * index)? {
            0 => None,
            offset => Some(self.store.at_offset(offset).and_then(ItemVariationData::read)),
        }
    }
}

/// A list of regions, each three F2DOT14 numbers an axis.
pub struct VariationRegionList<'a> {
    data: FontData<'a>,
    axes: u16,
    regions: u16,
}

impl<'a> VariationRegionList<'a> {
    fn read(data: FontData<'a>) -> Result<Self, ReadError> {
        let axes = data.at::<u16>(0).ok_or(ReadError::OutOfBounds)?;
        let regions = data.at::<u16>(2).ok_or(ReadError::OutOfBounds)?;
        let list = Self { data, axes, regions };
        data.holds(list.variation_regions_byte_range().end)?;
        Ok(list)
    }

    pub fn axis_count(&self) -> u16 {
        self.axes
    }

    pub fn region_count(&self) -> u16 {
        self.regions
    }

    pub fn offset_data(&self) -> FontData<'a> {
        self.data
    }

    pub fn variation_regions_byte_range(&self) -> Range<usize> {
        4..4 + 6 * self.axes as usize * self.regions as usize
    }
}

/// A subtable of deltas.
pub struct ItemVariationData<'a> {
    items: u16,
    words: u16,
    regions: &'a [BigEndian<u16>],
    rows: &'a [u8],
}

impl<'a> ItemVariationData<'a> {
    fn read(data: FontData<'a>) -> Result<Self, ReadError> {
        let number = |place| data.at::<u16>(place).ok_or(ReadError::OutOfBounds);
        let (items, words, columns) = (number(0)?, number(2)?, number(4)?);
        let rows = 6 + 2 * columns as usize;
        let end = rows + items as usize * Self::delta_row_len(words, columns);
        data.holds(end)?;
        let bytes = data.as_bytes();
        Ok(Self { items, words, regions: u16s(&bytes[6..rows]), rows: &bytes[rows..end] })
    }

    pub fn item_count(&self) -> u16 {
        self.items
    }

    pub fn word_delta_count(&self) -> u16 {
        self.words
    }

    pub fn region_index_count(&self) -> u16 {
        self.regions.len() as u16
    }

    pub fn region_indexes(&self) -> &'a [BigEndian<u16>] {
        self.regions
    }

    pub fn delta_sets(&self) -> &'a [u8] {
        self.rows
    }

    pub fn get_delta_row_len(&self) -> usize {
        Self::delta_row_len(self.words, self.region_index_count())
    }

    pub fn delta_row_len(word_delta_count: u16, region_index_count: u16) -> usize {
        let words = (word_delta_count & 0x7FFF) as usize;
        let rest = (region_index_count as usize).saturating_sub(words);
        let size = if word_delta_count & 0x8000 != 0 { 2 } else { 1 };
        size * (2 * words + rest)
    }
}

/// A pair: a subtable and a row of it.
#[derive(Clone, Copy, Debug, PartialEq, Eq)]
pub struct DeltaSetIndex {
    pub outer: u16,
    pub inner: u16,
}

impl DeltaSetIndex {
    pub const NO_VARIATION_INDEX: Self = Self { outer: 0xFFFF, inner: 0xFFFF };
}

/// How wide a map's entries are, and how an entry divides.
#[derive(Clone, Copy)]
pub struct EntryFormat(u8);

impl EntryFormat {
    pub fn from_bits_truncate(bits: u8) -> Self {
        Self(bits & 0x3F)
    }

    /// Bytes an entry.
    pub fn entry_size(self) -> u8 {
        (self.0 >> 4) + 1
    }

    /// Bits of the inner.
    pub fn bit_count(self) -> u8 {
        (self.0 & 0x0F) + 1
    }
}

/// A map from glyphs to pairs.
pub struct DeltaSetIndexMap<'a> {
    format: EntryFormat,
    count: u32,
    entries: &'a [u8],
}

impl<'a> DeltaSetIndexMap<'a> {
    pub fn read(data: FontData<'a>) -> Result<Self, ReadError> {
        let byte = |place| data.at::<u8>(place).ok_or(ReadError::OutOfBounds);
        let format = EntryFormat::from_bits_truncate(byte(1)?);
        let (count, head) = match byte(0)? {
            0 => (data.at::<u16>(2).map(u32::from), 4),
            1 => (data.at::<u32>(2), 6),
            other => return Err(ReadError::InvalidFormat(other as i64)),
        };
        let count = count.ok_or(ReadError::OutOfBounds)?;
        let end = head + count as usize * format.entry_size() as usize;
        data.holds(end)?;
        Ok(Self { format, count, entries: &data.as_bytes()[head..end] })
    }

    pub fn entry_format(&self) -> EntryFormat {
        self.format
    }

    /// A glyph's pair; a glyph at or past the count has the last entry's.
    pub fn get(&self, glyph: u32) -> Result<DeltaSetIndex, ReadError> {
        let size = self.format.entry_size() as usize;
        let place = glyph.min(self.count.saturating_sub(1)) as usize * size;
        let bytes = self.entries.get(place..place + size).ok_or(ReadError::OutOfBounds)?;
        let mut raw = [0; 4];
        raw[4 - size..].copy_from_slice(bytes);
        let (entry, bits) = (u32::from_raw(raw), self.format.bit_count());
        Ok(DeltaSetIndex { outer: (entry >> bits) as u16, inner: (entry & ((1 << bits) - 1)) as u16 })
    }
}
