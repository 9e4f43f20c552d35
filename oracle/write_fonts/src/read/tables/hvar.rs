//! Chapter HVAR: a version, and the offsets of a store and three maps.

use super::variations::{DeltaSetIndexMap, ItemVariationStore};
use crate::read::{FontData, ReadError, TopLevelTable};
use crate::types::{MajorMinor, Offset32, Scalar, Tag};

/// The header that HVAR and VVAR share but for its number of maps.
pub(crate) struct Header<'a>(FontData<'a>);

impl<'a> Header<'a> {
    pub(crate) fn read(data: FontData<'a>, maps: usize) -> Result<Self, ReadError> {
        data.holds(8 + 4 * maps)?;
        Ok(Self(data))
    }

    pub(crate) fn version(&self) -> MajorMinor {
        MajorMinor::from_raw(self.0.at::<u32>(0).unwrap_or_default().to_raw())
    }

    pub(crate) fn store_offset(&self) -> Offset32 {
        Offset32::new(self.0.at(4).unwrap_or_default())
    }

    pub(crate) fn store(&self) -> Result<ItemVariationStore<'a>, ReadError> {
        ItemVariationStore::read(self.0.at_offset(self.store_offset().to_u32())?)
    }

    pub(crate) fn map(&self, number: usize) -> Option<Result<DeltaSetIndexMap<'a>, ReadError>> {
        match self.0.at(8 + 4 * number)? {
            0 => None,
            offset => Some(self.0.at_offset(offset).and_then(DeltaSetIndexMap::read)),
        }
    }
}

/// The table of horizontal metrics variations.
pub struct Hvar<'a>(Header<'a>);

impl TopLevelTable for Hvar<'_> {
    const TAG: Tag = Tag::new(b"HVAR");
}

impl<'a> Hvar<'a> {
    pub fn read(data: FontData<'a>) -> Result<Self, ReadError> {
        Header::read(data, 3).map(Self)
    }

    pub fn version(&self) -> MajorMinor {
        self.0.version()
    }

    pub fn item_variation_store_offset(&self) -> Offset32 {
        self.0.store_offset()
    }

    pub fn item_variation_store(&self) -> Result<ItemVariationStore<'a>, ReadError> {
        self.0.store()
    }

    pub fn advance_width_mapping(&self) -> Option<Result<DeltaSetIndexMap<'a>, ReadError>> {
        self.0.map(0)
    }

    pub fn lsb_mapping(&self) -> Option<Result<DeltaSetIndexMap<'a>, ReadError>> {
        self.0.map(1)
    }

    pub fn rsb_mapping(&self) -> Option<Result<DeltaSetIndexMap<'a>, ReadError>> {
        self.0.map(2)
    }
}
