//! Chapter VVAR: as HVAR, with a fourth map.

use super::hvar::Header;
use super::variations::{DeltaSetIndexMap, ItemVariationStore};
use crate::read::{FontData, ReadError, TopLevelTable};
use crate::types::{MajorMinor, Offset32, Tag};

/// The table of vertical metrics variations.
pub struct Vvar<'a>(Header<'a>);

impl TopLevelTable for Vvar<'_> {
    const TAG: Tag = Tag::new(b"VVAR");
}

impl<'a> Vvar<'a> {
    pub fn read(data: FontData<'a>) -> Result<Self, ReadError> {
        Header::read(data, 4).map(Self)
    }

    pub fn version(&self) -> MajorMinor {
        self.0.version()
    }

    pub fn item_variation_store_offset(&self) -> Offset32 {
        self.0.store_offset()
    }

    pub fn item_variation_store(&self) -> Result<ItemVariationStore<'a>, ReadError> {
        self.0.store()
    }

    pub fn advance_height_mapping(&self) -> Option<Result<DeltaSetIndexMap<'a>, ReadError>> {
        self.0.map(0)
    }

    pub fn tsb_mapping(&self) -> Option<Result<DeltaSetIndexMap<'a>, ReadError>> {
        self.0.map(1)
    }

    pub fn bsb_mapping(&self) -> Option<Result<DeltaSetIndexMap<'a>, ReadError>> {
        self.0.map(2)
    }

    pub fn v_org_mapping(&self) -> Option<Result<DeltaSetIndexMap<'a>, ReadError>> {
        self.0.map(3)
    }
}
