//! A root under which seven files of skera 0.6.0 run as they were published (src/, not a byte changed).
//!
//! skera's own src/lib.rs can't be taken whole: it names every table of a font. What the seven files
//! use of it stands here in its words: the traits, the flags, the error, the three fields of the plan
//! that are read, and the loop that gives the serializer more room. The public calls below are ours.

#![allow(dead_code)]

#[path = "src/fnv.rs"]
mod fnv;
#[path = "src/hvar.rs"]
mod hvar;
#[path = "src/inc_bimap.rs"]
mod inc_bimap;
#[path = "src/offset.rs"]
mod offset;
#[path = "src/serialize.rs"]
mod serialize;
#[path = "src/variations.rs"]
mod variations;
#[path = "src/vvar.rs"]
mod vvar;

use inc_bimap::IncBiMap;
use serialize::{SerializeErrorFlags, Serializer};
use write_fonts::{
    read::{
        collections::IntSet,
        tables::{hvar::Hvar, variations::ItemVariationStore, vvar::Vvar},
        FontData, FontRef,
    },
    types::{GlyphId, Tag},
    FontBuilder,
};

#[derive(Clone, Copy, Debug, Default)]
pub struct SubsetFlags(u16);

impl SubsetFlags {
    /// all flags at their default value of false.
    pub const SUBSET_FLAGS_DEFAULT: Self = Self(0x0000);

    /// If set glyph indices will not be modified in the produced subset.
    /// If glyphs are dropped their indices will be retained as an empty glyph.
    pub const SUBSET_FLAGS_RETAIN_GIDS: Self = Self(0x0002);

    /// Returns `true` if all of the flags in `other` are contained within `self`.
    #[inline]
    pub const fn contains(&self, other: Self) -> bool {
        (self.0 & other.0) == other.0
    }
}

#[derive(Default)]
pub struct Plan {
    glyphset: IntSet<GlyphId>,
    new_to_old_gid_list: Vec<(GlyphId, GlyphId)>,
    subset_flags: SubsetFlags,
}

#[derive(Debug)]
pub enum SubsetError {
    SubsetTableError(Tag),
}

// This trait is implemented for all font top-level tables
pub trait Subset {
    /// Subset this table, if successful a subset version of this table will be added to builder
    fn subset(
        &self,
        _plan: &Plan,
        _font: &FontRef,
        _s: &mut Serializer,
        _builder: &mut FontBuilder,
    ) -> Result<(), SubsetError> {
        Ok(())
    }
}

// A helper trait providing a 'subset' method for various subtables that have no associated tag
pub(crate) trait SubsetTable<'a> {
    type ArgsForSubset: 'a;
    type Output: 'a;
    /// Subset this table and write a subset version of this table into serializer
    fn subset(
        &self,
        plan: &Plan,
        s: &mut Serializer,
        args: Self::ArgsForSubset,
    ) -> Result<Self::Output, SerializeErrorFlags>;
}

// A helper trait providing a 'serialize' method
trait Serialize<'a> {
    type Args: 'a;
    /// Serialize this table
    fn serialize(s: &mut Serializer, args: Self::Args) -> Result<(), SerializeErrorFlags>;
}

impl Plan {
    /// The plan of a glyph list: new × 65,536 + old, new ids rising.
    pub fn of(glyphs: &[u32], flags: SubsetFlags) -> Self {
        let id = |number: u32| GlyphId::new(number & 0xFFFF);
        Self {
            glyphset: glyphs.iter().map(|g| id(*g)).collect(),
            new_to_old_gid_list: glyphs.iter().map(|g| (id(*g >> 16), id(*g))).collect(),
            subset_flags: flags,
        }
    }
}

/// The kept rows of each subtable.
pub struct Kept(Vec<IncBiMap>);

impl Kept {
    /// Those of a list of pairs: outer × 65,536 + inner, outers not falling.
    pub fn of(pairs: &[u32]) -> Self {
        let outers = pairs.last().map_or(0, |last| (last >> 16) as usize + 1);
        let mut inner_maps: Vec<IncBiMap> = Vec::new();
        inner_maps.resize_with(outers, Default::default);
        for pair in pairs {
            inner_maps[(pair >> 16) as usize].add(pair & 0xFFFF);
        }
        Self(inner_maps)
    }
}

/// What the Rust makes of a store; `None` where it refuses.
pub fn cut_store(store: &[u8], kept: &Kept, keep_empty: bool) -> Option<Vec<u8>> {
    let read = ItemVariationStore::read(FontData::new(store)).ok()?;
    let plan = Plan::default();
    serialized(store.len(), |s| SubsetTable::subset(&read, &plan, s, (&kept.0, keep_empty)).is_ok())
}

/// What the Rust makes of an HVAR table; `None` where it refuses.
pub fn cut_hvar(table: &[u8], plan: &Plan) -> Option<Vec<u8>> {
    let hvar = Hvar::read(FontData::new(table)).ok()?;
    serialized(table.len(), |s| hvar.subset(plan, &FontRef(table), s, &mut FontBuilder).is_ok())
}

/// What the Rust makes of a VVAR table; `None` where it refuses.
pub fn cut_vvar(table: &[u8], plan: &Plan) -> Option<Vec<u8>> {
    let vvar = Vvar::read(FontData::new(table)).ok()?;
    serialized(table.len(), |s| vvar.subset(plan, &FontRef(table), s, &mut FontBuilder).is_ok())
}

/// Serializes with some more room than came in, and again with twice as much while it runs out.
fn serialized(came_in: usize, write: impl Fn(&mut Serializer) -> bool) -> Option<Vec<u8>> {
    let mut s = Serializer::new(8192 + came_in);
    loop {
        s.start_serialize().ok()?;
        let written = write(&mut s);
        if !s.ran_out_of_room() {
            s.end_serialize();
            return (written && s.successful()).then(|| s.copy_bytes());
        }
        let size = s.allocated() * 2 + 16;
        s.reset_size(size);
    }
}
