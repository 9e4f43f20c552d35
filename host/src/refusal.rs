//! Why a call was refused.

use std::fmt;

/// A refusal, under the names of the proved library, with document 01's numbers.
#[derive(Clone, Copy, Debug, PartialEq, Eq, Hash)]
#[repr(u8)]
pub enum Refusal {
    WorkArea = 1,
    BadList = 2,
    BadStore = 3,
    BadRegions = 4,
    AbsentSubtable = 5,
    BadSubtable = 6,
    NothingKept = 7,
    BadRegionIndex = 8,
    MiddleWidth = 9,
    ShortOutput = 10,
    BadHeader = 11,
    BadMap = 12,
    BadOuter = 13,
    WideEntry = 14,
    EmptyStore = 15,
}

impl Refusal {
    /// All of them, in the order of their numbers.
    pub const ALL: [Refusal; 15] = [
        Refusal::WorkArea,
        Refusal::BadList,
        Refusal::BadStore,
        Refusal::BadRegions,
        Refusal::AbsentSubtable,
        Refusal::BadSubtable,
        Refusal::NothingKept,
        Refusal::BadRegionIndex,
        Refusal::MiddleWidth,
        Refusal::ShortOutput,
        Refusal::BadHeader,
        Refusal::BadMap,
        Refusal::BadOuter,
        Refusal::WideEntry,
        Refusal::EmptyStore,
    ];

    /// Document 01's number.
    pub fn number(self) -> u8 {
        self as u8
    }

    /// The refusal with a number of document 01.
    pub fn numbered(number: u32) -> Option<Refusal> {
        Self::ALL.into_iter().find(|refusal| refusal.number() as u32 == number)
    }

    /// What is wrong with what.
    pub fn message(self) -> &'static str {
        match self {
            Refusal::WorkArea => "the work area is shorter than 16,384 numbers",
            Refusal::BadList => {
                "the list breaks its rules: pairs have outers that don't fall, none twice, at most 8,192; \
                 glyphs have new ids that rise, no id above 65,534, at most 2,048"
            }
            Refusal::BadStore => {
                "the variation store can't be read: it is cut short or starts past the table's end, \
                 its format isn't 1, or it has over 256 subtables"
            }
            Refusal::BadRegions => {
                "the store's region list doesn't lie wholly inside the store, or has over 4,096 regions"
            }
            Refusal::AbsentSubtable => "a subtable that is asked for isn't in the store's array, or its offset is 0",
            Refusal::BadSubtable => {
                "a subtable that is asked for doesn't lie wholly inside the store, has more words than columns, \
                 or has over 4,096 columns"
            }
            Refusal::NothingKept => {
                "nothing varies in what is kept: the store has no region list, or all kept deltas are 0"
            }
            Refusal::BadRegionIndex => {
                "a column with a kept delta that isn't 0 names a region past the region list's count"
            }
            Refusal::MiddleWidth => {
                "a column's kept deltas all lie in -65536..65535 and one lies outside -32768..32767: \
                 the rules have no width for it"
            }
            Refusal::ShortOutput => "the output is shorter than the result",
            Refusal::BadHeader => "the HVAR or VVAR header is cut short, or its major version isn't 1",
            Refusal::BadMap => {
                "a map can't be read: it doesn't lie wholly inside the table, its format is above 1, \
                 its count is 0, or it has more inner bits than entry bits"
            }
            Refusal::BadOuter => "a kept glyph's pair names a subtable past the store's count",
            Refusal::WideEntry => "a map that is to be written needs more than 4 bytes an entry",
            Refusal::EmptyStore => "the table's store has no subtable",
        }
    }
}

impl fmt::Display for Refusal {
    fn fmt(&self, f: &mut fmt::Formatter<'_>) -> fmt::Result {
        f.write_str(self.message())
    }
}

impl std::error::Error for Refusal {}
