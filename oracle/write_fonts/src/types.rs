//! Numbers as fonts hold them: big-endian, of a fixed size.

/// A type with a fixed number of bytes in a font.
pub trait FixedSize: Sized {
    const RAW_BYTE_LEN: usize;
}

/// A number that stands in a font.
pub trait Scalar: Sized {
    type Raw: AsRef<[u8]> + Copy + for<'a> TryFrom<&'a [u8]>;
    fn to_raw(self) -> Self::Raw;
    fn from_raw(raw: Self::Raw) -> Self;

    fn read(bytes: &[u8]) -> Option<Self> {
        let raw = bytes.get(..Self::RAW_BYTE_LEN)?;
        Self::Raw::try_from(raw).ok().map(Self::from_raw)
    }
}

impl<T: Scalar> FixedSize for T {
    const RAW_BYTE_LEN: usize = std::mem::size_of::<T::Raw>();
}

macro_rules! integers {
    ($($t:ty),*) => {$(
        impl Scalar for $t {
            type Raw = [u8; std::mem::size_of::<$t>()];
            fn to_raw(self) -> Self::Raw {
                self.to_be_bytes()
            }
            fn from_raw(raw: Self::Raw) -> Self {
                Self::from_be_bytes(raw)
            }
        }
    )*};
}
integers!(u8, i8, u16, i16, u32, i32);

/// A type that is another number under a name of its own.
macro_rules! named {
    ($($name:ident of $t:ty: $what:literal),*) => {$(
        #[doc = $what]
        #[derive(Clone, Copy, Debug, PartialEq, Eq)]
        pub struct $name($t);
        impl Scalar for $name {
            type Raw = <$t as Scalar>::Raw;
            fn to_raw(self) -> Self::Raw {
                self.0.to_raw()
            }
            fn from_raw(raw: Self::Raw) -> Self {
                Self(<$t>::from_raw(raw))
            }
        }
    )*};
}
named!(
    Offset32 of u32: "An offset of 32 bits; 0 means absent.",
    MajorMinor of u32: "A version: 16 bits of major, 16 of minor.",
    F2Dot14 of i16: "A signed number with 14 bits after the point."
);

impl Offset32 {
    pub fn new(offset: u32) -> Self {
        Self(offset)
    }

    pub fn is_null(self) -> bool {
        self.0 == 0
    }

    pub fn to_u32(self) -> u32 {
        self.0
    }
}

/// A number of 24 bits; the carried text asks only how large it may be.
#[derive(Clone, Copy)]
pub struct Uint24(u32);

impl Uint24 {
    pub const MAX: Self = Self(0xFF_FFFF);

    pub fn to_u32(self) -> u32 {
        self.0
    }
}

/// A number where it stands in a font, not yet turned to the machine's order.
#[derive(Clone, Copy)]
#[repr(transparent)]
pub struct BigEndian<T: Scalar>(T::Raw);

impl<T: Scalar> BigEndian<T> {
    pub fn from_slice(bytes: &[u8]) -> Option<Self> {
        T::Raw::try_from(bytes).ok().map(Self)
    }

    pub fn get(&self) -> T {
        T::from_raw(self.0)
    }
}

/// The numbers of 16 bits that stand in a row in these bytes.
pub fn u16s(bytes: &[u8]) -> &[BigEndian<u16>] {
    let (pairs, _) = bytes.as_chunks::<2>();
    // SAFETY: `BigEndian<u16>` is transparent over `[u8; 2]`.
    unsafe { std::slice::from_raw_parts(pairs.as_ptr().cast(), pairs.len()) }
}

/// A glyph's number.
#[derive(Clone, Copy, Debug, PartialEq, Eq, PartialOrd, Ord, Hash)]
pub struct GlyphId(u32);

impl GlyphId {
    pub const fn new(id: u32) -> Self {
        Self(id)
    }

    pub const fn to_u32(self) -> u32 {
        self.0
    }
}

/// A table's name.
#[derive(Clone, Copy, Debug, PartialEq, Eq)]
pub struct Tag([u8; 4]);

impl Tag {
    pub const fn new(name: &[u8; 4]) -> Self {
        Self(*name)
    }
}
