//! Kinds of object.

/// A kind of object, with a shelf of its own, by the number that programs pass to `new` and to `swap`.
#[derive(Clone, Copy, Debug, PartialEq, Eq, PartialOrd, Ord, Hash)]
#[repr(u32)]
pub enum Kind {
    /// 16 bytes, first all 0.
    Cell = 0,
    /// 64 bytes, first all 0xff.
    Record = 1,
    /// 512 bytes, first all 0x5a.
    Block = 2,
}

impl Kind {
    /// How many bytes an object of the kind has.
    pub const fn size(self) -> usize {
        match self {
            Kind::Cell => 16,
            Kind::Record => 64,
            Kind::Block => 512,
        }
    }
}
