//! The versions of a book. Document 02 adds the second, (iv): "Version 2 in the trailer stores a number in bytes 2–7, signed." All that depends
//! on the version is here: the bytes of a number, and the range that sums are held to.

use crate::faults::{current, Fault};

/// What byte 1 of a trailer names.
#[derive(Clone, Copy, PartialEq, Eq, PartialOrd, Ord, Hash, Debug)]
pub enum Version {
    One,
    Two,
}

/// Bits as a signed number of so many bits.
const fn signed(bits: u64, count: u32) -> i64 {
    (bits << (64 - count)) as i64 >> (64 - count)
}

/// The fields of a number that fills all three, a the lowest; and back.
pub(crate) const fn parted(n: i64) -> [u16; 3] {
    [n as u16, (n >> 16) as u16, (n >> 32) as u16]
}

fn joined([a, b, c]: [u16; 3]) -> u64 {
    u64::from(c) << 32 | u64::from(b) << 16 | u64::from(a)
}

impl Version {
    pub const ALL: [Version; 2] = [Version::One, Version::Two];

    /// The version that a trailer's byte 1 names; no other is known.
    pub fn of(byte: u8) -> Option<Version> {
        match (byte, current()) {
            (3, Some(Fault::ThirdVersion)) => Some(Version::Two),
            (0, Some(Fault::VersionZero)) => Some(Version::One),
            (2, Some(Fault::OlderVersions)) => None,
            (1, _) => Some(Version::One),
            (2, _) => Some(Version::Two),
            _ => None,
        }
    }

    pub const fn byte(self) -> u8 {
        match self {
            Version::One => 1,
            Version::Two => 2,
        }
    }

    /// Half of the range of its numbers, which have 32 bits or 48: they go from -half to half - 1.
    pub const fn half(self) -> i64 {
        match self {
            Version::One => 1 << 31,
            Version::Two => 1 << 47,
        }
    }

    pub const fn least(self) -> i64 {
        -self.half()
    }

    pub const fn most(self) -> i64 {
        self.half() - 1
    }

    /// "Sums in version 2 are held to the ends of 48 bits, in version 1 to those of 32."
    pub fn held(self, n: i64) -> i64 {
        n.clamp(self.least(), self.most())
    }

    /// The number in a cell's fields: "bytes 4–7, signed 32 bits", or "bytes 2–7, signed".
    pub fn number(self, fields: [u16; 3]) -> i64 {
        let (all, [_, b, c]) = (joined(fields), fields);
        let last = joined([b, c, 0]);
        match (self, current()) {
            (Version::One, Some(Fault::ZeroExtended)) => last as i64,
            (Version::One, Some(Fault::NarrowFromAllBytes)) => signed(all, 48),
            (Version::One, _) => signed(last, 32),
            (Version::Two, Some(Fault::WideUnsigned)) => all as i64,
            (Version::Two, Some(Fault::WideFromLastBytes)) => signed(last, 32),
            (Version::Two, Some(Fault::WideFromFirstBytes)) => signed(all, 32),
            (Version::Two, _) => signed(all, 48),
        }
    }

    /// The fields of a number's cell. Of one beyond the range, its lowest bits.
    pub fn fields(self, n: i64) -> [u16; 3] {
        let [a, b, c] = parted(n);
        match (self, current()) {
            (Version::One, Some(Fault::NarrowingLeftOut)) => [a, b, c],
            (Version::One, Some(Fault::NarrowingKeepsHighFields)) => [0, b, c],
            (Version::Two, Some(Fault::NarrowingInVersion2)) => [0, a, b],
            (Version::One, _) => [0, a, b],
            (Version::Two, _) => [a, b, c],
        }
    }
}
