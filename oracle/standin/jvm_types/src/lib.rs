//! Stand-in for `jvm_types`: access flags as sets of 16 bits, none of them cut off.

use core::ops::{BitAnd, BitOr, Not};

macro_rules! access_flags {
    ($name:ident { $($flag:ident = $bit:expr),* $(,)? }) => {
        #[derive(Clone, Copy, Debug, PartialEq, Eq)]
        pub struct $name(u16);

        impl $name {
            $(pub const $flag: Self = Self($bit);)*

            pub const fn empty() -> Self {
                Self(0)
            }

            pub const fn from_bits_truncate(bits: u16) -> Self {
                Self(bits)
            }

            pub const fn bits(self) -> u16 {
                self.0
            }

            pub const fn contains(self, other: Self) -> bool {
                self.0 & other.0 == other.0
            }

            pub const fn intersects(self, other: Self) -> bool {
                self.0 & other.0 != 0
            }
        }

        impl BitOr for $name {
            type Output = Self;

            fn bitor(self, other: Self) -> Self {
                Self(self.0 | other.0)
            }
        }

        impl BitAnd for $name {
            type Output = Self;

            fn bitand(self, other: Self) -> Self {
                Self(self.0 & other.0)
            }
        }

        impl Not for $name {
            type Output = Self;

            fn not(self) -> Self {
                Self(!self.0)
            }
        }
    };
}

access_flags!(ClassAccessFlags { PUBLIC = 0x0001, FINAL = 0x0010, INTERFACE = 0x0200 });
access_flags!(FieldAccessFlags { PRIVATE = 0x0002, STATIC = 0x0008 });
access_flags!(MethodAccessFlags { PUBLIC = 0x0001, PRIVATE = 0x0002, STATIC = 0x0008, ABSTRACT = 0x0400 });
