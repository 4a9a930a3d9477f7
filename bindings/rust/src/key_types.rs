//! The types that are keys.
use crate::map_key::{encode_parts, sum, Encoding, KeyBytes, MapKey, TextKey};
use crate::pairs::InPlace;
use std::borrow::Cow;
use std::cmp::Reverse;
use std::net::{IpAddr, Ipv4Addr, Ipv6Addr};
use std::num::{self, NonZero};
use std::rc::Rc;
use std::sync::Arc;
use std::time::Duration;

macro_rules! unsigned {
    ($($number:ty),*) => {
        $(impl MapKey for $number {
            const WIDTH: Option<usize> = Some(size_of::<$number>());
            // SAFETY: a number is the low bytes of itself as a wider one.
            const IN_PLACE: InPlace<Self> = unsafe { InPlace::yes() };

            #[inline]
            fn encode<T>(&self, take: impl FnOnce(Encoding<'_>) -> T) -> T {
                take(Encoding::Number(*self as u64))
            }

            #[inline]
            fn append_to(&self, bytes: &mut KeyBytes) {
                bytes.extend(&self.to_be_bytes());
            }
        })*
    };
}

unsigned!(u8, u16, u32, u64, usize);

/// A key by the encoding of another one, which sorts as it does, and whether it is the low bytes of its number.
macro_rules! encoded_as {
    ($([$($generics:tt)*] $key:ty as $known:ty $(= $in_place:expr)?, |$this:ident| $other:expr;)*) => {
        $(impl<$($generics)*> MapKey for $key {
            const WIDTH: Option<usize> = <$known>::WIDTH;
            $(const IN_PLACE: InPlace<Self> = $in_place;)?

            #[inline]
            fn encode<T>(&self, take: impl FnOnce(Encoding<'_>) -> T) -> T {
                let $this = self;
                $other.encode(take)
            }

            #[inline]
            fn append_to(&self, bytes: &mut KeyBytes) {
                let $this = self;
                $other.append_to(bytes)
            }
        })*
    };
}

// Signed numbers with their signs turned, so that negative ones come first.
encoded_as! {
    [] i8 as u8, |it| (*it as u8 ^ 1 << 7);
    [] i16 as u16, |it| (*it as u16 ^ 1 << 15);
    [] i32 as u32, |it| (*it as u32 ^ 1 << 31);
    [] i64 as u64, |it| (*it as u64 ^ 1 << 63);
    [] isize as i64, |it| (*it as i64);
    [] i128 as u128, |it| (*it as u128 ^ 1 << 127);
    // SAFETY: these are one byte, and four, of the same value.
    [] bool as u8 = unsafe { InPlace::yes() }, |it| u8::from(*it);
    [] char as u32 = unsafe { InPlace::yes() }, |it| u32::from(*it);
    [] std::cmp::Ordering as i8, |it| (*it as i8);
    [] Ipv4Addr as u32, |it| it.to_bits();
    [] Ipv6Addr as u128, |it| it.to_bits();
    [] Duration as (u64, u32), |it| (it.as_secs(), it.subsec_nanos());
    [] String as str, |it| it.as_str();
    [] Vec<u8> as [u8], |it| it.as_slice();
    [K: MapKey + ?Sized] &K as K, |it| **it;
    [K: MapKey + ?Sized] &mut K as K, |it| **it;
    [K: MapKey + ?Sized] Box<K> as K, |it| **it;
    [K: MapKey + ?Sized] Rc<K> as K, |it| **it;
    [K: MapKey + ?Sized] Arc<K> as K, |it| **it;
    [K: MapKey + ToOwned + ?Sized] Cow<'_, K> as K, |it| **it;
    [K: MapKey] num::Wrapping<K> as K, |it| it.0;
}

macro_rules! non_zero {
    ($in_place:expr; $($number:ty),*) => {
        encoded_as! { $([] NonZero<$number> as $number = $in_place, |it| it.get();)* }
    };
}

// SAFETY: such a number has the bytes of one that may be zero.
non_zero!(unsafe { InPlace::yes() }; u8, u16, u32, u64, usize);
non_zero!(InPlace::NO; u128, i8, i16, i32, i64, i128, isize);

impl MapKey for u128 {
    const WIDTH: Option<usize> = Some(16);

    #[inline]
    fn encode<T>(&self, take: impl FnOnce(Encoding<'_>) -> T) -> T {
        take(Encoding::Bytes(&self.to_be_bytes()))
    }

    #[inline]
    fn append_to(&self, bytes: &mut KeyBytes) {
        bytes.extend(&self.to_be_bytes());
    }
}

// By its bytes, as the slice that it is borrowed as.
impl<const N: usize> MapKey for [u8; N] {
    const WIDTH: Option<usize> = Some(N);

    #[inline]
    fn encode<T>(&self, take: impl FnOnce(Encoding<'_>) -> T) -> T {
        take(Encoding::Bytes(self))
    }

    #[inline]
    fn append_to(&self, bytes: &mut KeyBytes) {
        bytes.extend(self);
    }
}

impl MapKey for [u8] {
    #[inline]
    fn encode<T>(&self, take: impl FnOnce(Encoding<'_>) -> T) -> T {
        take(Encoding::Bytes(self))
    }
}

impl MapKey for str {
    #[inline]
    fn encode<T>(&self, take: impl FnOnce(Encoding<'_>) -> T) -> T {
        take(Encoding::Bytes(self.as_bytes()))
    }
}

impl TextKey for str {}
impl TextKey for [u8] {}
impl TextKey for String {}
impl TextKey for Vec<u8> {}
impl<const N: usize> TextKey for [u8; N] {}
impl<K: TextKey + ?Sized> TextKey for &K {}
impl<K: TextKey + ?Sized> TextKey for Box<K> {}
impl<K: TextKey + ?Sized> TextKey for Rc<K> {}
impl<K: TextKey + ?Sized> TextKey for Arc<K> {}
impl<K: TextKey + ToOwned + ?Sized> TextKey for Cow<'_, K> {}

impl MapKey for () {
    const WIDTH: Option<usize> = Some(0);

    fn encode<T>(&self, take: impl FnOnce(Encoding<'_>) -> T) -> T {
        take(Encoding::Number(0))
    }

    fn append_to(&self, _: &mut KeyBytes) {}
}

impl MapKey for IpAddr {
    const WIDTH: Option<usize> = Some(17);

    fn encode<T>(&self, take: impl FnOnce(Encoding<'_>) -> T) -> T {
        encode_parts(self, take)
    }

    fn append_to(&self, bytes: &mut KeyBytes) {
        match self {
            IpAddr::V4(address) => (4u8, address).append_to(bytes),
            IpAddr::V6(address) => (6u8, address).append_to(bytes),
        }
    }
}

impl<K: MapKey> MapKey for Option<K> {
    const WIDTH: Option<usize> = sum(Some(1), K::WIDTH);

    #[inline]
    fn encode<T>(&self, take: impl FnOnce(Encoding<'_>) -> T) -> T {
        encode_parts(self, take)
    }

    #[inline]
    fn append_to(&self, bytes: &mut KeyBytes) {
        match self {
            None => bytes.extend(&[0]),
            Some(key) => {
                bytes.extend(&[1]);
                key.append_to(bytes);
            }
        }
    }
}

impl<K: MapKey> MapKey for Reverse<K> {
    const WIDTH: Option<usize> = K::WIDTH;

    #[inline]
    fn encode<T>(&self, take: impl FnOnce(Encoding<'_>) -> T) -> T {
        self.0.encode(|encoding| match encoding {
            Encoding::Number(number) => take(Encoding::Number(!number)),
            // Not of these: a key may begin another one.
            Encoding::Bytes(_) => encode_parts(self, take),
        })
    }

    #[inline]
    fn append_to(&self, bytes: &mut KeyBytes) {
        bytes.append_reversed(&self.0);
    }
}

macro_rules! tuples {
    ($(($($part:ident $index:tt),*))*) => {
        $(impl<$($part: MapKey),*> MapKey for ($($part,)*) {
            const WIDTH: Option<usize> = {
                let width = Some(0);
                $(let width = sum(width, $part::WIDTH);)*
                width
            };

            #[inline]
            fn encode<T>(&self, take: impl FnOnce(Encoding<'_>) -> T) -> T {
                encode_parts(self, take)
            }

            #[inline]
            fn append_to(&self, bytes: &mut KeyBytes) {
                $(self.$index.append_to(bytes);)*
            }
        })*
    };
}

tuples! {
    (A 0)
    (A 0, B 1)
    (A 0, B 1, C 2)
    (A 0, B 1, C 2, D 3)
    (A 0, B 1, C 2, D 3, E 4)
    (A 0, B 1, C 2, D 3, E 4, F 5)
}
