//! Keys of maps, and their encodings.
use crate::pairs::InPlace;

/// Keys of a [`Map`](crate::Map) or a [`Set`](crate::Set): those whose encodings sort as they do.
///
/// Integers, `bool`, `char`, strings, byte strings, addresses, `Option`, `Reverse`, tuples of up to six keys, and references and
/// boxes of these are keys. A type of your own is one by the encoding of what it holds:
///
/// ```
/// use verified_art::{Encoding, Map, MapKey};
///
/// #[derive(PartialEq, Eq, PartialOrd, Ord)]
/// struct Version {
///     major: u16,
///     label: String,
/// }
///
/// impl MapKey for Version {
///     fn encode<T>(&self, take: impl FnOnce(Encoding<'_>) -> T) -> T {
///         (self.major, &self.label).encode(take)
///     }
/// }
///
/// let mut releases = Map::new();
/// releases.insert(Version { major: 2, label: "beta".to_string() }, 2024);
/// releases.insert(Version { major: 1, label: "final".to_string() }, 2023);
/// assert!(releases.values().eq(&[2023, 2024]));
/// ```
///
/// Of two keys of a type the encodings have to sort as the keys do, and all of them are numbers, or all byte strings. Those of a
/// form that a key is borrowed as (`str` of `String`) are the same. Where that does not hold, a map finds other entries
/// than it should, or panics; its memory is safe all the same.
pub trait MapKey: Ord {
    /// The most bytes that [`append_to`](Self::append_to) appends, where there is a limit. Keys of parts that have eight bytes at
    /// most together are numbers, which is faster.
    const WIDTH: Option<usize> = None;

    #[doc(hidden)]
    const IN_PLACE: InPlace<Self> = InPlace::NO;

    /// Gives the encoding of this key to a closure.
    fn encode<T>(&self, take: impl FnOnce(Encoding<'_>) -> T) -> T;

    /// Appends this key as a part of a longer one: bytes that sort as the keys do, of which none begins those of another
    /// key. They are made of the encoding, unless the type has shorter ones.
    fn append_to(&self, bytes: &mut KeyBytes) {
        self.encode(|encoding| bytes.append(encoding))
    }
}

/// A key whose encoding is the bytes of a string, or of a byte string: its entries can be found by a prefix.
pub trait TextKey: MapKey {}

/// What a map has of a key: a number where the keys of its type fit 64 bits, else bytes.
#[derive(Clone, Copy, Debug, PartialEq, Eq, PartialOrd, Ord)]
pub enum Encoding<'a> {
    /// A number.
    Number(u64),
    /// Any bytes.
    Bytes(&'a [u8]),
}

/// How many bytes are kept without memory of their own.
const FEW: usize = 48;

/// The bytes of a key that is made of parts.
pub struct KeyBytes {
    // All of them are in `many`, unless that is empty.
    few: [u8; FEW],
    len: usize,
    many: Vec<u8>,
}

impl KeyBytes {
    pub(crate) fn new() -> Self {
        KeyBytes { few: [0; FEW], len: 0, many: Vec::new() }
    }

    /// Appends bytes as they are: only ones of which none begins those of another key.
    #[inline]
    pub fn extend(&mut self, bytes: &[u8]) {
        let end = self.len + bytes.len();
        if self.many.is_empty() && end <= FEW {
            self.few[self.len..end].copy_from_slice(bytes);
        } else {
            self.spill(bytes);
        }
        self.len = end;
    }

    fn spill(&mut self, bytes: &[u8]) {
        if self.many.is_empty() {
            self.many.extend_from_slice(&self.few[..self.len]);
        }
        self.many.extend_from_slice(bytes);
    }

    /// Appends an encoding, so that none begins another: a number as its eight bytes, and bytes with an end, which is two zeros,
    /// and with 255 behind each zero of theirs.
    pub fn append(&mut self, encoding: Encoding<'_>) {
        match encoding {
            Encoding::Number(number) => self.extend(&number.to_be_bytes()),
            Encoding::Bytes(bytes) => {
                for part in bytes.split_inclusive(|&byte| byte == 0) {
                    self.extend(part);
                    if part.ends_with(&[0]) {
                        self.extend(&[u8::MAX]);
                    }
                }
                self.extend(&[0, 0]);
            }
        }
    }

    /// Appends another key as it is appended, but so that it sorts the other way round.
    pub(crate) fn append_reversed(&mut self, key: &impl MapKey) {
        let begin = self.len;
        key.append_to(self);
        let bytes = if self.many.is_empty() { &mut self.few[..self.len] } else { &mut self.many[..] };
        bytes[begin..].iter_mut().for_each(|byte| *byte = !*byte);
    }

    // The number of eight bytes, of which those that are absent are zeros: as none begins another, that keeps their order.
    #[inline]
    fn number(&self) -> u64 {
        let [a, b, c, d, e, f, g, h, ..] = self.few;
        u64::from_be_bytes([a, b, c, d, e, f, g, h])
    }

    #[inline]
    pub(crate) fn as_slice(&self) -> &[u8] {
        if self.many.is_empty() {
            &self.few[..self.len]
        } else {
            &self.many
        }
    }
}

/// Gives the encoding of a key that is made of parts.
#[inline]
pub(crate) fn encode_parts<K: MapKey, T>(key: &K, take: impl FnOnce(Encoding<'_>) -> T) -> T {
    let mut bytes = KeyBytes::new();
    key.append_to(&mut bytes);
    match K::WIDTH {
        Some(0..=8) => take(Encoding::Number(bytes.number())),
        _ => take(Encoding::Bytes(bytes.as_slice())),
    }
}

/// The most bytes of two parts together.
pub(crate) const fn sum(one: Option<usize>, other: Option<usize>) -> Option<usize> {
    match (one, other) {
        (Some(one), Some(other)) => Some(one + other),
        _ => None,
    }
}
