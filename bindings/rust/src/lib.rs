//! Ordered maps and sets, and route tables, over `libart.a`, a library whose functions are formally verified.
//!
//! [`Map`] and [`Set`] have the names of `BTreeMap` and `BTreeSet`. [`ByteMap`] and [`NumberMap`] have values of 64 bits, which
//! the library has itself, and [`RouteTable`] has values by networks. What is proved is the library: that each of its functions
//! does exactly what its contract says of the list of entries. This crate is plain Rust over it, and tested.
#![warn(missing_docs)]

mod bounds;
mod byte_walk;
mod chain;
pub mod entry;
mod index;
mod key;
mod key_types;
mod lent;
pub mod map;
mod map_entry;
mod map_iter;
mod map_key;
mod map_shown;
mod map_traits;
mod network;
mod number_walk;
mod pairs;
mod range;
mod raw;
mod refusal;
mod routes;
mod routes_entry;
mod routes_iter;
pub mod set;
mod set_algebra;
mod slots;
mod walk;
mod words;

pub use bounds::KeyBounds;
pub use key::{AsKey, Key};
pub use map::Map;
pub use map_key::{Encoding, KeyBytes, MapKey, TextKey};
pub use network::{BadNetwork, Network};
pub use refusal::Refusal;
pub use routes::RouteTable;
pub use routes_iter::Change;
pub use set::Set;
pub use words::{ByteMap, NumberMap, WordMap};

/// The iterators of [`WordMap`] and [`RouteTable`].
pub mod iter {
    pub use crate::range::{
        ExtractIf, IntoIter, IntoKeys, IntoValues, Iter, IterMut, Keys, Range, RangeMut, Values, ValuesMut,
    };
    pub use crate::routes_iter::{
        Cover as RouteCover, Differences as RouteDifferences, DirectChildren as RouteDirectChildren, Free as RouteFree,
        IntoIter as RouteIntoIter, Iter as RouteIter, IterMut as RouteIterMut,
    };
}

/// The places of networks in route tables.
pub mod route_entry {
    pub use crate::routes_entry::{Entry, OccupiedEntry, VacantEntry};
}

/// The example of the README.
#[cfg(doctest)]
#[doc = include_str!("../README.md")]
struct Readme;
