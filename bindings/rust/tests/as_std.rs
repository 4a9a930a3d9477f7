//! The same calls of `BTreeMap` and of `Map`, of which the `use` lines alone differ.

/// Once by each.
macro_rules! by {
    ($name:ident, $($used:item)*) => {
        mod $name {
            $($used)*
            use std::cmp::Reverse;
            use std::ops::Bound::{self, *};
            use std::rc::Rc;
            use std::sync::Mutex;

            include!("common/as_std.rs");
            include!("common/as_std_sizes.rs");
        }
    };
}

by! {
    of_std,
    use std::collections::btree_map::Entry::*;
    use std::collections::{BTreeMap, BTreeSet};
}

by! {
    of_this_crate,
    use verified_art::map::Entry::*;
    use verified_art::{Map as BTreeMap, Set as BTreeSet};
}
