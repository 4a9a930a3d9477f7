//! The values of a table, each in a box whose address the library has.
use std::marker::PhantomData;
use std::mem;
use std::ptr::{self, NonNull};

/// Values in boxes that are linked with each other: so all of them are dropped without a walk of the table.
pub(crate) struct Chain<V> {
    // INVARIANT: the first of the boxes, which this chain alone has. Each is linked with the next one and with the one before.
    first: Option<NonNull<Link<V>>>,
    owned: PhantomData<Link<V>>,
}

struct Link<V> {
    before: Option<NonNull<Link<V>>>,
    after: Option<NonNull<Link<V>>>,
    value: V,
}

// SAFETY: the boxes go where the chain goes, and by a shared reference their values are looked at alone.
unsafe impl<V: Send> Send for Chain<V> {}
unsafe impl<V: Sync> Sync for Chain<V> {}

fn link_of<V>(word: u64) -> NonNull<Link<V>> {
    NonNull::new(ptr::with_exposed_provenance_mut(word as usize)).expect("a word is an address")
}

/// Where the value of a word is. SAFETY: the box is in a chain of values of this type.
pub(crate) unsafe fn address<V>(word: u64) -> *mut V {
    &raw mut (*link_of(word).as_ptr()).value
}

impl<V> Chain<V> {
    /// Takes a value in, and returns its word.
    pub(crate) fn add(&mut self, value: V) -> u64 {
        let link = NonNull::from(Box::leak(Box::new(Link { before: None, after: None, value })));
        self.join(link);
        link.as_ptr().expose_provenance() as u64
    }

    /// Takes the value of a word out. SAFETY: the box is in this chain, and no map has the word any more.
    pub(crate) unsafe fn take(&mut self, word: u64) -> V {
        self.part(link_of(word)).value
    }

    /// Moves the box of a word to another chain. SAFETY: it is in this one.
    pub(crate) unsafe fn move_to(&mut self, other: &mut Self, word: u64) {
        let link = Box::leak(self.part(link_of(word)));
        other.join(NonNull::from(link));
    }

    // Links a box that is in no chain as the first one.
    fn join(&mut self, link: NonNull<Link<V>>) {
        // SAFETY: the chain has the boxes.
        unsafe {
            (*link.as_ptr()).before = None;
            (*link.as_ptr()).after = self.first;
            if let Some(after) = self.first {
                (*after.as_ptr()).before = Some(link);
            }
        }
        self.first = Some(link);
    }

    // Takes a box of this chain out.
    unsafe fn part(&mut self, link: NonNull<Link<V>>) -> Box<Link<V>> {
        let link = Box::from_raw(link.as_ptr());
        match link.before {
            Some(before) => (*before.as_ptr()).after = link.after,
            None => self.first = link.after,
        }
        if let Some(after) = link.after {
            (*after.as_ptr()).before = link.before;
        }
        link
    }

    fn drop_all(&mut self) {
        while let Some(first) = self.first {
            // SAFETY: it is in this chain.
            drop(unsafe { self.part(first) });
        }
    }
}

impl<V> Default for Chain<V> {
    fn default() -> Self {
        Chain { first: None, owned: PhantomData }
    }
}

impl<V> Drop for Chain<V> {
    fn drop(&mut self) {
        struct DropsRest<'a, V>(&'a mut Chain<V>);

        impl<V> Drop for DropsRest<'_, V> {
            fn drop(&mut self) {
                self.0.drop_all();
            }
        }

        // Where a value's own drop panics, the others are dropped too.
        let rest = DropsRest(self);
        rest.0.drop_all();
        mem::forget(rest);
    }
}
