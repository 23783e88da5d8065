//! Sets of events as 64-bit words, and relations as 64 rows of such: bit j of row i says that i is related to j.
//! Assumes that event numbers are below 64.

use std::ops::{Index, IndexMut};

pub type Set = u64;

#[derive(Clone, Copy)]
pub struct Relation([Set; 64]);

pub fn single(e: usize) -> Set {
    1 << e
}

pub fn has(set: Set, e: usize) -> bool {
    set & single(e) != 0
}

pub fn first(set: Set) -> usize {
    set.trailing_zeros() as usize
}

/// The members of a set, ascending.
pub fn members(mut set: Set) -> impl Iterator<Item = usize> {
    std::iter::from_fn(move || {
        if set == 0 {
            return None;
        }
        let e = first(set);
        set &= set - 1;
        Some(e)
    })
}

impl Index<usize> for Relation {
    type Output = Set;

    fn index(&self, e: usize) -> &Set {
        &self.0[e]
    }
}

impl IndexMut<usize> for Relation {
    fn index_mut(&mut self, e: usize) -> &mut Set {
        &mut self.0[e]
    }
}

impl Relation {
    pub fn empty() -> Relation {
        Relation([0; 64])
    }

    pub fn identity(set: Set) -> Relation {
        let mut r = Relation::empty();
        for e in members(set) {
            r[e] = single(e);
        }
        r
    }

    pub fn or(mut self, other: &Relation) -> Relation {
        for e in 0..64 {
            self[e] |= other[e];
        }
        self
    }

    pub fn and(mut self, other: &Relation) -> Relation {
        for e in 0..64 {
            self[e] &= other[e];
        }
        self
    }

    pub fn minus(mut self, other: &Relation) -> Relation {
        for e in 0..64 {
            self[e] &= !other[e];
        }
        self
    }

    /// From the events of a set only.
    pub fn starting_in(&self, set: Set) -> Relation {
        let mut r = Relation::empty();
        for e in members(set) {
            r[e] = self[e];
        }
        r
    }

    /// To the events of a set only.
    pub fn ending_in(mut self, set: Set) -> Relation {
        for e in 0..64 {
            self[e] &= set;
        }
        self
    }

    /// What the events of a set are related to.
    pub fn image(&self, set: Set) -> Set {
        members(set).fold(0, |reached, e| reached | self[e])
    }

    /// This relation, then the other.
    pub fn then(&self, other: &Relation) -> Relation {
        let mut r = Relation::empty();
        for e in 0..64 {
            r[e] = other.image(self[e]);
        }
        r
    }

    /// This relation, then optionally the other.
    pub fn then_optional(&self, other: &Relation) -> Relation {
        self.then(other).or(self)
    }

    pub fn inverse(&self) -> Relation {
        let mut r = Relation::empty();
        for e in 0..64 {
            for to in members(self[e]) {
                r[to] |= single(e);
            }
        }
        r
    }

    /// One or more steps (Warshall).
    pub fn closure(mut self) -> Relation {
        for middle in 0..64 {
            let on = self[middle];
            if on == 0 {
                continue;
            }
            for e in 0..64 {
                if has(self[e], middle) {
                    self[e] |= on;
                }
            }
        }
        self
    }

    pub fn is_irreflexive(&self) -> bool {
        (0..64).all(|e| !has(self[e], e))
    }
}
