//! Relations: plain sets of ordered pairs of event numbers, with the operators of document 003, section 2.

/// Event numbers lie below this.
pub const SIZE: usize = 64;

/// A set of ordered pairs, given by its table: the pair (a, b) is in the set when `table[a][b]`.
#[derive(Clone, PartialEq, Eq)]
pub struct Relation {
    table: [[bool; SIZE]; SIZE],
}

impl Relation {
    pub fn empty() -> Relation {
        Relation { table: [[false; SIZE]; SIZE] }
    }

    pub fn add(&mut self, a: u8, b: u8) {
        self.table[a as usize][b as usize] = true;
    }

    pub fn has(&self, a: u8, b: u8) -> bool {
        self.table[a as usize][b as usize]
    }

    /// The relation of all pairs (a, b) of `numbers` for which `test` holds.
    pub fn where_pairs(numbers: &[u8], test: impl Fn(u8, u8) -> bool) -> Relation {
        let mut all = Relation::empty();
        for &a in numbers {
            for &b in numbers {
                if test(a, b) {
                    all.add(a, b);
                }
            }
        }
        all
    }

    /// [A], the identity on the numbers for which `test` holds.
    pub fn identity_on(numbers: &[u8], test: impl Fn(u8) -> bool) -> Relation {
        Relation::where_pairs(numbers, |a, b| a == b && test(a))
    }
}

/// The identity on all numbers. In the models it always stands next to a relation between events.
pub fn identity() -> Relation {
    let mut all = Relation::empty();
    for a in 0..SIZE {
        all.table[a][a] = true;
    }
    all
}

/// r ∪ s ∪ ..
pub fn union(parts: &[&Relation]) -> Relation {
    let mut all = Relation::empty();
    for part in parts {
        for a in 0..SIZE {
            for b in 0..SIZE {
                all.table[a][b] |= part.table[a][b];
            }
        }
    }
    all
}

/// r ∩ s
pub fn intersection(r: &Relation, s: &Relation) -> Relation {
    let mut both = Relation::empty();
    for a in 0..SIZE {
        for b in 0..SIZE {
            both.table[a][b] = r.table[a][b] & s.table[a][b];
        }
    }
    both
}

/// r \ s
pub fn difference(r: &Relation, s: &Relation) -> Relation {
    let mut rest = Relation::empty();
    for a in 0..SIZE {
        for b in 0..SIZE {
            rest.table[a][b] = r.table[a][b] & !s.table[a][b];
        }
    }
    rest
}

/// r ; s, the pairs (a, c) with some b such that (a, b) is in r and (b, c) in s.
pub fn compose(r: &Relation, s: &Relation) -> Relation {
    let mut joined = Relation::empty();
    for a in 0..SIZE {
        for b in 0..SIZE {
            if r.table[a][b] {
                for c in 0..SIZE {
                    joined.table[a][c] |= s.table[b][c];
                }
            }
        }
    }
    joined
}

/// r ; s ; ..
pub fn seq(parts: &[&Relation]) -> Relation {
    let mut joined = parts[0].clone();
    for part in &parts[1..] {
        joined = compose(&joined, part);
    }
    joined
}

/// r⁺, one or more steps.
pub fn plus(r: &Relation) -> Relation {
    let mut closed = r.clone();
    loop {
        let longer = union(&[&closed, &compose(&closed, &closed)]);
        if longer == closed {
            return closed;
        }
        closed = longer;
    }
}

/// r*, any number of steps, zero included.
pub fn star(r: &Relation) -> Relation {
    opt(&plus(r))
}

/// r?, one step or none.
pub fn opt(r: &Relation) -> Relation {
    union(&[r, &identity()])
}

/// r⁻¹
pub fn inverse(r: &Relation) -> Relation {
    let mut turned = Relation::empty();
    for a in 0..SIZE {
        for b in 0..SIZE {
            turned.table[b][a] = r.table[a][b];
        }
    }
    turned
}

/// No number is related to itself.
pub fn irreflexive(r: &Relation) -> bool {
    (0..SIZE).all(|a| !r.table[a][a])
}

/// No number reaches itself by one or more steps.
pub fn acyclic(r: &Relation) -> bool {
    irreflexive(&plus(r))
}

/// A shortest path from `start` to `end` by one or more steps of r: `start`, what lies between, `end`.
/// For a ring (`start` equal to `end`) both ends are listed.
pub fn shortest_path(r: &Relation, start: u8, end: u8) -> Option<Vec<u8>> {
    let mut before: [Option<u8>; SIZE] = [None; SIZE];
    let mut reached = vec![start];
    let mut turn = 0;
    while turn < reached.len() {
        let a = reached[turn];
        turn += 1;
        for b in 0..SIZE as u8 {
            if r.has(a, b) && before[b as usize].is_none() {
                before[b as usize] = Some(a);
                if b == end {
                    let mut path = vec![end];
                    let mut at = a;
                    while at != start {
                        path.push(at);
                        at = before[at as usize].unwrap();
                    }
                    path.push(start);
                    path.reverse();
                    return Some(path);
                }
                if b != start {
                    reached.push(b);
                }
            }
        }
    }
    None
}
