//! Made motion: vectors that are mostly equal or near, as in a film.

use inputs::Rng;
use std::array::from_fn;

/// What a block has in a list.
#[derive(Clone, Copy, Default, PartialEq)]
pub struct List {
    pub reference: i8,
    pub vector: [i16; 2],
}

/// As in intra blocks.
pub const UNUSED: List = List { reference: -1, vector: [0; 2] };

/// A reference and a vector for each list, and which lists are used of those that may be.
#[derive(Clone, Copy)]
pub struct Motion {
    lists: [List; 2],
    used: [bool; 2],
    usable: &'static [[bool; 2]],
}

impl Motion {
    /// That of a picture: list 0 looks back, list 1 ahead.
    pub fn new(r: &mut Rng, two_lists: bool) -> Motion {
        let vector = [0; 2].map(|_: i16| r.within(-40, 40) as i16);
        let lists = [List { reference: 0, vector }, List { reference: 1, vector: vector.map(|part| -part) }];
        let usable: &[[bool; 2]] =
            if two_lists { &[[true; 2], [true, false], [false, true]] } else { &[[true, false]] };
        Motion { lists, used: usable[0], usable }
    }

    /// That of something near by: one time in two its vectors are the same, else near most often and now and
    /// then far; some have another reference, or use other lists.
    pub fn neighbour(self, r: &mut Rng) -> Motion {
        let reach = r.pick(&[0, 0, 0, 0, 2, 2, 2, 24]);
        let lists = self.lists.map(|List { reference, vector }| List {
            reference: if r.once_in(12) { r.below(3) as i8 } else { reference },
            vector: vector.map(|part| part + r.within(-reach, reach) as i16),
        });
        let used = if r.once_in(8) { r.pick(self.usable) } else { self.used };
        Motion { lists, used, ..self }
    }

    /// As the grids have it.
    pub fn lists(self) -> [List; 2] {
        from_fn(|list| if self.used[list] { self.lists[list] } else { UNUSED })
    }
}
