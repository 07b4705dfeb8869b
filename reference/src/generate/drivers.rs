//! Which leaves of a random tree are driven, and how strongly.

use crate::rng::Rng;
use crate::tree::MOST_DRIVE;

/// How many leaves of a tree are driven.
#[derive(Clone, Copy, PartialEq, Eq, Debug)]
pub enum Drivers {
    None,
    Some,
    All,
}

impl Drivers {
    pub fn any(rng: &mut Rng) -> Drivers {
        rng.pick(&[Drivers::None, Drivers::Some, Drivers::Some, Drivers::All])
    }

    /// The drive of one more leaf, if it is driven; mostly no greater than `usual`.
    pub fn drive(self, rng: &mut Rng, usual: u32) -> Option<u32> {
        let is_driven = match self {
            Drivers::None => false,
            Drivers::Some => rng.once_in(2),
            Drivers::All => true,
        };
        is_driven.then(|| any_drive(rng, usual))
    }
}

/// The greatest drive is rare, because beside it nothing else in a small problem tells.
fn any_drive(rng: &mut Rng, usual: u32) -> u32 {
    match rng.below(12) {
        0 | 1 => 0,
        2 => 1,
        3 => MOST_DRIVE,
        _ => rng.value(0, usual),
    }
}
