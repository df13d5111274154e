//! The arrays of a chain that takes its items one by one: the first has 4 items, a later one twice those
//! of the one before, at most 65,536, and one is made where the others are full.
use std::iter::Sum;
use std::ops::Mul;

/// Arrays, and the items that they have room for.
#[derive(Clone, Copy, Default)]
pub struct Arrays {
    pub count: u128,
    pub room: u128,
}

const FIRST: u128 = 4;
const GREATEST: u128 = 65_536;

/// The bytes of an array without its items, and of an item.
const WITHOUT_ITEMS: u128 = 24;
const ITEM: u128 = 8;

impl Arrays {
    /// Those of a chain that took so many items.
    pub fn of(items: u128) -> Arrays {
        let (mut arrays, mut next) = (Arrays::default(), FIRST);
        while arrays.room < items && next < GREATEST {
            arrays.count += 1;
            arrays.room += next;
            next *= 2;
        }
        let more = items.saturating_sub(arrays.room).div_ceil(GREATEST);
        Arrays {
            count: arrays.count + more,
            room: arrays.room + more * GREATEST,
        }
    }

    pub fn bytes(&self) -> u128 {
        WITHOUT_ITEMS * self.count + ITEM * self.room
    }
}

/// Those of so many chains alike.
impl Mul<u64> for Arrays {
    type Output = Arrays;

    fn mul(self, chains: u64) -> Arrays {
        let chains = u128::from(chains);
        Arrays {
            count: self.count * chains,
            room: self.room * chains,
        }
    }
}

impl Sum for Arrays {
    fn sum<I: Iterator<Item = Arrays>>(all: I) -> Arrays {
        all.fold(Arrays::default(), |sum, one| Arrays {
            count: sum.count + one.count,
            room: sum.room + one.room,
        })
    }
}
