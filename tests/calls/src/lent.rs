//! Memory that is lent to a call, between two margins.

/// Items before and behind what is lent, which no call may touch.
const MARGIN: usize = 16;

/// What a margin is filled with.
pub trait Mark: Copy + PartialEq {
    const MARK: Self;
}

impl Mark for u8 {
    const MARK: u8 = 0xa5;
}

impl Mark for u32 {
    const MARK: u32 = 0xa5a5_5a5a;
}

pub struct Lent<T>(Vec<T>);

impl<T: Mark> Lent<T> {
    pub fn new(items: &[T]) -> Lent<T> {
        let margin = [T::MARK; MARGIN];
        Lent([&margin, items, &margin].concat())
    }

    pub fn length(&self) -> usize {
        self.0.len() - 2 * MARGIN
    }

    pub fn start(&mut self) -> *mut T {
        self.0[MARGIN..].as_mut_ptr()
    }

    /// The items, if the margins are as they were.
    pub fn back(self) -> Option<Vec<T>> {
        let (before, rest) = self.0.split_at(MARGIN);
        let (items, behind) = rest.split_at(rest.len() - MARGIN);
        let untouched = before.iter().chain(behind).all(|&item| item == T::MARK);
        untouched.then(|| items.to_vec())
    }

    /// True where neither the items nor the margins have changed.
    pub fn unchanged(self, items: &[T]) -> bool {
        self.back().is_some_and(|back| back == items)
    }
}
