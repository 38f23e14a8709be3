//! The names of one kind, and the number that each of them has.
use crate::words::Word;

/// How many places the table has: twice as many as there can be names.
const PLACES: usize = 512;

/// Names that are found by a hash, in a table that is never more than half full.
pub struct Names {
    /// Each name with its number; a word of no bytes where there is none.
    places: Box<[(u128, u16); PLACES]>,
}

impl Names {
    /// No names.
    pub fn new() -> Names {
        Names { places: Box::new([(0, 0); PLACES]) }
    }

    /// Where the name stands, or the free place where it could.
    #[inline]
    fn place(&self, name: Word) -> usize {
        let mixed = (name.0 as u64 ^ ((name.0 >> 64) as u64).rotate_left(29)).wrapping_mul(0x9e37_79b9_7f4a_7c15);
        let mut at = (mixed >> 55) as usize;
        loop {
            let kept = self.places[at % PLACES].0;
            if kept == name.0 || kept == 0 {
                return at % PLACES;
            }
            at += 1;
        }
    }

    /// The number of the name.
    #[inline]
    pub fn find(&self, name: Word) -> Option<u16> {
        let (kept, number) = self.places[self.place(name)];
        (kept != 0).then_some(number)
    }

    /// Gives the name this number, and says whether it was new.
    pub fn add(&mut self, name: Word, number: usize) -> bool {
        let at = self.place(name);
        let is_new = self.places[at].0 == 0;
        self.places[at] = (name.0, number as u16);
        is_new
    }
}
