//! Memory to lend: full of rubbish, between fences that are not lent.

use second::make::Rng;

/// Places on either side of the lent ones. The count is odd, so that what is
/// lent does not start where an allocation does.
const FENCE: usize = 67;

/// So many places that rubbish for a whole workspace can start at any of many.
const ROW: usize = 1 << 17;

#[derive(Clone, PartialEq, Eq)]
pub struct Lent {
    places: Vec<u16>,
    length: usize,
}

impl Lent {
    pub fn part(&mut self) -> &mut [u16] {
        &mut self.places[FENCE..FENCE + self.length]
    }

    /// The same with its first places set to zero.
    pub fn zeroed(mut self, count: usize) -> Lent {
        self.part()[..count].fill(0);
        self
    }

    /// The same with its first places as another has them.
    pub fn with_first(mut self, count: usize, other: &Lent) -> Lent {
        let from = &other.places[FENCE..FENCE + count];
        self.part()[..count].copy_from_slice(from);
        self
    }

    /// The first place that differs and its two values. Places count from the
    /// first one lent, so those of the fence before it have negative numbers.
    pub fn first_difference(&self, other: &Lent) -> Option<(isize, u16, u16)> {
        if self.places == other.places {
            return None;
        }
        let pairs = self.places.iter().zip(&other.places);
        let (index, (&one, &two)) = pairs.enumerate().find(|(_, (one, two))| one != two)?;
        Some((index as isize - FENCE as isize, one, two))
    }
}

/// Rows of rubbish, made once: every place of them differs from zero, so that a
/// place that was cleared shows, and so does one that was not.
pub struct Rubbish {
    rows: [Vec<u16>; 4],
}

impl Rubbish {
    pub fn new(rng: &mut Rng) -> Rubbish {
        let row = |number: &mut dyn FnMut() -> u16| (0..ROW).map(|_| number()).collect();
        Rubbish {
            rows: [
                row(&mut || (rng.next() as u16).max(1)),
                // Numbers that a checker could take for its own.
                row(&mut || rng.between(1, 40) as u16),
                row(&mut || 1),
                row(&mut || u16::MAX),
            ],
        }
    }

    pub fn lend(&self, rng: &mut Rng, length: usize) -> Lent {
        let row = &self.rows[rng.below(self.rows.len())];
        let total = length + 2 * FENCE;
        let from = rng.below(ROW - total);
        Lent {
            places: row[from..from + total].to_vec(),
            length,
        }
    }
}
