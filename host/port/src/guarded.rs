//! Slices as a library is lent them here: copies with guards on both sides,
//! at every alignment in turn. Guards, and what is lent for reading alone,
//! must be as they were afterwards.
use naskrefim::Reply;

/// Cells of guard on each side.
const GUARD: usize = 64;
/// Alignments that are tried in turn.
const SHIFTS: usize = 16;

/// A slice to be lent.
pub enum Lent<'a, T> {
    Read(&'a [T]),
    Write(&'a mut [T]),
}

impl<T> Lent<'_, T> {
    fn cells(&self) -> &[T] {
        match self {
            Self::Read(cells) => cells,
            Self::Write(cells) => cells,
        }
    }
}

/// A copy of a slice within guards.
struct Copied<T> {
    cells: Vec<T>,
    at: usize,
    end: usize,
}

impl<T: Copy + PartialEq> Copied<T> {
    fn new(cells: &[T], at: usize, guard: T) -> Self {
        let end = at + cells.len();
        let mut all = vec![guard; end + GUARD];
        all[at..end].copy_from_slice(cells);
        Self {
            cells: all,
            at,
            end,
        }
    }
    fn intact(&self, guard: T) -> bool {
        let outside = self.cells[..self.at].iter().chain(&self.cells[self.end..]);
        outside.into_iter().all(|&cell| cell == guard)
    }
}

/// What the lending found amiss, if anything, and the alignment's turn.
#[derive(Default)]
pub struct Guard {
    turn: usize,
    pub amiss: Option<&'static str>,
}

impl Guard {
    /// Makes a call on guarded copies of `slices`, and copies back what was
    /// lent for writing.
    pub fn lend<T: Copy + PartialEq, const N: usize>(
        &mut self,
        guard: T,
        mut slices: [Lent<T>; N],
        call: impl FnOnce([&mut [T]; N]) -> Reply,
    ) -> Reply {
        self.turn += 1;
        let mut turn = self.turn;
        let mut copies = slices.each_ref().map(|lent| {
            // each slice has an alignment of its own
            turn = turn * 5 + 3;
            Copied::new(lent.cells(), GUARD + turn / 4 % SHIFTS, guard)
        });
        let reply = call(
            copies
                .each_mut()
                .map(|copy| &mut copy.cells[copy.at..copy.end]),
        );
        let mut amiss = None;
        for (lent, copy) in slices.iter_mut().zip(&copies) {
            if !copy.intact(guard) {
                amiss = Some("wrote outside a lent slice");
            }
            let cells = &copy.cells[copy.at..copy.end];
            match lent {
                Lent::Read(before) if *before != cells => {
                    amiss = Some("wrote what it was lent for reading");
                }
                Lent::Read(_) => {}
                Lent::Write(cells_of) => cells_of.copy_from_slice(cells),
            }
        }
        if amiss.is_none() {
            return reply;
        }
        self.amiss = amiss;
        // no call replies so: the comparison stops here
        Reply {
            number: u32::MAX,
            present: u32::MAX,
            value: u32::MAX,
            second: u32::MAX,
        }
    }
}
