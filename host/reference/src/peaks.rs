//! The greatest lengths that the observed copy's lists have had, and the
//! allowance that it has in the constant's place.
use std::cell::Cell;

thread_local! {
    static PEAKS: Cell<[usize; 3]> = const { Cell::new([0; 3]) };
    static ALLOWANCE: Cell<u64> = const { Cell::new(crate::FUZZ) };
}

pub(crate) fn begin(lengths: [usize; 3], allowance: u64) {
    PEAKS.set(lengths);
    ALLOWANCE.set(allowance);
}

pub(crate) fn allowance() -> u64 {
    ALLOWANCE.get()
}

pub(crate) fn record(lengths: [usize; 3]) {
    let mut peaks = PEAKS.get();
    for (peak, length) in peaks.iter_mut().zip(lengths) {
        *peak = length.max(*peak);
    }
    PEAKS.set(peaks);
}

pub(crate) fn read() -> [usize; 3] {
    PEAKS.get()
}
