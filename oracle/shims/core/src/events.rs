//! Counters that the edited lines raise: strokes made, broken and shed since the last `take`.
use std::cell::Cell;

thread_local! {
    static COUNTS: Cell<[usize; 3]> = const { Cell::new([0; 3]) };
}

fn add(which: usize, n: usize) {
    COUNTS.with(|c| {
        let mut counts = c.get();
        counts[which] += n;
        c.set(counts);
    });
}

pub fn made() {
    add(0, 1);
}

pub fn broken() {
    add(1, 1);
}

pub fn shed(n: usize) {
    add(2, n);
}

/// Made, broken, shed; the counters start again from zero.
pub fn take() -> [usize; 3] {
    COUNTS.with(|c| c.replace([0; 3]))
}
