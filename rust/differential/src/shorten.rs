//! Shorter lists that still fail.

use std::time::{Duration, Instant};

/// A failure that needs many items is not worth more time.
const LONGEST: Duration = Duration::from_secs(15);

/// Leaves out what is not needed for a failure: halves first, single items last. `items` must fail.
pub fn thin<T: Clone>(items: &[T], fails: impl Fn(&[T]) -> bool) -> Vec<T> {
    let start = Instant::now();
    let mut kept = items.to_vec();
    let mut step = kept.len() / 2;
    while step > 0 {
        let mut from = 0;
        while from < kept.len() && start.elapsed() < LONGEST {
            let to = (from + step).min(kept.len());
            let shorter = [&kept[..from], &kept[to..]].concat();
            if fails(&shorter) {
                kept = shorter;
            } else {
                from = to;
            }
        }
        step /= 2;
    }
    kept
}

/// The shortest prefix that fails, if one that fails stays failing when it grows. `items` must fail.
pub fn prefix<T>(items: &[T], fails: impl Fn(&[T]) -> bool) -> &[T] {
    let (mut good, mut bad) = (0, items.len());
    while good + 1 < bad {
        let middle = (good + bad) / 2;
        if fails(&items[..middle]) {
            bad = middle;
        } else {
            good = middle;
        }
    }
    &items[..bad]
}
