//! Adding up sorted entries in place, as the crates do it, in plain Rust.

/// Adds up the weights of equal records that stand side by side, and drops zero sums.
pub fn consolidate<R: Copy + Ord>(entries: &mut Vec<(R, u64)>) {
    let Some(&first) = entries.first() else { return };
    let mut held = first;
    let mut kept = 0;
    for i in 1..entries.len() {
        let next = entries[i];
        if next.0 == held.0 {
            held.1 = held.1.wrapping_add(next.1);
        } else {
            if held.1 != 0 {
                entries[kept] = held;
                kept += 1;
            }
            held = next;
        }
    }
    if held.1 != 0 {
        entries[kept] = held;
        kept += 1;
    }
    entries.truncate(kept);
}
