//! What bench/trace_store/main.rt.txt does, in plain Rust.

#[path = "../consolidate.rs"]
mod consolidate;

use consolidate::consolidate;

/// Nanoseconds of the processor that this thread took so far.
fn processor_time() -> u128 {
    let text = std::fs::read_to_string("/proc/thread-self/schedstat").unwrap();
    text.split(' ').next().unwrap().parse().unwrap()
}

/// Microseconds of the processor since a moment.
fn since(start: u128) -> u128 {
    (processor_time() - start) / 1000
}

type Time = (u32, u32);
type Entry = (((u32, u32), Time), u64);

fn batch(seed: u64) -> Vec<((u32, u32), u64)> {
    let mut list = Vec::with_capacity(1_000_000);
    let mut state = seed;
    for key in 0..1_000_000 {
        state = state.wrapping_mul(6364136223846793005).wrapping_add(1442695040888963407);
        list.push(((key, (state >> 54) as u32), 1));
    }
    list.sort_unstable_by_key(|entry| entry.0);
    list
}

/// A thousand records of keys below 1,000,000.
fn small(seed: u64) -> Vec<((u32, u32), u64)> {
    let mut list = Vec::with_capacity(1_000);
    let mut state = seed;
    for _ in 0..1_000 {
        state = state.wrapping_mul(6364136223846793005).wrapping_add(1442695040888963407);
        list.push((((state >> 40) as u32 % 1_000_000, (state >> 54) as u32), 1));
    }
    list.sort_unstable_by_key(|entry| entry.0);
    consolidate(&mut list);
    list
}

fn leq(s: &Time, t: &Time) -> bool {
    s.0 <= t.0 && s.1 <= t.1
}

/// The sum of two sorted lists.
fn merge(left: &[Entry], right: &[Entry]) -> Vec<Entry> {
    let mut merged = Vec::with_capacity(left.len() + right.len());
    let (mut i, mut j) = (0, 0);
    while i < left.len() && j < right.len() {
        let (x, y) = (left[i], right[j]);
        match x.0.cmp(&y.0) {
            std::cmp::Ordering::Less => {
                merged.push(x);
                i += 1;
            }
            std::cmp::Ordering::Greater => {
                merged.push(y);
                j += 1;
            }
            std::cmp::Ordering::Equal => {
                let sum = x.1.wrapping_add(y.1);
                if sum != 0 {
                    merged.push((x.0, sum));
                }
                i += 1;
                j += 1;
            }
        }
    }
    merged.extend_from_slice(&left[i..]);
    merged.extend_from_slice(&right[j..]);
    merged
}

/// Layers, each at least twice as long as the next newer one.
fn insert(trace: &mut Vec<Vec<Entry>>, batch: &[((u32, u32), u64)], t: Time) {
    let mut newest: Vec<Entry> = batch.iter().map(|(record, weight)| ((*record, t), *weight)).collect();
    let mut sum = newest.len();
    while let Some(last) = trace.last() {
        if sum <= last.len() / 2 {
            break;
        }
        sum += last.len();
        newest = merge(last, &newest);
        trace.pop();
    }
    if !newest.is_empty() {
        trace.push(newest);
    }
}

fn accumulate(trace: &[Vec<Entry>], key: u32, t: Time, into: &mut Vec<(u32, u64)>) {
    into.clear();
    for layer in trace {
        let start = layer.partition_point(|entry| entry.0.0.0 < key);
        for entry in &layer[start..] {
            if entry.0.0.0 != key {
                break;
            }
            if leq(&entry.0.1, &t) {
                into.push((entry.0.0.1, entry.1));
            }
        }
    }
    into.sort_unstable_by_key(|entry| entry.0);
    consolidate(into);
}

/// All layers in one, merged from the newest to the oldest.
fn merge_layers(trace: &[Vec<Entry>]) -> Vec<Entry> {
    let mut merged = Vec::new();
    for layer in trace.iter().rev() {
        merged = merge(layer, &merged);
    }
    merged
}

fn seal(trace: &mut Vec<Vec<Entry>>, f: Time) {
    let mut merged = merge_layers(trace);
    trace.clear();
    for entry in &mut merged {
        entry.0.1 = (entry.0.1.0.max(f.0), entry.0.1.1.max(f.1));
    }
    for group in merged.chunk_by_mut(|a, b| a.0.0 == b.0.0) {
        if group.len() > 1 {
            group.sort_unstable_by_key(|entry| entry.0.1);
        }
    }
    consolidate(&mut merged);
    trace.push(merged);
}

fn read(trace: &[Vec<Entry>], step: u32) -> u64 {
    let mut values = Vec::new();
    let mut count = 0;
    let mut key = 0;
    for _ in 0..1_000_000 {
        accumulate(trace, key, (3, 1), &mut values);
        count += values.len() as u64;
        key = (key + step) % 1_000_000;
    }
    count
}

/// How many entries all keys have, by one place in each layer that moves forward.
fn walk(trace: &[Vec<Entry>]) -> u64 {
    let mut places = vec![0; trace.len()];
    let mut entries: Vec<Entry> = Vec::new();
    let mut count = 0;
    for key in 0..1_000_000 {
        entries.clear();
        for (layer, place) in trace.iter().zip(&mut places) {
            while *place < layer.len() && layer[*place].0.0.0 < key {
                *place += 1;
            }
            while *place < layer.len() && layer[*place].0.0.0 == key {
                entries.push(layer[*place]);
                *place += 1;
            }
        }
        entries.sort_unstable();
        entries.dedup_by(|next, last| {
            let same = next.0 == last.0;
            if same {
                last.1 = last.1.wrapping_add(next.1);
            }
            same
        });
        entries.retain(|entry| entry.1 != 0);
        count += entries.len() as u64;
    }
    count
}

/// Microseconds of one merge of the two halves of all entries, taken in turn.
fn merge_of_halves(trace: &[Vec<Entry>]) -> u128 {
    let mut all: Vec<Entry> = trace.concat();
    all.sort_unstable();
    let left: Vec<Entry> = all.iter().copied().step_by(2).collect();
    let right: Vec<Entry> = all.iter().copied().skip(1).step_by(2).collect();
    let start = processor_time();
    let whole = merge(&left, &right);
    let merged = since(start);
    assert!(whole.len() <= all.len() && whole.len() >= left.len());
    merged
}

fn main() {
    let start = processor_time();
    let mut trace = Vec::new();
    for (seed, position) in [(1, 1), (2, 2), (3, 3), (4, 4)] {
        insert(&mut trace, &batch(seed), (position, 1));
    }
    let inserted = since(start);
    let start = processor_time();
    let rising = read(&trace, 1);
    let in_order = since(start);
    let start = processor_time();
    let scattered = read(&trace, 617_411);
    let anywhere = since(start);
    let first_merge = merge_of_halves(&trace);
    let start = processor_time();
    seal(&mut trace, (3, 1));
    let sealed = since(start);
    let after = read(&trace, 1);
    let start = processor_time();
    for seed in 0..250u32 {
        insert(&mut trace, &small(u64::from(seed)), (5, seed));
    }
    let first = since(start);
    for seed in 250..1_000u32 {
        insert(&mut trace, &small(u64::from(seed)), (5, seed));
    }
    let small = since(start);
    let start = processor_time();
    let walked = walk(&trace);
    let walk_time = since(start);
    let start = processor_time();
    let all = merge_layers(&trace);
    let second_merge = since(start);
    assert!(all.len() <= trace.iter().map(Vec::len).sum());
    drop(all);
    let start = processor_time();
    seal(&mut trace, (6, 1));
    let again = since(start);
    println!("values {rising} {scattered} {after} {walked} {}", trace[0].len());
    println!("insert {inserted}");
    println!("accumulate {in_order}");
    println!("accumulate_anywhere {anywhere}");
    println!("seal {sealed}");
    println!("seal/merge {first_merge}");
    println!("first_250_inserts {first}");
    println!("thousand_inserts {small}");
    println!("walk {walk_time}");
    println!("seal_after_inserts {again}");
    println!("seal_after_inserts/merge {second_merge}");
}
