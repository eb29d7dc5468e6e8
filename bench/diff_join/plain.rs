//! What bench/diff_join/main.rt.txt does, in plain Rust: the two sides as hash maps of lists, the products that wait in a
//! BTreeMap by time and record, the inserts alone with a sorted list.

use std::collections::{BTreeMap, HashMap};

type Time = (u32, u32);

type Side = HashMap<u32, Vec<(u32, Time)>>;

#[derive(Clone, Copy)]
enum Row {
    Left(u32, u32),
    Right(u32, u32),
}

const ROWS: u32 = 316;

const STEPS: u32 = 1000;

#[repr(C)]
struct Clock {
    seconds: i64,
    nanoseconds: i64,
}

unsafe extern "C" {
    fn clock_gettime(clock: i32, time: *mut Clock) -> i32;
}

/// Linux's clock of the processor's time of a thread.
const THREAD_TIME: i32 = 3;

/// Nanoseconds of the processor that this thread took so far.
fn processor_time() -> u128 {
    let mut time = Clock { seconds: 0, nanoseconds: 0 };
    assert!(unsafe { clock_gettime(THREAD_TIME, &mut time) } == 0);
    time.seconds as u128 * 1_000_000_000 + time.nanoseconds as u128
}

/// Microseconds of the processor since a moment.
fn since(start: u128) -> u128 {
    (processor_time() - start) / 1000
}

fn left_time(i: u32) -> Time {
    (0, i + 10_000)
}

fn right_time(i: u32) -> Time {
    (1_000_000 - i, i)
}

#[derive(Default)]
struct Join {
    left: Side,
    right: Side,
    kept: BTreeMap<(Time, (u32, u32)), i64>,
}

impl Join {
    fn keep(&mut self, time: Time, record: (u32, u32)) {
        let weight = self.kept.entry((time, record)).or_insert(0);
        *weight += 1;
        if *weight == 0 {
            self.kept.remove(&(time, record));
        }
    }

    /// Feeds a row, and answers the products of the time.
    fn step(&mut self, t: Time, row: Option<Row>) -> Vec<((u32, u32), i64)> {
        let later = |s: Time| (s.0.max(t.0), s.1.max(t.1));
        match row {
            Some(Row::Left(key, a)) => {
                let met = self.right.get(&key).cloned().unwrap_or_default();
                for (b, s) in met {
                    self.keep(later(s), (a, b));
                }
                self.left.entry(key).or_default().push((a, t));
            }
            Some(Row::Right(key, b)) => {
                let met = self.left.get(&key).cloned().unwrap_or_default();
                for (a, s) in met {
                    self.keep(later(s), (a, b));
                }
                self.right.entry(key).or_default().push((b, t));
            }
            None => {}
        }
        let ends = (t, (0, 0))..=(t, (u32::MAX, u32::MAX));
        let made: Vec<((u32, u32), i64)> = self.kept.range(ends).map(|((_, record), weight)| (*record, *weight)).collect();
        for (record, _) in &made {
            self.kept.remove(&(t, *record));
        }
        made
    }
}

fn total(made: &[((u32, u32), i64)]) -> u64 {
    made.iter().fold(1, |sum, (record, weight)| {
        let value = u64::from(record.0).wrapping_mul(31).wrapping_add(u64::from(record.1));
        sum.wrapping_add(value.wrapping_mul(*weight as u64))
    })
}

fn loaded(met: u32) -> Vec<(Time, Option<Row>)> {
    let mut list = Vec::new();
    for i in 0..ROWS {
        list.push((left_time(i), Some(Row::Left(if i < met { 0 } else { i + 10 }, i))));
    }
    for i in ROWS..ROWS + 4 {
        list.push((left_time(i), Some(Row::Left(1, i))));
    }
    for i in 0..ROWS {
        list.push((right_time(i), Some(Row::Right(if i < met { 0 } else { i + 10_000 }, i))));
    }
    list
}

fn steps(join: &mut Join, changes: &[(Time, Option<Row>)]) -> u64 {
    changes.iter().fold(0, |sum: u64, (time, row)| sum.wrapping_add(total(&join.step(*time, *row))))
}

fn insert_all(trace: &mut Vec<((u32, u32, Time), i64)>, changes: &[(Time, Option<Row>)]) {
    for (time, row) in changes {
        if let Some(Row::Right(key, b)) = row {
            let entry = ((*key, *b, *time), 1);
            let left = std::mem::take(trace);
            let place = left.partition_point(|e| *e < entry);
            trace.extend_from_slice(&left[..place]);
            trace.push(entry);
            trace.extend_from_slice(&left[place..]);
        }
    }
}

fn measured(met: u32) -> (u64, [u128; 5]) {
    let rows = loaded(met);
    let more: Vec<(Time, Option<Row>)> = (ROWS..ROWS + STEPS).map(|i| (right_time(i), Some(Row::Right(1, i)))).collect();
    let nothing: Vec<(Time, Option<Row>)> = (ROWS + STEPS..ROWS + 2 * STEPS).map(|i| (right_time(i), None)).collect();
    let mut join = Join::default();
    let start = processor_time();
    let first = steps(&mut join, &rows);
    let load = since(start);
    let start = processor_time();
    let second = steps(&mut join, &more);
    let steps_time = since(start);
    let start = processor_time();
    let third = steps(&mut join, &nothing);
    let empty = since(start);
    let start = processor_time();
    let mut fourth = 0u64;
    for _ in 0..STEPS {
        let time = join.kept.first_key_value().map_or((0, 0), |((time, _), _)| *time);
        fourth = fourth.wrapping_add(total(&join.step(time, None)));
    }
    let due = since(start);
    let mut trace = Vec::new();
    insert_all(&mut trace, &rows);
    let start = processor_time();
    insert_all(&mut trace, &more);
    let inserts = since(start);
    assert!(trace.len() == (ROWS + STEPS) as usize && join.kept.len() == (met * met + 3 * STEPS) as usize);
    let sum = first.wrapping_add(second).wrapping_add(third).wrapping_add(fourth);
    (sum, [load, steps_time, inserts, empty, due])
}

fn main() {
    let (sum, few) = measured(100);
    let (sum_more, many) = measured(316);
    println!("made {sum} {sum_more}");
    for (times, count) in [(few, 10_000), (many, 100_000)] {
        for (name, time) in ["load", "steps", "inserts", "empty", "due"].iter().zip(times) {
            println!("{name}_{count} {time}");
        }
    }
}
