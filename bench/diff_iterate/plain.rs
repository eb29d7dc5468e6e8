//! What bench/diff_iterate/main.rt.txt does, in plain Rust: each round maps the changes of the round before and sums what is
//! alike, until nothing changes.

type Falling = (u32, u32);

type Made = Vec<((u32, Falling), i64)>;

/// Nanoseconds of the processor that this thread took so far.
fn processor_time() -> u128 {
    let text = std::fs::read_to_string("/proc/thread-self/schedstat").unwrap();
    text.split(' ').next().unwrap().parse().unwrap()
}

/// Microseconds of the processor since a moment.
fn since(start: u128) -> u128 {
    (processor_time() - start) / 1000
}

struct Draws {
    state: u64,
}

impl Draws {
    fn draw(&mut self, below: u32) -> u32 {
        self.state = self.state.wrapping_mul(6364136223846793005).wrapping_add(1442695040888963407);
        ((self.state >> 33) as u32) % below
    }
}

fn batch(draws: &mut Draws, first: u32, count: u32) -> Vec<(Falling, i64)> {
    (0..count).map(|i| ((first + i, draws.draw(6)), 1)).collect()
}

/// Sorted, with the weights of what is alike summed, and without zeros.
fn summed(mut list: Vec<(Falling, i64)>) -> Vec<(Falling, i64)> {
    list.sort_unstable();
    let mut sums: Vec<(Falling, i64)> = Vec::with_capacity(list.len());
    for (record, weight) in list {
        match sums.last_mut() {
            Some(last) if last.0 == record => last.1 += weight,
            _ => sums.push((record, weight)),
        }
    }
    sums.retain(|entry| entry.1 != 0);
    sums
}

fn apply(change: &[(Falling, i64)]) -> Vec<(Falling, i64)> {
    change.iter().map(|((x, height), weight)| ((*x, height.saturating_sub(1)), *weight)).collect()
}

/// One step of the loop.
fn step(fed: &[(Falling, i64)], rounds: u32) -> Made {
    let mut made: Made = fed.iter().map(|(record, weight)| ((0, *record), *weight)).collect();
    let mut next = apply(fed);
    next.extend(fed.iter().map(|(record, weight)| (*record, -weight)));
    let mut change = summed(next);
    let mut round = 1;
    while round <= rounds && !change.is_empty() {
        made.extend(change.iter().map(|(record, weight)| ((round, *record), *weight)));
        change = summed(apply(&change));
        round += 1;
    }
    made.sort_unstable();
    made
}

fn total(made: &[Made]) -> (u64, u64) {
    let mut sum = 0u64;
    let mut entries = 0;
    for ((round, record), weight) in made.iter().flatten() {
        let place = u64::from(*round) * 7 + u64::from(record.1);
        sum = sum.wrapping_add(place.wrapping_mul(place).wrapping_mul(*weight as u64));
        entries += 1;
    }
    (sum, entries)
}

fn measured(rounds: u32) -> (u128, u128, (u64, u64)) {
    let mut draws = Draws { state: 1 };
    let first = batch(&mut draws, 0, 100_000);
    let deltas: Vec<_> = (0..100).map(|i| batch(&mut draws, 100_000 + 1000 * i, 1000)).collect();
    let start = processor_time();
    let mut made = vec![step(&first, rounds)];
    let load_time = since(start);
    let start = processor_time();
    made.extend(deltas.iter().map(|delta| step(delta, rounds)));
    let steps_time = since(start);
    (load_time, steps_time, total(&made))
}

fn main() {
    let (load, steps, (sum, entries)) = measured(6);
    let (load_long, steps_long, (sum_long, entries_long)) = measured(1_000_000);
    println!("made {sum} {entries} {sum_long} {entries_long}");
    println!("load_6_rounds {load}");
    println!("steps_6_rounds {steps}");
    println!("load_1000000_rounds {load_long}");
    println!("steps_1000000_rounds {steps_long}");
}
