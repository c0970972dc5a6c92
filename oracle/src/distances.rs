//! How far the library is from the published Rust, where the Rust calls cos, acos or log10.

/// An input with the library's answer and the published Rust's.
pub struct Seen<'a> {
    pub turn: u64,
    pub given: &'a [u32],
    pub status: u32,
    pub gave: &'a [u32],
    pub published_status: u32,
    pub published: &'a [u32],
}

/// A distance to the published Rust: the largest seen, and the input that showed it.
pub struct Distance {
    pub what: &'static str,
    pub bound: Option<f64>,
    pub largest: f64,
    pub shown_by: Vec<u32>,
}

/// How often answers were another kind of answer than the published Rust's, and the first turn and input that showed it.
pub struct Count {
    pub what: &'static str,
    pub times: u64,
    pub turn: u64,
    pub shown_by: Vec<u32>,
}

#[derive(Default)]
pub struct Distances {
    pub largest: Vec<Distance>,
    pub counts: Vec<Count>,
}

impl Distances {
    /// Keeps the largest distance; of two as large, the one seen first.
    pub fn seen(&mut self, what: &'static str, bound: Option<f64>, distance: f64, shown_by: &[u32]) {
        // A NaN is as far as can be.
        let distance = if distance.is_nan() { f64::INFINITY } else { distance };
        match self.largest.iter_mut().find(|own| own.what == what) {
            None => self.largest.push(Distance { what, bound, largest: distance, shown_by: shown_by.to_vec() }),
            Some(own) if distance > own.largest => {
                own.largest = distance;
                own.shown_by = shown_by.to_vec();
            }
            Some(_) => {}
        }
    }

    pub fn count(&mut self, what: &'static str, when: bool, turn: u64, shown_by: &[u32]) {
        self.add(what, u64::from(when), turn, shown_by);
    }

    fn add(&mut self, what: &'static str, times: u64, turn: u64, shown_by: &[u32]) {
        if self.counts.iter().all(|own| own.what != what) {
            self.counts.push(Count { what, times: 0, turn, shown_by: Vec::new() });
        }
        for own in self.counts.iter_mut().filter(|own| own.what == what) {
            if own.times == 0 && times > 0 {
                (own.turn, own.shown_by) = (turn, shown_by.to_vec());
            }
            own.times += times;
        }
    }

    /// Adds what was seen on later turns: the outcome is that of one run over all of them.
    pub fn merge(&mut self, later: Distances) {
        for distance in later.largest {
            self.seen(distance.what, distance.bound, distance.largest, &distance.shown_by);
        }
        for count in later.counts {
            self.add(count.what, count.times, count.turn, &count.shown_by);
        }
    }
}

fn apart(one: u32, other: u32) -> f64 {
    (f32::from_bits(one) as f64 - f32::from_bits(other) as f64).abs()
}

pub fn freq(seen: &Seen, distances: &mut Distances) {
    if seen.status != 0 {
        return;
    }
    for ((bits, gave), published) in seen.given.iter().zip(seen.gave).zip(seen.published) {
        let inside = f32::from_bits(*bits).abs() <= 0.999;
        let (what, bound) =
            if inside { ("cosines in -0.999..0.999", Some(1.0 / 16.0)) } else { ("other cosines", None) };
        distances.seen(what, bound, apart(*gave, *published), &[*bits]);
    }
}

pub fn cosine(seen: &Seen, distances: &mut Distances) {
    if seen.status != 0 {
        return;
    }
    for ((bits, gave), published) in seen.given.iter().zip(seen.gave).zip(seen.published) {
        distances.seen("cosines", Some(1.0 / (1u32 << 19) as f64), apart(*gave, *published), &[*bits]);
    }
}

pub fn root(seen: &Seen, distances: &mut Distances) {
    let one_alone = seen.status != seen.published_status;
    distances.count("one side has a line set and the other none", one_alone, seen.turn, seen.given);
    if seen.status == 0 && seen.published_status == 0 {
        let far = seen.gave.iter().zip(seen.published).map(|(a, b)| apart(*a, *b)).fold(0.0, f64::max);
        distances.seen("cosines", None, far, seen.given);
    }
}

pub fn stability(seen: &Seen, distances: &mut Distances) {
    if seen.status != 0 {
        return;
    }
    let one_alone = seen.gave[10] != seen.published[10];
    distances.count("one side converged and the other not", one_alone, seen.turn, seen.given);
    let far = seen.gave[..10].iter().zip(seen.published).map(|(a, b)| apart(*a, *b)).fold(0.0, f64::max);
    let what = if one_alone { "cosines where one side converged" } else { "cosines" };
    distances.seen(what, None, far, seen.given);
}

pub fn shaping(seen: &Seen, distances: &mut Distances) {
    if seen.status == 0 {
        distances.count("one side shapes and the other not", seen.gave != seen.published, seen.turn, seen.given);
    }
}

/// The index stands after the five memories.
const INDEX: usize = 185;

pub fn frame(seen: &Seen, distances: &mut Distances) {
    if seen.status == 0 {
        let other = seen.gave[INDEX] != seen.published[INDEX];
        distances.count("one side has another index", other, seen.turn, seen.given);
    }
}
