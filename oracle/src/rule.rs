//! Document 01's cosine rule, step rules, angle rules and gate rule, in whole numbers, with the two roundings that request E1 changes.
//!
//! Written from documents 01 and 02 alone. The quarter table is computed here by interval arithmetic, so that how far an
//! entry may be off is known and not estimated; nothing is read from the Rattle sources.

use std::cmp::Ordering;
use std::sync::OnceLock;

/// Steps in half a circle.
pub const HALF_CIRCLE: u64 = 1 << 24;
/// The Rust's single π is this over 2^22.
pub const PI_SINGLE: u128 = 13_176_795;

/// A real number between two bounds, both in units of 2^-60. Each operation rounds the lower bound down and the
/// upper one up, so the number stays inside.
#[derive(Clone, Copy)]
struct Interval {
    low: i128,
    high: i128,
}

const ONE: i128 = 1 << 60;

fn down(n: i128, by: i128) -> i128 {
    n.div_euclid(by)
}

fn up(n: i128, by: i128) -> i128 {
    -(-n).div_euclid(by)
}

impl Interval {
    fn whole(n: i128) -> Interval {
        Interval { low: n * ONE, high: n * ONE }
    }

    fn plus(self, other: Interval) -> Interval {
        Interval { low: self.low + other.low, high: self.high + other.high }
    }

    fn minus(self, other: Interval) -> Interval {
        Interval { low: self.low - other.high, high: self.high - other.low }
    }

    fn times(self, other: Interval) -> Interval {
        let ends = [self.low * other.low, self.low * other.high, self.high * other.low, self.high * other.high];
        let least = ends.into_iter().min().unwrap_or(0);
        let greatest = ends.into_iter().max().unwrap_or(0);
        Interval { low: down(least, ONE), high: up(greatest, ONE) }
    }

    fn scaled(self, n: i128, by: i128) -> Interval {
        Interval { low: down(self.low * n, by), high: up(self.high * n, by) }
    }

    /// Both ways by as much as another number may be, for the tail of an alternating series whose terms fall.
    fn give_or_take(self, tail: Interval) -> Interval {
        Interval { low: self.low - tail.high, high: self.high + tail.high }
    }
}

/// The angle whose tangent is 1 / n.
fn arc_tangent(n: i128) -> Interval {
    let mut power = Interval::whole(1).scaled(1, n);
    let mut sum = power;
    for k in 1.. {
        power = power.scaled(1, n * n);
        let term = power.scaled(1, 2 * k + 1);
        if term.high <= 1 {
            return sum.give_or_take(term);
        }
        sum = if k % 2 == 1 { sum.minus(term) } else { sum.plus(term) };
    }
    unreachable!()
}

/// π by Machin's formula.
fn pi() -> Interval {
    arc_tangent(5).scaled(16, 1).minus(arc_tangent(239).scaled(4, 1))
}

/// The cosine of an angle from 0 to π/2, by its series.
fn cosine_of(angle: Interval) -> Interval {
    let square = angle.times(angle);
    let mut term = Interval::whole(1);
    let mut sum = term;
    for k in 1.. {
        term = term.times(square).scaled(1, (2 * k - 1) * (2 * k));
        // From here on each term is less than half of the one before.
        if k >= 3 && term.high <= 1 {
            return sum.give_or_take(term);
        }
        sum = if k % 2 == 1 { sum.minus(term) } else { sum.plus(term) };
    }
    unreachable!()
}

/// An entry of the quarter table, with what the computation of it leaves open.
pub struct Entry {
    /// The whole number nearest 2^30 × cos(π × i / 4096).
    pub nearest: i64,
    /// At least how far the true value is from the nearest half, where another number would be as near.
    pub margin: f64,
    /// At most how far the computed middle is from the true value.
    pub error: f64,
}

/// Computes entry i, 0..2048; an interval that holds a half decides nothing and is an error.
fn entry_of(i: i128, pi: Interval) -> Result<Entry, String> {
    // 2^30 entries to 1 and 2^60 units to 1: 2^30 units to an entry.
    const UNIT: i128 = 1 << 30;
    let value = cosine_of(pi.scaled(i, 4096));
    let (low, high) = (value.low + UNIT / 2, value.high + UNIT / 2);
    let nearest = down(low, UNIT);
    let margin = (low - nearest * UNIT).min((nearest + 1) * UNIT - high);
    if margin <= 0 {
        return Err(format!(
            "entry {i}: the interval from {} to {} units of 2^-30 holds a half",
            value.low, value.high
        ));
    }
    Ok(Entry {
        nearest: nearest as i64,
        margin: margin as f64 / UNIT as f64,
        error: up(value.high - value.low, 2) as f64 / UNIT as f64,
    })
}

/// The quarter table with its margins, entries 0..2048.
pub fn quarter() -> Result<Vec<Entry>, String> {
    let pi = pi();
    (0..=2048).map(|i| entry_of(i, pi)).collect()
}

/// Entry i, 0..4096, of the table and its mirror image.
pub fn entry(i: u64) -> i64 {
    static TABLE: OnceLock<Vec<i64>> = OnceLock::new();
    let table = TABLE.get_or_init(|| match quarter() {
        Ok(entries) => entries.iter().map(|e| e.nearest).collect(),
        Err(why) => panic!("the quarter table: {why}"),
    });
    let i = i as usize;
    if i <= 2048 {
        table[i]
    } else {
        -table[4096 - i]
    }
}

/// The cosine of step k, in units of 2^-42.
pub fn cosine_of_step(k: u64) -> i64 {
    let k = k % (1 << 25);
    let k = if k > HALF_CIRCLE { (1 << 25) - k } else { k };
    let (i, s) = (k / 4096, (k % 4096) as i64);
    if s == 0 {
        return entry(i) * 4096;
    }
    entry(i) * (4096 - s) + entry(i + 1) * s
}

/// The cosine of step k, narrowed. Of 42 bits and a sign, it is exact as a double.
fn narrowed_cosine(k: u64) -> f32 {
    (cosine_of_step(k) as f64 / (1u64 << 42) as f64) as f32
}

/// The least step in 0..2^24 whose cosine is no more than a single in -1..1.
///
/// Solved for the step inside the one cell that can hold it.
pub fn step_of_cosine(c: f32) -> u64 {
    let bound = floor_scaled(c, 42);
    // The first node whose cosine is no more than the bound.
    let (mut above, mut node) = (0u64, 4096u64);
    if entry(0) as i128 * 4096 <= bound {
        return 0;
    }
    while node - above > 1 {
        let middle = (above + node) / 2;
        if entry(middle) as i128 * 4096 <= bound {
            node = middle;
        } else {
            above = middle;
        }
    }
    let (high, fall) = (entry(above) as i128 * 4096, (entry(above) - entry(node)) as i128);
    above * 4096 + up(high - bound, fall) as u64
}

/// The greatest whole number no more than x × 2^places, for a finite single x.
fn floor_scaled(x: f32, places: i32) -> i128 {
    let (negative, digits, exponent) = parts(x);
    let signed = if negative { -(digits as i128) } else { digits as i128 };
    let shift = exponent + places;
    if shift >= 0 {
        assert!(shift < 100, "{x} is too large to scale by 2^{places}");
        signed << shift
    } else {
        signed >> (-shift).min(127)
    }
}

/// A finite single as a sign, digits and a power of two.
fn parts(x: f32) -> (bool, u128, i32) {
    let bits = x.to_bits();
    let (field, fraction) = ((bits >> 23) & 0xff, (bits & 0x7f_ffff) as u128);
    assert!(field != 0xff, "{x} is not finite");
    match field {
        0 => (bits >> 31 == 1, fraction, -149),
        _ => (bits >> 31 == 1, fraction | 1 << 23, field as i32 - 150),
    }
}

/// The whole number nearest n / d, a half to the even one.
fn nearest_whole(n: u128, d: u128) -> u64 {
    let (whole, rest) = (n / d, n % d);
    let nearest = match (2 * rest).cmp(&d) {
        Ordering::Less => whole,
        Ordering::Equal => whole + whole % 2,
        Ordering::Greater => whole + 1,
    };
    nearest as u64
}

/// The whole number nearest |x| × 2^places / d, a half to the even one, for a finite single x.
fn nearest_scaled(x: f32, places: i32, d: u128) -> u64 {
    let (_, digits, exponent) = parts(x);
    let shift = exponent + places;
    if shift >= 0 {
        assert!(shift < 100, "{x} is too large to scale by 2^{places}");
        nearest_whole(digits << shift, d)
    } else {
        // Divided by more than it has digits, it is 0 all the same.
        nearest_whole(digits, d << (-shift).min(100))
    }
}

/// The step of a frequency: the whole number nearest 512 × |f|, a half to the even one.
pub fn step_of_frequency(f: f32) -> u64 {
    nearest_scaled(f, 9, 1)
}

/// The cosine of a frequency, narrowed.
pub fn cosine_of_frequency(f: f32) -> f32 {
    narrowed_cosine(step_of_frequency(f))
}

/// The frequency of a cosine in -1..1: its step over 512. A step is at most 2^24, so nothing is rounded.
pub fn frequency_of_cosine(c: f32) -> f32 {
    step_of_cosine(c) as f32 / 512.0
}

/// Point i, 0..1024, of the grid on which roots are looked for.
pub fn grid_point(i: usize) -> f64 {
    entry(4 * i as u64) as f64 / (1u64 << 30) as f64
}

/// The single nearest n / 2^places, ties to even; n has more than 24 bits or is exact.
fn nearest_single(n: u128, places: i32) -> f32 {
    let length = 128 - n.leading_zeros() as i32;
    let dropped = (length - 24).max(0);
    // At most 2^24, and times a power of two well inside the normal range: nothing is rounded again.
    nearest_whole(n, 1 << dropped) as f32 * 2f32.powi(dropped - places)
}

/// The angle of a step, k × π / 2^24, rounded once to single.
pub fn angle_of_step(k: u64) -> f32 {
    nearest_single(k as u128 * PI_SINGLE, 46)
}

/// The angle of a cosine in -1..1.
pub fn angle_of_cosine(c: f32) -> f32 {
    angle_of_step(step_of_cosine(c))
}

/// The step of an angle: the whole number nearest |angle| × 2^24 / π, a half to the even one.
pub fn step_of_angle(angle: f32) -> u64 {
    nearest_scaled(angle, 46, PI_SINGLE)
}

/// The cosine of an angle, narrowed.
pub fn cosine_of_angle(angle: f32) -> f32 {
    narrowed_cosine(step_of_angle(angle))
}

/// The gate: whether 10 × t^5 ≤ 1, for a double t in 0..1.
pub fn gate(t: f64) -> bool {
    assert!((0.0..=1.0).contains(&t), "the gate is asked about {t}");
    let bits = t.to_bits();
    let (field, fraction) = ((bits >> 52) as i64, bits & ((1 << 52) - 1));
    let (digits, exponent) = if field == 0 { (fraction, -1074) } else { (fraction | 1 << 52, field - 1075) };
    if digits == 0 {
        return true;
    }
    // 10 × digits^5 is no power of two, having the factor 5: it is at most 2^p where it has at most p bits.
    let mut product = vec![10u32];
    for _ in 0..5 {
        product = multiplied(&product, digits);
    }
    bit_length(&product) <= -5 * exponent
}

/// A number in digits of 32 bits, lowest first, times another.
fn multiplied(number: &[u32], by: u64) -> Vec<u32> {
    let mut product = vec![0u32; number.len() + 2];
    for (place, half) in [by as u32, (by >> 32) as u32].into_iter().enumerate() {
        let mut carry = 0u64;
        for (i, digit) in number.iter().copied().chain([0]).enumerate() {
            let sum = digit as u64 * half as u64 + product[i + place] as u64 + carry;
            product[i + place] = sum as u32;
            carry = sum >> 32;
        }
    }
    product
}

fn bit_length(number: &[u32]) -> i64 {
    match number.iter().rposition(|digit| *digit != 0) {
        Some(top) => 32 * top as i64 + 32 - number[top].leading_zeros() as i64,
        None => 0,
    }
}

#[cfg(test)]
mod tests {
    use super::*;

    #[test]
    fn marked_steps_and_cosines() {
        for (k, cosine) in [(0, 1), (1 << 23, 0), (1 << 24, -1), (1 << 25, 1)] {
            assert_eq!(cosine_of_step(k), cosine << 42);
        }
        for (c, k) in [(1.0, 0), (0.0, 1 << 23), (-0.0, 1 << 23), (-1.0, 1 << 24)] {
            assert_eq!(step_of_cosine(c), k);
        }
        assert_eq!(step_of_frequency(-65_536.0), 1 << 25);
    }

    /// Request E1's case, the halves around it, and the singles beside.
    #[test]
    fn frequencies_take_the_nearest_step() {
        for (f, k) in [(1.0, 0), (3.0, 2), (-3.0, 2), (5.0, 2), (7.0, 4), (16_777_215.0, 1 << 23)] {
            assert_eq!(step_of_frequency(f / 1024.0), k, "{f}/1024");
        }
        for (bits, k) in [(0x3a80_0001, 1), (0x3b3f_ffff, 1), (0x3b40_0001, 2), (1, 0)] {
            assert_eq!(step_of_frequency(f32::from_bits(bits)), k, "{bits:08x}");
        }
        for k in (0..=HALF_CIRCLE).step_by(61) {
            assert_eq!(step_of_frequency(k as f32 / 512.0), k);
        }
    }

    #[test]
    fn cosines_fall_and_lead_back_to_their_step() {
        let mut last = cosine_of_step(0);
        for k in 1..=HALF_CIRCLE {
            let now = cosine_of_step(k);
            assert!(now < last, "step {k}");
            last = now;
        }
        for k in (0..=HALF_CIRCLE).step_by(997) {
            let c = narrowed_cosine(k);
            let step = step_of_cosine(c);
            let bound = floor_scaled(c, 42);
            assert!(cosine_of_step(step) as i128 <= bound, "step {k}");
            assert!(step == 0 || cosine_of_step(step - 1) as i128 > bound, "step {k}");
        }
    }

    #[test]
    fn marked_gate() {
        assert!(gate(1.0 - 0.375));
        assert!(!gate(1.0 - 0.3125));
        assert!(gate(0.0));
        assert!(!gate(1.0));
        assert!(gate(5683158522975351.0 / (1u64 << 53) as f64));
        assert!(!gate(5683158522975352.0 / (1u64 << 53) as f64));
        assert!(gate(f64::from_bits(1)));
    }

    #[test]
    fn angles_are_rounded_once() {
        for k in (0..=HALF_CIRCLE).step_by(61) {
            let exact = k as f64 * PI_SINGLE as f64 / (1u64 << 46) as f64;
            assert_eq!(angle_of_step(k), exact as f32);
        }
        assert_eq!(angle_of_step(HALF_CIRCLE), std::f32::consts::PI);
        assert_eq!(step_of_angle(std::f32::consts::PI), HALF_CIRCLE);
        assert_eq!(step_of_angle(-std::f32::consts::PI), HALF_CIRCLE);
        assert_eq!(step_of_angle(f32::from_bits(1)), 0);
    }

    /// The one angle halfway between two steps, and the singles beside; then every step whose angle is below 2, and the first that
    /// does not come back.
    #[test]
    fn angles_take_the_nearest_step() {
        for (bits, k) in [(0x33c9_0fda, 0), (0x33c9_0fdb, 0), (0xb3c9_0fdb, 0), (0x33c9_0fdc, 1), (0x3449_0fdb, 1)] {
            assert_eq!(step_of_angle(f32::from_bits(bits)), k, "{bits:08x}");
        }
        for k in 0..=10_680_708 {
            assert_eq!(step_of_angle(angle_of_step(k)), k);
        }
        assert_eq!(step_of_angle(angle_of_step(10_680_709)), 10_680_708);
    }
}
