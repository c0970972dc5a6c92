//! What inputs are made of: line sets, cosines, filters and their taps, signals, lags.

use crate::code_rows::built_in;
use crate::random::Random;
use crate::shape::bits;
use crate::speech::piece;
use std::f64::consts::PI;

/// The resting set of the line frequencies, as the Rust publishes it.
pub fn resting() -> [f32; 10] {
    #[cfg(rust)]
    return crate::spec_tables::LSP_DC_PREDICTED_FREQ_Q15.map(f32::from);
    #[cfg(not(rust))]
    return crate::doors::resting_set();
}

/// Ten frequencies that rise.
pub fn ordered(random: &mut Random) -> [f32; 10] {
    let whole = random.once_in(3);
    let spread = *random.pick(&[0.0, 50.0, 400.0, 1500.0]);
    let mut set: [f64; 10] = if random.once_in(3) {
        std::array::from_fn(|_| random.between(0.0, 32_768.0))
    } else {
        resting().map(|f| f as f64 + random.between(-spread, spread))
    };
    set.sort_by(f64::total_cmp);
    set.map(|f| if whole { f.round() as f32 } else { f as f32 })
}

/// A set that the line could have arrived at.
pub fn decoded(random: &mut Random) -> [f32; 10] {
    decoded_over(built_in(), random)
}

/// The same over other rows.
pub fn decoded_over(rows: &[i16], random: &mut Random) -> [f32; 10] {
    #[cfg(rust)]
    {
        let mut set = resting();
        for _ in 0..random.below(4) {
            set = crate::own_rows::decode_lsp_freq(rows, random.bits(), &set);
        }
        set
    }
    #[cfg(not(rust))]
    {
        let _ = rows;
        ordered(random)
    }
}

/// Ten cosines that fall.
pub fn cosines(random: &mut Random) -> [f32; 10] {
    ordered(random).map(|f| (PI * f as f64 / 32_768.0).cos() as f32)
}

/// A stable filter of ten coefficients: five resonators.
pub fn filter(random: &mut Random) -> [f32; 11] {
    let mut a = [0.0f64; 11];
    a[0] = 1.0;
    let widest = *random.pick(&[0.5, 0.9, 0.99]);
    for stage in 0..5 {
        let (radius, angle) = (random.between(0.1, widest), random.between(0.0, PI));
        let (b1, b2) = (-2.0 * radius * angle.cos(), radius * radius);
        for i in (1..=2 * stage + 2).rev() {
            a[i] += b1 * a[i - 1] + if i >= 2 { b2 * a[i - 2] } else { 0.0 };
        }
    }
    a.map(|x| x as f32)
}

/// Its weighting taps, near enough.
pub fn taps(random: &mut Random) -> ([f32; 10], [f32; 10]) {
    let a = filter(random);
    (
        std::array::from_fn(|k| a[k + 1] * 0.9f32.powi(k as i32 + 1)),
        std::array::from_fn(|k| a[k + 1] * 0.5f32.powi(k as i32 + 1)),
    )
}

/// A signal: most often speech-like, else a tone, noise, a repeated pattern, a step or few pulses.
fn raw(random: &mut Random, n: usize) -> Vec<f64> {
    match random.below(12) {
        0 => {
            let (pace, phase) = (random.between(0.0, PI), random.between(0.0, PI));
            (0..n).map(|t| (pace * t as f64 + phase).sin()).collect()
        }
        1 => (0..n).map(|_| random.between(-1.0, 1.0)).collect(),
        2 => {
            let pattern: Vec<f64> = (0..18 + random.below(125)).map(|_| random.between(-1.0, 1.0)).collect();
            (0..n).map(|t| pattern[t % pattern.len()]).collect()
        }
        3 => {
            let from = random.below(n + 1);
            (0..n).map(|t| if t >= from { 1.0 } else { 0.0 }).collect()
        }
        4 => sparse(random, n).into_iter().map(f64::from).collect(),
        _ => piece(random, n),
    }
}

/// The same at some scale.
pub fn signal(random: &mut Random, n: usize) -> Vec<f32> {
    let raw = raw(random, n);
    let scale = *random.pick(&[1.0, 1.0, 0.1, 32_768.0, 32_767.0, 1e-3, 1e-38, 1e-44, 1e30]);
    let whole = scale == 32_767.0;
    raw.into_iter().map(|x| if whole { (x * scale).round() as f32 } else { (x * scale) as f32 }).collect()
}

/// The same or a square wave as samples of 16 bits, from silence to what is cut off at full scale.
pub fn short_signal(random: &mut Random, n: usize) -> Vec<i16> {
    let raw = if random.once_in(8) {
        let half = 1 + random.below(80);
        (0..n).map(|t| if t / half % 2 == 0 { -1.0 } else { 1.0 }).collect()
    } else {
        raw(random, n)
    };
    let scale = *random.pick(&[0.0, 1.0, 100.0, 1_000.0, 8_000.0, 8_000.0, 32_768.0, 1e6]);
    raw.into_iter().map(|x| (x * scale).round() as i16).collect()
}

/// A few small whole numbers among zeros: sums are exact and ratios tie.
pub fn sparse(random: &mut Random, n: usize) -> Vec<f32> {
    let mut out = vec![0.0; n];
    if n > 0 {
        for _ in 0..1 + random.below(12) {
            out[random.below(n)] = random.below(21) as f32 - 10.0;
        }
    }
    out
}

/// A limit of lags, a logger's half the time and else a gateway's; now and then no such number, with the limit that the rest
/// of the call then fits.
pub fn lag_limit(random: &mut Random) -> (u32, u32) {
    let fits = if random.below(9) < 5 { 142 } else { 82 };
    let others = [0, 1, 18, 81, 83, 84, 85, 100, 141, 143, 144, 145, 338, 398, 0x8000_0052, 0xffff_ffff];
    (if random.once_in(10) { *random.pick(&others) } else { fits }, fits)
}

/// A pitch lag within bounds; now and then another number.
pub fn lag(random: &mut Random, low: u32, high: u32) -> Vec<u32> {
    vec![low + random.below((high - low + 1) as usize) as u32]
}

/// An index; now and then any word.
pub fn index(random: &mut Random) -> Vec<u32> {
    vec![if random.once_in(8) { random.bits() } else { random.bits() >> 8 }]
}

/// Words at and next to the bound of an index, a length byte on top, and the longest.
pub fn index_limit(random: &mut Random) -> Vec<u32> {
    let taken = [0, 1, 0x0001_0203, 0x00ff_fffe, 0x00ff_ffff];
    let refused = [0x0100_0000, 0x0100_0001, 0x0301_0203, 0x8000_0000, 0xff00_0000, 0xff01_0203, 0xffff_ffff];
    vec![if random.once_in(2) { *random.pick(&taken) } else { *random.pick(&refused) }]
}

pub fn spacing(random: &mut Random) -> Vec<u32> {
    let named = [31.25f32, 62.5, 0.0, -0.0, 400.0, 0.1, 2.546479];
    let any = random.between(0.0, 400.0) as f32;
    vec![if random.once_in(3) { any } else { *random.pick(&named) }.to_bits()]
}

/// What a stage keeps of samples of 16 bits.
pub fn short_memory(random: &mut Random, n: usize) -> Vec<u32> {
    bits(&short_signal(random, n).into_iter().map(f32::from).collect::<Vec<_>>())
}

pub fn memory(random: &mut Random, n: usize) -> Vec<u32> {
    let empty = random.once_in(6);
    bits(&signal(random, n).iter().map(|x| if empty { 0.0 } else { *x }).collect::<Vec<_>>())
}
