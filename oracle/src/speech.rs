//! Speech, made: pulses at a pitch or noise, through three resonators.
//!
//! A piece is drawn from the numbers that the rest of its input is drawn from; the stored answers fix it. A call is made
//! of whole numbers alone, so that no cosine of any C library is in its samples; every tenth of a second it has other
//! resonators, another loudness, and voice or none.

use crate::random::Random;

/// So many samples, the largest of them 1 in magnitude.
pub fn piece(random: &mut Random, n: usize) -> Vec<f64> {
    let lag = 18 + random.below(125);
    let voiced = random.between(0.0, 1.0);
    let stages: Vec<(f64, f64)> =
        (0..3).map(|_| (random.between(0.5, 0.97), random.between(0.05, std::f64::consts::PI))).collect();
    let mut memory = [[0.0f64; 2]; 3];
    let mut out = Vec::with_capacity(n);
    for t in 0..n + 150 {
        let mut x = (1.0 - voiced) * random.between(-1.0, 1.0) + if t % lag == 0 { 6.0 * voiced } else { 0.0 };
        for ((radius, angle), past) in stages.iter().zip(&mut memory) {
            x += 2.0 * radius * angle.cos() * past[0] - radius * radius * past[1];
            *past = [x, past[0]];
        }
        if t >= 150 {
            out.push(x);
        }
    }
    let peak = out.iter().fold(1e-9, |m: f64, x| m.max(x.abs()));
    out.iter().map(|x| x / peak).collect()
}

/// The same at the level of 16-bit samples.
pub fn loud_piece(random: &mut Random, n: usize) -> Vec<f32> {
    piece(random, n).into_iter().map(|x| (8_000.0 * x).round() as f32).collect()
}

/// One is 2^14 in the coefficients of the resonators.
const ONE: i64 = 1 << 14;
/// Samples before something else is said.
const SOUND: usize = 800;

struct Resonator {
    b1: i64,
    b2: i64,
    past: [i64; 2],
}

impl Resonator {
    /// The radius and the cosine of the angle are drawn, and not the angle.
    fn tune(&mut self, random: &mut Random) {
        let radius = ONE * 70 / 100 + random.below((ONE * 27 / 100) as usize) as i64;
        let cosine = random.below(2 * ONE as usize) as i64 - ONE;
        self.b1 = 2 * radius * cosine / ONE;
        self.b2 = radius * radius / ONE;
    }

    fn step(&mut self, x: i64) -> i64 {
        let y = x + (self.b1 * self.past[0] - self.b2 * self.past[1]) / ONE;
        // Far above any sample: it only keeps the products small.
        let y = y.clamp(-(1 << 24), 1 << 24);
        self.past = [y, self.past[0]];
        y
    }
}

/// So many 16-bit samples of a call, fixed by the seed.
pub fn call(seed: u64, count: usize) -> Vec<i16> {
    let mut random = Random::new(seed, 118, 0);
    let mut stages = [(); 3].map(|()| Resonator { b1: 0, b2: 0, past: [0; 2] });
    let (mut voiced, mut loudness, mut lag, mut next_pulse) = (true, 0, 60, 0);
    let mut all = Vec::with_capacity(count);
    for t in 0..count {
        if t % SOUND == 0 {
            stages.iter_mut().for_each(|stage| stage.tune(&mut random));
            voiced = !random.once_in(3);
            loudness = 50 + random.below(1000) as i64;
        }
        let noise = random.below(2001) as i64 - 1000;
        let pulse = voiced && t >= next_pulse;
        if pulse {
            lag = (lag + random.below(7) - 3).clamp(20, 140);
            next_pulse = t + lag;
        }
        let mut x = if voiced { 8000 * i64::from(pulse) + noise / 16 } else { noise };
        for stage in &mut stages {
            x = stage.step(x);
        }
        all.push((x * loudness / 4096).clamp(-32_768, 32_767) as i16);
    }
    all
}

#[cfg(test)]
mod tests {
    use super::*;

    #[test]
    fn a_call_is_neither_silence_nor_a_wall() {
        for seed in 1..20 {
            let samples = call(seed, 48_000);
            let loud = samples.iter().filter(|x| x.unsigned_abs() > 100).count();
            let cut = samples.iter().filter(|x| x.unsigned_abs() >= 32_767).count();
            assert!(loud > 12_000 && cut < 4_800, "seed {seed}: {loud} loud, {cut} cut");
            assert_eq!(samples[..24_000], call(seed, 24_000));
        }
    }
}
