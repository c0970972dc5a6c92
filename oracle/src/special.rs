//! The inputs that are special to each operation; some go through a list in order, by the turn.

use crate::code_rows::built_in;
use crate::likely;
use crate::makers::*;
use crate::random::Random;
use crate::reference::past;
use crate::rule;
use crate::shape::{bits, word, Parts};
use std::f64::consts::PI;
use std::sync::OnceLock;

/// Frequencies that are refused: with 5, and with 6.
pub const UNFIT: [u32; 5] = [0x7fc0_0000, 0x7f80_0000, 0xff80_0000, 0x4780_0001, 0xc788_b800];

/// Windows whose prediction error all but vanishes: tones, steps, alternation, one sample.
pub fn lpc_analysis(random: &mut Random, _: u64) -> Parts {
    let scale = 2f32.powi(random.below(200) as i32 - 140);
    let pace = *random.pick(&[0.0, PI, PI / 2.0, PI / 3.0, 0.01, 1e-4, 3.1]);
    let one = random.below(180);
    let shape = random.below(3);
    let window: Vec<f32> = (0..180)
        .map(|t| match shape {
            0 => ((pace * t as f64).cos() as f32) * scale,
            1 => {
                if t == one {
                    scale
                } else {
                    0.0
                }
            }
            _ => {
                if t >= one {
                    scale
                } else {
                    -scale
                }
            }
        })
        .collect();
    vec![bits(&window)]
}

/// Filters with roots on the grid or none, and such as are nearly a line set.
pub fn lpc_to_lsp(random: &mut Random, turn: u64) -> Parts {
    let mut a = [0.0f32; 11];
    a[0] = 1.0;
    match turn % 4 {
        // One or two plain coefficients.
        0 => {
            for _ in 0..1 + random.below(2) {
                a[1 + random.below(10)] = random.below(9) as f32 / 4.0 - 1.0;
            }
        }
        // Symmetric or not, so that one side has a root where the other has.
        1 => {
            let sign = if random.once_in(2) { 1.0 } else { -1.0 };
            for i in 1..=5 {
                a[i] = random.between(-1.5, 1.5) as f32;
                a[11 - i] = sign * a[i];
            }
        }
        // Even powers alone: the middle of the grid is a root of both sides.
        2 => {
            for i in 1..=5 {
                a[2 * i] = random.between(-0.8, 0.8) as f32;
            }
        }
        _ => {
            a = filter(random);
            let at = 1 + random.below(10);
            a[at] *= *random.pick(&[0.0, -1.0, 1.001, 1.5, 1e30]);
        }
    }
    vec![bits(&a)]
}

/// Every node of the table as a cosine, with its neighbours, in order; then the cosines of random steps.
pub fn lsp_cosines_to_freq(random: &mut Random, turn: u64) -> Parts {
    let words = (0..10).map(|i| {
        let place = turn * 10 + i;
        let (cosine, side) = if place < 3 * 4097 {
            (rule::entry(place / 3) * 4096, place % 3)
        } else {
            (rule::cosine_of_step(random.next() % (rule::HALF_CIRCLE + 1)), random.next() % 3)
        };
        beside((cosine as f64 / (1u64 << 42) as f64) as f32, side)
    });
    vec![words.collect()]
}

/// The single itself, the one below its magnitude or the one above.
fn beside(x: f32, side: u64) -> u32 {
    match side {
        0 => x.to_bits(),
        1 => x.to_bits().wrapping_add(1),
        _ if x == 0.0 => 0x8000_0001,
        _ => x.to_bits() - 1,
    }
}

/// Every node of the table as a frequency, with its neighbours, in order; then the frequencies of random steps, and those halfway between
/// two.
pub fn lsp_freq_to_cosines(random: &mut Random, turn: u64) -> Parts {
    let words = (0..10).map(|i| {
        let place = turn * 10 + i;
        let (halves, side) = if place < 3 * 8193 {
            (place / 3 * 8192, place % 3)
        } else {
            let most = *random.pick(&[32u64, 8192, 1 << 21, 1 << 24, 1 << 25, 1 << 26]);
            (random.next() % (most + 1), random.next() % 3)
        };
        let sign = if random.once_in(4) { 0x8000_0000 } else { 0 };
        beside(halves as f32 / 1024.0, side) ^ sign
    });
    vec![words.collect()]
}

/// Sets at which two code rows are about as near.
pub fn quantise_lsp_freq(random: &mut Random, turn: u64) -> Parts {
    tied(built_in(), random, turn)
}

/// The same for other rows.
pub fn tied(rows: &[i16], random: &mut Random, turn: u64) -> Parts {
    #[cfg(rust)]
    return crate::ties::sets(rows, random, turn);
    #[cfg(not(rust))]
    {
        // There is nothing to go through rows with.
        let _ = (rows, turn);
        likely::quantise_lsp_freq(random)
    }
}

/// Sets at the bound and a little beside the resting set; indices at their bound, alone and with a set that is refused.
pub fn decode_lsp_freq(random: &mut Random, turn: u64) -> Parts {
    let shift = *random.pick(&[0.0f32, 8.0, -8.0, 0.5, 16_384.0, -16_384.0]);
    let mut prev = resting().map(|f| f + shift);
    if random.once_in(3) {
        prev = prev.map(|f| f + random.between(-1.0, 1.0) as f32);
    }
    let mut prev = bits(&prev);
    if turn % 3 == 0 {
        prev[random.below(10)] = *random.pick(&UNFIT);
    }
    vec![if turn % 2 == 0 { index_limit(random) } else { index(random) }, prev]
}

pub fn split_lsp_index(random: &mut Random, _: u64) -> Parts {
    vec![index_limit(random)]
}

/// Bytes that are all the least or the greatest, or but for one.
pub fn combine_lsp_index(random: &mut Random, _: u64) -> Parts {
    let mut bands = [*random.pick(&[0, 255]); 3];
    bands[random.below(3)] = *random.pick(&[0, 1, 127, 128, 254, 255]);
    vec![bands.to_vec()]
}

/// Lines that crowd, cross, lie on the ends, stand apart by about the spacing, or have angles all but halfway between two steps.
pub fn enforce_lsp_stability(random: &mut Random, turn: u64) -> Parts {
    if turn % 5 == 4 {
        let mut set = [0; 10].map(|_| *random.pick(all_but_halfway()));
        set.sort_by(|a, b| b.total_cmp(a));
        return vec![bits(&set), vec![0.1f32.to_bits()]];
    }
    let hz = f32::from_bits(spacing(random)[0]);
    let gap = 2.0 * PI * hz as f64 / 8000.0;
    let mut angle = *random.pick(&[0.0, 1e-4, 0.3, 1.5, 2.9, PI - 1e-3]);
    let mut set = [0.0f32; 10];
    for line in &mut set {
        *line = angle.cos() as f32;
        angle += match turn % 5 {
            0 => gap * random.between(0.99998, 1.00002),
            1 => gap * random.between(0.0, 1.2),
            2 => random.between(-0.2, 0.3),
            _ => random.between(0.0, 1e-3),
        };
        angle = angle.clamp(0.0, PI);
    }
    vec![bits(&set), vec![hz.to_bits()]]
}

/// Cosines whose angles, which are from 2 up, lie within 1/10,000 of a step of halfway between two: there a single's own rounding
/// takes an angle so far from its step.
fn all_but_halfway() -> &'static [f32] {
    static FOUND: OnceLock<Vec<f32>> = OnceLock::new();
    FOUND.get_or_init(|| {
        // In units of 2^-46, of which such an angle has a whole number.
        let step = rule::PI_SINGLE as u64;
        let halfway = |k: &u64| {
            let angle = (rule::angle_of_step(*k) as f64 * (1u64 << 46) as f64) as u64;
            (angle % step * 2).abs_diff(step) < step / 5_000
        };
        // The cosine of a step narrows to a single of that step or to one just below, of the next.
        let cosine = |k: u64| {
            let c = (rule::cosine_of_step(k) as f64 / (1u64 << 42) as f64) as f32;
            [c, f32::from_bits(c.to_bits() - 1)].into_iter().find(|c| rule::step_of_cosine(*c) == k)
        };
        (10_680_708..rule::HALF_CIRCLE).filter(halfway).filter_map(cosine).collect()
    })
}

/// Zeros of both signs against values that a choice above 2 may not copy.
pub fn interpolate_lsp(random: &mut Random, _: u64) -> Parts {
    let mut set = || -> Vec<u32> {
        (0..10)
            .map(|_| {
                *random.pick(&[0, 0x8000_0000, 1, 0x8000_0001, 0x3f80_0000, 0xbf80_0000, 0x7f7f_ffff, 0xff7f_ffff])
            })
            .collect()
    };
    let (prev, cur) = (set(), set());
    vec![word(*random.pick(&[0, 1, 2, 3, 4, 5, usize::MAX, 1 << 32])), prev, cur]
}

/// Cosines outside -1..1, up to overflow.
pub fn lsp_to_lpc(random: &mut Random, _: u64) -> Parts {
    let scale = *random.pick(&[0.0, 1.0, 2.0, 1e3, 1e7, 1e12, 1e38]);
    vec![bits(&cosines(random).map(|c| c * scale))]
}

/// Coefficients so small that a tap is subnormal, or as large as can be.
pub fn weighting_taps(random: &mut Random, _: u64) -> Parts {
    let scale = *random.pick(&[1e-38, 1e-40, 1e-44, 1e37]);
    vec![bits(&filter(random).map(|a| a * scale))]
}

/// Filters that grow, up to overflow, and sparse input.
pub fn weight_subframe(random: &mut Random, _: u64) -> Parts {
    let (wz, wp) = taps(random);
    let growth = *random.pick(&[1.0, 3.0, 30.0, 1e4]);
    vec![
        bits(&sparse(random, 60)),
        bits(&wz),
        bits(&wp.map(|w| w * growth)),
        memory(random, 10),
        bits(&sparse(random, 10)),
    ]
}

/// Small whole numbers, so that ratios tie; two lags whose ratios stand in the factor of 1.25 dB or tie, all but a
/// rounding; bad samples where none is looked at; a limit that is none with nothing right beside it.
pub fn open_loop_pitch(random: &mut Random, turn: u64) -> Parts {
    let (limit, fits) = lag_limit(random);
    if limit != fits && turn % 2 == 0 {
        return vec![vec![limit], vec![0x7fc0_0000; random.below(4)], word(*random.pick(&[2, 5, usize::MAX]))];
    }
    let half = random.below(2);
    let start = past(fits) + 120 * half;
    let end = start + 120;
    let mut wbuf = sparse(random, end + 10);
    match turn % 6 {
        0 => wbuf[end + random.below(10)] = f32::NAN,
        1 => wbuf[random.below(4)] = *random.pick(&[f32::NAN, f32::INFINITY, 3.0]),
        2 => wbuf = (0..end).map(|_| random.below(3) as f32 - 1.0).collect(),
        3 => {}
        _ => wbuf = two_lags(random, fits as usize, start, end),
    }
    vec![vec![limit], bits(&wbuf), word(half)]
}

/// A pulse with two pulses before it: the only two lags that count, their ratios about as far apart as decides.
fn two_lags(random: &mut Random, most: usize, start: usize, end: usize) -> Vec<f32> {
    let first = 18 + random.below((most - 18).min(80));
    let second = first + 1 + random.below(most - first);
    let factor = if random.once_in(3) { 1.0 } else { 1.333521432163324 };
    let at = start + random.below(6);
    // With a pulse of 1 and v before it, lag one has v^2 / (1 + v^2) and lag two w^2 / (1 + v^2 + w^2).
    let v = random.between(0.2, 0.9) as f32;
    let all = 1.0 + (v as f64).powi(2);
    let wanted = factor * (v as f64).powi(2) / all;
    let w = (wanted * all / (1.0 - wanted)).sqrt() as f32;
    let w = f32::from_bits(w.to_bits().wrapping_add_signed(random.below(9) as i32 - 4));
    let mut wbuf = vec![0.0; end];
    (wbuf[at], wbuf[at - first], wbuf[at - second]) = (1.0, v, w);
    wbuf
}

/// Small whole numbers, subframes that repeat the past, and such as stand at the gate; bad samples where none is looked
/// at; a limit that is none with nothing right beside it.
pub fn harmonic_noise_shaping(random: &mut Random, turn: u64) -> Parts {
    let (limit, fits) = lag_limit(random);
    if limit != fits && turn % 2 == 0 {
        let place = *random.pick(&[0, 84, 144, usize::MAX]);
        return vec![vec![limit], vec![0x7fc0_0000; random.below(4)], word(place), vec![*random.pick(&[0, 17, 143])]];
    }
    let place = past(fits) + random.below(10);
    let own = lag(random, 18, fits);
    if turn % 4 == 3 {
        return at_the_gate(random, (limit, fits), place);
    }
    let end = place + 60 + random.below(3);
    let mut wbuf = if turn % 2 == 0 { sparse(random, end) } else { signal(random, end) };
    let back = own[0] as usize;
    let share = random.between(0.2, 1.2) as f32;
    if turn % 3 != 0 {
        for n in place..place + 60 {
            wbuf[n] = if turn % 2 == 0 { wbuf[n - back] } else { wbuf[n - back] * share + wbuf[n] };
        }
        for _ in 0..random.below(4) {
            wbuf[place + random.below(60)] += random.below(9) as f32 - 4.0;
        }
    }
    if turn % 7 == 0 {
        wbuf.push(f32::NAN);
        if place > past(fits) {
            wbuf[place - past(fits) - 1] = f32::INFINITY;
        }
    }
    vec![vec![limit], bits(&wbuf), word(place), own]
}

/// A pulse and its echo give C = 1; more samples bring E to where 1 - C/E is the last double that passes the gate, or a
/// few roundings beside it.
fn at_the_gate(random: &mut Random, (limit, fits): (u32, u32), place: usize) -> Parts {
    const LAST: f64 = 5_683_158_522_975_351.0 / (1u64 << 53) as f64;
    let back = 60 + random.below(past(fits) - 62);
    let mut wbuf = vec![0.0f32; place + 60];
    (wbuf[place], wbuf[place - back]) = (1.0, 1.0);
    let energy = 1.0 / (1.0 - LAST);
    let mut left = f64::from_bits(energy.to_bits().wrapping_add_signed(random.below(21) as i64 - 10)) - 1.0;
    for n in place + 1..place + 9 {
        // As much as fits, a little less at first, so that many such sums differ.
        let most = if n < place + 4 { random.between(0.1, 0.9) } else { 1.0 };
        let sample = (left * most).max(0.0).sqrt() as f32;
        let sample =
            if (sample as f64).powi(2) > left { f32::from_bits(sample.to_bits().saturating_sub(1)) } else { sample };
        wbuf[n] = sample;
        left -= (sample as f64).powi(2);
    }
    let l_ol = (back as i32 + random.below(7) as i32 - 3).clamp(18, fits as i32) as u32;
    vec![vec![limit], bits(&wbuf), word(place), vec![l_ol]]
}

/// Filters that grow, up to overflow, and sparse input; lags at and next to the bounds of each limit; a number that is none at
/// and next to where the history is in use, and in all of what is not.
pub fn run_combined(random: &mut Random, turn: u64) -> Parts {
    let growth = *random.pick(&[0.0, 1.0, 3.0, 30.0, 1e6]);
    let input = sparse(random, 60);
    let mut parts = likely::run(random, growth, input);
    let [limit, _, _, _, p_hist, .., lag, _] = &mut parts[..] else { panic!("a filter has eleven parts") };
    match turn % 4 {
        0 => lag[0] = bound_of_lags(random),
        1 => p_hist[*random.pick(&[84, 85, 86, 144])] = likely::unlooked_at(random),
        2 => {
            lag[0] = *random.pick(&[82, 83, 84, 85]);
            if limit[0] == 82 {
                p_hist[85..].iter_mut().for_each(|place| *place = likely::unlooked_at(random));
            }
        }
        _ => {}
    }
    if turn % 8 == 0 && limit[0] != 142 && limit[0] != 82 {
        (lag[0], p_hist[0]) = (3, 0x7fc0_0000);
    }
    parts
}

/// At and next to a bound of the lags of the filter.
fn bound_of_lags(random: &mut Random) -> u32 {
    *random.pick(&[0, 17, 18, 60, 82, 83, 84, 85, 86, 142, 143, 145, 146, 0xffff_ffff])
}

/// The bare filter, and filters that grow; lags at and next to the bounds of each limit.
pub fn combined_impulse_response(random: &mut Random, turn: u64) -> Parts {
    let growth = *random.pick(&[0.0, 3.0, 30.0, 1e6]);
    let limit = lag_limit(random);
    let mut parts = likely::combined(random, limit, growth);
    if turn % 3 == 0 {
        parts[1..4].iter_mut().for_each(|part| part.fill(0));
        parts[1][0] = 1f32.to_bits();
    }
    if turn % 4 == 1 {
        parts[4] = vec![bound_of_lags(random)];
    }
    parts
}

/// Any number.
pub fn new_filter_memory(random: &mut Random, _: u64) -> Parts {
    vec![vec![if random.once_in(2) { random.bits() } else { random.below(512) as u32 }]]
}

/// There is nothing to be special.
pub fn new_coder(random: &mut Random, _: u64) -> Parts {
    likely::new_coder(random)
}

/// Spacings at, next to and beyond their bounds; memories that are refused, alone and with such a spacing; memories so large
/// that the weighting overflows, and so small that it is subnormal; a wrong length with nothing right beside it.
pub fn code_frame(random: &mut Random, turn: u64) -> Parts {
    let mut parts = likely::code_frame(random);
    let [set, lines, x_mem, f_mem, weighted, samples, spacing] = &mut parts[..] else {
        panic!("a frame has seven parts")
    };
    let bound = *random.pick(&[0.0f32, -0.0, 400.0, 31.25]);
    let far = *random.pick(&[f32::NAN, f32::INFINITY, -1.0, 401.0]);
    match turn % 6 {
        0 => spacing[0] = beside(bound, random.next() % 3),
        1 => (set[random.below(10)], spacing[0]) = (*random.pick(&UNFIT), far.to_bits()),
        2 => (lines[random.below(10)], spacing[0]) = (*random.pick(&UNFIT), far.to_bits()),
        3 => {
            let scale = *random.pick(&[1e30f32, 1e37, 3e37, 1e-38, 1e-44]);
            for memory in [x_mem, f_mem] {
                *memory = bits(&sparse(random, 10).into_iter().map(|x| x * scale).collect::<Vec<_>>());
            }
        }
        4 => {
            let any = [0x7f7f_ffff, 0xff7f_ffff, 1, 0x8000_0001, 0x8000_0000, 0x7f80_0000, 0x7fc0_0000];
            for _ in 0..1 + random.below(3) {
                let at = *random.pick(&[0, 1, 2, 3, 4, 100, 143, 144]);
                weighted[at] = *random.pick(&any);
            }
        }
        _ => {
            [set, lines, x_mem, f_mem, weighted, spacing].into_iter().for_each(|part| part.fill(0x7fc0_0000));
            samples.resize(*random.pick(&[0, 1, 359, 361]), 0);
        }
    }
    parts
}
