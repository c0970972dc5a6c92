//! A frame and a new coder in words: the chain over document 01's operations as `reference` has them, refusals included; and a
//! frame over lent rows, as request E5 has it.

use crate::chain::{self, Coded, Coder, Eleven, Stages, Subframe, Ten};
use crate::reference::{self, Answer, Rust};
use crate::words::{Reader, Words};

/// The limit of lags that a frame has.
const LIMIT: u32 = 142;

/// The Rust's functions behind document 01's refusals.
struct Refusing<'a> {
    rust: &'a Rust,
    /// The rows that are quantised over, where they are not the built-in ones.
    rows: Option<&'a [i16]>,
}

/// The same over the built-in rows.
fn refusing(rust: &Rust) -> Refusing<'_> {
    Refusing { rust, rows: None }
}

impl Refusing<'_> {
    fn ask(&self, operation: fn(&Rust, Reader) -> Answer, given: Words) -> Answer {
        operation(self.rust, Reader::new(&given.0))
    }

    /// An answer whose first words are singles.
    fn singles<const N: usize>(&self, operation: fn(&Rust, Reader) -> Answer, given: Words) -> Result<[f32; N], u32> {
        Ok(self.ask(operation, given)?.reader().singles())
    }
}

fn given() -> Words {
    Words::default()
}

impl Stages for Refusing<'_> {
    fn lpc_analysis(&self, window: &[f32]) -> Result<Eleven, u32> {
        self.singles(reference::lpc_analysis, given().samples(window))
    }

    fn lpc_to_lsp(&self, a: &Eleven) -> Result<Ten, u32> {
        self.singles(reference::lpc_to_lsp, given().singles(a))
    }

    fn lsp_cosines_to_freq(&self, cosines: &Ten) -> Result<Ten, u32> {
        self.singles(reference::lsp_cosines_to_freq, given().singles(cosines))
    }

    fn lsp_freq_to_cosines(&self, freq: &Ten) -> Result<Ten, u32> {
        self.singles(reference::lsp_freq_to_cosines, given().singles(freq))
    }

    fn quantise_lsp_freq(&self, p: &Ten, prev: &Ten) -> Result<(u32, Ten), u32> {
        let answer = match self.rows {
            None => self.ask(reference::quantise_lsp_freq, given().singles(p).singles(prev)),
            Some(rows) => self.ask(reference::quantise_lsp_freq_in, given().shorts(rows).singles(p).singles(prev)),
        }?;
        let mut answer = answer.reader();
        Ok((answer.number(), answer.singles()))
    }

    fn enforce_lsp_stability(&self, cosines: &Ten, spacing_hz: f32) -> Result<Ten, u32> {
        self.singles(reference::enforce_lsp_stability, given().singles(cosines).single(spacing_hz))
    }

    fn interpolate_lsp(&self, choice: usize, prev: &Ten, cur: &Ten) -> Result<Ten, u32> {
        self.singles(reference::interpolate_lsp, given().word(choice).singles(prev).singles(cur))
    }

    fn lsp_to_lpc(&self, lsp: &Ten) -> Result<Eleven, u32> {
        self.singles(reference::lsp_to_lpc, given().singles(lsp))
    }

    fn weighting_taps(&self, a: &Eleven) -> Result<(Ten, Ten), u32> {
        let answer = self.ask(reference::weighting_taps, given().singles(a))?;
        let mut answer = answer.reader();
        Ok((answer.singles(), answer.singles()))
    }

    fn weight_subframe(
        &self,
        x: &[f32],
        wz: &Ten,
        wp: &Ten,
        x_mem: &mut Ten,
        f_mem: &mut Ten,
    ) -> Result<Subframe, u32> {
        let memories = given().samples(x).singles(wz).singles(wp).singles(x_mem).singles(f_mem);
        let answer = self.ask(reference::weight_subframe, memories)?;
        let mut answer = answer.reader();
        (*x_mem, *f_mem) = (answer.singles(), answer.singles());
        Ok(answer.singles())
    }

    fn open_loop_pitch(&self, wbuf: &[f32], half: usize) -> Result<u32, u32> {
        Ok(self.ask(reference::open_loop_pitch, given().number(LIMIT).samples(wbuf).word(half))?.reader().number())
    }

    fn harmonic_noise_shaping(&self, wbuf: &[f32], place: usize, l_ol: u32) -> Result<(u32, f32), u32> {
        let speech = given().number(LIMIT).samples(wbuf).word(place).number(l_ol);
        let answer = self.ask(reference::harmonic_noise_shaping, speech)?;
        let mut answer = answer.reader();
        Ok((answer.number(), answer.single()))
    }
}

fn coder(given: &mut Reader) -> Coder {
    Coder {
        set: given.singles(),
        lines: given.singles(),
        x_mem: given.singles(),
        f_mem: given.singles(),
        weighted: given.singles(),
    }
}

fn memories(coder: &Coder) -> Words {
    let Coder { set, lines, x_mem, f_mem, weighted } = coder;
    Words::default().singles(set).singles(lines).singles(x_mem).singles(f_mem).singles(weighted)
}

pub fn new_coder(rust: &Rust, _: Reader) -> Answer {
    Ok(memories(&chain::new_coder(&refusing(rust))?))
}

pub fn code_frame(rust: &Rust, given: Reader) -> Answer {
    coded(&refusing(rust), given)
}

pub fn code_frame_in(rust: &Rust, mut given: Reader) -> Answer {
    let rows = reference::lent_rows(&mut given)?;
    coded(&Refusing { rust, rows: Some(&rows) }, given)
}

fn coded(stages: &Refusing, mut given: Reader) -> Answer {
    let mut coder = coder(&mut given);
    let (samples, spacing_hz) = (given.shorts(), given.single());
    let Coded { index, pitch, shaping, a } = chain::code_frame(stages, &mut coder, &samples, spacing_hz)?;
    let lags = shaping.map(|(lag, _)| lag);
    let factors = shaping.map(|(_, factor)| factor);
    Ok(memories(&coder).number(index).numbers(&pitch).numbers(&lags).singles(&factors).singles(a.as_flattened()))
}

#[cfg(all(test, rust))]
mod tests {
    use super::*;
    use crate::code_rows::{built_in, worked};
    use crate::hash::Hash;
    use crate::makers::resting;

    const SPACING: f32 = 31.25;

    fn rust() -> Rust {
        crate::both::rust().unwrap().ruled
    }

    fn frame(of: impl Fn(i64) -> i64) -> Vec<i16> {
        (0..360).map(|i| of(i) as i16).collect()
    }

    /// Noise of whole numbers; and pulses every 40 samples.
    fn noise() -> Vec<i16> {
        frame(|i| (7 * i * i + 13 * i) % 2001 - 1000)
    }

    fn pulses() -> Vec<i16> {
        let pulse = |i| [9000, -4000].get(i as usize % 40).copied().unwrap_or(0);
        frame(|i| pulse(i) + 37 * i % 61 - 30)
    }

    /// A frame after a coder: its index, its lags, the bits of its shaping, and the hash of its filters.
    type Told = (u32, [u32; 2], [(u32, u32); 4], u64);

    fn told(coder: &mut Coder, samples: &[i16]) -> Told {
        let coded = chain::code_frame(&refusing(&rust()), coder, samples, SPACING).ok().unwrap();
        let mut hash = Hash::new();
        hash.singles(coded.a.as_flattened());
        (coded.index, coded.pitch, coded.shaping.map(|(lag, factor)| (lag, factor.to_bits())), hash.0)
    }

    fn started() -> Coder {
        chain::new_coder(&refusing(&rust())).ok().unwrap()
    }

    #[test]
    fn the_cases_of_the_request_are_met() {
        let off = (18, 0);
        let mut coder = started();
        let silence = [0; 360];
        assert_eq!(told(&mut coder, &silence), (11_767_742, [18, 18], [off; 4], 0x3415_a8fa_87a4_55f7));
        assert_eq!(told(&mut coder, &silence), (11_505_325, [18, 18], [off; 4], 0xfe3f_543f_156f_196b));
        assert_eq!(told(&mut started(), &noise()), (12_876_221, [92, 44], [off; 4], 0x4e2a_4253_37d8_5ab9));
        let shaping = [off, (40, 0x3e9f_a854), (40, 0x3ea0_0000), (40, 0x3ea0_0000)];
        assert_eq!(told(&mut started(), &pulses()), (14_390_718, [40, 40], shaping, 0xeead_d5cc_0934_357e));
        let square = frame(|i| if i / 7 % 2 == 0 { -32_768 } else { 32_767 });
        let shaping = [off, (28, 0x3ea0_0000), (28, 0x3ea0_0000), (28, 0x3e9f_ed04)];
        assert_eq!(told(&mut started(), &square), (7_613_739, [28, 28], shaping, 0x87a2_e4df_2bfd_42a0));
    }

    #[test]
    fn a_filter_without_lines_has_the_decoded_set_quantised() {
        let rust = rust();
        let stages = refusing(&rust);
        let mut a = [0.0; 11];
        (a[0], a[2]) = (1.0, 1.0);
        assert_eq!(stages.lpc_to_lsp(&a), Err(7));
        assert_eq!(chain::lines(&stages, &a, &resting()), Ok((0, resting())));
        let mut coder = started();
        chain::code_frame(&stages, &mut coder, &noise(), 400.0).ok().unwrap();
        assert_eq!(chain::lines(&stages, &a, &coder.set).unwrap().0, 12_812_705);
        // and not the lines that were last held apart
        let lines = stages.lsp_cosines_to_freq(&coder.lines).unwrap();
        assert_eq!(stages.quantise_lsp_freq(&lines, &coder.set).unwrap().0, 2_524_349);
    }

    /// A frame of noise after a coder, over rows where some are lent.
    fn answered(coder: &Coder, rows: Option<&[i16]>) -> Result<Vec<u32>, u32> {
        let frame = memories(coder).shorts(&noise()).single(SPACING);
        let answer = match rows {
            None => code_frame(&rust(), frame.reader()),
            Some(rows) => code_frame_in(&rust(), given().shorts(rows).numbers(&frame.0).reader()),
        };
        answer.map(|words| words.0)
    }

    #[test]
    fn a_frame_is_coded_over_the_rows_that_are_lent() {
        let mut coder = started();
        assert_eq!(answered(&coder, Some(built_in())), answered(&coder, None));
        assert_ne!(answered(&coder, Some(worked())), answered(&coder, None));
        assert_eq!(answered(&coder, Some(&built_in()[1..])), Err(1));
        // rows that no load passes can bring a set to where the next stage refuses it
        coder.set = [65_536.0; 10];
        assert!(answered(&coder, Some(&[8_192; 2_560])).is_ok());
        assert_eq!(answered(&coder, Some(&[32_767; 2_560])), Err(6));
    }
}
