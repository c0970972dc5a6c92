//! Codes calls frame by frame, with the library and with the Rust, and compares after every frame.

use oracle::args::Args;
use oracle::chain::SPAN;
use oracle::given;
use oracle::operations::{named, Operation};
use oracle::progress::Progress;
use oracle::random::Random;
use oracle::reference::Rust;
use oracle::shape::shorts;
use oracle::speech::call;
use oracle::words::Reader;
use std::process::exit;

const HELP: &str = "\
calls: code calls of whole-number speech, frame after frame, with the library's door and with the Rust, each of them over
memories of its own from its own new coder, and compare every answer and every memory after every frame

  --seed S      the seed of the first call (1); the next has the next seed
  --calls N     how many calls (1)
  --frames N    frames of a call, 30 ms each (1000)
  --spacing HZ  the spacing of the stability check, 0 to 400 (31.25)
  --plant F     a check of calls itself: before frame F one number of the library's memories is altered
  --progress    show progress on standard error even where that is no terminal
  --help        this text

The Rust is a chain of the published functions as request E2 of document 02 has it, with document 01's rules in place of cos,
acos and log10. Sixty zeros stand before a call's first sample.
Exit status: 0 all frames agree, or there is no Rust to compare with (it then prints `not compared`); 1 one differs; 2 bad
usage.
";

/// What a run of calls is made of.
struct Run {
    rust: Rust,
    start: &'static Operation,
    code: &'static Operation,
    spacing: f32,
    plant: Option<usize>,
}

fn main() {
    let mut args = Args::new(HELP);
    let seed = args.value("--seed").unwrap_or(1u64);
    let calls = args.value("--calls").unwrap_or(1u64);
    let frames = args.value("--frames").unwrap_or(1000usize);
    let spacing = args.value("--spacing").unwrap_or(31.25f32);
    let plant: Option<usize> = args.value("--plant");
    let progress = args.flag("--progress");
    if calls == 0 || frames == 0 || frames > 1_000_000 {
        args.fail("there is at least one call, of 1 to 1,000,000 frames");
    }
    if !(0.0..=400.0).contains(&spacing) {
        args.fail("a spacing is 0 to 400 Hz");
    }
    if plant.is_some_and(|frame| frame >= frames) {
        args.fail("there is no such frame to plant a fault before");
    }
    args.end();
    let rust = match oracle::both::rust() {
        Ok(both) => both.ruled,
        Err(why) => {
            println!("not compared: {why}");
            return;
        }
    };
    let operation = |name| named(name).unwrap_or_else(|why| panic!("{why}"));
    let run = Run { rust, start: operation("new_coder"), code: operation("code_frame"), spacing, plant };
    let mut progress = Progress::new(progress);
    for (done, seed) in (seed..).take(calls as usize).enumerate() {
        let said = run.call(seed, frames, |frame| {
            progress.show(|| format!("call {} of {calls}: frame {frame} of {frames}", done + 1));
        });
        progress.clear();
        match said {
            Ok(()) => println!("seed {seed}: {frames} frames in a row agree, memories included"),
            Err(why) => {
                println!("seed {seed}: {why}");
                exit(1);
            }
        }
    }
}

impl Run {
    /// One call, or where the sides part.
    fn call(&self, seed: u64, frames: usize, mut watch: impl FnMut(usize)) -> Result<(), String> {
        let mut samples = vec![0; 60];
        samples.extend(call(seed, 240 * frames + 60));
        let mut random = Random::new(seed, self.code.number, 0);
        let [mut ours, mut theirs] = self.both(self.start, [&[], &[]], &mut random)?;
        // A frame's answer opens with the memories after it.
        let memories = ours.len();
        for frame in 0..frames {
            watch(frame);
            if self.plant == Some(frame) {
                // The first line frequency twice or half as high: a slip in the other memories is soon forgotten.
                ours[0] ^= 1 << 23;
            }
            let own = shorts(&samples[240 * frame..240 * frame + SPAN]);
            let given = [&ours, &theirs]
                .map(|side| [&side[..memories], &[SPAN as u32], &own, &[self.spacing.to_bits()]].concat());
            [ours, theirs] = self.both(self.code, [&given[0], &given[1]], &mut random).map_err(|why| {
                format!("frame {frame}: {why}\nreplay: differ --replay \"{}\"", given::line(self.code, &given[0]))
            })?;
        }
        Ok(())
    }

    /// The library's answer and the Rust's, each to what it is given; or how they differ. Nothing of a call is refused.
    fn both(&self, operation: &Operation, given: [&[u32]; 2], random: &mut Random) -> Result<[Vec<u32>; 2], String> {
        let mut frame = operation.frame(given[0], random);
        let (status, (wanted_status, wanted)) = (frame.call(), operation.whole_answer(&self.rust, given[1]));
        if (status, wanted_status) != (0, 0) {
            return Err(format!("status {status}, and the Rust's is {wanted_status}"));
        }
        if let Some(trespass) = frame.trespass(false) {
            return Err(trespass);
        }
        let gave = frame.gave();
        let (mut own, mut other) = (Reader::new(&gave), Reader::new(&wanted));
        for field in &operation.gives {
            let sides = [&mut own, &mut other].map(|side| given::hex(side.words(field.kind.words())));
            if sides[0] != sides[1] {
                return Err(format!("{} differs: {} and not {}", field.name, sides[0], sides[1]));
            }
        }
        Ok([gave, wanted])
    }
}
