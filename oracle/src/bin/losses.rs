//! Holds the program `losses` to a model of it, byte for byte.

use oracle::args::{fail, top, Args};
use oracle::loss_patterns::{aimed, counted, drawn, drawn_by_rule, Pattern};
use oracle::losses::Model;
use oracle::progress::Progress;
use std::fs::{self, File};
use std::io::{stdin, stdout, Read, Write};
use std::path::{Path, PathBuf};
use std::process::{exit, Command, Stdio};
use std::sync::atomic::{AtomicUsize, Ordering::Relaxed};
use std::sync::Mutex;
use std::thread;
use std::time::{Duration, Instant};

const HELP: &str = "\
losses: run the program `losses` of request E7 over loss patterns and compare all that it prints with a model of it

  --program PATH  the program (bin/losses in the folder that the variable G7231_FOLDER names, or in target/g7231)
  --count N       random patterns (1000), after those that are aimed at one fault each
  --seed S        the seed of the random patterns (1)
  --progress      show progress on standard error even where that is no terminal
  --plant         a check of losses itself: before it is compared, one bit is altered of the third line that the program prints
                  for a pattern, where it prints three
  --model         run no program: read a pattern on standard input and print what is to be printed
  --help          this text

The model is written from the request's sentences over the published decoder. The aimed patterns are the request's cases, every
byte of three lines altered, put in and left out, texts cut at every length, line feeds moved, doubled and gone, and those
around 10,000 lines. The program must end with status 0 and write nothing on standard error, whatever its arguments, and whether
its input is a pipe, a file or comes byte by byte. The model's own numbers are held to the bound for lost indices. First of all
10,000 lines are timed, the start of the program included: the best of 15 runs must stay below 100 ms.

At a difference the smallest part of the pattern that was found to show it is printed, and kept in target/losses.pattern.
Exit status: 0 no difference, or there is no Rust to compare with (it then prints `not compared`); 1 a difference, too slow, or
no program; 2 bad usage.
";

/// What a run of 10,000 lines may take, and how many runs there are.
const LONGEST: Duration = Duration::from_millis(100);
const RUNS: usize = 15;

/// How long a pattern is made smaller at most.
const SHRINKING: Duration = Duration::from_secs(5);

/// The bytes of a pattern that are shown.
const SHOWN: usize = 200;

fn main() {
    let mut args = Args::new(HELP);
    let program: Option<PathBuf> = args.value("--program");
    let count = args.value("--count").unwrap_or(1_000u64);
    let seed = args.value("--seed").unwrap_or(1u64);
    let (progress, plant, alone) = (args.flag("--progress"), args.flag("--plant"), args.flag("--model"));
    if alone && (program.is_some() || plant) {
        args.fail("--model runs no program");
    }
    if count > 10_000_000 {
        args.fail("a count is at most 10,000,000");
    }
    args.end();
    let model = match Model::new() {
        Ok(model) => model,
        Err(why) if alone => fail(&why),
        Err(why) => {
            println!("not compared: {why}");
            return;
        }
    };
    if alone {
        return print(&model);
    }
    let program = program.unwrap_or_else(|| {
        let folder = std::env::var_os("G7231_FOLDER").filter(|name| !name.is_empty());
        folder.map_or_else(|| top().join("target/g7231"), PathBuf::from).join("bin/losses")
    });
    if !program.is_file() {
        fail(&format!("there is no {}", program.display()));
    }
    // A bare name would be looked for on the path.
    let program = fs::canonicalize(&program).unwrap_or_else(|why| fail(&format!("{}: {why}", program.display())));
    let trial = Trial { model, program, plant };
    // first, since thousands of runs of a program that is too slow would take long
    let took = trial.time();
    let counts = trial.patterns(seed, count, Progress::new(progress));
    trial.other_ways();
    println!(
        "{} aimed patterns and {count} random ones of seed {seed}: no difference in {} lines, {} of them lost; {} patterns refused",
        counts.aimed, counts.lines, counts.lost, counts.refused
    );
    println!("10,000 lines: {:.1} ms, the best of {RUNS} runs", took.as_secs_f64() * 1e3);
}

/// What should be printed for the pattern on standard input. A megabyte is far beyond the last line that counts, so that an
/// endless input ends.
fn print(model: &Model) {
    let mut text = Vec::new();
    let read = stdin().lock().take(1 << 20).read_to_end(&mut text);
    read.unwrap_or_else(|why| fail(&format!("standard input: {why}")));
    let wrote = stdout().write_all(&model.answer(&text).text());
    wrote.unwrap_or_else(|why| fail(&format!("standard output: {why}")));
}

/// How a program is given its input.
#[derive(Clone, Copy)]
enum Way<'a> {
    Pipe,
    BytesOneByOne,
    File(&'a Path),
    Arguments(&'a [&'a str]),
}

struct Trial {
    model: Model,
    program: PathBuf,
    plant: bool,
}

/// What all patterns had.
struct Counts {
    aimed: usize,
    lines: usize,
    lost: usize,
    refused: usize,
}

impl Trial {
    /// Every pattern, on as many threads as there are processors. The first that differs ends the program.
    fn patterns(&self, seed: u64, count: u64, progress: Progress) -> Counts {
        let aimed = aimed();
        let total = aimed.len() + count as usize;
        let pattern = |at: usize| match aimed.get(at) {
            Some(Pattern { name, text }) => Pattern { name: name.clone(), text: text.clone() },
            None => drawn(seed, (at - aimed.len()) as u64),
        };
        let (next, lowest) = (AtomicUsize::new(0), AtomicUsize::new(total));
        let [lines, lost, refused] = [0; 3].map(AtomicUsize::new);
        let progress = Mutex::new(progress);
        let work = || loop {
            let at = next.fetch_add(1, Relaxed);
            // those before a difference are still tried, so that the same one is told on any number of threads
            if at >= lowest.load(Relaxed) {
                return;
            }
            let text = pattern(at).text;
            if self.differs(&text, Way::Pipe).is_some() {
                lowest.fetch_min(at, Relaxed);
                return;
            }
            let answer = self.model.answer(&text);
            lines.fetch_add(answer.rows.len(), Relaxed);
            lost.fetch_add(answer.rows.iter().filter(|row| row.arrivals == 0).count(), Relaxed);
            refused.fetch_add(usize::from(answer.refused.is_some()), Relaxed);
            if let Ok(mut progress) = progress.try_lock() {
                progress.show(|| format!("{at} of {total} patterns"));
            }
        };
        let threads = thread::available_parallelism().map_or(1, |n| n.get());
        thread::scope(|scope| (0..threads).for_each(|_| drop(scope.spawn(work))));
        progress.into_inner().unwrap().clear();
        let first = lowest.load(Relaxed);
        if first < total {
            let Pattern { name, text } = pattern(first);
            println!("pattern {first} ({name}) shows a difference");
            self.tell(&text);
        }
        Counts { aimed: aimed.len(), lines: lines.into_inner(), lost: lost.into_inner(), refused: refused.into_inner() }
    }

    /// Arguments, a file, and an input that comes in pieces.
    fn other_ways(&self) {
        let few = b"010203 +\n000000 -\n000000 +\n000000 +\n00000";
        let name = std::env::temp_dir().join(format!("losses.{}", std::process::id()));
        let all = drawn_by_rule();
        let file = |text: &[u8]| {
            fs::write(&name, text).unwrap_or_else(|why| fail(&format!("{}: {why}", name.display())));
            let said = self.differs(text, Way::File(&name));
            let _ = fs::remove_file(&name);
            said
        };
        let words: [&[&str]; 4] = [&["--help"], &["--version", "-h"], &["/dev/null"], &["", "-", "12"]];
        let mut said = [file(few), file(&all), file(b"")].into_iter().flatten().collect::<Vec<_>>();
        said.extend(words.into_iter().filter_map(|words| self.differs(few, Way::Arguments(words))));
        said.extend([&few[..], &few[..27], b"0"].into_iter().filter_map(|text| self.differs(text, Way::BytesOneByOne)));
        if let Some(first) = said.first() {
            println!("{first}");
            exit(1);
        }
    }

    /// The shortest of several runs over 10,000 lines.
    fn time(&self) -> Duration {
        let [drawn, counted] = [drawn_by_rule(), counted(10_000)].map(|text| {
            let once = |_| {
                let began = Instant::now();
                let ended = run(&self.program, &text, Way::Pipe);
                let took = began.elapsed();
                ended.unwrap_or_else(|why| fail(&why));
                took
            };
            (0..RUNS).map(once).min().unwrap_or_default()
        });
        let took = drawn.max(counted);
        if took >= LONGEST {
            fail(&format!("10,000 lines take {took:?}, the best of {RUNS} runs, and may take {LONGEST:?}"));
        }
        took
    }

    /// How the program's answer differs from the model's, if it does.
    fn differs(&self, text: &[u8], way: Way) -> Option<String> {
        let told = match way {
            Way::Pipe => String::new(),
            Way::BytesOneByOne => "input that comes byte by byte: ".into(),
            Way::File(_) => "input that is a file: ".into(),
            Way::Arguments(words) => format!("arguments {words:?}: "),
        };
        let answer = self.model.answer(text);
        if let Some(at) = answer.beyond_the_bound() {
            return Some(format!("{told}line {}: the model's own number is beyond the bound for lost indices", at + 1));
        }
        let mut printed = match run(&self.program, text, way) {
            Ok(printed) => printed,
            Err(why) => return Some(told + &why),
        };
        if self.plant {
            plant(&mut printed);
        }
        let wanted = answer.text();
        if printed == wanted {
            return None;
        }
        let (has, want) = (pieces(&printed), pieces(&wanted));
        let at = has.iter().zip(&want).take_while(|(one, other)| one == other).count();
        let show = |lines: &[&[u8]]| lines.get(at).map_or("nothing".into(), |line| format!("`{}`", shown(line)));
        Some(format!("{told}line {} of what is printed is {}, and should be {}", at + 1, show(&has), show(&want)))
    }

    /// Tells the smallest part of a pattern that shows a difference, and ends the program.
    fn tell(&self, text: &[u8]) -> ! {
        let part = self.smallest(text);
        match self.differs(&part, Way::Pipe) {
            Some(how) => println!("{how}"),
            None => println!("what is printed is not the same each time"),
        }
        println!("the smallest part found that shows it has {} bytes: {}", part.len(), shown(&part));
        let kept = top().join("target/losses.pattern");
        let wrote = fs::create_dir_all(top().join("target")).and_then(|()| fs::write(&kept, &part));
        match wrote {
            Ok(()) => println!("replay: {} < {}", self.program.display(), kept.display()),
            Err(why) => println!("it could not be kept in {}: {why}", kept.display()),
        }
        exit(1)
    }

    /// Takes pieces out of a text as long as it shows a difference: first whole lines, many at once, and then bytes.
    fn smallest(&self, text: &[u8]) -> Vec<u8> {
        let until = Instant::now() + SHRINKING;
        let still = |pieces: &[&[u8]]| self.differs(&pieces.concat(), Way::Pipe).is_some();
        let lines = fewest(pieces(text), until, &still).concat();
        fewest(lines.chunks(1).collect(), until, &still).concat()
    }
}

/// Takes pieces out, half of them at once, then a quarter, down to one, as often as that helps and there is time.
fn fewest<'a>(mut pieces: Vec<&'a [u8]>, until: Instant, still: &dyn Fn(&[&'a [u8]]) -> bool) -> Vec<&'a [u8]> {
    let mut many = pieces.len().div_ceil(2);
    while many > 0 {
        let (mut at, mut helped) = (0, false);
        while at < pieces.len() {
            if Instant::now() >= until {
                return pieces;
            }
            let end = pieces.len().min(at + many);
            let without = [&pieces[..at], &pieces[end..]].concat();
            if still(&without) {
                (pieces, helped) = (without, true);
            } else {
                at = end;
            }
        }
        if many > 1 {
            many = many.div_ceil(2);
        } else if !helped {
            many = 0;
        }
    }
    pieces
}

/// A text cut after each line feed.
fn pieces(text: &[u8]) -> Vec<&[u8]> {
    text.split_inclusive(|byte| *byte == b'\n').collect()
}

/// A text as bash's $'..' has it, cut where it is long.
fn shown(text: &[u8]) -> String {
    let start = text[..text.len().min(SHOWN)].escape_ascii();
    format!("{start}{}", if text.len() > SHOWN { " .." } else { "" })
}

/// Alters the last bit of the third line's last digit.
fn plant(printed: &mut [u8]) {
    let end = printed.iter().enumerate().filter(|(_, byte)| **byte == b'\n').nth(2);
    if let Some((at, _)) = end {
        printed[at - 1] ^= 1;
    }
}

/// What a program prints for an input, or what is wrong with how it ended.
fn run(program: &Path, text: &[u8], way: Way) -> Result<Vec<u8>, String> {
    let why = |what: std::io::Error| format!("{}: {what}", program.display());
    let mut command = Command::new(program);
    if let Way::Arguments(words) = way {
        command.args(words);
    }
    let input = match way {
        Way::File(name) => Stdio::from(File::open(name).map_err(why)?),
        _ => Stdio::piped(),
    };
    let mut child = command.stdin(input).stdout(Stdio::piped()).stderr(Stdio::piped()).spawn().map_err(why)?;
    let pipe = child.stdin.take();
    let ended = thread::scope(|scope| {
        // A program that has seen enough stops reading: what cannot be written to it is no fault.
        let feed = move || {
            let Some(mut pipe) = pipe else { return };
            if matches!(way, Way::BytesOneByOne) {
                for byte in text {
                    if pipe.write_all(&[*byte]).is_err() {
                        return;
                    }
                    thread::sleep(Duration::from_millis(1));
                }
            } else {
                let _ = pipe.write_all(text);
            }
        };
        // what a pipe holds is written before the program is listened to
        if text.len() <= 32_768 && matches!(way, Way::Pipe) {
            feed();
        } else {
            scope.spawn(feed);
        }
        child.wait_with_output()
    });
    let ended = ended.map_err(why)?;
    if !ended.status.success() {
        return Err(format!("it ends with {}, and not with status 0", ended.status));
    }
    if !ended.stderr.is_empty() {
        return Err(format!("it writes on standard error: {}", shown(&ended.stderr)));
    }
    Ok(ended.stdout)
}
