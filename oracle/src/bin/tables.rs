//! Compares the numbers of the tables with the Rust's.

use oracle::args::{fail, top, Args};
use oracle::doors::resting_set;
use oracle::makers::resting;
use oracle::sources;

const HELP: &str = "\
tables: compare every number of the tables in crates/spec_tables with the published Rust's

  --folder DIR   where the tables are (crates/spec_tables/src of the repository around this folder)
  --help         this text

The tables are constant or static arrays of the Rust's names in the folder's .rt files. The codebooks of the three bands stand one
after the other as LSP_CODEBOOK. The set that g7231_resting_set gives is held to the Rust's too.
Exit status: 0 all agree, or the Rust is not at hand (it then prints `not compared`); 1 one differs; 2 bad usage.
";

fn main() {
    let mut args = Args::new(HELP);
    let folder = args.value("--folder").unwrap_or_else(|| top().join("crates/spec_tables/src"));
    args.end();
    if let Err(why) = oracle::both::rust() {
        println!("not compared: {why}");
        return;
    }
    let found = sources::tables(&folder).unwrap_or_else(|why| fail(&why));
    let (mut agree, mut all, mut faults) = (0, 0, 0);
    for (name, wanted) in rust_tables() {
        all += wanted.len();
        let [table] = found.iter().filter(|table| table.name == name).collect::<Vec<_>>()[..] else {
            println!("{name} does not stand once in {}", folder.display());
            faults += 1;
            continue;
        };
        if table.numbers.len() != wanted.len() {
            println!("{name}: {} numbers, and {} are wanted", table.numbers.len(), wanted.len());
            faults += 1;
        }
        for (i, (has, want)) in table.numbers.iter().zip(&wanted).enumerate() {
            if has == want {
                agree += 1;
            } else {
                println!("{name}: number {i} is {has}, and the Rust's is {want}");
            }
        }
    }
    if resting_set() != resting() {
        println!("g7231_resting_set gives {:?}, and the Rust's set is {:?}", resting_set(), resting());
        faults += 1;
    }
    println!("{agree} of {all} numbers agree");
    if agree != all || faults > 0 {
        fail("the tables are not the Rust's");
    }
}

/// Each table's name and its numbers.
fn rust_tables() -> Vec<(&'static str, Vec<i64>)> {
    #[cfg(rust)]
    {
        use oracle::spec_tables as rust;
        let all: [(&str, &[i16]); 7] = [
            ("LSP_CODEBOOK", oracle::code_rows::built_in()),
            ("LSP_BAND_INFO", &rust::LSP_BAND_INFO),
            ("LSP_DC_PREDICTED_FREQ_Q15", &rust::LSP_DC_PREDICTED_FREQ_Q15),
            ("LPC_HAMMING_WINDOW_Q15", &rust::LPC_HAMMING_WINDOW_Q15),
            ("LPC_BINOMIAL_LAG_WINDOW_Q15", &rust::LPC_BINOMIAL_LAG_WINDOW_Q15),
            ("PERCEPTUAL_ZERO_Q15", &rust::PERCEPTUAL_ZERO_Q15),
            ("PERCEPTUAL_POLE_Q15", &rust::PERCEPTUAL_POLE_Q15),
        ];
        all.map(|(name, list)| (name, list.iter().map(|n| i64::from(*n)).collect())).into()
    }
    #[cfg(not(rust))]
    Vec::new()
}
