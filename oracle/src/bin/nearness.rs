//! Shows that the quarter table has the whole numbers nearest the true cosines.

use oracle::args::{fail, top, Args};
use oracle::{rule, sources};

const HELP: &str = "\
nearness: show that each entry of the quarter table is the whole number nearest 2^30 x cos(pi x i / 4096)

  --folder DIR   where the table is (crates/quarter/src of the repository around this folder)
  --help         this text

The table is the one constant array of 2,049 numbers in the folder's .rt files. The true values are computed by
interval arithmetic in whole numbers, so that the bound of the error is computed and not estimated. It prints the
smallest distance of a true value from a half, where another number would be as near, and the largest error.
Exit status: 0 every entry is the nearest; 1 one is not, or an interval holds a half; 2 bad usage.
";

fn main() {
    let mut args = Args::new(HELP);
    let folder = args.value("--folder").unwrap_or_else(|| top().join("crates/quarter/src"));
    args.end();
    let found = sources::tables(&folder).unwrap_or_else(|why| fail(&why));
    let quarter: Vec<_> = found.iter().filter(|table| table.numbers.len() == 2049).collect();
    let [table] = quarter[..] else {
        fail(&format!("{}: {} constant or static arrays of 2,049 numbers, and one is wanted", folder.display(), quarter.len()));
    };
    let entries = rule::quarter().unwrap_or_else(|why| fail(&why));
    let mut wrong = 0;
    for (i, (has, entry)) in table.numbers.iter().zip(&entries).enumerate() {
        if *has != entry.nearest {
            println!("{}: entry {i} is {has}, and {} is nearest", table.name, entry.nearest);
            wrong += 1;
        }
    }
    let margin = entries.iter().map(|entry| entry.margin).fold(f64::INFINITY, f64::min);
    let error = entries.iter().map(|entry| entry.error).fold(0.0, f64::max);
    println!(
        "{}: {} of {} entries are the nearest whole numbers; a true value is at least {margin:.3e} from a half, computed to {error:.1e}",
        table.name,
        entries.len() - wrong,
        entries.len()
    );
    if wrong > 0 {
        fail("the quarter table is not document 01's");
    }
}
