//! Decodes every index once, from the resting set, and compares with the Rust.

use oracle::args::{fail, Args};
use oracle::doors::made::g7231_decode_lsp_freq;
use oracle::makers::resting;

const HELP: &str = "\
indices: decode all 16,777,216 indices from the resting set and compare each set with the Rust's, bit for bit

  --help   this text

Exit status: 0 all agree, or there is nothing to compare (it then prints `not compared`); 1 one differs; 2 bad usage.
";

fn main() {
    Args::new(HELP).end();
    let rust = match oracle::both::rust() {
        Ok(both) => both.published,
        Err(why) => {
            println!("not compared: {why}");
            return;
        }
    };
    let resting = resting();
    for index in 0..1u32 << 24 {
        let want = (rust.decode_lsp_freq)(index, &resting);
        let mut set = [0.0f32; 10];
        let status = unsafe { g7231_decode_lsp_freq(index, &resting, &mut set) };
        if status != 0 || set.map(f32::to_bits) != want.map(f32::to_bits) {
            fail(&format!("index {index}: status {status}, {set:?}, and the Rust's set is {want:?}"));
        }
    }
    println!("16777216 of 16777216 indices agree");
}
