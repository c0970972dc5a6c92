//! Each door, and the Rust's function of its name or its chain, on inputs that both sides share.

use crate::chains;
use crate::given::{self, Given};
use crate::published;
use oracle::doors::made::DOORS;
use oracle::random::Random;
use oracle::reference::Rust;

/// A call of one side; the number picks an input.
pub type Run = Box<dyn FnMut(usize)>;

pub struct Pair {
    pub name: String,
    /// None where the Rust has no such function.
    pub rust: Option<Run>,
    pub ours: Run,
}

/// The door of a whole frame, which comes first; and beside it the doors of its stages in a chain.
pub const FRAME: &str = "code_frame";
pub const CHAIN: &str = "doors_of_a_frame";

/// The limits of lags: a logger's, and a gateway's, whose rows have it in their names.
const LOGGER: u32 = 142;
const GATEWAY: u32 = 82;

/// The doors, each on inputs of its own; those that take a limit of lags with each of the two.
pub fn pairs(rust: &Rust, seed: u64, only: Option<&str>) -> Vec<Pair> {
    let (mut first, mut rest) = (Vec::new(), Vec::new());
    for door in DOORS.iter().filter(|door| only.is_none_or(|only| only == door.name)) {
        let limits = if given::takes_a_limit(door) { &[LOGGER, GATEWAY][..] } else { &[LOGGER] };
        for limit in limits {
            let given = Given::new(door, *limit, &mut Random::new(seed, 0, 0));
            let pair = |name, ours| Pair { name, rust: published::run(rust, &given), ours };
            let name = if *limit == LOGGER { door.name.to_string() } else { format!("{}_{limit}", door.name) };
            let own = pair(name, given::run(&given));
            if door.name == FRAME {
                first.extend([own, pair(CHAIN.to_string(), chains::doors(&given))]);
            } else {
                rest.push(own);
            }
        }
    }
    first.extend(rest);
    first
}
