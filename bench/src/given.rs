//! The inputs of a door, drawn by the roles that the header gives its parameters, and laid out for a call of it.

use crate::pairs::Run;
use oracle::args::fail;
use oracle::code_rows::built_in;
use oracle::doors::made::{Argument, Door, Element, Many, Parameter, Way, G7231_DONE};
use oracle::makers;
use oracle::random::Random;
use oracle::reference::past;
use oracle::row_file::image;
use oracle::speech::loud_piece;
use std::hint::black_box;

/// Different inputs that a door is called on in turn.
pub const INPUTS: usize = 32;

/// What is drawn for a door: for each parameter that takes something, one list of values for each input.
pub struct Given {
    pub door: &'static Door,
    /// Of lags, where the door takes it.
    pub limit: u32,
    values: Vec<Vec<Vec<f64>>>,
}

impl Given {
    pub fn new(door: &'static Door, limit: u32, random: &mut Random) -> Given {
        let mut values = vec![Vec::new(); door.parameters.len()];
        for _ in 0..INPUTS {
            let mut taps = None;
            for (parameter, list) in door.parameters.iter().zip(&mut values) {
                if taken(parameter) {
                    let own = drawn(parameter, limit, random, &mut taps);
                    if own.len() != count(parameter) {
                        fail(&format!("{}: {} has no {} values", door.name, parameter.name, own.len()));
                    }
                    list.push(own);
                }
            }
        }
        Given { door, limit, values }
    }

    /// The values of a parameter, for each input, in a form of their own.
    fn each<T>(&self, name: &str, of: impl Fn(&[f64]) -> T) -> Vec<T> {
        match self.door.parameters.iter().position(|parameter| parameter.name == name) {
            Some(at) => self.values[at].iter().map(|values| of(values)).collect(),
            None => fail(&format!("{} has no parameter {name}", self.door.name)),
        }
    }

    pub fn lists(&self, name: &str) -> Vec<Vec<f32>> {
        self.each(name, |values| values.iter().map(|x| *x as f32).collect())
    }

    pub fn shorts(&self, name: &str) -> Vec<Vec<i16>> {
        self.each(name, |values| values.iter().map(|x| *x as i16).collect())
    }

    pub fn arrays<const N: usize>(&self, name: &str) -> Vec<[f32; N]> {
        self.each(name, |values| std::array::from_fn(|i| values[i] as f32))
    }

    pub fn singles(&self, name: &str) -> Vec<f32> {
        self.each(name, |values| values[0] as f32)
    }

    pub fn numbers(&self, name: &str) -> Vec<u32> {
        self.each(name, |values| values[0] as u32)
    }

    pub fn bytes<const N: usize>(&self, name: &str) -> Vec<[u8; N]> {
        self.each(name, |values| std::array::from_fn(|i| values[i] as u8))
    }

    pub fn sizes(&self, name: &str) -> Vec<usize> {
        self.each(name, |values| values[0] as usize)
    }
}

/// The role of a limit of lags.
const LIMIT: &str = "lag limit";

/// Whether a door takes a limit of lags.
pub fn takes_a_limit(door: &Door) -> bool {
    door.parameters.iter().any(|parameter| parameter.role == LIMIT)
}

/// Whether something is drawn for a parameter.
fn taken(parameter: &Parameter) -> bool {
    parameter.way != Way::Made && parameter.many != Many::Length
}

/// How many elements a parameter has in a valid call.
fn count(parameter: &Parameter) -> usize {
    match parameter.many {
        Many::Fixed(n) | Many::Slice(n) => n,
        Many::One | Many::Length => 1,
    }
}

type Ten = [f32; 10];

/// A likely value of a parameter in a call with such a limit of lags. Taps come in pairs, zeros and then poles of one filter.
fn drawn(parameter: &Parameter, limit: u32, random: &mut Random, taps: &mut Option<(Ten, Ten)>) -> Vec<f64> {
    let past = past(limit);
    let wide = |xs: &[f32]| xs.iter().map(|x| f64::from(*x)).collect();
    match parameter.role {
        "speech" => wide(&loud_piece(random, count(parameter))),
        "filter" => wide(&makers::filter(random)),
        "taps" => match taps.take() {
            Some((_, poles)) => wide(&poles),
            None => wide(&taps.insert(makers::taps(random)).0),
        },
        "cosines" => wide(&makers::cosines(random)),
        "frequencies" => wide(&makers::ordered(random)),
        "index" => vec![f64::from(random.bits() >> 8)],
        // the rows that the Rust has
        "code rows" => built_in().iter().map(|number| f64::from(*number)).collect(),
        "row file" => image(&[], built_in()).into_iter().map(f64::from).collect(),
        "band" => vec![random.below(3) as f64],
        "row index" => vec![random.below(256) as f64],
        "spacing" => vec![31.25],
        "choice" => vec![random.below(4) as f64],
        "half" => vec![random.below(2) as f64],
        LIMIT => vec![f64::from(limit)],
        "place" => vec![(past + 60 * random.below(4)) as f64],
        "pitch lag" => vec![(18 + random.below(past - 20)) as f64],
        "lag" => vec![(18 + random.below(past - 17)) as f64],
        "factor" => vec![0.25],
        "any" => (0..count(parameter)).map(|_| random.below(128) as f64).collect(),
        role => fail(&format!("bench draws nothing for the role {role}, which {} has", parameter.name)),
    }
}

/// What the calls of a door lend, kept for as long as they are made.
#[derive(Default)]
struct Lent(Vec<Vec<u64>>);

impl Lent {
    fn add(&mut self, mut buffer: Vec<u64>) -> *mut u64 {
        let start = buffer.as_mut_ptr();
        self.0.push(buffer);
        start
    }
}

/// The calls of a door in its bare form. Everything is laid out beforehand, so that a call is little more than the door's
/// own: one list of arguments is handed over, after the memories are filled again as they were drawn.
pub fn run(given: &Given) -> Run {
    let (door, mut lent) = (given.door, Lent::default());
    // The answers and the memories lie in the same places for every input, the memories side by side.
    let answers: Vec<*mut u64> = door.parameters.iter().map(|parameter| lent.add(room(parameter))).collect();
    let kept = |parameter: &&Parameter| parameter.way == Way::Kept;
    let memory = lent.add(door.parameters.iter().filter(kept).flat_map(room).collect());
    // What is the same for every input lies in one place, as the rows of a host do.
    let same = |at: usize| given.values[at].iter().all(|values| *values == given.values[at][0]);
    let mut calls: Vec<(Vec<Argument>, Vec<u64>)> = Vec::new();
    for i in 0..INPUTS {
        let mut held = Vec::new();
        let arguments = door.parameters.iter().enumerate().map(|(at, parameter)| {
            let values = given.values[at].get(i).map_or(&[][..], |values| values);
            match (parameter.way, parameter.many) {
                (_, Many::Length) => Argument { size: count(&door.parameters[at - 1]) },
                (Way::Made, _) => Argument { place: answers[at].cast() },
                (Way::Value, _) => value(parameter.element, values[0]),
                (Way::Read, _) if i > 0 && same(at) => calls[0].0[at],
                (Way::Read, _) => Argument { place: lent.add(bytes(parameter.element, values)).cast() },
                (Way::Kept, _) => {
                    let place = memory.wrapping_add(held.len()).cast();
                    held.extend(bytes(parameter.element, values));
                    Argument { place }
                }
            }
        });
        let arguments = arguments.collect();
        calls.push((arguments, held));
    }
    let bare = door.bare;
    // Each argument is what its parameter asks for, and what they point into lives as long as `lent`.
    for (arguments, held) in &calls {
        unsafe { memory.copy_from_nonoverlapping(held.as_ptr(), held.len()) };
        match unsafe { bare(arguments) } {
            G7231_DONE => {}
            status => fail(&format!("{} refuses what is drawn for it: status {status}", door.name)),
        }
    }
    // The status is kept as a machine word: with half of one on the stack the return would wait for it, longer than a
    // short door takes.
    if calls.iter().all(|(_, held)| held.is_empty()) {
        let calls: Vec<_> = calls.into_iter().map(|(arguments, _)| arguments).collect();
        return Box::new(move |i| {
            let (_, arguments) = (&lent, &calls[i]);
            black_box(unsafe { bare(arguments) } as usize);
        });
    }
    Box::new(move |i| {
        let (_, (arguments, held)) = (&lent, &calls[i]);
        unsafe { memory.copy_from_nonoverlapping(held.as_ptr(), held.len()) };
        black_box(unsafe { bare(arguments) } as usize);
    })
}

/// Room for what a parameter answers.
fn room(parameter: &Parameter) -> Vec<u64> {
    let one = match parameter.element {
        Element::Struct(size) => size.div_ceil(8),
        _ => 1,
    };
    vec![0; one * count(parameter)]
}

/// The elements as they lie in memory.
fn bytes(element: Element, values: &[f64]) -> Vec<u64> {
    let all: Vec<u8> = values
        .iter()
        .flat_map(|x| match element {
            Element::U8 => vec![*x as u8],
            Element::I16 => (*x as i16).to_ne_bytes().to_vec(),
            Element::U16 => (*x as u16).to_ne_bytes().to_vec(),
            Element::I32 => (*x as i32).to_ne_bytes().to_vec(),
            Element::U32 => (*x as u32).to_ne_bytes().to_vec(),
            Element::Size => (*x as usize).to_ne_bytes().to_vec(),
            Element::F32 => (*x as f32).to_ne_bytes().to_vec(),
            Element::F64 => x.to_ne_bytes().to_vec(),
            Element::Struct(size) => vec![*x as u8; size],
        })
        .collect();
    all.chunks(8).map(|own| (0..8).fold(0, |unit, i| unit | u64::from(*own.get(i).unwrap_or(&0)) << (8 * i))).collect()
}

fn value(element: Element, x: f64) -> Argument {
    match element {
        Element::U8 | Element::U16 | Element::U32 => Argument { number: x as u32 },
        Element::I16 | Element::I32 => Argument { signed: x as i32 },
        Element::Size => Argument { size: x as usize },
        Element::F32 => Argument { single: x as f32 },
        Element::F64 => Argument { double: x },
        Element::Struct(_) => fail("bench hands no struct over by value"),
    }
}
