//! The library's doors as the header has them, and a call of one with everything it is lent under watch.

use crate::random::Random;
use crate::shape::{Field, Kind};

/// What a door is, the doors as functions, and the table of them: doors/make has them from include/g7231.h.
#[allow(clippy::all)]
pub mod made {
    include!(concat!(env!("OUT_DIR"), "/doors.rs"));
}

use made::{Argument, Door, Element, Many, Parameter, Way};

/// What stands in the words of a parameter; none for the length of a list, which stands with the list.
fn kind(parameter: &Parameter) -> Option<Kind> {
    Some(match (parameter.way, parameter.element, parameter.many) {
        (_, _, Many::Length) => return None,
        (Way::Value, Element::F32, Many::One) => Kind::Single,
        (_, Element::Size, Many::One) => Kind::Word,
        (_, Element::U32, Many::One) => Kind::Number,
        (_, Element::F32, Many::One) => Kind::Singles(1),
        (_, Element::F32, Many::Fixed(n)) => Kind::Singles(n),
        (_, Element::F64, Many::Fixed(n)) => Kind::Doubles(n),
        (_, Element::U32, Many::Fixed(n)) => Kind::Numbers(n),
        (_, Element::U8, Many::Fixed(n)) => Kind::Bytes(n),
        (Way::Read, Element::F32, Many::Slice(_)) => Kind::Samples,
        (Way::Read | Way::Made, Element::I16, Many::Slice(_)) => Kind::Shorts,
        (Way::Read, Element::U8, Many::Slice(_)) => Kind::ByteList,
        _ => panic!("the parameter {} has no form in words yet", parameter.name),
    })
}

/// Whether a parameter is a list that is only written: the caller gives its length.
fn is_room(parameter: &Parameter) -> bool {
    parameter.way == Way::Made && matches!(parameter.many, Many::Slice(_))
}

/// The fields that a door takes, and those that it gives. A memory is among both; of a list that is only written the door takes
/// the number of its places.
pub fn fields(door: &Door) -> (Vec<Field>, Vec<Field>) {
    let field = |name, kind, role| Field { name, kind, role };
    let of = |p: &Parameter| Some(field(p.name, kind(p)?, p.role));
    let (mut takes, mut gives, mut room) = (Vec::new(), Vec::new(), false);
    for parameter in door.parameters {
        match parameter.way {
            _ if room => takes.push(field(parameter.name, Kind::Places, parameter.role)),
            Way::Made => gives.extend(of(parameter)),
            Way::Kept => {
                takes.extend(of(parameter));
                gives.extend(of(parameter));
            }
            Way::Read | Way::Value => takes.extend(of(parameter)),
        }
        // its length is the next
        room = is_room(parameter);
    }
    (takes, gives)
}

/// The resting set of the line frequencies, by its door.
pub fn resting_set() -> [f32; 10] {
    let mut set = [0.0; 10];
    // The buffer has the length that the door asks for, and the door refuses nothing.
    unsafe { made::g7231_resting_set(&mut set) };
    set
}

/// Guards on each side of a buffer, in units of 8 bytes.
const GUARD: usize = 4;

/// Memory lent to a door: its elements, with guards before and after.
struct Buffer {
    store: Vec<u64>,
    before: Vec<u64>,
    /// How many elements it has, and the bytes of each.
    count: usize,
    size: usize,
}

impl Buffer {
    /// Of each word so many bytes are an element, the low ones.
    fn new(words: &[u32], size: usize, random: &mut Random) -> Buffer {
        let units = (words.len() * size).div_ceil(8);
        let mut store: Vec<u64> = (0..2 * GUARD + units).map(|_| random.next()).collect();
        let mask = mask(size);
        for (unit, own) in store[GUARD..].iter_mut().zip(words.chunks(8 / size)) {
            for (i, word) in own.iter().enumerate() {
                let shift = 8 * size * i;
                *unit = *unit & !(mask << shift) | (u64::from(*word) & mask) << shift;
            }
        }
        Buffer { before: store.clone(), store, count: words.len(), size }
    }

    fn start(&mut self) -> *mut u8 {
        // In bounds: the guards alone are longer.
        unsafe { self.store.as_mut_ptr().add(GUARD).cast() }
    }

    fn words(&self) -> Vec<u32> {
        let word = |i| {
            let (unit, shift) = place(i, self.size);
            (self.store[unit] >> shift & mask(self.size)) as u32
        };
        (0..self.count).map(word).collect()
    }

    /// Whether the guards, and the rest of the last unit, are as they were.
    fn guarded(&self) -> bool {
        let (end, shift) = place(self.count, self.size);
        self.store[..GUARD] == self.before[..GUARD]
            && self.store[end] >> shift == self.before[end] >> shift
            && self.store[end + 1..] == self.before[end + 1..]
    }

    fn altered(&self) -> bool {
        self.store != self.before
    }
}

/// The unit that an element stands in, and how many bits stand before it there.
fn place(i: usize, size: usize) -> (usize, usize) {
    (GUARD + i * size / 8, i * size % 8 * 8)
}

/// The bits of an element.
fn mask(size: usize) -> u64 {
    u64::MAX >> (64 - 8 * size)
}

/// Patterns that a computation could alter in passing: NaNs that signal and NaNs with a payload.
const FRAGILE: [u32; 6] = [0x7f80_0001, 0xff80_0001, 0x7fa0_1234, 0xffbf_ffff, 0x7fc0_0001, 0xffff_ffff];

fn fill(words: usize, random: &mut Random) -> Vec<u32> {
    (0..words).map(|_| if random.once_in(3) { *random.pick(&FRAGILE) } else { random.bits() }).collect()
}

/// What is handed over for one parameter.
enum Handed {
    Value(Argument),
    /// The length of the list before it.
    Length,
    Lent(Buffer),
}

/// One call: its input in buffers of its own, and its results in buffers filled beforehand.
pub struct Frame {
    door: &'static Door,
    handed: Vec<Handed>,
}

impl Frame {
    /// The parts are those of the fields that the door takes.
    pub fn new(door: &'static Door, parts: &[&[u32]], random: &mut Random) -> Frame {
        let mut parts = parts.iter().copied();
        let mut part = || parts.next().unwrap_or_default();
        let hand = |parameter: &Parameter| match (kind(parameter), parameter.way) {
            (None, _) => Handed::Length,
            (Some(kind), Way::Made) => {
                let words = if is_room(parameter) { part()[0] as usize } else { kind.words() };
                Handed::Lent(Buffer::new(&fill(words, random), size_of(kind), random))
            }
            (Some(kind), Way::Value) => Handed::Value(value(kind, part())),
            (Some(kind), Way::Read | Way::Kept) => Handed::Lent(Buffer::new(part(), size_of(kind), random)),
        };
        Frame { door, handed: door.parameters.iter().map(hand).collect() }
    }

    /// Calls the door, and answers its status.
    pub fn call(&mut self) -> u32 {
        let mut length = 0;
        let arguments: Vec<Argument> = self
            .handed
            .iter_mut()
            .map(|handed| match handed {
                Handed::Value(value) => *value,
                Handed::Length => Argument { size: length },
                Handed::Lent(buffer) => {
                    length = buffer.count;
                    Argument { place: buffer.start() }
                }
            })
            .collect();
        // Each argument is what its parameter asks for, and the buffers live as long as this frame.
        unsafe { (self.door.safe)(&arguments) }
    }

    /// The buffers, each with its parameter.
    fn lent(&self) -> impl Iterator<Item = (&'static Parameter, &Buffer)> {
        self.door.parameters.iter().zip(&self.handed).filter_map(|(parameter, handed)| match handed {
            Handed::Lent(buffer) => Some((parameter, buffer)),
            _ => None,
        })
    }

    /// What the call gave, in words; doubles and machine words lie in memory low word first.
    pub fn gave(&self) -> Vec<u32> {
        let mut words = Vec::new();
        for (parameter, buffer) in self.lent().filter(|(parameter, _)| parameter.way != Way::Read) {
            let mut own = buffer.words();
            if matches!(parameter.element, Element::F64 | Element::Size) {
                own.chunks_mut(2).for_each(|pair| pair.swap(0, 1));
            }
            if is_room(parameter) {
                words.push(own.len() as u32);
            }
            words.extend(own);
        }
        words
    }

    /// What the call did that it may not: a guard or an input altered, or after a refusal anything at all.
    pub fn trespass(&self, refused: bool) -> Option<String> {
        for (parameter, buffer) in self.lent() {
            if !buffer.guarded() {
                return Some(format!("wrote outside {}", parameter.name));
            }
            if parameter.way == Way::Read && buffer.altered() {
                return Some(format!("altered {}, which is only read", parameter.name));
            }
            if refused && buffer.altered() {
                return Some(format!("altered {} and refused", parameter.name));
            }
        }
        None
    }
}

/// The bytes of memory that a word of a lent field stands for.
fn size_of(kind: Kind) -> usize {
    match kind {
        Kind::Bytes(_) | Kind::ByteList => 1,
        Kind::Shorts => 2,
        _ => 4,
    }
}

/// What is handed over by value.
fn value(kind: Kind, words: &[u32]) -> Argument {
    match (kind, words) {
        (Kind::Single, [bits]) => Argument { single: f32::from_bits(*bits) },
        (Kind::Number, [number]) => Argument { number: *number },
        (Kind::Word, [high, low]) => Argument { size: (*high as usize) << 32 | *low as usize },
        _ => panic!("{} words make no value", words.len()),
    }
}
