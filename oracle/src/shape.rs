//! What stands in an input and in an answer: a list of fields, each so many 32-bit words.
//!
//! A single is its bits. A double and a machine word (a length, place, half or choice) are two words, high then low.
//! A list is its length and then its singles, or the 16 bits of each number in a word, or each byte in a word; so are bytes
//! that are no list. Of a list that is only written the input has the length alone, and the answer the list.

/// What stands in a field.
#[derive(Clone, Copy)]
pub enum Kind {
    /// So many singles, lent.
    Singles(usize),
    /// One single by value.
    Single,
    /// So many doubles, lent.
    Doubles(usize),
    /// A length and as many singles.
    Samples,
    /// A length and as many numbers of 16 bits, signed: samples, or those of code rows.
    Shorts,
    /// A length and as many bytes, one a word.
    ByteList,
    /// How many places a list has that is only written.
    Places,
    /// 32 bits.
    Number,
    /// So many of them, lent.
    Numbers(usize),
    /// So many bytes, lent, one a word.
    Bytes(usize),
    /// A machine word.
    Word,
}

impl Kind {
    /// The number of words, where it is fixed.
    pub fn words(self) -> usize {
        match self {
            Kind::Singles(n) | Kind::Numbers(n) | Kind::Bytes(n) => n,
            Kind::Doubles(n) => 2 * n,
            Kind::Single | Kind::Number | Kind::Places => 1,
            Kind::Word => 2,
            Kind::Samples | Kind::Shorts | Kind::ByteList => 0,
        }
    }
}

/// A field; one with the same name among the inputs and the results is a memory that is lent and altered.
pub struct Field {
    pub name: &'static str,
    pub kind: Kind,
    /// What a valid call has in it, in the header's word; none for an answer and for a length.
    pub role: &'static str,
}

impl Field {
    /// Whether its words are singles.
    pub fn is_single(&self) -> bool {
        matches!(self.kind, Kind::Singles(_) | Kind::Single | Kind::Samples)
    }

    /// Whether it is a whole number.
    pub fn is_whole(&self) -> bool {
        matches!(self.kind, Kind::Number | Kind::Word | Kind::Places)
    }

    /// Whether it is how many places a list has.
    pub fn is_places(&self) -> bool {
        matches!(self.kind, Kind::Places)
    }

    /// Whether its words are numbers of 16 bits.
    pub fn is_short(&self) -> bool {
        matches!(self.kind, Kind::Shorts)
    }

    /// Whether its words are bytes.
    pub fn is_byte(&self) -> bool {
        matches!(self.kind, Kind::Bytes(_) | Kind::ByteList)
    }

    /// Whether it has any length.
    pub fn is_list(&self) -> bool {
        matches!(self.kind, Kind::Samples | Kind::Shorts | Kind::ByteList)
    }
}

/// One list of words a field, so that any of them can be altered alone; of a list its elements alone.
pub type Parts = Vec<Vec<u32>>;

/// The words of some parts: a list gets its length in front. The parts must be those of the fields, so that an
/// input that was drawn for another list of parameters is not taken for one of these.
pub fn joined(fields: &[Field], parts: &Parts) -> Vec<u32> {
    assert_eq!(fields.len(), parts.len(), "as many parts as fields");
    let mut words = Vec::with_capacity(parts.iter().map(|part| 1 + part.len()).sum());
    for (field, part) in fields.iter().zip(parts) {
        if field.is_list() {
            words.push(part.len() as u32);
        } else {
            assert_eq!(part.len(), field.kind.words(), "the words of {}", field.name);
        }
        words.extend(part);
    }
    words
}

/// The parts of some words, or what is wrong with their number.
pub fn split<'a>(fields: &[Field], words: &'a [u32]) -> Result<Vec<&'a [u32]>, String> {
    let mut rest = words;
    let mut parts = Vec::with_capacity(fields.len());
    for field in fields {
        let length = match (field.is_list(), rest) {
            (false, _) => field.kind.words(),
            (true, [length, after @ ..]) => {
                rest = after;
                *length as usize
            }
            (true, []) => return Err(format!("there is no length of {}", field.name)),
        };
        let Some((part, after)) = rest.split_at_checked(length) else {
            return Err(format!("{} has {length} words, and {} are left", field.name, rest.len()));
        };
        parts.push(part);
        rest = after;
    }
    match rest.len() {
        0 => Ok(parts),
        n => Err(format!("{n} words too many")),
    }
}

/// The words of singles.
pub fn bits(xs: &[f32]) -> Vec<u32> {
    xs.iter().map(|x| x.to_bits()).collect()
}

/// The words of numbers of 16 bits.
pub fn shorts(xs: &[i16]) -> Vec<u32> {
    xs.iter().map(|x| u32::from(*x as u16)).collect()
}

/// The words of bytes.
pub fn octets(bytes: &[u8]) -> Vec<u32> {
    bytes.iter().map(|byte| u32::from(*byte)).collect()
}

/// The words of a machine word.
pub fn word(n: usize) -> Vec<u32> {
    vec![(n >> 32) as u32, n as u32]
}
