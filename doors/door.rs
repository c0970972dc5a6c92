// What the table of doors is made of. `doors/make rust-table` prints the table, `doors/make rust` the bindings that it
// calls; the three texts stand in one module. A test can then call any door on arguments that it has laid out itself.

/// How a parameter is lent.
#[allow(dead_code)]
#[derive(Clone, Copy, Debug, PartialEq, Eq)]
pub enum Way {
    /// Lent and only read.
    Read,
    /// Read, and moved on for the next call.
    Kept,
    /// Only written.
    Made,
    /// By value.
    Value,
}

/// What a parameter, or an element of its buffer, is; a struct with its size in bytes.
#[allow(dead_code)]
#[derive(Clone, Copy, Debug, PartialEq, Eq)]
pub enum Element {
    U8,
    I16,
    U16,
    I32,
    U32,
    Size,
    F32,
    F64,
    Struct(usize),
}

/// How many elements there are.
#[allow(dead_code)]
#[derive(Clone, Copy, Debug, PartialEq, Eq)]
pub enum Many {
    One,
    Fixed(usize),
    /// As many as the next parameter says; this number is enough for a valid call.
    Slice(usize),
    /// The number of elements of the slice before it.
    Length,
}

#[allow(dead_code)]
#[derive(Clone, Copy, Debug)]
pub struct Parameter {
    pub name: &'static str,
    pub way: Way,
    pub element: Element,
    pub many: Many,
    /// What a valid call has in it, as the header's `Takes:` says; empty for answers and lengths.
    pub role: &'static str,
}

/// One argument: `place` for what is lent and for a struct by value, else the field of its width.
#[allow(dead_code)]
#[derive(Clone, Copy)]
pub union Argument {
    pub place: *mut u8,
    pub size: usize,
    /// `U8`, `U16`, `U32`
    pub number: u32,
    /// `I16`, `I32`
    pub signed: i32,
    pub single: f32,
    pub double: f64,
}

/// What a safe call answers that altered a number of a struct which the bare form takes by value: no status.
#[allow(dead_code)]
pub const ALTERED: u32 = u32::MAX;

#[allow(dead_code)]
pub struct Door {
    /// Without `g7231_`.
    pub name: &'static str,
    pub parameters: &'static [Parameter],
    /// In the order of the checks.
    pub refusals: &'static [u32],
    pub safe: unsafe fn(&[Argument]) -> u32,
    /// The same as `safe` where a door has one form only.
    pub bare: unsafe fn(&[Argument]) -> u32,
}
