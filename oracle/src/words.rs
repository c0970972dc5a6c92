//! Reads and writes the words of inputs and answers, as `shape` has them.

use crate::shape::{octets, shorts, word};

/// Reads words in order; an input is made by this package, so running out of it is a fault of its own.
pub struct Reader<'a> {
    rest: &'a [u32],
}

impl<'a> Reader<'a> {
    pub fn new(words: &'a [u32]) -> Reader<'a> {
        Reader { rest: words }
    }

    pub fn number(&mut self) -> u32 {
        self.words(1)[0]
    }

    pub fn word(&mut self) -> usize {
        let words = self.words(2);
        (words[0] as usize) << 32 | words[1] as usize
    }

    pub fn single(&mut self) -> f32 {
        f32::from_bits(self.number())
    }

    pub fn singles<const N: usize>(&mut self) -> [f32; N] {
        let words = self.words(N);
        std::array::from_fn(|i| f32::from_bits(words[i]))
    }

    pub fn samples(&mut self) -> Vec<f32> {
        let length = self.number() as usize;
        self.words(length).iter().map(|bits| f32::from_bits(*bits)).collect()
    }

    pub fn shorts(&mut self) -> Vec<i16> {
        let length = self.number() as usize;
        self.words(length).iter().map(|word| *word as i16).collect()
    }

    pub fn byte_list(&mut self) -> Vec<u8> {
        let length = self.number() as usize;
        self.words(length).iter().map(|word| *word as u8).collect()
    }

    pub fn bytes<const N: usize>(&mut self) -> [u8; N] {
        let words = self.words(N);
        std::array::from_fn(|i| words[i] as u8)
    }

    pub fn words(&mut self, count: usize) -> &'a [u32] {
        let (words, rest) = self.rest.split_at(count);
        self.rest = rest;
        words
    }
}

/// Writes words in order.
#[derive(Default)]
pub struct Words(pub Vec<u32>);

impl Words {
    pub fn reader(&self) -> Reader<'_> {
        Reader::new(&self.0)
    }

    pub fn number(mut self, n: u32) -> Words {
        self.0.push(n);
        self
    }

    pub fn numbers(mut self, ns: &[u32]) -> Words {
        self.0.extend(ns);
        self
    }

    /// Bytes, one a word.
    pub fn bytes(self, bytes: &[u8]) -> Words {
        self.numbers(&octets(bytes))
    }

    pub fn word(self, n: usize) -> Words {
        self.numbers(&word(n))
    }

    pub fn single(self, x: f32) -> Words {
        self.number(x.to_bits())
    }

    pub fn singles(mut self, xs: &[f32]) -> Words {
        self.0.extend(xs.iter().map(|x| x.to_bits()));
        self
    }

    /// A list of samples, its length first.
    pub fn samples(self, xs: &[f32]) -> Words {
        self.number(xs.len() as u32).singles(xs)
    }

    /// A list of numbers of 16 bits, its length first.
    pub fn shorts(self, xs: &[i16]) -> Words {
        self.number(xs.len() as u32).numbers(&shorts(xs))
    }

    pub fn doubles(mut self, xs: &[f64]) -> Words {
        self.0.extend(xs.iter().flat_map(|x| [(x.to_bits() >> 32) as u32, x.to_bits() as u32]));
        self
    }
}
