//! A hash of what was answered: FNV-1a, 64 bits, low byte first. oracle/ takes it from here for the calls of ticket 118.

pub struct Hash(pub u64);

impl Hash {
    pub fn new() -> Hash {
        Hash(14695981039346656037)
    }

    pub fn bytes(&mut self, bytes: &[u8]) {
        for byte in bytes {
            self.0 = (self.0 ^ *byte as u64).wrapping_mul(1099511628211);
        }
    }

    pub fn number(&mut self, number: u32) {
        self.bytes(&number.to_le_bytes());
    }

    pub fn numbers(&mut self, list: &[u32]) {
        list.iter().for_each(|number| self.number(*number));
    }

    pub fn singles(&mut self, list: &[f32]) {
        list.iter().for_each(|x| self.bytes(&x.to_le_bytes()));
    }

    pub fn doubles(&mut self, list: &[f64]) {
        list.iter().for_each(|x| self.bytes(&x.to_le_bytes()));
    }
}
