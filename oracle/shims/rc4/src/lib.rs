//! Stands in for the crate rc4: the cipher, written plainly. The driver holds it against RFC 6229 whenever it starts.
//! Left out: the generic traits of a family of ciphers, and wiping.

pub struct Rc4 {
    table: [u8; 256],
    i: u8,
    j: u8,
}

/// A key of no byte, or of more than 256.
#[derive(Debug)]
pub struct InvalidLength;

pub trait KeyInit: Sized {
    fn new_from_slice(key: &[u8]) -> Result<Self, InvalidLength>;
}

impl KeyInit for Rc4 {
    fn new_from_slice(key: &[u8]) -> Result<Self, InvalidLength> {
        if !(1..=256).contains(&key.len()) {
            return Err(InvalidLength);
        }
        let mut table = [0; 256];
        for (i, entry) in table.iter_mut().enumerate() {
            *entry = i as u8;
        }
        let mut j = 0u8;
        for (i, byte) in (0..256).zip(key.iter().cycle()) {
            let a = table[i];
            j = j.wrapping_add(a).wrapping_add(*byte);
            table[i] = table[j as usize];
            table[j as usize] = a;
        }
        Ok(Self { table, i: 0, j: 0 })
    }
}

pub trait StreamCipher {
    fn apply_keystream(&mut self, data: &mut [u8]);
}

impl StreamCipher for Rc4 {
    fn apply_keystream(&mut self, data: &mut [u8]) {
        for byte in data {
            self.i = self.i.wrapping_add(1);
            let a = self.table[self.i as usize];
            self.j = self.j.wrapping_add(a);
            let b = self.table[self.j as usize];
            self.table[self.i as usize] = b;
            self.table[self.j as usize] = a;
            *byte ^= self.table[a.wrapping_add(b) as usize];
        }
    }
}
