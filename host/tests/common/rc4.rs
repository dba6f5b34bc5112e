//! RC4, as document 01 writes it out, to make locked books for the tests.

pub struct Rc4 {
    pub table: [u8; 256],
    i: u8,
    j: u8,
}

impl Rc4 {
    pub fn new(key: &[u8]) -> Rc4 {
        let mut table: [u8; 256] = std::array::from_fn(|i| i as u8);
        let mut j: u8 = 0;
        for i in 0..256 {
            j = j.wrapping_add(table[i]).wrapping_add(key[i % key.len()]);
            table.swap(i, j.into());
        }
        Rc4 { table, i: 0, j: 0 }
    }

    pub fn byte(&mut self) -> u8 {
        self.i = self.i.wrapping_add(1);
        self.j = self.j.wrapping_add(self.table[usize::from(self.i)]);
        self.table.swap(self.i.into(), self.j.into());
        let sum = self.table[usize::from(self.i)].wrapping_add(self.table[usize::from(self.j)]);
        self.table[usize::from(sum)]
    }

    pub fn apply(&mut self, data: &[u8]) -> Vec<u8> {
        data.iter().map(|byte| byte ^ self.byte()).collect()
    }
}
