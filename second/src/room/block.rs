//! A block of bytes in which a buffer lies, a few bytes behind its beginning. Everything
//! around the buffer shows in the block's sum.

/// The buffer begins so many bytes behind the block's beginning, and its shift more.
const BEFORE: usize = 64;

pub struct Block {
    bytes: Vec<u8>,
    shift: usize,
    /// The bytes that were summed last, and their sum.
    summed: (Vec<u8>, u64),
}

impl Block {
    pub fn new(length: usize) -> Self {
        Block { bytes: pattern(length), shift: 0, summed: (vec![], sum(&[])) }
    }

    /// Fills the whole block with the pattern.
    pub fn refresh(&mut self) {
        self.bytes = pattern(self.bytes.len());
    }

    /// Refreshes the block; the buffer begins so many bytes further behind.
    pub fn shift(&mut self, shift: usize) {
        self.shift = shift;
        self.refresh();
    }

    /// The first bytes of the buffer.
    pub fn lent(&self, length: usize) -> &[u8] {
        &self.bytes[BEFORE + self.shift..][..length]
    }

    pub fn lent_mut(&mut self, length: usize) -> &mut [u8] {
        &mut self.bytes[BEFORE + self.shift..][..length]
    }

    /// The whole block's sum, taken anew where a byte differs from those summed last.
    pub fn sum(&mut self) -> u64 {
        if self.summed.0 != self.bytes {
            self.summed = (self.bytes.clone(), sum(&self.bytes));
        }
        self.summed.1
    }
}

fn pattern(length: usize) -> Vec<u8> {
    (0..length).map(|place| (151 * place + 89) as u8).collect()
}

/// 64-bit FNV-1a.
fn sum(bytes: &[u8]) -> u64 {
    const BASIS: u64 = 14_695_981_039_346_656_037;
    const PRIME: u64 = 1_099_511_628_211;
    bytes.iter().fold(BASIS, |sum, &byte| (sum ^ u64::from(byte)).wrapping_mul(PRIME))
}

#[cfg(test)]
mod tests {
    use super::*;

    #[test]
    fn no_sum_is_another_than_the_published_ones() {
        assert_eq!(sum(b""), 0xCBF2_9CE4_8422_2325);
        assert_eq!(sum(b"a"), 0xAF63_DC4C_8601_EC8C);
        assert_eq!(sum(b"foobar"), 0x8594_4171_F739_67E8);
    }

    #[test]
    fn no_byte_of_a_block_is_left_out_of_its_sum() {
        let mut block = Block::new(256);
        let fresh = block.sum();
        for place in 0..256 {
            block.bytes[place] ^= 1;
            assert_ne!(block.sum(), fresh, "byte {place}");
            block.bytes[place] ^= 1;
            assert_eq!(block.sum(), fresh);
        }
    }
}
