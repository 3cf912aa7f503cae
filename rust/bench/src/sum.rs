//! The sum by which two replays show that they gave the same answers: FNV-1a, 64 bits.

const START: u64 = 0xcbf2_9ce4_8422_2325;
const PRIME: u64 = 0x0100_0000_01b3;

/// Over the 8 bytes of each answer, the lowest first.
pub struct Sum {
    number: u64,
}

impl Default for Sum {
    fn default() -> Sum {
        Sum { number: START }
    }
}

impl Sum {
    pub fn add(&mut self, answers: &[u64]) {
        for byte in answers.iter().flat_map(|answer| answer.to_le_bytes()) {
            self.number = (self.number ^ u64::from(byte)).wrapping_mul(PRIME);
        }
    }

    pub fn number(&self) -> u64 {
        self.number
    }
}

#[cfg(test)]
mod tests {
    use super::Sum;

    fn sum(parts: &[&[u64]]) -> u64 {
        let mut sum = Sum::default();
        parts.iter().for_each(|part| sum.add(part));
        sum.number()
    }

    /// The published vectors of FNV-1a whose texts are 0, 8 and 16 bytes long.
    #[test]
    fn it_is_fnv_1a_of_the_bytes() {
        let eight = u64::from_le_bytes(*b"chongo w");
        let others = u64::from_le_bytes(*b"as here!");
        assert_eq!(sum(&[]), 0xcbf2_9ce4_8422_2325);
        assert_eq!(sum(&[&[eight]]), 0xd1ed_d10b_5073_44d0);
        assert_eq!(sum(&[&[eight, others]]), 0x858e_2fa3_2a55_e61d);
    }

    #[test]
    fn it_does_not_depend_on_where_the_answers_are_parted() {
        assert_eq!(sum(&[&[1, 2], &[], &[3]]), sum(&[&[1, 2, 3]]));
        assert_ne!(sum(&[&[1, 2]]), sum(&[&[2, 1]]));
    }
}
