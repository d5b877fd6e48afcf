//! The value of a start, which is also an entry of global data: portions, and the diet portions among them.

use crate::Refusal;
use std::fmt;

/// Paper: count.
#[derive(Clone, Copy, PartialEq, Eq, Hash, Debug, Default)]
pub struct Value {
    pub portions: u16,
    pub diet: u16,
}

impl Value {
    /// Also what stands where a record uses no value.
    pub const ZERO: Value = Value::new(0, 0);

    pub const fn new(portions: u16, diet: u16) -> Value {
        Value { portions, diet }
    }

    /// As a record has it: portions, then diet, low bytes first.
    pub fn from_bytes([p0, p1, d0, d1]: [u8; 4]) -> Value {
        Value { portions: u16::from_le_bytes([p0, p1]), diet: u16::from_le_bytes([d0, d1]) }
    }

    pub fn bytes(self) -> [u8; 4] {
        let ([p0, p1], [d0, d1]) = (self.portions.to_le_bytes(), self.diet.to_le_bytes());
        [p0, p1, d0, d1]
    }

    /// A lent word is laid out as the value in a record.
    pub fn from_word(word: u32) -> Value {
        Value::from_bytes(word.to_le_bytes())
    }

    pub fn word(self) -> u32 {
        u32::from_le_bytes(self.bytes())
    }

    /// Refusal 15, or nothing.
    pub fn check(self) -> Result<(), Refusal> {
        if self.diet > self.portions {
            Err(Refusal::Diet)
        } else {
            Ok(())
        }
    }
}

/// As the program prints it.
impl fmt::Display for Value {
    fn fmt(&self, f: &mut fmt::Formatter<'_>) -> fmt::Result {
        write!(f, "{}/{}", self.portions, self.diet)
    }
}

#[cfg(test)]
mod tests {
    use super::*;

    #[test]
    fn portions_then_diet_low_bytes_first() {
        let value = Value::new(0x0102, 0x0304);
        assert_eq!(value.bytes(), [2, 1, 4, 3]);
        assert_eq!(Value::from_bytes([2, 1, 4, 3]), value);
        assert_eq!((value.word(), Value::from_word(0x0304_0102)), (0x0304_0102, value));
        assert_eq!(Value::new(40, 3).word(), 40 + 3 * 65_536);
    }

    #[test]
    fn as_printed() {
        assert_eq!(Value::new(40, 3).to_string(), "40/3");
        assert_eq!(Value::ZERO.to_string(), "0/0");
        assert_eq!(Value::new(65_535, 65_535).to_string(), "65535/65535");
    }

    /// Diet portions are among the portions: as many are good, one more is not.
    #[test]
    fn diet_up_to_portions() {
        for portions in 0..=u16::MAX {
            let refused = |diet| Value::new(portions, diet).check() == Err(Refusal::Diet);
            assert!(!refused(0) && !refused(portions));
            assert!(portions.checked_add(1).is_none_or(refused), "{portions}");
        }
        assert_eq!(Value::new(0, u16::MAX).check(), Err(Refusal::Diet));
    }
}
