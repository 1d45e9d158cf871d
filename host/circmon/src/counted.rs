//! A number with a count beside it, in the one word that the library returns for both.

/// What a call returns that writes as much as fits: its number, and how much it wrote.
#[derive(Clone, Copy, Debug, PartialEq, Eq)]
pub struct Counted {
    pub number: u8,
    pub count: u64,
}

impl Counted {
    /// The number stands in the low byte and the count, of which the library keeps 56 bits, above it.
    pub(crate) fn new(word: u64) -> Counted {
        Counted { number: word as u8, count: word >> 8 }
    }
}

#[cfg(test)]
mod tests {
    use super::*;

    #[test]
    fn the_number_is_the_low_byte_and_the_count_is_above_it() {
        for (number, count) in [(0, 0), (15, 0), (0, 1), (255, 255), (15, 256), (1, (1 << 56) - 1)] {
            assert_eq!(Counted::new(u64::from(number) + 256 * count), Counted { number, count });
        }
    }
}
