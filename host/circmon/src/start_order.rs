//! Whether the order of gets matters, in the one word that the library returns.

/// As many gets as the library looks at in one list.
pub const MOST_GETS: usize = 4096;

/// What the library says of a list of gets, with its codes. Places count from 0.
#[derive(Clone, Copy, Debug, PartialEq, Eq)]
pub enum StartOrder {
    /// all orders of the list leave equal states, and each get is granted in all of them or refused in all
    Agree,
    /// the gets at these two places are each granted if it came alone, and would together break the star property or the wall:
    /// so the order matters; first is the lower place, the least that there is, and second the least for it
    Clash { first: usize, second: usize },
    /// the piece at this place is no well-formed get, and every one before it is
    NoGet { at: usize },
    /// there are more than 4,096 pieces
    TooMany,
}

impl StartOrder {
    /// The code stands in the low byte, the first place in bits 8 to 31 and the second one in bits 32 to 55.
    pub(crate) fn new(word: u64) -> StartOrder {
        let place = |shift: u32| (word >> shift & 0xFF_FFFF) as usize;
        match word & 0xFF {
            0 => StartOrder::Agree,
            1 => StartOrder::Clash { first: place(8), second: place(32) },
            2 => StartOrder::NoGet { at: place(8) },
            3 => StartOrder::TooMany,
            code => unreachable!("it is proved that the code of a list of gets is 0 to 3, not {code}"),
        }
    }
}

#[cfg(test)]
mod tests {
    use super::*;

    #[test]
    fn the_code_is_the_low_byte_and_the_places_are_above_it() {
        assert_eq!(StartOrder::new(0), StartOrder::Agree);
        assert_eq!(StartOrder::new(3), StartOrder::TooMany);
        for at in [0, 1, 255, 256, 4095] {
            assert_eq!(StartOrder::new(2 + 256 * at), StartOrder::NoGet { at: at as usize });
        }
        for (first, second) in [(0, 1), (0, 4095), (255, 256), (4094, 4095)] {
            let word = 1 + (first << 8) + (second << 32);
            assert_eq!(StartOrder::new(word), StartOrder::Clash { first: first as usize, second: second as usize });
        }
    }
}
