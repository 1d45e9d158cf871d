//! Fields of bits in bytes, the most significant bit of each byte first.

/// The bit at this place; a place behind the last byte has 0.
pub fn bit(bytes: &[u8], at: usize) -> bool {
    bytes.get(at / 8).is_some_and(|byte| byte >> (7 - at % 8) & 1 == 1)
}

/// The number in the bits from `at` on.
pub fn field(bytes: &[u8], at: usize, width: usize) -> u32 {
    (at..at + width).fold(0, |number, place| number << 1 | u32::from(bit(bytes, place)))
}

/// Sets the bits from `at` on, which are 0 before, to the number.
pub fn put(bytes: &mut [u8], at: usize, width: usize, number: u32) {
    for place in 0..width {
        if number >> (width - 1 - place) & 1 == 1 {
            let place = at + place;
            bytes[place / 8] |= 0x80 >> (place % 8);
        }
    }
}

#[cfg(test)]
mod tests {
    use super::*;

    #[test]
    fn a_field_across_a_byte_border_is_put_and_read() {
        let mut bytes = [0; 4];
        put(&mut bytes, 5, 9, 0x155);
        assert_eq!(bytes, [0x05, 0x54, 0, 0]);
        assert_eq!(field(&bytes, 5, 9), 0x155);
        assert_eq!(field(&bytes, 4, 4), 0b0101 & 0b1111);
    }

    #[test]
    fn behind_the_last_byte_every_bit_is_0() {
        assert_eq!(field(&[0xFF], 6, 4), 0b1100);
    }
}
