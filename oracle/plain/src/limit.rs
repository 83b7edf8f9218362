//! The size limit.

/// "limit(s): round s to the nearest single-precision number, ties to even; multiply by the threshold, rounded once; cut
/// towards zero. Not-a-number and anything below 1 give 0; 2^64 and above give 2^64 - 1." Rust's `as` is just this: into a
/// float to the nearest, ties to even; out of one towards zero, stopping at the type's ends, with 0 for not a number.
pub fn limit(size: u64, threshold: f32) -> u64 {
    (size as f32 * threshold) as u64
}

#[cfg(test)]
mod tests {
    use super::limit;

    /// The nearest number of at most 24 bits times 2 to the `shift`, ties to even; what is left of `m` after the shift.
    fn shifted(m: u128, shift: u32) -> u128 {
        if shift == 0 || shift > 120 {
            return if shift == 0 { m } else { 0 };
        }
        let (whole, rest, half) = (m >> shift, m & ((1 << shift) - 1), 1 << (shift - 1));
        whole + u128::from(rest > half || (rest == half && whole % 2 == 1))
    }

    fn bit_length(m: u128) -> u32 {
        128 - m.leading_zeros()
    }

    /// 01's words over whole numbers, from the threshold's bits (IEEE 754 binary32).
    fn by_whole_numbers(size: u64, bits: u32) -> u64 {
        let (negative, exponent, fraction) = (bits >> 31 == 1, bits >> 23 & 255, bits & 0x7f_ffff);
        if negative || (exponent == 255 && fraction != 0) || size == 0 {
            return 0;
        }
        if exponent == 255 {
            return u64::MAX;
        }
        let (threshold, at) = match exponent {
            0 => (fraction, -149),
            _ => (fraction | 1 << 23, exponent as i32 - 150),
        };
        let size_shift = bit_length(size.into()).saturating_sub(24);
        let product = shifted(size.into(), size_shift) * u128::from(threshold);
        let at = at + size_shift as i32;
        let shift = (bit_length(product) as i32 - 24).max(-149 - at).max(0);
        let (rounded, at) = (shifted(product, shift as u32), at + shift);
        match at {
            _ if rounded == 0 => 0,
            0.. if bit_length(rounded) as i32 + at > 64 => u64::MAX,
            0.. => (rounded << at) as u64,
            -127.. => (rounded >> -at) as u64,
            _ => 0,
        }
    }

    #[test]
    fn agrees_with_whole_numbers() {
        let mut state = 1u64;
        let mut next = || {
            state ^= state << 13;
            state ^= state >> 7;
            state ^= state << 17;
            state
        };
        for _ in 0..2_000_000 {
            // sizes of every length, and beside powers of two
            let size = match next() % 3 {
                0 => next() >> (next() % 64),
                1 => (1u64 << (next() % 64))
                    .wrapping_add(next() % 5)
                    .wrapping_sub(2),
                _ => (next() >> (next() % 64)) | 1 << 24,
            };
            // thresholds of all bits, and such that products stay in range
            let bits = match next() % 2 {
                0 => next() as u32,
                _ => (127 - 64 + (next() % 128) as u32) << 23 | (next() as u32 & 0x7f_ffff),
            };
            let threshold = f32::from_bits(bits);
            let told = limit(size, threshold);
            assert_eq!(
                told,
                by_whole_numbers(size, bits),
                "limit({size}) at {threshold:e}"
            );
        }
    }
}
