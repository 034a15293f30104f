//! Adler-32, so that one number stands for every byte of a buffer.

const MODULUS: u32 = 65_521;

pub fn adler(bytes: &[u8]) -> u32 {
    let mut low = 1;
    let mut high = 0;
    for byte in bytes {
        low = (low + u32::from(*byte)) % MODULUS;
        high = (high + low) % MODULUS;
    }
    high << 16 | low
}

#[cfg(test)]
mod tests {
    use super::adler;

    #[test]
    fn known_sums() {
        assert_eq!(adler(b""), 1);
        assert_eq!(adler(b"Wikipedia"), 0x11E6_0398);
        assert_eq!(adler(&[0; 40_960]), 40_960 << 16 | 1);
    }
}
