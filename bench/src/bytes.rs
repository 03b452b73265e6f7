//! Bytes: the numbers in them, and how they are shown.

/// Numbers one after the other, highest byte first.
pub struct Numbers<'a> {
    pub bytes: &'a [u8],
}

impl Numbers<'_> {
    /// The number in the next `width` bytes, 0 for none; the bytes must be there.
    pub fn next(&mut self, width: usize) -> u32 {
        let (number, rest) = self.bytes.split_at(width);
        self.bytes = rest;
        number.iter().fold(0, |value, byte| value << 8 | u32::from(*byte))
    }
}

/// Bytes as lower-case hex, or `-` where there are none.
pub fn hex(bytes: &[u8]) -> String {
    if bytes.is_empty() {
        return "-".into();
    }
    bytes.iter().map(|byte| format!("{byte:02x}")).collect()
}
