//! Bytes as lower-case hexadecimal digits, and back.

/// The digits of some bytes.
pub fn write(bytes: &[u8]) -> String {
    bytes.iter().map(|byte| format!("{byte:02x}")).collect()
}

/// The bytes that an even number of digits stand for.
pub fn read(digits: &str) -> Vec<u8> {
    assert!(digits.len() & 1 == 0, "an odd number of digits: {digits}");
    (0..digits.len())
        .step_by(2)
        .map(|at| u8::from_str_radix(&digits[at..at + 2], 16).expect("a hexadecimal digit"))
        .collect()
}
