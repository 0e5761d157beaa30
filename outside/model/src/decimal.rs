//! Numbers as the program's words and the register's fields have them.

/// A decimal number of 32 bits, written in the only way: what is read of it and
/// printed again is the word.
pub(crate) fn decimal(word: &str) -> Option<u32> {
    let number: u32 = word.parse().ok()?;
    (number.to_string() == word).then_some(number)
}
