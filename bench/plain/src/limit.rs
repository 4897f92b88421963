//! How many rows a table may have. A program that is built for fewer is quicker over small tables, since some of its rooms are as large as the
//! largest table: `PLAIN_ROWS`, when it is built, is 1024, or 4096 as without it.

/// The most rows of a table.
pub const ROWS: usize = match option_env!("PLAIN_ROWS") {
    None => 4096,
    Some(text) => number(text.as_bytes()),
};

const fn number(digits: &[u8]) -> usize {
    let (mut number, mut place) = (0, 0);
    while place < digits.len() {
        assert!(digits[place].is_ascii_digit());
        number = 10 * number + (digits[place] - b'0') as usize;
        place += 1;
    }
    // Places are masked, and sets are of whole words.
    assert!(number.is_power_of_two() && 64 <= number && number <= 4096);
    number
}
