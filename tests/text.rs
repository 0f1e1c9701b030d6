//! Lines and fields, from the scope document's 'The run sheet': of sheets and of logs.

/// "the last newline may be missing"; nothing after the last newline is no line.
pub fn lines(input: &[u8]) -> Vec<&[u8]> {
    let mut lines: Vec<&[u8]> = input.split(|b| *b == b'\n').collect();
    if lines.last().is_some_and(|l| l.is_empty()) {
        lines.pop();
    }
    lines
}

/// "A line has at most 64 bytes before its newline"; "Fields are in a fixed order parted by commas".
pub fn fields<const N: usize>(line: &[u8]) -> Option<[&[u8]; N]> {
    let fields: Vec<&[u8]> = line.split(|b| *b == b',').collect();
    fields.try_into().ok().filter(|_| line.len() <= 64)
}

/// "Numbers are decimal without needless leading zeros"; at most max.
pub fn decimal(field: &[u8], max: u64) -> Option<u64> {
    if field.is_empty() || field.len() > 20 || !field.iter().all(u8::is_ascii_digit) || (field[0] == b'0' && field.len() > 1) {
        return None;
    }
    let n = field.iter().fold(0u128, |n, d| n * 10 + u128::from(d - b'0'));
    u64::try_from(n).ok().filter(|n| *n <= max)
}
