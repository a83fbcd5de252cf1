//! The sizing rule: from line rate and memory grade to the block size b.

/// The cycle time in ns of one of the sixteen grades, which are at equal steps (request 2.4).
fn cycle_time(grade: u64) -> u64 {
    5 * (grade + 1)
}

/// b = R x T / 4 rounded up, or refusal 11.
pub fn block_size(rate: u64, grade: u64) -> Result<u64, u8> {
    if !(1..=100).contains(&rate) || grade > 15 {
        return Err(11);
    }
    let block = (rate * cycle_time(grade)).div_ceil(4);
    if block > 128 {
        return Err(11);
    }
    Ok(block)
}
