//! The next field of a row, with 3; texts, with 6.

use super::{Read, Refusal};

/// The first field of a row: its tag, its body, and what stands behind it. 3 where 1 or 2 bytes are left or the field
/// runs past the row's end.
pub fn first(row: &[u8]) -> Read<(u8, &[u8], &[u8])> {
    let [tag, high, low, behind @ ..] = row else { return Err(Refusal::Truncated) };
    let length = usize::from(u16::from_be_bytes([*high, *low]));
    let (body, rest) = behind.split_at_checked(length).ok_or(Refusal::Truncated)?;
    Ok((*tag, body, rest))
}

/// The same where only this tag may stand: 3, then 4.
pub fn first_of(row: &[u8], tag: u8) -> Read<(&[u8], &[u8])> {
    match first(row)? {
        (found, body, rest) if found == tag => Ok((body, rest)),
        _ => Err(Refusal::Misplaced),
    }
}

pub fn text(body: &[u8]) -> Read<Vec<u8>> {
    std::str::from_utf8(body).map_err(|_| Refusal::NotUtf8)?;
    Ok(body.to_vec())
}

/// What a missing field or a fixed body asks.
pub fn ensure(holds: bool, refusal: Refusal) -> Read<()> {
    if holds { Ok(()) } else { Err(refusal) }
}
