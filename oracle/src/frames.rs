//! Files one behind the other: each a u32 length (little-endian) and so many bytes.

/// The first frame's bytes and what stands behind it; nothing where it is cut.
pub fn first(input: &[u8]) -> Option<(&[u8], &[u8])> {
    let (length, rest) = input.split_at_checked(4)?;
    rest.split_at_checked(u32::from_le_bytes([length[0], length[1], length[2], length[3]]) as usize)
}

pub fn push(to: &mut Vec<u8>, bytes: &[u8]) {
    to.extend((bytes.len() as u32).to_le_bytes());
    to.extend(bytes);
}

/// The frames in order, up to the first that is cut.
pub fn all(mut input: &[u8]) -> impl Iterator<Item = &[u8]> {
    std::iter::from_fn(move || {
        let (bytes, behind) = first(input)?;
        input = behind;
        Some(bytes)
    })
}
