//! Two names compared, and how many pairs of bytes that takes.

/// 1 for the same names, else 0, and "the byte pairs it read: 0 for unequal lengths, all for equal names, else the length minus the last
/// differing place (from 0)".
pub fn compare_names(a: &[u8], b: &[u8]) -> (u32, u32) {
    let length = a.len();
    if b.len() != length {
        return (0, 0);
    }
    let last_differing = (0..length).rfind(|&place| a[place] != b[place]);
    last_differing.map_or((1, length as u32), |place| (0, (length - place) as u32))
}
