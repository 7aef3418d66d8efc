//! What a binary STL file says of its own work, from the bytes lent of its
//! front and its length.

use crate::model::{Refusal, FRONT_TOO_SHORT, LENGTH_DISAGREES, NO_TRIANGLES};

/// A header of 80 bytes, of any kind, and the triangle count in 4.
pub const FRONT: usize = 84;
const HEADER: usize = 80;
const TRIANGLE: u64 = 50;

/// The work of one count of digits after another: every band ends in nines
/// alone, the first at 9,999, so that a count's digits say which it is in.
const WORKS: [u32; 6] = [4, 16, 120, 900, 8_000, 65_536];
const DIGITS_OF_THE_FIRST: usize = 4;

/// The ticks for this many triangles.
pub fn work_for(triangles: u32) -> u32 {
    let digits = triangles.to_string().len();
    let band = digits.saturating_sub(DIGITS_OF_THE_FIRST);
    WORKS[band.min(WORKS.len() - 1)]
}

/// The count behind the header, its lowest byte first; nothing where the front
/// is too short to hold it.
fn triangles(head: &[u8]) -> Option<u32> {
    let bytes = head.get(HEADER..FRONT)?;
    let count = bytes
        .iter()
        .rev()
        .fold(0, |count, byte| 256 * count + u32::from(*byte));
    Some(count)
}

/// How many triangles a file of this length has room for behind its front;
/// nothing if they are not a whole number.
fn room(size: u64) -> Option<u64> {
    let behind = size.checked_sub(FRONT as u64)?;
    (behind % TRIANGLE == 0).then_some(behind / TRIANGLE)
}

/// The work of the mesh: 15, 16, 17.
pub fn work(head: &[u8], size: u64) -> Result<u32, Refusal> {
    let triangles = triangles(head).ok_or(FRONT_TOO_SHORT)?;
    if room(size) != Some(triangles.into()) {
        return Err(LENGTH_DISAGREES);
    }
    if triangles == 0 {
        return Err(NO_TRIANGLES);
    }
    Ok(work_for(triangles))
}
