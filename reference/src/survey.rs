//! Survey points: the deduct values of Table 1.

use crate::refusal::Refusal;

/// Rows are degrees 1 to 3, entries are extents 1 to 3.
type Rows = [[u8; 3]; 3];

const RUTTING: Rows = [[0, 2, 5], [5, 7, 10], [10, 12, 15]];
const SURFACE: Rows = [[5, 8, 10], [10, 12, 15], [15, 18, 20]];
const ALLIGATOR: Rows = [[5, 10, 15], [10, 15, 20], [15, 20, 25]];
const PATCHING: Rows = [[0, 2, 5], [5, 7, 10], [7, 15, 20]];
const SEALED: Rows = [[2, 5, 8], [5, 8, 10], [8, 10, 15]];
const LONGITUDINAL_PARTLY: Rows = [[3, 7, 12], [7, 12, 15], [12, 15, 20]];
const LONGITUDINAL_NOT: Rows = [[5, 10, 15], [10, 15, 20], [15, 20, 25]];
const TRANSVERSE_PARTLY: Rows = [[3, 7, 10], [7, 10, 15], [10, 15, 20]];
const TRANSVERSE_NOT: Rows = [[3, 7, 12], [7, 12, 15], [12, 15, 20]];

/// Points for a distress code, a degree, an extent and a seal. Degree 0 is
/// worth 0 points, but the other three must still be valid.
pub fn points(code: u64, degree: u64, extent: u64, seal: u64) -> Result<u8, Refusal> {
    let rows = match (code, seal) {
        (1, 0) => RUTTING,
        (2..=4, 0) => SURFACE,
        (5, 0) => ALLIGATOR,
        (6, 0) => PATCHING,
        (7 | 8, 1) => SEALED,
        (7, 2) => LONGITUDINAL_PARTLY,
        (7, 3) => LONGITUDINAL_NOT,
        (8, 2) => TRANSVERSE_PARTLY,
        (8, 3) => TRANSVERSE_NOT,
        _ => return Err(Refusal::Survey),
    };
    match (degree, extent) {
        (0, 1..=3) => Ok(0),
        (1..=3, 1..=3) => Ok(rows[degree as usize - 1][extent as usize - 1]),
        _ => Err(Refusal::Survey),
    }
}
