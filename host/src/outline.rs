//! Outlines in longitudes.
use crate::raw;
use crate::Refusal;

/// 180 degrees in units of 1e-7 degree, in which longitudes come: from -`HALF_TURN` to `HALF_TURN`.
pub const HALF_TURN: i64 = 1_800_000_000;

/// Unwraps an outline the short way round, into the first places of `unwrapped`; a longer list keeps its rest.
///
/// The first corner goes to its one equivalent (whole turns away) from `centre - HALF_TURN` to below `centre + HALF_TURN`, each later one to the equivalent whose step from the one
/// before is short: from `-HALF_TURN` to below `HALF_TURN`. So half a turn is a step west. Corners at -180 and at 180 degrees give the same numbers. No corners give none.
///
/// # Errors
///
/// 1 for over 4,096 corners, 2 for an output shorter than the corners, 5 for a corner that is no longitude, then for such a centre (place 0), 16 for an outline that doesn't
/// close: its short steps, from the last corner to the first too, don't lead back to where it began, as round a pole. A refusal writes nothing.
///
/// ```
/// use talemiku::{unwrap, Refusal, HALF_TURN};
/// // a box from 179 degrees to -179, seen from 180
/// let (west, east) = (1_790_000_000, -1_790_000_000);
/// let mut unwrapped = [0; 5];
/// unwrap(&[west, east, east, west], HALF_TURN, &mut unwrapped)?;
/// assert_eq!(unwrapped, [1_790_000_000, 1_810_000_000, 1_810_000_000, 1_790_000_000, 0]);
///
/// // three corners round a pole
/// let round = [-1_200_000_000, 0, 1_200_000_000];
/// assert_eq!(unwrap(&round, 0, &mut unwrapped), Err(Refusal::Unclosed));
/// # Ok::<(), Refusal>(())
/// ```
pub fn unwrap(corners: &[i64], centre: i64, unwrapped: &mut [i64]) -> Result<(), Refusal> {
    Refusal::unless(raw::unwrap(corners, centre, unwrapped), ())
}
