//! Another sender, judged by a capture.

use crate::calls::{self, Told};
use crate::sizes;
use crate::{Limit, Refusal, Refused, Room};

/// Whether a captured sender is lawful.
#[derive(Clone, Copy, Debug, PartialEq, Eq)]
pub enum Verdict {
    /// Our writer writes these packets, for some transactions.
    Lawful,
    /// The capture ends inside a transaction.
    Open,
    /// No continuation could be lawful after the packet whose length stands at this place.
    Unlawful {
        /// In the capture, whose first byte has place 0.
        place: usize,
    },
}

/// Judges a capture of one direction of a Low Energy link: the byte 01, then each packet with its length of two bytes,
/// big-endian, before it. Refused by 40, and by 42 and 41 with the place of the packet's length.
///
/// ```
/// use pitokaenge::{judge, Limit, Refusal, Room, Verdict};
///
/// let limit = Limit::of::<4096>();
/// let mut capture = b"\x01\x00\x14\x00\x00\x00\x00\x14\x0E..............".to_vec();
/// assert_eq!(judge(&capture, Room::LEAST, limit), Ok(Verdict::Open));
/// // The last packet has a byte too many.
/// capture.extend_from_slice(b"\x00\x0A\x00\x18\x07.......");
/// assert_eq!(judge(&capture, Room::LEAST, limit), Ok(Verdict::Unlawful { place: 23 }));
///
/// let cut = judge(&capture[..30], Room::LEAST, limit).unwrap_err();
/// assert_eq!((cut.refusal, cut.place), (Refusal::RecordCut, Some(23)));
/// assert_eq!(judge(b"\x01", Room::LEAST, limit), Ok(Verdict::Lawful));
/// ```
pub fn judge(capture: &[u8], room: Room, limit: Limit) -> Result<Verdict, Refused> {
    match calls::pito_capture_judge(capture, room.get() as u64, limit.get() as u64) {
        Ok(row) => Ok(match row.outcome {
            sizes::LAWFUL => Verdict::Lawful,
            sizes::OPEN => Verdict::Open,
            _ => Verdict::Unlawful {
                place: row.place as usize,
            },
        }),
        Err(Told { refusal, row }) => Err(match refusal {
            Refusal::RecordCut | Refusal::RecordLength => Refused::at(refusal, row.place),
            _ => refusal.into(),
        }),
    }
}
