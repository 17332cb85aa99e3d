//! Bytes that may be text.

use crate::calls::{self, Told};
use crate::Refusal;

/// Where bytes are not text: a record's payload, a string of a message.
///
/// ```
/// use pitokaenge::Text;
///
/// let plain = Text::of("Glühe".as_bytes());
/// assert!(plain.is_shown());
///
/// let turned = Text::of("A\u{202E}B".as_bytes());
/// assert_eq!((turned.bad, turned.hidden), (None, Some(1)));
/// assert_eq!(Text::of(b"A\xFF").bad, Some(1));
/// ```
#[derive(Clone, Copy, Debug, PartialEq, Eq)]
pub struct Text {
    /// Where the first sequence begins that is not well-formed UTF-8.
    pub bad: Option<usize>,
    /// Where the first character begins that a terminal or a page would follow and not show: a control character, U+061C,
    /// U+200E, U+200F, U+2028 to U+202E, U+2066 to U+2069.
    pub hidden: Option<usize>,
}

impl Text {
    /// Of any bytes.
    pub fn of(bytes: &[u8]) -> Text {
        let row = match calls::pito_text(bytes) {
            Ok(row) => row,
            Err(Told {
                refusal: Refusal::Text,
                row,
            }) => row,
            // An archive of this version returns no other number.
            Err(_) => calls::Text { bad: 0, hidden: 0 },
        };
        let within = |place: u64| Some(place as usize).filter(|&place| place < bytes.len());
        Text {
            bad: within(row.bad),
            hidden: within(row.hidden),
        }
    }

    /// Whether the bytes are well formed, and each character is shown.
    pub fn is_shown(&self) -> bool {
        self.bad.is_none() && self.hidden.is_none()
    }
}
