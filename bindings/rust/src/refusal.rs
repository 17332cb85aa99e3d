//! Refusals: the numbers by which the library says no.

use core::fmt;

macro_rules! refusals {
    ($($number:literal $name:ident: $meaning:literal;)*) => {
        /// Why a call refused, by the number that the formats give it. [`number`](Refusal::number) tells it, and `Display`
        /// says it in words.
        ///
        /// ```
        /// use pitokaenge::{Limit, Refusal};
        ///
        /// let refusal = Limit::new(65_536).unwrap_err();
        /// assert_eq!(refusal, Refusal::Limit);
        /// assert_eq!(refusal.number(), 17);
        /// assert_eq!(refusal.to_string(), "refused 17: limit not 1 to 65,535");
        /// assert_eq!(Refusal::of(17), Some(Refusal::Limit));
        /// assert_eq!(Refusal::of(16), None);
        /// ```
        #[derive(Clone, Copy, Debug, PartialEq, Eq, PartialOrd, Ord, Hash)]
        #[repr(u8)]
        #[non_exhaustive]
        pub enum Refusal {
            $(#[doc = $meaning] $name = $number,)*
        }

        impl Refusal {
            /// The refusal of a number.
            pub const fn of(number: u64) -> Option<Refusal> {
                match number {
                    $($number => Some(Refusal::$name),)*
                    _ => None,
                }
            }

            /// What it says.
            pub const fn meaning(self) -> &'static str {
                match self {
                    $(Refusal::$name => $meaning,)*
                }
            }
        }
    };
}

refusals! {
    1 Unfit: "a lent buffer of the wrong size, an unlawful state, or used bytes beyond the buffer";
    2 PacketShort: "packet under 2 bytes, or under its header";
    3 Stream: "packet of an unknown stream";
    4 ReservedByte: "reserved byte of a first packet not 0";
    5 PacketLength: "packet length is not header plus payload";
    6 Total: "total over the limit";
    7 EmptyPayload: "empty payload, but for a first packet with total 0";
    8 AboveTotal: "first payload above its total";
    9 NoTransaction: "no open transaction of that id in the stream";
    10 Sequence: "sequence not the next";
    11 MissesTotal: "total reached too early, passed, or missed";
    12 ControlPacket: "type 3 packet that is no ACK and no NACK";
    13 Room: "room not 20 to 512";
    14 Output: "output too small";
    15 Argument: "an argument out of its range";
    17 Limit: "limit not 1 to 65,535";
    18 NoSlot: "first packet of an id that is not open, with no idle slot in its stream";
    19 Sum: "a number of a report would be 2^64 or more";
    20 StartInside: "F0 inside a frame";
    21 FrameShort: "F1 in the header, or under 2 bytes stored";
    22 Header: "packet id not 02, error id not 00, F2 in the header";
    23 Escape: "F1, or no escape code, after F2";
    24 FrameLong: "a byte to store when limit + 2 are held";
    25 Checksum: "checksum differs";
    26 TooMuch: "more payload offered than is still missing";
    30 MessageCut: "message ends inside a field";
    31 Varint: "varint whose tenth byte is above 01";
    32 Tag: "field 0 or above 536,870,911; wire type 3, 4, 6, 7";
    33 WireType: "known field with another wire type";
    34 TooMany: "second payload member or firmware_information, ninth transport or component";
    36 Text: "a string not well-formed UTF-8";
    40 Version: "outbox empty, or version neither 01 nor 02; capture empty, or version not 01";
    41 RecordCut: "record, or packet of a capture, cut short";
    42 RecordLength: "record length 0 or over its version's; packet length 0 in a capture";
    43 RecordStream: "record's stream not 0, 2, 6";
    46 RecordLong: "payload over 4,096 on the way to version 01";
    50 Profile: "a profile rule of a segment broken";
}

impl Refusal {
    /// Its number.
    pub const fn number(self) -> u64 {
        self as u64
    }
}

impl fmt::Display for Refusal {
    fn fmt(&self, f: &mut fmt::Formatter<'_>) -> fmt::Result {
        write!(f, "refused {}: {}", self.number(), self.meaning())
    }
}

impl core::error::Error for Refusal {}

/// A refusal with what is told beside it.
///
/// The field and the place in the string go with [`Text`](Refusal::Text), the field with [`Profile`](Refusal::Profile); of
/// outbox files and captures the place of the record or packet goes with [`RecordCut`](Refusal::RecordCut), and with
/// others where the call says so. `?` makes a plain [`Refusal`] of it.
///
/// ```
/// use pitokaenge::{DeviceInformation, Refusal};
///
/// let refused = DeviceInformation::read(b"\x12\x02A\xFF").unwrap_err();
/// assert_eq!(refused.refusal, Refusal::Text);
/// assert_eq!((refused.field, refused.place), (Some(2), Some(1)));
/// assert_eq!(refused.to_string(), "refused 36: a string not well-formed UTF-8, field 2, place 1");
/// ```
#[derive(Clone, Copy, Debug, PartialEq, Eq)]
pub struct Refused {
    /// The refusal.
    pub refusal: Refusal,
    /// The number of the field that it is of.
    pub field: Option<u32>,
    /// The place that it is at.
    pub place: Option<usize>,
}

impl Refused {
    pub(crate) fn at(refusal: Refusal, place: u64) -> Refused {
        Refused {
            refusal,
            field: None,
            place: Some(place as usize),
        }
    }

    /// Field and place, where the refusal is of a string or by the profile.
    pub(crate) fn of_text(refusal: Refusal, field: u64, place: u64) -> Refused {
        let of_text = refusal == Refusal::Text;
        let of_field = of_text || refusal == Refusal::Profile;
        Refused {
            refusal,
            field: of_field.then_some(field as u32),
            place: of_text.then_some(place as usize),
        }
    }
}

impl From<Refusal> for Refused {
    fn from(refusal: Refusal) -> Refused {
        Refused {
            refusal,
            field: None,
            place: None,
        }
    }
}

impl From<Refused> for Refusal {
    fn from(refused: Refused) -> Refusal {
        refused.refusal
    }
}

impl fmt::Display for Refused {
    fn fmt(&self, f: &mut fmt::Formatter<'_>) -> fmt::Result {
        self.refusal.fmt(f)?;
        if let Some(field) = self.field {
            write!(f, ", field {field}")?;
        }
        if let Some(place) = self.place {
            write!(f, ", place {place}")?;
        }
        Ok(())
    }
}

impl core::error::Error for Refused {}
