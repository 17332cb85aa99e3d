//! What a link is opened with, and its streams.

use crate::sizes::{LARGEST_ROOM, LEAST_ROOM};
use crate::Refusal;
use core::num::NonZeroU16;

/// The limit of a link: its largest message in bytes, 1 to 65,535. Its buffers go by it ([`sizes`](crate::sizes)).
///
/// ```
/// use pitokaenge::{Limit, Refusal};
///
/// const LIMIT: Limit = Limit::of::<4096>();
/// assert_eq!(LIMIT.get(), 4096);
/// assert_eq!(Limit::new(4096), Ok(LIMIT));
/// assert_eq!(Limit::new(0), Err(Refusal::Limit));
/// assert_eq!(Limit::try_from(4096), Ok(LIMIT));
/// ```
///
/// A constant that is out of range does not compile:
///
/// ```compile_fail
/// let limit = pitokaenge::Limit::of::<65_536>();
/// ```
#[derive(Clone, Copy, Debug, PartialEq, Eq, PartialOrd, Ord, Hash)]
pub struct Limit(NonZeroU16);

impl Limit {
    /// 65,535 bytes.
    pub const LARGEST: Limit = Limit(NonZeroU16::MAX);

    /// Refused by 17 if it is 0 or above 65,535.
    pub const fn new(limit: usize) -> Result<Limit, Refusal> {
        if limit > Limit::LARGEST.get() {
            return Err(Refusal::Limit);
        }
        match NonZeroU16::new(limit as u16) {
            Some(limit) => Ok(Limit(limit)),
            None => Err(Refusal::Limit),
        }
    }

    /// A constant limit, judged as the program is compiled.
    pub const fn of<const LIMIT: usize>() -> Limit {
        const {
            match Limit::new(LIMIT) {
                Ok(limit) => limit,
                Err(_) => panic!("a limit is 1 to 65,535"),
            }
        }
    }

    /// In bytes.
    pub const fn get(self) -> usize {
        self.0.get() as usize
    }
}

impl TryFrom<usize> for Limit {
    type Error = Refusal;

    fn try_from(limit: usize) -> Result<Limit, Refusal> {
        Limit::new(limit)
    }
}

impl From<Limit> for usize {
    fn from(limit: Limit) -> usize {
        limit.get()
    }
}

/// The room of a link: its largest whole packet in bytes, 20 to 512.
///
/// ```
/// use pitokaenge::{Refusal, Room};
///
/// assert_eq!(Room::new(20), Ok(Room::LEAST));
/// assert_eq!(Room::new(513), Err(Refusal::Room));
/// assert_eq!(Room::of_att_mtu(247).unwrap().get(), 244);
/// assert_eq!(Room::of_att_mtu(517), Ok(Room::LARGEST));
/// ```
#[derive(Clone, Copy, Debug, PartialEq, Eq, PartialOrd, Ord, Hash)]
pub struct Room(u16);

impl Room {
    /// 20 bytes: every link has it.
    pub const LEAST: Room = Room(LEAST_ROOM as u16);
    /// 512 bytes.
    pub const LARGEST: Room = Room(LARGEST_ROOM as u16);

    /// Refused by 13 if it is not 20 to 512.
    pub const fn new(room: usize) -> Result<Room, Refusal> {
        if room < LEAST_ROOM || room > LARGEST_ROOM {
            return Err(Refusal::Room);
        }
        Ok(Room(room as u16))
    }

    /// The room of a link with this ATT_MTU: 3 bytes less, which ATT itself takes, but at most 512.
    pub const fn of_att_mtu(mtu: usize) -> Result<Room, Refusal> {
        let room = mtu.saturating_sub(3);
        Room::new(if room > LARGEST_ROOM {
            LARGEST_ROOM
        } else {
            room
        })
    }

    /// In bytes.
    pub const fn get(self) -> usize {
        self.0 as usize
    }
}

impl TryFrom<usize> for Room {
    type Error = Refusal;

    fn try_from(room: usize) -> Result<Room, Refusal> {
        Room::new(room)
    }
}

impl From<Room> for usize {
    fn from(room: Room) -> usize {
        room.get()
    }
}

/// The streams of a link.
#[derive(Clone, Copy, Debug, PartialEq, Eq, PartialOrd, Ord, Hash)]
#[repr(u8)]
pub enum Stream {
    /// What speaker and box say about themselves.
    Control = 0,
    /// Firmware over the air.
    Ota = 2,
    /// What was said to the speaker.
    Alexa = 6,
}

impl Stream {
    /// The stream of a number: 0, 2 or 6.
    ///
    /// ```
    /// use pitokaenge::Stream;
    ///
    /// assert_eq!(Stream::of(6), Some(Stream::Alexa));
    /// assert_eq!(Stream::Alexa.number(), 6);
    /// assert_eq!(Stream::of(1), None);
    /// assert_eq!(Stream::try_from(1), Err(pitokaenge::Refusal::Stream));
    /// ```
    pub const fn of(number: u64) -> Option<Stream> {
        match number {
            0 => Some(Stream::Control),
            2 => Some(Stream::Ota),
            6 => Some(Stream::Alexa),
            _ => None,
        }
    }

    /// Its number.
    pub const fn number(self) -> u64 {
        self as u64
    }
}

impl TryFrom<u64> for Stream {
    type Error = Refusal;

    /// Refused by 3 if it is not 0, 2 or 6.
    fn try_from(number: u64) -> Result<Stream, Refusal> {
        Stream::of(number).ok_or(Refusal::Stream)
    }
}

impl From<Stream> for u64 {
    fn from(stream: Stream) -> u64 {
        stream.number()
    }
}
