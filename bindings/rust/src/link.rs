//! Low Energy: a receiver.

use crate::calls;
use crate::sizes::{self, receiver_buffer, ACK_SIZE, RECEIVER_STATE, SLOTS};
use crate::{told, Buffer, Limit, Refusal, Stream};
use core::marker::PhantomData;

mod sealed {
    use super::{Slot, SLOTS};

    /// Slots that are the same ones at each call.
    pub trait Slots {
        fn slots(&mut self) -> &mut [Slot; SLOTS];
        fn as_row(&self) -> &[Slot; SLOTS];
    }

    impl Slots for [Slot; SLOTS] {
        fn slots(&mut self) -> &mut [Slot; SLOTS] {
            self
        }

        fn as_row(&self) -> &[Slot; SLOTS] {
            self
        }
    }

    impl<R: Slots> Slots for &mut R {
        fn slots(&mut self) -> &mut [Slot; SLOTS] {
            (**self).slots()
        }

        fn as_row(&self) -> &[Slot; SLOTS] {
            (**self).as_row()
        }
    }
}

/// What a [`Link`] has its slots in: an array of its own, `[Slot; SLOTS]`, or a borrowed one.
pub trait Row: sealed::Slots {}

impl<R: sealed::Slots> Row for R {}

/// A slot of a [`Link`]'s row: 8 bytes. The default is an idle one.
pub use crate::declarations::pito_slot as Slot;

/// A receiver: puts the packets of each stream together, up to four transactions of a stream at a time, and writes the ACK
/// of a message that wants one.
///
/// It borrows a row of slots and [`receiver_buffer`](sizes::receiver_buffer)`(limit)` bytes, or has them itself
/// ([`OwnedLink`]).
///
/// ```
/// use pitokaenge::{sizes, Accepted, Limit, Link, Refusal, Slot, Stream};
///
/// const LIMIT: usize = 64;
/// let mut row = [Slot::default(); sizes::SLOTS];
/// let mut buffer = [0; sizes::receiver_buffer(LIMIT)];
/// let mut link = Link::open(Limit::of::<LIMIT>(), &mut row, &mut buffer)?;
///
/// // The first packet asks for an ACK. Its sequence, here 9, is any.
/// let first = link.accept(b"\x61\x02\x00\x00\x02\x01\xAA", 9)?;
/// assert!(matches!(first, Accepted::Piece { stream: Stream::Alexa, id: 1, place: 8, replaced: false }));
/// match link.accept(b"\x61\x18\x01\xBB", 9)? {
///     Accepted::Finished(message) => {
///         assert_eq!(message.stream, Stream::Alexa);
///         assert_eq!(message.bytes, b"\xAA\xBB");
///         // To be sent once the message is safe.
///         assert_eq!(message.ack, Some(*b"\x61\x9E\x00\x02\x01\x00"));
///     }
///     other => panic!("{other:?}"),
/// }
/// // No transaction is open any more.
/// assert_eq!(link.accept(b"\x61\x18\x01\xBB", 9), Err(Refusal::NoTransaction));
/// # Ok::<(), Refusal>(())
/// ```
#[derive(Clone, Debug)]
pub struct Link<'a, R: Row = &'a mut [Slot; SLOTS], B: Buffer = &'a mut [u8]> {
    state: [u64; RECEIVER_STATE],
    limit: Limit,
    row: R,
    buffer: B,
    borrowed: PhantomData<&'a mut [u8]>,
}

/// A [`Link`] that has its memory itself, with a buffer of `N` bytes.
///
/// ```
/// use pitokaenge::{sizes, Accepted, Limit, OwnedLink, Refusal};
///
/// const LIMIT: usize = 64;
/// struct Kiln {
///     link: OwnedLink<{ sizes::receiver_buffer(LIMIT) }>,
/// }
/// let mut kiln = Kiln { link: OwnedLink::new(Limit::of::<LIMIT>())? };
/// assert!(matches!(kiln.link.accept(b"\x61\x00\x00\x00\x01\x01\xAA", 0)?, Accepted::Finished(_)));
/// # Ok::<(), Refusal>(())
/// ```
pub type OwnedLink<const N: usize> = Link<'static, [Slot; SLOTS], [u8; N]>;

/// What a packet has brought about.
#[derive(Clone, Copy, Debug, PartialEq, Eq)]
#[non_exhaustive]
pub enum Accepted<'a> {
    /// A piece of a transaction, with more to come.
    Piece {
        /// The packet's stream.
        stream: Stream,
        /// Its transaction.
        id: u8,
        /// The slot's, 0 to 11.
        place: usize,
        /// Whether it is a first packet that replaced an open transaction of its id.
        replaced: bool,
    },
    /// The message is whole.
    Finished(Message<'a>),
    /// An ACK came.
    Ack {
        /// The stream of what it answers.
        stream: Stream,
        /// .. and the transaction.
        id: u8,
        /// Its own.
        sequence: u8,
    },
    /// A NACK came.
    Nack {
        /// The stream of what it answers.
        stream: Stream,
        /// .. and the transaction.
        id: u8,
        /// Its own.
        sequence: u8,
    },
}

/// A message that is whole.
#[derive(Clone, Copy, Debug, PartialEq, Eq)]
pub struct Message<'a> {
    /// The stream that it came over.
    pub stream: Stream,
    /// The transaction's.
    pub id: u8,
    /// The slot's, 0 to 11.
    pub place: usize,
    /// Whether it came in one packet that replaced an open transaction of its id.
    pub replaced: bool,
    /// The message.
    pub bytes: &'a [u8],
    /// If one is wanted: a whole packet, to be sent as it is once the message is safe.
    pub ack: Option<[u8; ACK_SIZE]>,
}

impl<'a> Link<'a> {
    /// No transaction is open: the row is made idle. Refused by 1 if the buffer is too small; of a larger one no more is
    /// used.
    pub fn open(
        limit: Limit,
        row: &'a mut [Slot; SLOTS],
        buffer: &'a mut [u8],
    ) -> Result<Link<'a>, Refusal> {
        let mut link = Link::over(limit, row, buffer)?;
        link.clear();
        Ok(link)
    }

    /// Goes on with a row and a buffer as a link of this limit left them: what was open is open. Refused by 1 if the
    /// buffer is too small, or the row is not lawful.
    ///
    /// ```
    /// use pitokaenge::{sizes, Accepted, Limit, Link, Refusal, Slot};
    ///
    /// const LIMIT: Limit = Limit::of::<64>();
    /// let mut row = [Slot::default(); sizes::SLOTS];
    /// let mut buffer = [0; sizes::receiver_buffer(LIMIT.get())];
    /// // A link for each packet, as where each comes by an interrupt.
    /// for (packet, last) in [(&b"\x61\x00\x00\x00\x02\x01\xAA"[..], false), (b"\x61\x18\x01\xBB", true)] {
    ///     let mut link = Link::resume(LIMIT, &mut row, &mut buffer)?;
    ///     assert_eq!(matches!(link.accept(packet, 0)?, Accepted::Finished(_)), last);
    /// }
    /// row[0].id = 16;
    /// assert_eq!(Link::resume(LIMIT, &mut row, &mut buffer).err(), Some(Refusal::Unfit));
    /// # Ok::<(), Refusal>(())
    /// ```
    pub fn resume(
        limit: Limit,
        row: &'a mut [Slot; SLOTS],
        buffer: &'a mut [u8],
    ) -> Result<Link<'a>, Refusal> {
        let mut link = Link::over(limit, row, buffer)?;
        // A packet of no bytes is refused by 2, and leaves everything; what is refused before it is by the row.
        match link.accept(&[], 0) {
            Err(Refusal::PacketShort) => Ok(link),
            Err(refusal) => Err(refusal),
            Ok(_) => Err(Refusal::Unfit),
        }
    }
}

impl<const N: usize> OwnedLink<N> {
    /// No transaction is open. Refused by 1 if `N` is too small for the limit.
    pub fn new(limit: Limit) -> Result<OwnedLink<N>, Refusal> {
        Link::over(limit, [Slot::default(); SLOTS], [0; N])
    }
}

impl<'a, R: Row, B: Buffer> Link<'a, R, B> {
    fn over(limit: Limit, row: R, mut buffer: B) -> Result<Link<'a, R, B>, Refusal> {
        let mut state = [0; RECEIVER_STATE];
        calls::pito_receiver_open(limit.get() as u64, &mut state)?;
        if buffer.bytes().len() < receiver_buffer(limit.get()) {
            return Err(Refusal::Unfit);
        }
        Ok(Link {
            state,
            limit,
            row,
            buffer,
            borrowed: PhantomData,
        })
    }

    /// The limit that it was opened with.
    pub fn limit(&self) -> Limit {
        self.limit
    }

    /// The slots as they are: what is open, and how much of it has come.
    pub fn row(&self) -> &[Slot; SLOTS] {
        self.row.as_row()
    }

    /// Drops every open transaction, as where the radio has come back after a lost link.
    pub fn clear(&mut self) {
        *self.row.slots() = [Slot::default(); SLOTS];
    }

    /// Drops the transaction of the slot at a place, 0 to 11, as where a speaker has given up four of a stream and 18 is all
    /// that others get. Control has the places 0 to 3, OTA 4 to 7, Alexa 8 to 11.
    ///
    /// ```
    /// # use pitokaenge::{sizes, Accepted, Limit, Link, Refusal, Slot};
    /// # let (mut row, mut buffer) = ([Slot::default(); sizes::SLOTS], [0; sizes::receiver_buffer(64)]);
    /// # let mut link = Link::open(Limit::of::<64>(), &mut row, &mut buffer)?;
    /// // First packets of ids 0 to 3 on Alexa.
    /// for head in 0x60..0x64 {
    ///     link.accept(&[head, 0, 0, 0, 2, 1, b'A'], 0)?;
    /// }
    /// let fifth = b"\x64\x00\x00\x00\x02\x01B";
    /// assert_eq!(link.accept(fifth, 0), Err(Refusal::NoSlot));
    /// link.clear_slot(9);
    /// assert!(matches!(link.accept(fifth, 0)?, Accepted::Piece { id: 4, place: 9, .. }));
    /// # Ok::<(), Refusal>(())
    /// ```
    pub fn clear_slot(&mut self, place: usize) {
        if let Some(slot) = self.row.slots().get_mut(place) {
            *slot = Slot::default();
        }
    }

    /// Takes one packet as it came, any bytes. `ack_sequence` is the sequence of the ACK, if one is written: any from 0 to
    /// 15. Refused by 15 if it is above; else by the packet: 2, 3, 12, 4, 5, 6, 7, 8, 18, 9, 10, 11. After 10 and 11 the
    /// transaction is dropped, all others leave everything; after 18 the same packet can be given again later.
    pub fn accept(&mut self, packet: &[u8], ack_sequence: u8) -> Result<Accepted<'_>, Refusal> {
        let mut ack = [0; ACK_SIZE];
        let buffer = self
            .buffer
            .bytes()
            .get_mut(..receiver_buffer(self.limit.get()))
            .ok_or(Refusal::Unfit)?;
        let row = calls::pito_receiver_accept(
            &self.state,
            self.row.slots(),
            buffer,
            packet,
            ack_sequence.into(),
            &mut ack,
        )?;
        let (stream, id, sequence) = (told::stream(row.stream)?, row.id as u8, row.sequence as u8);
        let (place, replaced) = (row.place as usize, row.replaced == 1);
        Ok(match row.outcome {
            sizes::PIECE_TAKEN => Accepted::Piece {
                stream,
                id,
                place,
                replaced,
            },
            sizes::FINISHED => Accepted::Finished(Message {
                stream,
                id,
                place,
                replaced,
                bytes: told::part(
                    buffer,
                    row.place.saturating_mul(self.limit.get() as u64),
                    row.total,
                )?,
                ack: (row.ack_wanted == 1).then_some(ack),
            }),
            sizes::ACKED => Accepted::Ack {
                stream,
                id,
                sequence,
            },
            _ => Accepted::Nack {
                stream,
                id,
                sequence,
            },
        })
    }
}
