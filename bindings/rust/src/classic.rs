//! Classic: frames taken out of a byte stream, and written.

use crate::calls::{self, Told};
use crate::sizes::{self, extractor_buffer, EXTRACTOR_STATE, PARTS_STATE};
use crate::{told, Limit, Refusal};

mod sealed {
    /// Bytes that are the same ones at each call.
    pub trait Bytes {
        fn bytes(&mut self) -> &mut [u8];
    }

    impl Bytes for [u8] {
        fn bytes(&mut self) -> &mut [u8] {
            self
        }
    }

    impl<const N: usize> Bytes for [u8; N] {
        fn bytes(&mut self) -> &mut [u8] {
            self
        }
    }

    impl<B: Bytes + ?Sized> Bytes for &mut B {
        fn bytes(&mut self) -> &mut [u8] {
            (**self).bytes()
        }
    }
}

/// What an [`Extractor`] holds a frame in: an array of its own, `[u8; N]`, or borrowed bytes, `&mut [u8]`.
pub trait Buffer: sealed::Bytes {}

impl<B: sealed::Bytes> Buffer for B {}

/// A whole frame: its sequence byte, which is told and not judged, and its payload.
#[derive(Clone, Copy, Debug, PartialEq, Eq)]
pub struct Frame<'a> {
    /// Its sequence byte.
    pub sequence: u8,
    /// Its payload.
    pub payload: &'a [u8],
}

/// What the bytes of a stream have brought about.
#[derive(Clone, Copy, Debug, PartialEq, Eq)]
pub enum Event<'a> {
    /// A whole frame.
    Frame(Frame<'a>),
    /// A byte was refused, by 20 to 25. What was being received is dropped, and the stream goes on.
    Refused(Refusal),
}

/// What one byte has brought about.
#[derive(Clone, Copy, Debug, PartialEq, Eq)]
pub enum Step<'a> {
    /// A byte outside a frame.
    Skipped,
    /// A byte of a frame.
    Taken,
    /// The byte that ends a frame.
    Frame(Frame<'a>),
}

/// Takes the frames out of a byte stream that drops and cuts bytes: damage ends at the next F0.
///
/// It has its buffer as an array of its own, or borrows one. At least
/// [`extractor_buffer`](sizes::extractor_buffer)`(limit)` bytes are needed, and no more are used.
///
/// ```
/// use pitokaenge::{sizes, Event, Extractor, Frame, Limit, Refusal};
///
/// const LIMIT: usize = 4096;
/// let mut extractor = Extractor::new(Limit::of::<LIMIT>(), [0; sizes::extractor_buffer(LIMIT)])?;
///
/// // A byte of noise, a frame, a frame that is cut short by the next one.
/// let stream = b"\x00\xF0\x02\x00\x05\xF2\x02\x00\xF2\x00\xF1\xF0\x02\xF0\x02\x00\x06\x00\x02\xF1";
/// let mut rest = &stream[..];
/// assert_eq!(
///     extractor.feed(&mut rest),
///     Some(Event::Frame(Frame { sequence: 5, payload: b"\xF0" }))
/// );
/// assert_eq!(extractor.feed(&mut rest), Some(Event::Refused(Refusal::StartInside)));
/// assert_eq!(extractor.feed(&mut rest), Some(Event::Frame(Frame { sequence: 6, payload: b"" })));
/// assert_eq!(extractor.feed(&mut rest), None);
/// # Ok::<(), Refusal>(())
/// ```
#[derive(Clone, Debug)]
pub struct Extractor<B: Buffer> {
    state: [u64; EXTRACTOR_STATE],
    limit: Limit,
    buffer: B,
}

impl<B: Buffer> Extractor<B> {
    /// Outside a frame. Refused by 1 if the buffer is too small.
    pub fn new(limit: Limit, buffer: B) -> Result<Extractor<B>, Refusal> {
        let mut extractor = Extractor {
            state: [0; EXTRACTOR_STATE],
            limit,
            buffer,
        };
        calls::pito_extractor_open(limit.get() as u64, &mut extractor.state)?;
        match extractor.parts() {
            Some(_) => Ok(extractor),
            None => Err(Refusal::Unfit),
        }
    }

    /// The limit that it was made with.
    pub fn limit(&self) -> Limit {
        self.limit
    }

    /// The state, and as much of the buffer as the limit wants.
    fn parts(&mut self) -> Option<(&mut [u64], &mut [u8])> {
        let lent = self
            .buffer
            .bytes()
            .get_mut(..extractor_buffer(self.limit.get()))?;
        Some((&mut self.state, lent))
    }

    /// Takes the bytes up to the first frame or refusal, and moves the slice behind them; `None` once all are used.
    ///
    /// ```
    /// # use pitokaenge::{sizes, Event, Extractor, Limit, Refusal};
    /// # const LIMIT: usize = 64;
    /// # let mut buffer = [0; 80];
    /// # let mut extractor = Extractor::new(Limit::of::<LIMIT>(), &mut buffer[..])?;
    /// # let received = b"\xF0\x02\x00\x00\x00\x02\xF1\xF0\xF1";
    /// # let mut seen = Vec::new();
    /// let mut rest = &received[..];
    /// while let Some(event) = extractor.feed(&mut rest) {
    ///     match event {
    ///         Event::Frame(frame) => println!("{} bytes", frame.payload.len()),
    ///         Event::Refused(refusal) => println!("{refusal}"),
    ///     }
    /// #   seen.push(format!("{event:?}"));
    /// }
    /// # assert_eq!(seen, ["Frame(Frame { sequence: 0, payload: [] })", "Refused(FrameShort)"]);
    /// # Ok::<(), Refusal>(())
    /// ```
    pub fn feed(&mut self, bytes: &mut &[u8]) -> Option<Event<'_>> {
        let (state, buffer) = self.parts()?;
        match calls::pito_extractor_feed(state, buffer, bytes) {
            Ok(row) => {
                told::use_up(bytes, row.used);
                let payload = told::part(buffer, 0, row.length).ok()?;
                let sequence = row.sequence as u8;
                (row.outcome == sizes::FRAME).then_some(Event::Frame(Frame { sequence, payload }))
            }
            Err(Told { refusal, row }) => {
                told::use_up(bytes, row.used);
                Some(Event::Refused(refusal))
            }
        }
    }

    /// Takes one byte. Refused by 20 to 25.
    ///
    /// ```
    /// # use pitokaenge::{Extractor, Frame, Limit, Refusal, Step};
    /// let mut extractor = Extractor::new(Limit::of::<64>(), [0; 66])?;
    /// assert_eq!(extractor.step(0x55), Ok(Step::Skipped));
    /// for byte in *b"\xF0\x02\x00\x00\x00\x02" {
    ///     assert_eq!(extractor.step(byte), Ok(Step::Taken));
    /// }
    /// assert_eq!(extractor.step(0xF1), Ok(Step::Frame(Frame { sequence: 0, payload: b"" })));
    /// # Ok::<(), Refusal>(())
    /// ```
    pub fn step(&mut self, byte: u8) -> Result<Step<'_>, Refusal> {
        let (state, buffer) = self.parts().ok_or(Refusal::Unfit)?;
        let row = calls::pito_extractor_step(state, buffer, byte)?;
        Ok(match row.outcome {
            sizes::SKIPPED => Step::Skipped,
            sizes::FRAME => Step::Frame(Frame {
                sequence: row.sequence as u8,
                payload: told::part(buffer, 0, row.length)?,
            }),
            _ => Step::Taken,
        })
    }
}

/// Writes the frame of a payload, from the output's first byte on, and gives what is written.
/// [`frame_size`](sizes::frame_size) bytes are enough. Refused by 15 (a sequence byte that is F0, F1 or F2, a payload over
/// the limit), 14.
///
/// ```
/// use pitokaenge::{sizes, write_frame, Limit, Refusal};
///
/// let mut output = [0; sizes::frame_size(1)];
/// let frame = write_frame(5, Limit::of::<4096>(), b"\xF0", &mut output)?;
/// assert_eq!(frame, b"\xF0\x02\x00\x05\xF2\x02\x00\xF2\x00\xF1");
/// assert_eq!(write_frame(0xF1, Limit::of::<4096>(), b"", &mut output), Err(Refusal::Argument));
/// # Ok::<(), Refusal>(())
/// ```
pub fn write_frame<'o>(
    sequence: u8,
    limit: Limit,
    payload: &[u8],
    output: &'o mut [u8],
) -> Result<&'o [u8], Refusal> {
    let row = calls::pito_frame_write(sequence.into(), limit.get() as u64, payload, output)?;
    told::written(output, row.written)
}

/// The same frame by parts, for a sender that has no room for all of it: the payload is taken part by part, and the frame
/// goes into one output after another, of 1 byte or more each. Joined, the outputs are what [`write_frame`] writes.
///
/// ```
/// use pitokaenge::{FrameWriter, Limit, Refusal};
///
/// let mut payload = &b"stoke at three"[..];
/// let mut writer = FrameWriter::begin(5, Limit::of::<4096>(), payload.len())?;
/// let (mut output, mut sent) = ([0; 8], Vec::new());
/// while !writer.has_ended() {
///     sent.extend_from_slice(writer.write(&mut payload, &mut output)?);
/// }
/// assert_eq!(sent, b"\xF0\x02\x00\x05stoke at three\x05\x55\xF1");
/// # Ok::<(), Refusal>(())
/// ```
#[derive(Clone, Debug)]
pub struct FrameWriter {
    state: [u64; PARTS_STATE],
    ended: bool,
}

impl FrameWriter {
    /// Begins a frame whose payload will have `total` bytes. Refused by 15, as [`write_frame`] is.
    pub fn begin(sequence: u8, limit: Limit, total: usize) -> Result<FrameWriter, Refusal> {
        let mut state = [0; PARTS_STATE];
        calls::pito_frame_begin(
            sequence.into(),
            limit.get() as u64,
            total as u64,
            &mut state,
        )?;
        Ok(FrameWriter {
            state,
            ended: false,
        })
    }

    /// Writes the frame on, from the output's first byte, and gives what is written. The slice of payload is any part of it
    /// that begins at its first byte not yet taken, and is moved behind the bytes taken; it may be empty. The output is
    /// filled, unless the frame ends or needs a payload byte that is not there. Refused by 26 (more payload than is
    /// missing), 14 (an output of no bytes).
    pub fn write<'o>(
        &mut self,
        payload: &mut &[u8],
        output: &'o mut [u8],
    ) -> Result<&'o [u8], Refusal> {
        let row = calls::pito_frame_part(&mut self.state, payload, output)?;
        told::use_up(payload, row.taken);
        self.ended = row.ended == 1;
        told::written(output, row.written)
    }

    /// Whether the whole frame is written.
    pub fn has_ended(&self) -> bool {
        self.ended
    }
}

/// The sequence byte after a sequence byte: one more, and the marks are skipped.
///
/// ```
/// use pitokaenge::next_sequence;
///
/// assert_eq!([0xEF, 0xFF, 0x00].map(next_sequence), [0xF3, 0x00, 0x01]);
/// ```
pub fn next_sequence(sequence: u8) -> u8 {
    // No byte is refused.
    calls::pito_next_sequence(sequence).map_or(0, |row| row.next as u8)
}
