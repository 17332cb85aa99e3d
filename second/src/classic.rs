//! "The frame of Classic (001)": the extractor, the frame writer and the next sequence byte, for a
//! link with any limit (No. 6).

use crate::refusal::{deliver, limit_in, Refusal};

/// Start of frame.
pub const START: u8 = 0xF0;
/// End of frame.
pub const END: u8 = 0xF1;
/// The byte before an escaped one.
pub const ESCAPE: u8 = 0xF2;
/// The limit of `frames` and of the worked cases.
pub const LIMIT: u64 = 4_096;

/// What the lent buffer has exactly: "the extractor's two more" than the limit, for the checksum.
pub const fn buffer(limit: u64) -> usize {
    limit as usize + 2
}

/// "F0, F1, F2 are the marks."
pub fn is_mark(byte: u8) -> bool {
    matches!(byte, START | END | ESCAPE)
}

/// The extractor of a link: its limit, which stays, and where it stands in its stream.
#[derive(Clone, Copy, Debug, PartialEq, Eq)]
pub struct Extractor {
    pub limit: u64,
    pub standing: Standing,
}

/// Where an extractor stands in its stream.
#[derive(Clone, Copy, Debug, Default, PartialEq, Eq)]
pub enum Standing {
    /// No frame is open.
    #[default]
    Outside,
    /// F0 is read; 02 has to come.
    PacketId,
    /// F0 02 is read; 00 has to come.
    ErrorId,
    /// F0 02 00 is read; the sequence byte has to come.
    Sequence,
    /// The sequence byte is read; `held` unescaped bytes stand in the lent buffer, and `escape`
    /// says that an F2 waits for its second byte.
    Body {
        sequence: u8,
        held: usize,
        escape: bool,
    },
}

/// What a byte that is not refused did. "One byte is one step of the extractor, with one of four
/// outcomes: skipped, taken, frame, refused."
#[derive(Clone, Copy, Debug, PartialEq, Eq)]
pub enum Outcome {
    Skipped,
    Taken,
    Frame { sequence: u8, length: usize },
}

/// What "many bytes given at once" came to.
#[derive(Clone, Copy, Debug, PartialEq, Eq)]
pub enum Decided {
    /// The bytes ended with nothing decided.
    AllUsed,
    Frame {
        sequence: u8,
        length: usize,
    },
    Refused(Refusal),
}

impl Extractor {
    /// The empty state of a link with a limit: outside a frame.
    pub fn open(limit: u64) -> Result<Extractor, Refusal> {
        limit_in(limit)?;
        Ok(Extractor {
            limit,
            standing: Standing::Outside,
        })
    }

    /// "A lawful state holds at most" the limit and two more bytes, "none before the sequence byte
    /// is read, and a sequence that is no mark; what isn't read yet is 0." The states before the
    /// sequence byte carry no numbers at all here, so only an open body can be unlawful; and a
    /// limit that is none.
    pub fn is_lawful(self) -> bool {
        limit_in(self.limit).is_ok()
            && match self.standing {
                Standing::Body { sequence, held, .. } => {
                    !is_mark(sequence) && held <= buffer(self.limit)
                }
                _ => true,
            }
    }

    fn is_unfit(self, lent: &[u8]) -> bool {
        !self.is_lawful() || lent.len() != buffer(self.limit)
    }

    fn at(self, standing: Standing) -> Extractor {
        Extractor { standing, ..self }
    }

    /// "One byte is one step of the extractor."
    pub fn step(self, buffer: &mut [u8], byte: u8) -> (Extractor, Result<Outcome, Refusal>) {
        if self.is_unfit(buffer) {
            return (self, Err(Refusal::Lent));
        }
        let (next, told) = self.standing.step(buffer, byte);
        (self.at(next), told)
    }

    /// "Many bytes given at once stop after the first frame or refusal, or at their end, and the
    /// number used is told, 0 under 1."
    pub fn feed(self, buffer: &mut [u8], bytes: &[u8]) -> (Extractor, usize, Decided) {
        if self.is_unfit(buffer) {
            return (self, 0, Decided::Refused(Refusal::Lent));
        }
        let (next, used, decided) = self.standing.feed(buffer, bytes);
        (self.at(next), used, decided)
    }
}

impl Standing {
    /// Whether a frame is open.
    pub fn is_inside(self) -> bool {
        self != Standing::Outside
    }

    /// A byte, over a buffer of the right size.
    fn step(self, buffer: &mut [u8], byte: u8) -> (Standing, Result<Outcome, Refusal>) {
        use Standing::*;
        // "Every refusal of a byte but 20 leaves the extractor outside."
        let fall = |refusal| (Outside, Err(refusal));
        let go = |state| (state, Ok(Outcome::Taken));
        match (self, byte) {
            // "F0 in any state starts a frame; inside one it also answers 20."
            (Outside, START) => go(PacketId),
            (_, START) => (PacketId, Err(Refusal::StartInside)),
            // "Outside a frame every byte but F0 is skipped."
            (Outside, _) => (Outside, Ok(Outcome::Skipped)),
            // "F0 to F2 02, F1 to F2 03, F2 to F2 00. No other byte may be escaped."
            (
                Body {
                    sequence,
                    held,
                    escape: true,
                },
                _,
            ) => match byte {
                0x00 | 0x02 | 0x03 => match keep(buffer, held, &[ESCAPE ^ byte]) {
                    Some(held) => go(Body {
                        sequence,
                        held,
                        escape: false,
                    }),
                    None => fall(Refusal::Full),
                },
                _ => fall(Refusal::Escape),
            },
            // "F1 inside ends it."
            (Body { sequence, held, .. }, END) => match verified(&buffer[..held]) {
                Ok(length) => (Outside, Ok(Outcome::Frame { sequence, length })),
                Err(refusal) => fall(refusal),
            },
            (_, END) => fall(Refusal::EarlyEnd),
            (Body { sequence, held, .. }, ESCAPE) => go(Body {
                sequence,
                held,
                escape: true,
            }),
            (Body { sequence, held, .. }, _) => match keep(buffer, held, &[byte]) {
                Some(held) => go(Body {
                    sequence,
                    held,
                    escape: false,
                }),
                None => fall(Refusal::Full),
            },
            (PacketId, 0x02) => go(ErrorId),
            (ErrorId, 0x00) => go(Sequence),
            // The sequence byte "is reported and not judged", but no mark stands for one.
            (Sequence, sequence) if sequence != ESCAPE => go(Body {
                sequence,
                held: 0,
                escape: false,
            }),
            (PacketId | ErrorId | Sequence, _) => fall(Refusal::Header),
        }
    }

    /// Runs between marks go through whole; only marks, the byte after F2 and the header go
    /// through `step`.
    fn feed(self, buffer: &mut [u8], bytes: &[u8]) -> (Standing, usize, Decided) {
        let mut state = self;
        let mut rest = bytes;
        while !rest.is_empty() {
            match state {
                Standing::Outside if rest[0] != START => {
                    let skipped = rest.iter().take_while(|&&byte| byte != START).count();
                    rest = &rest[skipped..];
                }
                Standing::Body {
                    sequence,
                    held,
                    escape: false,
                } if !is_mark(rest[0]) => {
                    let plain = rest.iter().take_while(|&&byte| !is_mark(byte)).count();
                    let fits = plain.min(buffer.len() - held);
                    let held = keep(buffer, held, &rest[..fits]).expect("cut to what fits");
                    rest = &rest[fits..];
                    if fits < plain {
                        let used = bytes.len() - rest.len() + 1;
                        return (Standing::Outside, used, Decided::Refused(Refusal::Full));
                    }
                    state = Standing::Body {
                        sequence,
                        held,
                        escape: false,
                    };
                }
                _ => {
                    let (next, told) = state.step(buffer, rest[0]);
                    rest = &rest[1..];
                    state = next;
                    let used = bytes.len() - rest.len();
                    match told {
                        Ok(Outcome::Frame { sequence, length }) => {
                            return (state, used, Decided::Frame { sequence, length });
                        }
                        Ok(_) => {}
                        Err(refusal) => return (state, used, Decided::Refused(refusal)),
                    }
                }
            }
        }
        (state, bytes.len(), Decided::AllUsed)
    }
}

/// "Each unescaped byte after the sequence byte is stored at the count held, and nothing else is
/// ever written." Gives the new count, or nothing if the bytes do not fit.
fn keep(buffer: &mut [u8], held: usize, bytes: &[u8]) -> Option<usize> {
    let after = held + bytes.len();
    buffer.get_mut(held..after)?.copy_from_slice(bytes);
    Some(after)
}

/// Judges what is stored when F1 comes, and gives the payload's length: 21 is "under 2 bytes
/// stored", 25 "checksum differs".
fn verified(stored: &[u8]) -> Result<usize, Refusal> {
    let (payload, told) = stored.split_last_chunk::<2>().ok_or(Refusal::EarlyEnd)?;
    if checksum(payload) == u16::from_be_bytes(*told) {
        Ok(payload.len())
    } else {
        Err(Refusal::Checksum)
    }
}

/// "The checksum is 2 plus the sum of unescaped payload bytes, modulo 65,536, two bytes
/// big-endian."
pub fn checksum(payload: &[u8]) -> u16 {
    let sum: u64 = payload.iter().copied().map(u64::from).sum();
    ((2 + sum) % 65_536) as u16
}

/// "In payload and checksum a mark b becomes F2 followed by F2 xor b."
pub fn escaped(bytes: &[u8]) -> Vec<u8> {
    bytes
        .iter()
        .flat_map(|&byte| {
            let mark = is_mark(byte).then_some(ESCAPE);
            let rest = if mark.is_some() { ESCAPE ^ byte } else { byte };
            mark.into_iter().chain([rest])
        })
        .collect()
}

/// A whole frame: "F0, 02, 00, sequence byte, payload, checksum, F1".
pub fn frame(sequence: u8, payload: &[u8]) -> Vec<u8> {
    [
        vec![START, 0x02, 0x00, sequence],
        escaped(payload),
        escaped(&checksum(payload).to_be_bytes()),
        vec![END],
    ]
    .concat()
}

/// The frame writer: 17, 15 if the sequence is a mark or the payload above the limit, then 14.
pub fn write_frame(
    sequence: u8,
    limit: u64,
    payload: &[u8],
    output: &mut [u8],
) -> Result<usize, Refusal> {
    if payload.len() > limit_in(limit)? || is_mark(sequence) {
        return Err(Refusal::Argument);
    }
    deliver(&frame(sequence, payload), output)
}

/// A frame that is written by parts: "the payload part by part, its total length told at the start".
#[derive(Clone, Copy, Debug, PartialEq, Eq)]
pub struct Parts {
    pub limit: u64,
    pub sequence: u8,
    pub total: u64,
    pub taken: u64,
    /// Of the payload bytes taken.
    pub sum: u16,
    pub next: Next,
    /// A mark of which F2 is written and its second byte is not.
    pub split: Option<u8>,
}

/// What a frame's next byte is, once no second byte is owed.
#[derive(Clone, Copy, Debug, PartialEq, Eq)]
pub enum Next {
    /// Of the four bytes before the payload, the one at this place.
    Header(u8),
    /// A payload byte, or the checksum's first byte where none is missing.
    Payload,
    /// The checksum's second byte.
    LastSum,
    End,
    Nothing,
}

/// "It tells the bytes taken and written", and whether the frame has ended.
#[derive(Clone, Copy, Debug, PartialEq, Eq)]
pub struct PartWritten {
    pub taken: usize,
    pub written: usize,
    pub ended: bool,
}

impl Parts {
    /// 17; then "at the start, 15 for a sequence that is a mark or a total above the message limit."
    pub fn begin(sequence: u8, limit: u64, total: u64) -> Result<Parts, Refusal> {
        limit_in(limit)?;
        let parts = Parts {
            limit,
            sequence,
            total,
            taken: 0,
            sum: checksum(&[]),
            next: Next::Header(0),
            split: None,
        };
        Some(parts)
            .filter(|parts| parts.is_lawful())
            .ok_or(Refusal::Argument)
    }

    /// "A state with either, or with more taken than told" is unlawful, or with a limit that is
    /// none, and no other is.
    pub fn is_lawful(self) -> bool {
        limit_in(self.limit).is_ok()
            && !is_mark(self.sequence)
            && self.total <= self.limit
            && self.taken <= self.total
    }

    fn ended(self) -> bool {
        self.next == Next::Nothing && self.split.is_none()
    }

    /// The byte of payload or checksum that is due goes out: its first byte now, and a second one
    /// if it is a mark.
    fn put(&mut self, byte: u8) -> u8 {
        let bytes = escaped(&[byte]);
        self.split = bytes.get(1).map(|_| byte);
        bytes[0]
    }

    /// The next output byte, taking from the part what it needs; none if the frame has ended, or
    /// "it needs a payload byte not offered".
    fn byte(&mut self, part: &mut std::slice::Iter<'_, u8>) -> Option<u8> {
        if let Some(mark) = self.split.take() {
            return Some(escaped(&[mark])[1]);
        }
        let [high, low] = self.sum.to_be_bytes();
        match self.next {
            Next::Header(place) => {
                let header = [START, 0x02, 0x00, self.sequence];
                self.next = if place < 3 {
                    Next::Header(place + 1)
                } else {
                    Next::Payload
                };
                Some(header[usize::from(place)])
            }
            Next::Payload if self.taken < self.total => {
                let byte = *part.next()?;
                self.taken += 1;
                self.sum = self.sum.wrapping_add(u16::from(byte));
                Some(self.put(byte))
            }
            Next::Payload => {
                self.next = Next::LastSum;
                Some(self.put(high))
            }
            Next::LastSum => {
                self.next = Next::End;
                Some(self.put(low))
            }
            Next::End => {
                self.next = Next::Nothing;
                Some(END)
            }
            Next::Nothing => None,
        }
    }

    /// "1 a state with either, or with more taken than told, then 26 more payload offered than is
    /// still missing, then 14 an output of length 0." Each leaves state and output.
    pub fn write(self, part: &[u8], output: &mut [u8]) -> (Parts, Result<PartWritten, Refusal>) {
        if !self.is_lawful() {
            return (self, Err(Refusal::Lent));
        }
        if part.len() as u64 > self.total - self.taken {
            return (self, Err(Refusal::TooMuch));
        }
        if output.is_empty() {
            return (self, Err(Refusal::Output));
        }
        let mut state = self;
        let mut left = part.iter();
        let mut written = 0;
        for place in output {
            let Some(byte) = state.byte(&mut left) else {
                break;
            };
            *place = byte;
            written += 1;
        }
        let told = PartWritten {
            taken: part.len() - left.len(),
            written,
            ended: state.ended(),
        };
        (state, Ok(told))
    }
}

/// "Sequence bytes go up by one modulo 256 and skip the marks."
pub fn next_sequence(sequence: u8) -> u8 {
    (1..=255u8)
        .map(|more| sequence.wrapping_add(more))
        .find(|&byte| !is_mark(byte))
        .expect("three marks only")
}

/// The text that `frames` prints for a stream: one line for each frame and refusal as they come,
/// "place of the deciding byte, sequence, payload length", then the count skipped, then the end.
pub fn listing(stream: &[u8]) -> String {
    let mut buffer = vec![0; buffer(LIMIT)];
    let mut state = Extractor::open(LIMIT).expect("a limit");
    let mut skipped = 0;
    let mut lines = Vec::new();
    for (place, &byte) in stream.iter().enumerate() {
        let (next, told) = state.step(&mut buffer, byte);
        state = next;
        match told {
            Ok(Outcome::Skipped) => skipped += 1,
            Ok(Outcome::Taken) => {}
            Ok(Outcome::Frame { sequence, length }) => {
                lines.push(format!("frame {place} {sequence} {length}"));
            }
            Err(refusal) => lines.push(format!("refused {refusal} at {place}")),
        }
    }
    lines.push(format!("skipped {skipped}"));
    let side = if state.standing.is_inside() {
        "inside"
    } else {
        "outside"
    };
    lines.push(format!("end {} {side}", stream.len()));
    lines.iter().map(|line| line.clone() + "\n").collect()
}
