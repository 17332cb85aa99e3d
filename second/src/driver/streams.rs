//! Streams for the extractor: random, damaged and cut, with many marks and nearly valid frames,
//! given in steps and feeds mixed, from lawful and unlawful states, on links with several limits.

use super::{damage, edge, Plan};
use crate::classic::{self, checksum, escaped, is_mark, ESCAPE, START};
use crate::comparison::{Compared, Comparison};
use crate::implementation::{Call, Operation};
use crate::rng::Rng;

/// The limits that are tried: each with how many streams, long frames and frames written it gets.
/// Every lent byte is compared at every call, so a large buffer is dear.
const LIMITS: &[(u64, [u64; 3])] = &[
    (4_096, [1_000_000, 400, 60_000]),
    (1, [60_000, 2_000, 6_000]),
    (2, [60_000, 2_000, 6_000]),
    (19, [60_000, 2_000, 6_000]),
    (20, [60_000, 2_000, 6_000]),
    (255, [60_000, 2_000, 6_000]),
    (256, [60_000, 2_000, 6_000]),
    (20_000, [2_000, 40, 400]),
    (65_535, [600, 20, 200]),
];

pub fn run(c: &mut Comparison<'_>, rng: &mut Rng, plan: Plan) -> Compared<()> {
    for &(limit, [streams, long, written]) in LIMITS {
        let mut desk = Desk::open(c, rng, limit)?;
        for number in 0..plan.times(streams) {
            if number % 4_096 == 0 {
                c.at = format!("extractor stream {number} at limit {limit}");
            }
            desk.stream(c, rng)?;
        }
        c.at = format!("long frames at limit {limit}");
        for _ in 0..plan.times(long) {
            desk.long(c, rng)?;
        }
        c.at = format!("frames written and read at limit {limit}");
        for _ in 0..plan.times(written) {
            desk.written(c, rng)?;
        }
    }
    Ok(())
}

/// A size around a limit.
pub fn near(rng: &mut Rng, limit: u64, below: usize, above: usize) -> usize {
    let limit = limit as usize;
    rng.between(limit.saturating_sub(below), limit + above)
}

/// A byte that matters often.
pub fn byte(rng: &mut Rng) -> u8 {
    const MATTER: &[u8] = &[
        0xF0, 0xF1, 0xF2, 0xF0, 0xF1, 0xF2, 0x00, 0x02, 0x03, 0x01, 0xEE, 0xEF, 0xF3, 0xFF,
    ];
    if rng.once_in(2) {
        *rng.pick(MATTER)
    } else {
        rng.byte()
    }
}

/// A payload: mostly short, often such that its checksum has a mark.
pub fn payload(rng: &mut Rng) -> Vec<u8> {
    if rng.once_in(400) {
        // Sums around F000 to F2FF and past 65,536.
        let mut payload = vec![0xFF; rng.between(238, 262)];
        let place = rng.index(payload.len());
        payload[place] = byte(rng);
        return payload;
    }
    let size = if rng.once_in(20) {
        rng.index(80)
    } else {
        rng.index(9)
    };
    let mut payload: Vec<u8> = (0..size).map(|_| byte(rng)).collect();
    if rng.once_in(3) {
        let wanted = *rng.pick(&[0xF0, 0xF1, 0xF2]);
        let low = checksum(&payload) as u8;
        payload.push(u8::wrapping_sub(wanted, low));
    }
    payload
}

/// A sequence byte that is no mark.
pub fn sequence(rng: &mut Rng) -> u8 {
    loop {
        let sequence = byte(rng);
        if !is_mark(sequence) {
            return sequence;
        }
    }
}

/// A frame that is right, or wrong in one way.
fn nearly(rng: &mut Rng) -> Vec<u8> {
    let body = payload(rng);
    let sum = checksum(&body);
    let mut header = vec![START, 0x02, 0x00, sequence(rng)];
    let mut tail = vec![classic::END];
    let mut content = escaped(&body);
    let mut sum_bytes = escaped(&sum.to_be_bytes());
    match rng.below(24) {
        0 => sum_bytes = escaped(&sum.wrapping_add(1).to_be_bytes()),
        1 => sum_bytes = escaped(&sum.to_le_bytes()),
        2 => sum_bytes = escaped(&checksum(&content).to_be_bytes()),
        3 => sum_bytes = sum.to_be_bytes().to_vec(),
        4 => sum_bytes = escaped(&sum.wrapping_sub(2).to_be_bytes()),
        5 => {
            // An escape that is not needed.
            let plain = byte(rng);
            content.extend([ESCAPE, ESCAPE ^ plain]);
        }
        6 => header[1] = byte(rng),
        7 => header[2] = byte(rng),
        8 => header[3] = *rng.pick(&[0xF0, 0xF1, 0xF2]),
        9 => {
            content.truncate(rng.index(2));
            sum_bytes.clear();
        }
        10 => header.truncate(rng.index(4)),
        11 => header.insert(rng.index(5), START),
        12 => tail = vec![ESCAPE, classic::END],
        13 => tail.clear(),
        14 => tail = vec![ESCAPE, START],
        15 => {
            let escaped_sequence = escaped(&[*rng.pick(&[0xF0, 0xF1, 0xF2])]);
            header.splice(3..4, escaped_sequence);
        }
        _ => {}
    }
    [header, content, sum_bytes, tail].concat()
}

/// A stream of a few frames and some noise, often damaged.
pub fn stream(rng: &mut Rng) -> Vec<u8> {
    let mut stream = Vec::new();
    for _ in 0..rng.between(1, 4) {
        if rng.once_in(5) {
            for _ in 0..rng.index(6) {
                stream.push(byte(rng));
            }
        } else {
            stream.extend(nearly(rng));
        }
    }
    if rng.once_in(3) {
        damage(rng, &mut stream, byte);
    }
    stream
}

/// One step call and one feed call over the same extractor; which of them holds the state and the
/// buffer changes from call to call.
struct Desk {
    limit: u64,
    step: Call,
    feed: Call,
    writer: Call,
}

impl Desk {
    fn open(c: &mut Comparison<'_>, rng: &mut Rng, limit: u64) -> Compared<Desk> {
        c.at = format!("an extractor opened with {limit}");
        let mut open = Call::new(Operation::ExtractorOpen).numbers(&[limit]);
        rng.fill_row(&mut open.state);
        c.expect(&mut open, 0, |call| call.state == [limit, 0, 0, 0])?;
        let room = classic::buffer(limit);
        Ok(Desk {
            limit,
            step: Call::new(Operation::ExtractorStep)
                .state(&open.state)
                .lent(rng.bytes(room)),
            feed: Call::new(Operation::ExtractorFeed)
                .state(&open.state)
                .lent(rng.bytes(room)),
            writer: Call::new(Operation::FrameWrite),
        })
    }

    /// The empty state.
    fn reset(&mut self) {
        self.step.state = vec![self.limit, 0, 0, 0];
    }

    /// One byte; the state and buffer of `step` are the true ones before and after.
    fn one(&mut self, c: &mut Comparison<'_>, byte: u8) -> Compared<u64> {
        self.step.numbers[0] = u64::from(byte);
        c.run(&mut self.step)
    }

    /// Many bytes; gives the number returned and the number used.
    fn many(&mut self, c: &mut Comparison<'_>, bytes: &[u8]) -> Compared<(u64, usize)> {
        let swap = |step: &mut Call, feed: &mut Call| {
            std::mem::swap(&mut step.state, &mut feed.state);
            std::mem::swap(&mut step.lent, &mut feed.lent);
        };
        swap(&mut self.step, &mut self.feed);
        self.feed.inputs[0].clear();
        self.feed.inputs[0].extend_from_slice(bytes);
        let returned = c.run(&mut self.feed)?;
        swap(&mut self.step, &mut self.feed);
        let used = if returned == 1 {
            0
        } else {
            self.feed.answer[1]
        };
        Ok((returned, used as usize))
    }

    /// Gives a stream from where the extractor stands, in steps and feeds. The way is 0 for steps
    /// only, 1 for feeds of all that is left, else both mixed. Stops at a refusal by 1.
    fn give(
        &mut self,
        c: &mut Comparison<'_>,
        rng: &mut Rng,
        stream: &[u8],
        way: u64,
    ) -> Compared<()> {
        let mut rest = stream;
        let mut frame_length = 12;
        while !rest.is_empty() {
            let stepping = match way {
                0 => true,
                1 => false,
                _ => rng.once_in(2),
            };
            let (returned, used) = if stepping {
                (self.one(c, rest[0])?, 1)
            } else {
                let count = match way {
                    1 => rest.len(),
                    _ if rng.once_in(8) => rest.len(),
                    _ => rng.index(frame_length).min(rest.len()),
                };
                self.many(c, &rest[..count])?
            };
            if returned == 1 {
                return Ok(());
            }
            frame_length = 30;
            rest = &rest[used..];
        }
        Ok(())
    }

    /// A state to begin with, and the bytes that fit it.
    fn begin(&mut self, rng: &mut Rng) -> Vec<u8> {
        if rng.once_in(16) {
            let lent = &mut self.step.lent;
            rng.fill(lent);
        }
        self.reset();
        let room = classic::buffer(self.limit);
        match rng.below(40) {
            0..=25 => stream(rng),
            26 => {
                // Waits for a byte of the header.
                self.step.state[1] = rng.below(3) + 1;
                let mut bytes = stream(rng);
                if rng.once_in(2) {
                    bytes.drain(..bytes.len().min(rng.between(1, 3)));
                }
                bytes
            }
            27..=37 => {
                let held = match rng.below(4) {
                    0 => rng.index(4),
                    1 => rng.index(room + 1),
                    _ => rng.between(room.saturating_sub(6), room),
                };
                let held = held.min(room);
                let escape = rng.once_in(4);
                self.step.state[1] = 4 + u64::from(escape);
                self.step.state[2] = u64::from(sequence(rng));
                self.step.state[3] = held as u64;
                self.rest_of_frame(rng, held, escape)
            }
            _ => {
                // Numbers that a state may not have.
                self.step.state[1] = rng.below(6);
                if rng.once_in(2) {
                    self.step.state[2] = u64::from(sequence(rng));
                    self.step.state[3] = rng.below(room as u64 + 900);
                }
                let place = rng.index(4);
                self.step.state[place] = edge(rng);
                stream(rng)
            }
        }
    }

    /// The bytes that finish a frame whose first `held` bytes already stand in the buffer: some
    /// payload, the checksum of all, and F1; then a stream.
    fn rest_of_frame(&mut self, rng: &mut Rng, held: usize, escape: bool) -> Vec<u8> {
        let mut bytes = Vec::new();
        let mut more: Vec<u8> = (0..rng.index(4)).map(|_| byte(rng)).collect();
        let room = classic::buffer(self.limit);
        if held + 2 <= room && rng.once_in(2) {
            // Exactly full at the end.
            let left = room - 2 - held;
            if left < 8 {
                more = (0..left).map(|_| byte(rng)).collect();
            }
        }
        if escape {
            // The byte after F2: mostly one of those that may stand there.
            bytes.push(match rng.below(8) {
                0 => byte(rng),
                _ => *rng.pick(&[0x00, 0x02, 0x03]),
            });
            more.clear();
        }
        if held >= 2 && rng.once_in(5) && !escape {
            // The checksum stands already: F1 comes at once.
            let sum = checksum(&self.step.lent[..held - 2]);
            self.step.lent[held - 2..held].copy_from_slice(&sum.to_be_bytes());
            if rng.once_in(4) {
                self.step.lent[held - 1 - rng.index(2)] ^= 1 << rng.below(8);
            }
        } else {
            bytes.extend(escaped(&more));
            let before = &self.step.lent[..held];
            let unescaped = bytes.first().filter(|_| escape).map(|&b| ESCAPE ^ b);
            let payload = [before, unescaped.as_slice(), &more].concat();
            let sum = checksum(&payload);
            bytes.extend(escaped(&sum.to_be_bytes()));
        }
        bytes.push(classic::END);
        if rng.once_in(4) {
            damage(rng, &mut bytes, byte);
        }
        if rng.once_in(3) {
            bytes.extend(stream(rng));
        }
        bytes
    }

    fn stream(&mut self, c: &mut Comparison<'_>, rng: &mut Rng) -> Compared<()> {
        let bytes = self.begin(rng);
        let way = rng.below(6);
        self.give(c, rng, &bytes, way)?;
        if rng.once_in(16) {
            self.many(c, &[])?;
        }
        Ok(())
    }

    /// A frame around the largest size, whole or nearly, and a frame after it.
    fn long(&mut self, c: &mut Comparison<'_>, rng: &mut Rng) -> Compared<()> {
        self.reset();
        let size = near(rng, self.limit, 6, 4).max(1);
        let mut body = match rng.below(3) {
            0 => vec![*rng.pick(&[0xFF, 0xF0, 0xF2, 0x00]); size],
            1 => rng.bytes(size),
            _ => (0..size).map(|_| byte(rng)).collect(),
        };
        if rng.once_in(2) {
            let low = checksum(&body[1..]) as u8;
            body[0] = u8::wrapping_sub(*rng.pick(&[0xF0, 0xF1, 0xF2]), low);
        }
        let mut bytes = classic::frame(sequence(rng), &body);
        if rng.once_in(3) {
            damage(rng, &mut bytes, byte);
        }
        bytes.extend(nearly(rng));
        // A large buffer is compared at few calls only.
        let way = if rng.once_in(8) && self.limit <= 4_096 {
            rng.below(3)
        } else {
            1
        };
        self.give(c, rng, &bytes, way)
    }

    /// A frame written, with an output that is sometimes too small, and read again.
    fn written(&mut self, c: &mut Comparison<'_>, rng: &mut Rng) -> Compared<()> {
        let body = if rng.once_in(300) {
            let size = near(rng, self.limit, 6, 2);
            (0..size).map(|_| byte(rng)).collect()
        } else {
            payload(rng)
        };
        let sequence = byte(rng);
        let frame = classic::frame(sequence, &body);
        let size = match rng.below(4) {
            0 => rng.index(frame.len() + 1),
            1 => frame.len() - 1,
            2 => frame.len(),
            _ => frame.len() + rng.index(20),
        };
        let limit = if rng.once_in(20) {
            edge(rng)
        } else {
            self.limit
        };
        self.writer.numbers = vec![u64::from(sequence), limit];
        self.writer.inputs[0].clone_from(&body);
        self.writer.lent.resize(size, 0x5A);
        let returned = c.run(&mut self.writer)?;
        if returned == 0 && body.len() as u64 <= self.limit {
            self.reset();
            let written = self.writer.answer[0] as usize;
            let frame = self.writer.lent[..written].to_vec();
            let way = if self.limit > 4_096 { 1 } else { rng.below(3) };
            self.give(c, rng, &frame, way)?;
            let empty = [self.limit, 0, 0, 0];
            let holds = self.step.lent.starts_with(&body) && self.step.state == empty;
            c.hold(holds, "a frame of the writer is read", &self.step)?;
        }
        Ok(())
    }
}
