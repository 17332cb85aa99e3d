//! The calls that every implementation is run on: worked cases, captures, and generators.

pub mod captures;
pub mod control;
pub mod firmware;
pub mod judged;
pub mod listing;
pub mod orders;
pub mod outboxes;
pub mod packets;
pub mod parts;
pub mod reads;
pub mod replies;
pub mod reports;
pub mod rooms;
pub mod sizes;
pub mod streams;
pub mod strings;
pub mod worked;

use crate::comparison::{Compared, Comparison};
use crate::rng::Rng;

/// How much is run: the seed of all generators, and how many cases they make.
#[derive(Clone, Copy, Debug)]
pub struct Plan {
    pub seed: u64,
    /// 1 is a million streams, a million packets and a million control messages.
    pub scale: f64,
}

impl Plan {
    /// A count at scale 1, scaled; never none.
    pub fn times(&self, count: u64) -> u64 {
        ((count as f64 * self.scale).round() as u64).max(1)
    }
}

/// A part of the run.
pub struct Part {
    pub name: &'static str,
    pub run: fn(&mut Comparison<'_>, &mut Rng, Plan) -> Compared<()>,
}

/// All parts in their order.
pub const PARTS: &[Part] = &[
    Part {
        name: "worked cases",
        run: worked::run,
    },
    Part {
        name: "wrong sizes and arguments out of range",
        run: sizes::run,
    },
    Part {
        name: "messages at all rooms",
        run: rooms::run,
    },
    Part {
        name: "extractor streams",
        run: streams::run,
    },
    Part {
        name: "frames by parts",
        run: parts::run,
    },
    Part {
        name: "packets in interleaved lists",
        run: packets::run,
    },
    Part {
        name: "packets of two streams in either order",
        run: orders::run,
    },
    Part {
        name: "packets read",
        run: reads::run,
    },
    Part {
        name: "captures judged",
        run: judged::run,
    },
    Part {
        name: "captures in a report",
        run: reports::run,
    },
    Part {
        name: "strings",
        run: strings::run,
    },
    Part {
        name: "control messages",
        run: control::run,
    },
    Part {
        name: "replies",
        run: replies::run,
    },
    Part {
        name: "firmware messages",
        run: firmware::run,
    },
    Part {
        name: "outboxes",
        run: outboxes::run,
    },
];

/// Runs one part, with a generator of its own.
pub fn run_part(part: &Part, comparison: &mut Comparison<'_>, plan: Plan) -> Compared<()> {
    let salt = part.name.bytes().fold(plan.seed, |sum, byte| {
        sum.wrapping_mul(0x0000_0100_0000_01B3) ^ u64::from(byte)
    });
    comparison.at = part.name.to_string();
    (part.run)(comparison, &mut Rng::new(salt), plan)
}

/// Damages bytes a little: changes, leaves out, adds or doubles a few, or cuts the end off. `byte`
/// gives the new bytes.
pub fn damage(rng: &mut Rng, bytes: &mut Vec<u8>, byte: fn(&mut Rng) -> u8) {
    for _ in 0..rng.between(1, 3) {
        let length = bytes.len();
        match rng.below(8) {
            0 | 1 if length > 0 => {
                let place = rng.index(length);
                bytes[place] = byte(rng);
            }
            2 if length > 0 => {
                let place = rng.index(length);
                bytes[place] ^= 1 << rng.below(8);
            }
            3 if length > 0 => {
                bytes.remove(rng.index(length));
            }
            4 => bytes.insert(rng.index(length + 1), byte(rng)),
            5 if length > 0 => {
                let place = rng.index(length);
                bytes.insert(place, bytes[place]);
            }
            6 => bytes.truncate(rng.index(length + 1)),
            7 if length > 0 => {
                let place = rng.index(length);
                bytes[place] = if rng.once_in(2) {
                    bytes[place].wrapping_add(1)
                } else {
                    bytes[place].wrapping_sub(1)
                };
            }
            _ => bytes.push(byte(rng)),
        }
    }
}

/// Numbers at the edges of the paper's ranges, and of the numbers that a computer has.
pub const EDGES: &[u64] = &[
    0,
    1,
    2,
    3,
    4,
    5,
    6,
    7,
    8,
    9,
    10,
    14,
    15,
    16,
    17,
    19,
    20,
    21,
    127,
    128,
    239,
    240,
    241,
    242,
    243,
    255,
    256,
    257,
    511,
    512,
    513,
    4_095,
    4_096,
    4_097,
    4_098,
    4_099,
    12_287,
    12_288,
    12_289,
    65_535,
    65_536,
    536_870_911,
    536_870_912,
    0x7FFF_FFFF,
    0x8000_0000,
    0xFFFF_FFFF,
    0x1_0000_0000,
    0x1_0000_0001,
    0x7FFF_FFFF_FFFF_FFFF,
    0x8000_0000_0000_0000,
    0xFFFF_FFFF_7FFF_FFFF,
    0xFFFF_FFFF_8000_0000,
    0xFFFF_FFFF_FFFF_FFF0,
    u64::MAX,
];

/// A number at an edge, or any.
pub fn edge(rng: &mut Rng) -> u64 {
    if rng.once_in(8) {
        rng.draw() >> rng.below(64)
    } else {
        *rng.pick(EDGES)
    }
}

/// A string of about `size` bytes: mostly ASCII or sequences of all lengths, sometimes with a few
/// bytes damaged, rarely any bytes.
fn text(rng: &mut Rng, size: usize) -> Vec<u8> {
    let plain = rng.once_in(2);
    if rng.once_in(16) {
        return rng.bytes(size);
    }
    let mut made = String::new();
    while made.len() < size {
        let code = match rng.below(if plain { 1 } else { 4 }) {
            0 => rng.below(0x80),
            1 => *rng.pick(&[
                0x80, 0x7FF, 0x800, 0xD7FF, 0xE000, 0xFFFF, 0x1_0000, 0x10_FFFF,
            ]),
            2 => rng.below(0x1_0000),
            _ => rng.below(0x11_0000),
        };
        made.extend(char::from_u32(code as u32));
    }
    let mut made = made.into_bytes();
    if rng.once_in(16) && !made.is_empty() {
        let place = rng.index(made.len());
        match rng.below(3) {
            0 => made.truncate(place),
            1 => drop(made.remove(place)),
            _ => {
                made[place] = *rng.pick(&[
                    0x80, 0x8F, 0x90, 0x9F, 0xA0, 0xBF, 0xC0, 0xC1, 0xC2, 0xE0, 0xED, 0xF0, 0xF4,
                    0xF5, 0xFF,
                ]);
            }
        }
    }
    made
}
