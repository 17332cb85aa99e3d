//! "Each is given exactly when its line holds and none above it in its group does": each line of
//! the table, and the orders that the paper and its readings fix.

mod common;

use common::{accept, BUFFER};
use second::classic::{self, Extractor, Next, Outcome, Parts, Standing};
use second::control::{self, Envelope, Features, Given, Information, Payload, Response};
use second::driver::worked::bytes;
use second::low_energy::{
    self, write_packet, Accepted, Open, Receiver, Reply, Slots, Stream, Wish, IDLE,
};
use second::outbox;
use second::refusal::Refusal;
use second::reply::{self, Own};

/// What a packet is refused by, from these slots; a refusal of the group's lines up to 9 changes
/// nothing.
fn packet_refusal(slots: Slots, packet: &[u8]) -> u64 {
    let mut buffer = vec![0xEE; BUFFER];
    let (after, told) = accept(slots, &mut buffer, packet);
    assert!(buffer.iter().all(|&byte| byte == 0xEE), "a byte changed");
    let number = told.expect_err("a refusal").number();
    match number {
        10 | 11 => assert_ne!(after, slots),
        _ => assert_eq!(after, slots),
    }
    number
}

fn control_open(total: usize, held: usize) -> Slots {
    row_of(&[(0, open_slot(1, total, held))])
}

fn open_slot(id: u8, total: usize, held: usize) -> Open {
    Open {
        id,
        total,
        held,
        sequence: 4,
        wanted: false,
    }
}

/// A row that is idle but for these places.
fn row_of(slots: &[(usize, Open)]) -> Slots {
    let mut row = IDLE;
    for &(place, open) in slots {
        row[place] = Some(open);
    }
    row
}

#[test]
fn packets_read() {
    let full = row_of(
        &[1, 9, 4, 0]
            .map(|id| open_slot(id, 10, 3))
            .into_iter()
            .enumerate()
            .collect::<Vec<_>>(),
    );
    let open = control_open(10, 3);
    let cases: &[(Slots, &str, u64)] = &[
        (IDLE, "", 2),
        (IDLE, "00", 2),
        (IDLE, "F0", 2),
        // Headers one byte short, on types 0, 1, 2 with and without the extender.
        (IDLE, "00 00 00 00 01", 2),
        (IDLE, "00 01 00 00 01 00", 2),
        (IDLE, "00 04", 2),
        (IDLE, "00 05 00", 2),
        (IDLE, "00 08", 2),
        (IDLE, "00 09 00", 2),
        // 2 comes before 3, and 3 before all others.
        (IDLE, "10 04", 2),
        (IDLE, "10 04 00", 3),
        (IDLE, "70 00 01 FF FF 09", 3),
        // A type 3 packet of two bytes is never 2.
        (IDLE, "10 0C", 3),
        (IDLE, "00 0C", 12),
        (IDLE, "00 0C 00 02 01", 12),
        (IDLE, "00 0C 00 02 01 00", 12),
        (IDLE, "00 0E 00 02 01 03", 12),
        (IDLE, "00 0F 00 02 01 00", 12),
        (IDLE, "00 0E 00 02 01 00 00", 12),
        (IDLE, "00 0E 01 02 01 00", 12),
        (IDLE, "00 0E 00 03 01 00", 12),
        (IDLE, "00 0E 00 02 00 00", 12),
        (IDLE, "00 00 01 FF FF 09", 4),
        (IDLE, "00 00 00 FF FF 09", 5),
        (IDLE, "00 00 00 00 02 01", 5),
        (IDLE, "00 00 00 00 02 01 AA BB", 5),
        (IDLE, "00 04 02 AA", 5),
        (IDLE, "00 00 00 10 01 01 AA", 6),
        (IDLE, "00 00 00 10 01 00", 6),
        (IDLE, "00 00 00 00 01 00", 7),
        // Empty pieces of types 1 and 2 are 7, open or not.
        (IDLE, "00 04 00", 7),
        (IDLE, "00 08 00", 7),
        (open, "01 54 00", 7),
        (IDLE, "00 00 00 00 01 02 AA BB", 8),
        // Total 0 with a payload is 8.
        (IDLE, "00 00 00 00 00 01 AA", 8),
        (IDLE, "00 04 01 AA", 9),
        (open, "02 54 01 AA", 9),
        (open, "61 54 01 AA", 9),
        (open, "01 44 01 AA", 10),
        (open, "01 64 01 AA", 10),
        // 10 before 11.
        (open, "01 68 01 AA", 10),
        // Type 1 reaches, and passes; type 2 misses by one on each side.
        (open, "01 54 07 A0 A1 A2 A3 A4 A5 A6", 11),
        (open, "01 54 08 A0 A1 A2 A3 A4 A5 A6 A7", 11),
        (open, "01 58 06 A0 A1 A2 A3 A4 A5", 11),
        (open, "01 58 08 A0 A1 A2 A3 A4 A5 A6 A7", 11),
        // 8 before 18; a first packet that would finish at once is 18 too; 9 for the other types.
        (full, "02 00 00 00 01 02 AA BB", 8),
        (full, "02 00 00 00 02 01 AA", 18),
        (full, "02 00 00 00 01 01 AA", 18),
        (full, "02 00 00 00 00 00", 18),
        (full, "02 54 01 AA", 9),
        (full, "22 54 01 AA", 9),
    ];
    for (slots, packet, number) in cases {
        assert_eq!(packet_refusal(*slots, &bytes(packet)), *number, "{packet}");
    }
}

#[test]
fn unlawful_states_and_buffers_come_first() {
    let packet = bytes("00");
    for size in [0, 4_098, 12_288, BUFFER - 1, BUFFER + 1] {
        let mut buffer = vec![0; size];
        assert_eq!(accept(IDLE, &mut buffer, &packet).1, Err(Refusal::Lent));
    }
    // A limit that is none, over a buffer of twelve times that.
    for limit in [0, 65_536] {
        let state = Receiver { limit, slots: IDLE };
        let mut buffer = vec![0; low_energy::buffer(limit)];
        let reply = Reply {
            sequence: 16,
            buffer: &mut [],
        };
        let (after, told) = low_energy::accept(state, &mut buffer, &packet, reply);
        assert_eq!((after, told), (state, Err(Refusal::Lent)));
    }
    let lawful = Open {
        id: 15,
        total: 4_096,
        held: 4_095,
        sequence: 15,
        wanted: true,
    };
    let unlawful = [
        Open { id: 16, ..lawful },
        Open {
            sequence: 16,
            ..lawful
        },
        Open {
            total: 4_097,
            ..lawful
        },
        Open {
            held: 4_096,
            ..lawful
        },
        Open { held: 0, ..lawful },
        Open {
            total: 1,
            held: 1,
            ..lawful
        },
        Open {
            total: 0,
            held: 0,
            ..lawful
        },
    ];
    for slot in 0..12 {
        let mut slots = row_of(&[(slot, lawful)]);
        assert_eq!(packet_refusal(slots, &packet), 2);
        for open in unlawful {
            slots[slot] = Some(open);
            assert_eq!(packet_refusal(slots, &packet), 1);
        }
    }
}

/// "after 1, 15 for an answer sequence above 15 and 14 for an answer buffer under six bytes, both
/// before the packet is looked at": whatever the packet, and nothing changes.
#[test]
fn the_answer_is_judged_before_the_packet() {
    let slots = control_open(10, 3);
    let state = Receiver {
        limit: classic::LIMIT,
        slots,
    };
    // Short, of no stream, out of order, and one that would finish and be answered.
    for packet in ["", "00", "10 04 00", "01 64 01 AA", "61 02 00 00 01 01 AA"] {
        let cases = [
            (16, 6, Refusal::Argument),
            (16, 5, Refusal::Argument),
            (u64::MAX, 0, Refusal::Argument),
            (15, 5, Refusal::Output),
            (0, 0, Refusal::Output),
        ];
        for (sequence, size, refusal) in cases {
            let mut buffer = vec![0xEE; BUFFER];
            let mut answer = vec![0xDD; size];
            let reply = Reply {
                sequence,
                buffer: &mut answer,
            };
            let got = low_energy::accept(state, &mut buffer, &bytes(packet), reply);
            assert_eq!(got, (state, Err(refusal)), "{packet}");
            assert!(answer.iter().all(|&byte| byte == 0xDD));
            assert!(buffer.iter().all(|&byte| byte == 0xEE));
        }
    }
}

#[test]
fn a_first_packet_replaces_its_own_id_and_notes_it() {
    let mut buffer = vec![0; BUFFER];
    let first = bytes("01 90 00 00 03 01 AA");
    let (after, told) = accept(control_open(10, 3), &mut buffer, &first);
    assert!(matches!(told, Ok(Accepted::Held { replaced: true, .. })));
    let replaced = after[0].unwrap();
    assert_eq!((replaced.id, replaced.sequence, replaced.held), (1, 9, 1));
    // Also one that finishes at once, empty or not.
    for only in ["01 90 00 00 01 01 AA", "01 90 00 00 00 00"] {
        let (after, told) = accept(control_open(10, 3), &mut buffer, &bytes(only));
        assert!(matches!(
            told,
            Ok(Accepted::Finished { replaced: true, .. })
        ));
        assert_eq!(after, IDLE);
    }
    // One that is refused replaces nothing.
    assert_eq!(
        packet_refusal(control_open(10, 3), &bytes("01 90 00 00 01 00")),
        7
    );
    // Neither another id's slot nor another stream's is replaced.
    for (other, goes) in [("07 90 00 00 03 01 AA", 1), ("61 90 00 00 03 01 AA", 8)] {
        let (after, told) = accept(control_open(10, 3), &mut buffer, &bytes(other));
        let Ok(Accepted::Held {
            place, replaced, ..
        }) = told
        else {
            panic!("{other}: {told:?}")
        };
        assert_eq!((place, replaced), (goes, false));
        assert_eq!(after[0], control_open(10, 3)[0]);
    }
}

/// "no two open slots of a stream have one id", of two streams they may.
#[test]
fn ids_doubled_in_a_stream_are_unlawful() {
    let packet = bytes("00");
    for one in 0..12 {
        for other in 0..one {
            let row = row_of(&[(one, open_slot(7, 10, 3)), (other, open_slot(7, 9, 1))]);
            let number = if one / 4 == other / 4 { 1 } else { 2 };
            assert_eq!(packet_refusal(row, &packet), number);
        }
    }
}

/// "otherwise it takes the lowest idle slot"; the part of that slot is written, no other byte.
#[test]
fn the_lowest_idle_slot_is_taken() {
    for stream in Stream::ALL {
        for idle in 1u8..16 {
            let is_open = |index: &usize| idle >> index & 1 == 0;
            let first = stream.places().start;
            let taken: Vec<(usize, Open)> = (0..4)
                .filter(is_open)
                .map(|index| (first + index, open_slot(index as u8, 10, 3)))
                .collect();
            let mut buffer = vec![0xEE; BUFFER];
            let packet = [stream.number() << 4 | 9, 0x40, 0, 0, 10, 1, 0xAA];
            let (after, told) = accept(row_of(&taken), &mut buffer, &packet);
            let lowest = first + idle.trailing_zeros() as usize;
            let expected = Accepted::Held {
                place: lowest,
                stream,
                id: 9,
                replaced: false,
            };
            assert_eq!(told, Ok(expected));
            let all = [&taken[..], &[(lowest, open_slot(9, 10, 1))]].concat();
            assert_eq!(after, row_of(&all));
            let changed: Vec<usize> = (0..BUFFER).filter(|&k| buffer[k] != 0xEE).collect();
            assert_eq!(changed, [lowest * 4_096]);
        }
    }
}

/// What comes of these packets on the Alexa stream, one after the other; the last answer and slots.
fn alexa(packets: &[&str]) -> (Slots, Result<Accepted, Refusal>) {
    let mut buffer = vec![0; BUFFER];
    let mut last = (IDLE, Err(Refusal::ShortPacket));
    for packet in packets {
        last = accept(last.0, &mut buffer, &bytes(packet));
    }
    last
}

/// "An ACK is wanted if at least one accepted packet of the transaction carried the flag."
#[test]
fn the_flag_on_any_accepted_packet_asks() {
    let cases: &[(&[&str], bool)] = &[
        // A single packet: its own flag.
        (&["62 02 00 00 01 01 AA"], true),
        (&["62 00 00 00 01 01 AA"], false),
        (&["62 02 00 00 00 00"], true),
        // The first's, one between, the last's; none.
        (&["62 02 00 00 02 01 AA", "62 18 01 BB"], true),
        (
            &["62 00 00 00 03 01 AA", "62 16 01 BB", "62 28 01 CC"],
            true,
        ),
        (&["62 00 00 00 02 01 AA", "62 1A 01 BB"], true),
        (
            &["62 00 00 00 03 01 AA", "62 14 01 BB", "62 28 01 CC"],
            false,
        ),
        // "a replaced .. transaction forgets it"; one of another id has its own slot.
        (
            &[
                "62 02 00 00 02 01 AA",
                "62 00 00 00 02 01 AA",
                "62 18 01 BB",
            ],
            false,
        ),
        (
            &[
                "61 02 00 00 02 01 AA",
                "62 00 00 00 02 01 AA",
                "62 18 01 BB",
            ],
            false,
        ),
        // Dropped by 10, dropped by 11, finished.
        (
            &[
                "62 02 00 00 02 01 AA",
                "62 28 01 BB",
                "62 00 00 00 01 01 AA",
            ],
            false,
        ),
        (
            &[
                "62 02 00 00 02 01 AA",
                "62 14 01 BB",
                "62 00 00 00 01 01 AA",
            ],
            false,
        ),
        (
            &[
                "62 02 00 00 01 01 AA",
                "62 00 00 00 02 01 AA",
                "62 18 01 BB",
            ],
            false,
        ),
        // Refused packets and acknowledgements count for nothing, of the same stream and id too: 9,
        // 5, 7 with the flag, and an ACK, whose flag is set.
        (
            &["62 00 00 00 02 01 AA", "63 1A 01 BB", "62 18 01 BB"],
            false,
        ),
        (
            &["62 00 00 00 02 01 AA", "62 1A 02 BB", "62 18 01 BB"],
            false,
        ),
        (&["62 00 00 00 02 01 AA", "62 1A 00", "62 18 01 BB"], false),
        (
            &["62 00 00 00 02 01 AA", "62 1E 00 02 01 00", "62 18 01 BB"],
            false,
        ),
        // .. and take nothing away: an ACK and a NACK between.
        (
            &["62 02 00 00 02 01 AA", "62 1C 00 02 01 03", "62 18 01 BB"],
            true,
        ),
        // Another stream's flag.
        (
            &[
                "62 00 00 00 02 01 AA",
                "02 02 00 00 02 01 AA",
                "62 18 01 BB",
            ],
            false,
        ),
    ];
    for (packets, wanted) in cases {
        let (slots, told) = alexa(packets);
        let Ok(Accepted::Finished { ack_wanted, .. }) = told else {
            panic!("{packets:?}: {told:?}")
        };
        assert_eq!(ack_wanted, *wanted, "{packets:?}");
        let left = slots[Stream::Alexa.places()].iter().flatten();
        assert!(left.map(|open| open.id).all(|id| id != 2), "{packets:?}");
    }
}

fn wish() -> Wish {
    Wish {
        stream: Stream::Control,
        id: 0,
        sequence: 0,
        ack: false,
    }
}

#[test]
fn packets_written() {
    let message = [0; 40];
    let mut output = [0xEE; 512];
    let mut refused = |room, limit, wish, message: &[u8], place, size: usize| {
        let told = write_packet(room, limit, wish, message, place, &mut output[..size]);
        told.expect_err("a refusal").number()
    };
    // 13 before 17, 17 before 15, 15 before 14.
    for room in [0, 19, 513, u64::MAX] {
        assert_eq!(refused(room, 0, None, &message, 1, 0), 13);
    }
    for limit in [0, 65_536, u64::MAX] {
        assert_eq!(refused(20, limit, None, &message, 1, 0), 17);
    }
    for limit in [1, 39] {
        assert_eq!(refused(20, limit, Some(wish()), &message, 0, 0), 15);
    }
    assert_eq!(refused(20, 40, Some(wish()), &message, 0, 0), 14);
    let mut refusal = |room, wish, message: &[u8], place, size| {
        refused(room, classic::LIMIT, wish, message, place, size)
    };
    assert_eq!(refusal(20, None, &message, 0, 0), 15);
    assert_eq!(refusal(20, Some(wish()), &[0; 4_097], 0, 0), 15);
    for place in [1, 13, 15, 30, 32, 40, 41, u64::MAX] {
        assert_eq!(refusal(20, Some(wish()), &message, place, 0), 15);
    }
    for place in [0, 14, 31] {
        assert_eq!(refusal(20, Some(wish()), &message, place, 19), 14);
    }
    // The room counts, not the packet.
    assert_eq!(refusal(512, Some(wish()), &[], 0, 511), 14);
    assert_eq!(refusal(512, Some(wish()), &[], 1, 512), 15);
    assert!(output.iter().all(|&byte| byte == 0xEE));
}

/// An extractor with the limit of the worked cases.
fn at(standing: Standing) -> Extractor {
    Extractor {
        limit: classic::LIMIT,
        standing,
    }
}

/// The state that these bytes lead to from outside.
fn after(bytes: &[u8], buffer: &mut [u8]) -> Extractor {
    let (state, used, _) = at(Standing::Outside).feed(buffer, bytes);
    assert_eq!(used, bytes.len());
    state
}

#[test]
fn frames() {
    let full = at(Standing::Body {
        sequence: 1,
        held: 4_098,
        escape: false,
    });
    let full_escape = at(Standing::Body {
        sequence: 1,
        held: 4_098,
        escape: true,
    });
    let mut buffer = vec![0xEE; 4_098];
    let mut start = |text: &str| after(&bytes(text), &mut buffer);
    let body = |text: &str| format!("F0 02 00 01 {text}");
    let cases: Vec<(Extractor, u8, u64)> = vec![
        (start("F0"), 0xF0, 20),
        (start("F0 02"), 0xF0, 20),
        (start("F0 02 00"), 0xF0, 20),
        (start(&body("")), 0xF0, 20),
        (start(&body("F2")), 0xF0, 20),
        (full, 0xF0, 20),
        (full_escape, 0xF0, 20),
        (start("F0"), 0xF1, 21),
        (start("F0 02"), 0xF1, 21),
        (start("F0 02 00"), 0xF1, 21),
        (start(&body("")), 0xF1, 21),
        (start(&body("02")), 0xF1, 21),
        (start(&body("F2 02")), 0xF1, 21),
        (start("F0"), 0xF2, 22),
        (start("F0"), 0x00, 22),
        (start("F0 02"), 0xF2, 22),
        (start("F0 02"), 0x02, 22),
        (start("F0 02 00"), 0xF2, 22),
        (start(&body("F2")), 0xF1, 23),
        (start(&body("F2")), 0xF2, 23),
        (start(&body("F2")), 0x01, 23),
        (start(&body("F2")), 0x04, 23),
        (full_escape, 0xF1, 23),
        (full_escape, 0x01, 23),
        (full_escape, 0x00, 24),
        (full_escape, 0x02, 24),
        (full, 0x00, 24),
        (full, 0xF1, 25),
        (start(&body("00 00")), 0xF1, 25),
        (start(&body("02 00")), 0xF1, 25),
        (start(&body("00 F2 02")), 0xF1, 25),
    ];
    let before = buffer.clone();
    for (state, byte, number) in cases {
        let (next, told) = state.step(&mut buffer, byte);
        assert_eq!(
            told.map_err(Refusal::number),
            Err(number),
            "{state:?} {byte:02X}"
        );
        let expected = match number {
            20 => Standing::PacketId,
            _ => Standing::Outside,
        };
        assert_eq!(next, at(expected));
    }
    assert_eq!(buffer, before);
    let (next, told) = full.step(&mut buffer, 0xF2);
    assert_eq!((next, told), (full_escape, Ok(Outcome::Taken)));
    assert_eq!(buffer, before);
}

#[test]
fn the_largest_frame_is_read_and_one_byte_more_is_24() {
    for limit in [1, 2, 4_096, 20_000, 65_535] {
        for more in [0, 1] {
            let size = limit as usize + more;
            let frame = classic::frame(7, &vec![0xF2; size]);
            let mut buffer = vec![0; limit as usize + 2];
            let empty = Extractor::open(limit).unwrap();
            let (state, used, decided) = empty.feed(&mut buffer, &frame);
            assert_eq!(state, empty);
            let full = classic::Decided::Refused(Refusal::Full);
            if more == 0 {
                let expected = classic::Decided::Frame {
                    sequence: 7,
                    length: size,
                };
                assert_eq!((used, decided), (frame.len(), expected));
            } else {
                // The last byte of the checksum, before the end mark.
                assert_eq!(decided, full);
                assert_eq!(used, frame.len() - 1);
            }
        }
    }
}

#[test]
fn extractor_states_and_buffers() {
    let unlawful = [(0xF0, 0), (0xF1, 0), (0xF2, 0), (0, 4_099)];
    for (sequence, held) in unlawful {
        let state = at(Standing::Body {
            sequence,
            held,
            escape: false,
        });
        let mut buffer = vec![0; 4_098];
        assert_eq!(state.step(&mut buffer, 0xF0), (state, Err(Refusal::Lent)));
        let refused = classic::Decided::Refused(Refusal::Lent);
        assert_eq!(state.feed(&mut buffer, &[0xF0]), (state, 0, refused));
    }
    for size in [0, 4_097, 4_099] {
        let outside = at(Standing::Outside);
        let told = outside.step(&mut vec![0; size], 0xF0);
        assert_eq!(told, (outside, Err(Refusal::Lent)));
    }
    // A limit that is none: 17 in an opening, 1 in a state.
    for limit in [0, 65_536, u64::MAX] {
        assert_eq!(Extractor::open(limit), Err(Refusal::Limit));
        let state = Extractor {
            limit,
            standing: Standing::Outside,
        };
        for size in [0, 1, 2, 65_538] {
            let told = state.step(&mut vec![0; size], 0xF0);
            assert_eq!(told, (state, Err(Refusal::Lent)));
        }
    }
}

#[test]
fn frames_written() {
    let mut output = [0xEE; 20];
    let mut refusal = |sequence, limit, payload: &[u8], size: usize| {
        let told = classic::write_frame(sequence, limit, payload, &mut output[..size]);
        told.expect_err("a refusal").number()
    };
    for mark in [0xF0, 0xF1, 0xF2] {
        assert_eq!(refusal(mark, 4_096, &[], 0), 15);
        for limit in [0, 65_536, u64::MAX] {
            assert_eq!(refusal(mark, limit, &[0; 9], 0), 17);
        }
    }
    assert_eq!(refusal(0, 4_096, &[0; 4_097], 0), 15);
    assert_eq!(refusal(0, 4_096, &[0; 4_096], 20), 14);
    assert_eq!(refusal(0, 1, &[0; 2], 20), 15);
    assert_eq!(refusal(0, 65_535, &[0; 65_535], 20), 14);
    assert_eq!(refusal(0, 65_535, &[0; 65_536], 20), 15);
    assert_eq!(refusal(0, 4_096, &[], 6), 14);
    assert_eq!(refusal(5, 4_096, &[0xF0], 9), 14);
    assert!(output.iter().all(|&byte| byte == 0xEE));
}

#[test]
fn frames_written_by_parts() {
    assert_eq!(Parts::begin(0xF0, 4_096, 1).unwrap_err().number(), 15);
    assert_eq!(Parts::begin(5, 4_096, 4_097).unwrap_err().number(), 15);
    assert_eq!(Parts::begin(0xF0, 0, 1).unwrap_err().number(), 17);
    assert_eq!(Parts::begin(5, 65_536, 70_000).unwrap_err().number(), 17);
    let begun = Parts::begin(5, 4_096, 2).unwrap();
    let marked = Parts {
        sequence: 0xF2,
        ..begun
    };
    let above = Parts {
        total: 4_097,
        ..begun
    };
    let passed = Parts { taken: 3, ..begun };
    let unlimited = Parts {
        limit: 65_536,
        ..begun
    };
    // 1 before 26 before 14; each leaves state and output.
    let cases: &[(Parts, usize, usize, u64)] = &[
        (marked, 3, 0, 1),
        (above, 0, 1, 1),
        (passed, 3, 0, 1),
        (unlimited, 0, 1, 1),
        (begun, 3, 0, 26),
        (begun, 3, 9, 26),
        (begun, 2, 0, 14),
        (begun, 0, 0, 14),
    ];
    for &(state, offered, lent, number) in cases {
        let mut output = vec![0xEE; lent];
        let (after, told) = state.write(&vec![0x41; offered], &mut output);
        assert_eq!(told.unwrap_err().number(), number);
        assert_eq!(after, state);
        assert!(output.iter().all(|&byte| byte == 0xEE));
    }
    // Any other state has a meaning: a second byte that is owed comes before the end is told.
    let owed = Parts {
        next: Next::Nothing,
        split: Some(classic::END),
        ..begun
    };
    let mut output = [0xEE; 3];
    let (after, told) = owed.write(&[0x41], &mut output);
    let told = told.unwrap();
    assert_eq!((told.taken, told.written, told.ended), (0, 1, true));
    assert_eq!(output, [0x03, 0xEE, 0xEE]);
    assert_eq!(
        after,
        Parts {
            split: None,
            ..owed
        }
    );
}

#[test]
fn the_sequence_skips_the_marks() {
    for byte in 0..=255u8 {
        let next = classic::next_sequence(byte);
        let expected = match byte {
            0xEF..=0xF2 => 0xF3,
            0xFF => 0x00,
            _ => byte + 1,
        };
        assert_eq!(next, expected);
    }
}

fn numbers(message: &str) -> [Result<(), u64>; 4] {
    let message = bytes(message);
    let plain = |told: Result<(), Refusal>| told.map_err(Refusal::number);
    let strings = Information::read(&message).map(drop);
    [
        plain(Envelope::read(&message).map(drop)),
        plain(Response::read(&message).map(drop)),
        plain(strings.map_err(|broken| broken.refusal)),
        plain(Features::read(&message).map(drop)),
    ]
}

#[test]
fn messages_read() {
    let ok = Ok(());
    let same = |told: Result<(), u64>| [told; 4];
    let cases: &[(&str, [Result<(), u64>; 4])] = &[
        ("", same(ok)),
        // The tag: 30 unfinished, 31 too long, 32.
        ("80", same(Err(30))),
        ("80 80 80 80 80 80 80 80 80", same(Err(30))),
        ("80 80 80 80 80 80 80 80 80 02", same(Err(31))),
        ("80 80 80 80 80 80 80 80 80 80", same(Err(31))),
        ("80 80 80 80 80 80 80 80 80 01", same(Err(32))),
        ("00 00", same(Err(32))),
        ("0B", same(Err(32))),
        ("0C", same(Err(32))),
        ("0E", same(Err(32))),
        ("0F", same(Err(32))),
        // Fields 536,870,911 and one more, varints.
        ("F8 FF FF FF 0F 00", same(ok)),
        ("80 80 80 80 10 00", same(Err(32))),
        // Field 5: 0, 1, 2, 5 skipped, and each cut.
        ("28 00", same(ok)),
        ("29 00 00 00 00 00 00 00 00", same(ok)),
        ("2D 00 00 00 00", same(ok)),
        ("2A 01 00", same(ok)),
        ("28", same(Err(30))),
        ("28 80", same(Err(30))),
        ("29 00 00 00 00 00 00 00", same(Err(30))),
        ("2D 00 00 00", same(Err(30))),
        ("2A", same(Err(30))),
        ("2A 01", same(Err(30))),
        ("2A FF FF FF FF FF FF FF FF FF 01", same(Err(30))),
        ("2A FF FF FF FF FF FF FF FF FF 02", same(Err(31))),
        ("28 FF FF FF FF FF FF FF FF FF 02", same(Err(31))),
        // Field 1 as a varint and as a string; 33 comes before the value is looked at.
        ("08 01", [ok, ok, Err(33), ok]),
        ("08", [Err(30), Err(30), Err(33), Err(30)]),
        ("0A 01 41", [Err(33), Err(33), ok, Err(33)]),
        ("0A", [Err(33), Err(33), Err(30), Err(33)]),
        ("09", same(Err(33))),
        ("0D", same(Err(33))),
        // A longer varint than needed, in tag, value and length.
        ("A8 80 80 80 00 80 80 00", same(ok)),
        ("AA 00 81 00 FF", same(ok)),
        // Field 9: known in the envelope only.
        ("48 00", [Err(33), ok, ok, ok]),
        ("49", [Err(33), Err(30), Err(30), Err(30)]),
        ("4A 00", same(ok)),
        // A second member, judged at its tag; skipped where there are none.
        ("4A 00 4A 00", [Err(34), Err(34), ok, ok]),
        ("4A 00 2A", [Err(34), Err(34), Err(30), Err(30)]),
        ("2A 00 4A", [Err(34), Err(34), Err(30), Err(30)]),
        ("2A 00 48 00", [Err(33), ok, ok, ok]),
        ("2A 00 0D", same(Err(33))),
        ("2A 00 28 07", same(ok)),
        // Field 2: a member of envelope and response, a name, a number.
        ("12 01 41", [ok, ok, ok, Err(33)]),
        ("10 01", [ok, ok, Err(33), ok]),
        ("15 00 00 00 00", [ok, ok, Err(33), Err(33)]),
        // Field 3: the transports, packed or not.
        ("18 00 1A 02 00 01", same(ok)),
        ("1D", [Err(30), Err(30), Err(33), Err(30)]),
        ("1A 01 80", [ok, ok, Err(30), ok]),
        ("1A 02 00", same(Err(30))),
        ("1A 0A FF FF FF FF FF FF FF FF FF 02", [ok, ok, Err(31), ok]),
        ("1A 08 00 00 00 00 00 00 00 00", same(ok)),
        ("1A 09 00 00 00 00 00 00 00 00 00", [ok, ok, Err(34), ok]),
        // A ninth that is cut is 30; cut after the ninth is 34.
        ("1A 09 00 00 00 00 00 00 00 00 80", [ok, ok, Err(30), ok]),
        ("1A 0A 00 00 00 00 00 00 00 00 00 80", [ok, ok, Err(34), ok]),
        ("1A 08 00 00 00 00 00 00 00 00 18 00", [ok, ok, Err(34), ok]),
        (
            "1A 08 00 00 00 00 00 00 00 00 18",
            [Err(30), Err(30), Err(30), Err(30)],
        ),
        (
            "1A 08 00 00 00 00 00 00 00 00 1A 00",
            [Err(34), Err(34), ok, ok],
        ),
    ];
    for (message, expected) in cases {
        assert_eq!(numbers(message), *expected, "{message}");
    }
}

#[test]
fn the_envelope_is_read_through_before_its_response() {
    let read = |text: &str| Envelope::read(&bytes(text)).map_err(Refusal::number);
    // The response's error code is a string: 33. After it the envelope ends inside a field: 30.
    assert_eq!(read("4A 02 0A 00"), Err(33));
    assert_eq!(read("4A 02 0A 00 08"), Err(30));
    assert_eq!(read("4A 02 0A 00 0D"), Err(33));
    assert_eq!(read("4A 02 08 80 08 01"), Err(30));
    assert_eq!(read("4A 04 2A 00 2A 00"), Err(34));
}

#[test]
fn parts_are_places_in_the_lent_message() {
    let message = bytes("08 14 4A 07 08 03 7A 03 41 42 43 08 1C");
    let told = Envelope::read(&message).unwrap();
    assert_eq!(told.command, 28);
    let Payload::Response(response) = told.payload else {
        panic!("a response")
    };
    assert_eq!(response.error_code, 3);
    let member = response.member.unwrap();
    assert_eq!((member.field, member.part.clone()), (15, 8..11));
    assert_eq!(message[member.part], *b"ABC");
}

#[test]
fn scalars_given_twice_count_the_last_time() {
    let told = Information::read(&bytes("0A 01 41 12 00 0A 02 42 43 18 05 18 06")).unwrap();
    assert_eq!(told.serial_number, 7..9);
    assert_eq!(told.name, 5..5);
    assert_eq!(told.device_type, 0..0);
    assert_eq!(told.transports, [5, 6]);
    let told = Features::read(&bytes("08 05 10 07 08 00")).unwrap();
    assert_eq!((told.features, told.device_attributes), (0, 7));
}

#[test]
fn the_low_32_bits_count() {
    let read = |text: &str| Envelope::read(&bytes(text)).unwrap().command;
    // 2^32 - 1, 2^32, 2^31, -2^31.
    assert_eq!(read("08 FF FF FF FF 0F"), -1);
    assert_eq!(read("08 80 80 80 80 10"), 0);
    assert_eq!(read("08 80 80 80 80 08"), i32::MIN);
    assert_eq!(read("08 80 80 80 80 F8 FF FF FF FF 01"), i32::MIN);
}

#[test]
fn messages_written() {
    let mut output = [0xEE; 64];
    let mut written = |given| {
        let told = control::write_envelope(0, given, &mut output);
        told.map(|written| output[..written].to_vec())
            .map_err(Refusal::number)
    };
    for field in [0, 1, 9, 536_870_912, u64::MAX] {
        assert_eq!(written(Given::Other { field, bytes: &[] }), Err(15));
        let given = Given::Response {
            error_code: 0,
            member: Some((field, &[])),
        };
        match field {
            // Nine is a number like others inside the response.
            9 => assert_eq!(written(given), Ok(bytes("4A 02 4A 00"))),
            _ => assert_eq!(written(given), Err(15)),
        }
    }
    let largest = Given::Other {
        field: 536_870_911,
        bytes: &[0x41],
    };
    assert_eq!(written(largest), Ok(bytes("FA FF FF FF 0F 01 41")));
    assert_eq!(written(Given::None), Ok(vec![]));
    let nine = control::write_information(&[], &[], &[0; 9], &[], &mut []);
    assert_eq!(nine, Err(Refusal::Argument.into()));
    let written = control::write_information(b"s", b"", &[0, -1], b"t", &mut output).unwrap();
    let expected = bytes("0A 01 73 1A 0B 00 FF FF FF FF FF FF FF FF FF 01 22 01 74");
    assert_eq!(output[..written], expected);
    let features = Features {
        features: 0,
        device_attributes: u64::MAX,
    };
    let written = control::write_features(features, &mut output).unwrap();
    assert_eq!(output[..written], bytes("10 FF FF FF FF FF FF FF FF FF 01"));
    assert_eq!(
        control::write_features(features, &mut output[..10]),
        Err(Refusal::Output)
    );
}

fn own() -> Own<'static> {
    Own {
        serial_number: b"S",
        name: b"N",
        device_type: b"T",
        transports: Some(vec![0]),
        features: Features {
            features: 0x13,
            device_attributes: 0,
        },
        information_member: 3,
        features_member: 28,
    }
}

#[test]
fn replies_written() {
    let refusal = |message: &str, own: Own<'_>, [room, limit]: [u64; 2], wish, size| {
        let mut output = vec![0xEE; size];
        let told = reply::write(&bytes(message), &own, room, limit, wish, &mut output);
        let broken = told.expect_err("a refusal");
        assert!(output.iter().all(|&byte| byte == 0xEE));
        (broken.refusal.number(), broken.field, broken.place)
    };
    let number = |message, own, link, wish, size| refusal(message, own, link, wish, size).0;
    // The message's own before all others; then 13, 17, 15, 36, 14.
    let bad = || Own {
        name: b"N\xFF",
        ..own()
    };
    let wide = || Own {
        information_member: 1,
        ..bad()
    };
    assert_eq!(number("08 14 4A 01 FF", wide(), [0, 0], None, 0), 30);
    assert_eq!(number("08 14 12 00 1A 00", wide(), [0, 0], None, 0), 34);
    assert_eq!(number("08 14", wide(), [19, 0], None, 0), 13);
    assert_eq!(number("08 14", wide(), [513, 0], None, 0), 13);
    assert_eq!(number("08 14", wide(), [20, 0], None, 0), 17);
    assert_eq!(number("08 14", wide(), [20, 65_536], None, 0), 17);
    assert_eq!(number("08 14", bad(), [20, 4_096], None, 0), 15);
    assert_eq!(number("08 14", wide(), [20, 4_096], Some(wish()), 0), 15);
    assert_eq!(number("08 14", bad(), [20, 18], Some(wish()), 0), 15);
    let told = refusal("08 14", bad(), [20, 19], Some(wish()), 0);
    assert_eq!(told, (36, Some(2), Some(1)));
    assert_eq!(number("08 14", own(), [20, 18], Some(wish()), 26), 14);
    // What is carried is 15 out of its range: 20 has member and transports, 28 has its member.
    for transports in [None, Some(vec![0; 9])] {
        let many = Own {
            transports,
            ..own()
        };
        assert_eq!(number("08 14", many, [20, 4_096], Some(wish()), 99), 15);
    }
    for features_member in [0, 1, 536_870_912] {
        let wide = Own {
            features_member,
            ..own()
        };
        assert_eq!(number("08 1C", wide, [20, 4_096], Some(wish()), 99), 15);
    }
}

#[test]
fn what_a_reply_does_not_carry_is_not_judged() {
    let free = || Own {
        serial_number: b"\xFF",
        transports: None,
        information_member: 0,
        features_member: 28,
        ..own()
    };
    let written = |message: &str, own: Own<'_>, room, limit, wish| {
        let mut output = vec![0xEE; 99];
        let written = reply::write(&bytes(message), &own, room, limit, wish, &mut output);
        let written = written.expect("no refusal");
        assert!(output[written.unwrap_or(0)..]
            .iter()
            .all(|&byte| byte == 0xEE));
        written.map(|written| output[..written].to_vec())
    };
    let control = Some(Wish {
        id: 1,
        sequence: 2,
        ..wish()
    });
    let features = bytes("01 20 00 00 09 09 08 1C 4A 05 E2 01 02 08 13");
    assert_eq!(written("08 1C", free(), 64, 9, control), Some(features));
    let none = Own {
        features_member: 0,
        ..free()
    };
    let bare = bytes("01 20 00 00 04 04 08 5F 4A 00");
    assert_eq!(written("08 5F", none, 64, 4, control), Some(bare));
    // A negative command is answered with its own ten bytes.
    let minus_one = "08 FF FF FF FF FF FF FF FF FF 01";
    let unsupported = bytes(&format!("01 20 00 00 0F 0F {minus_one} 4A 02 08 03"));
    assert_eq!(
        written(minus_one, free(), 64, 15, control),
        Some(unsupported)
    );
    // A response gets no reply, whatever else is given.
    assert_eq!(written("08 14 4A 00", free(), 0, 0, None), None);
    assert_eq!(written("4A 02 08 03", free(), 0, 0, None), None);
}

#[test]
fn outboxes_read() {
    let refusal = |text: &str, place: u64| {
        let told = outbox::record(&bytes(text), place);
        told.map(|record| record.is_some())
            .map_err(|broken| (broken.refusal.number(), broken.place))
    };
    type Told = Result<bool, (u64, Option<usize>)>;
    let cases: &[(&str, u64, Told)] = &[
        ("", 0, Err((40, None))),
        ("", 1, Err((40, None))),
        ("00", 9, Err((40, None))),
        ("03 00 01 00", 1, Err((40, None))),
        ("02 00 01 00", 1, Err((41, Some(1)))),
        ("02 00 01 00 01", 1, Err((42, None))),
        ("02 00 01 00 00", 1, Err((41, Some(1)))),
        ("02 00 00 00 01 06", 1, Ok(true)),
        ("01", 0, Err((15, None))),
        ("01", 2, Err((15, None))),
        ("01", u64::MAX, Err((15, None))),
        ("01", 1, Ok(false)),
        ("01 00", 1, Err((41, Some(1)))),
        ("01 FF", 1, Err((41, Some(1)))),
        ("01 00 00", 1, Err((42, None))),
        ("01 10 02", 1, Err((42, None))),
        ("01 10 01", 1, Err((41, Some(1)))),
        ("01 00 01", 1, Err((41, Some(1)))),
        ("01 00 02 01", 1, Err((41, Some(1)))),
        ("01 00 01 01", 1, Err((43, None))),
        ("01 00 01 06", 1, Ok(true)),
        ("01 00 01 06", 4, Ok(false)),
        ("01 00 01 06", 3, Err((41, Some(3)))),
        ("01 00 01 06 00", 4, Err((41, Some(4)))),
    ];
    for (text, place, expected) in cases {
        assert_eq!(refusal(text, *place), *expected, "{text} at {place}");
    }
}

#[test]
fn outboxes_appended_to() {
    let refusal = |text: &str, size: usize, used, stream, payload: &[u8]| {
        let mut buffer = bytes(text);
        buffer.resize(size, 0xEE);
        let before = buffer.clone();
        let broken = outbox::append(&mut buffer, used, stream, payload).unwrap_err();
        assert_eq!(buffer, before);
        (broken.refusal.number(), broken.place)
    };
    // 1, 40, 15 by the version's limit, 14, then those of the bytes.
    assert_eq!(refusal("00", 4, 5, 1, &[0; 4_097]), (1, None));
    assert_eq!(refusal("00", 4, 4, 1, &[0; 4_097]), (40, None));
    assert_eq!(refusal("01", 4, 0, 1, &[0; 4_097]), (40, None));
    assert_eq!(refusal("01 00", 4, 2, 1, &[]), (15, None));
    assert_eq!(refusal("01 00", 4, 2, 0, &[0; 4_097]), (15, None));
    assert_eq!(refusal("02 00", 4, 2, 0, &[0; 4_097]), (14, None));
    assert_eq!(refusal("02 00", 4, 2, 0, &[0; 65_536]), (15, None));
    assert_eq!(refusal("01 00", 4, 2, 0, &[]), (14, None));
    assert_eq!(refusal("01 00 01", 9, 3, 0, &[]), (41, Some(1)));
    assert_eq!(refusal("01 00 01 06 00", 9, 5, 0, &[]), (41, Some(4)));
    assert_eq!(refusal("01 00 00", 9, 3, 0, &[]), (42, None));
    assert_eq!(refusal("01 00 01 03", 9, 4, 0, &[]), (43, None));
    let mut empty = [];
    assert_eq!(outbox::new(&mut empty), Err(Refusal::Output));
}
