//! The judge of captures: the worked lines, and wrong judges, each of which a short run finds.

use second::comparison::Comparison;
use second::driver::judged::capture;
use second::driver::worked::bytes;
use second::driver::{run_part, Plan, PARTS};
use second::face::Model;
use second::implementation::{Implementation, Lent, Operation};
use second::judge::line;

const P4: [&str; 3] = [
    "61 00 00 00 23 0E 01 02 03 04 05 06 07 08 09 0A 0B 0C 0D 0E",
    "61 14 11 0F 10 11 12 13 14 15 16 17 18 19 1A 1B 1C 1D 1E 1F",
    "61 2A 04 20 21 22 23",
];

fn input(settings: &str, packets: &[&str]) -> Vec<u8> {
    let packets: Vec<_> = packets.iter().map(|packet| bytes(packet)).collect();
    [bytes(settings), capture(&packets)].concat()
}

#[test]
fn worked_inputs_give_their_lines() {
    for (settings, packets, expected) in [
        ("00 14 00 23", &P4[..], "lawful\n"),
        ("00 14 00 22", &P4[..], "unlawful at 1\n"),
        ("00 15 00 23", &P4[..], "unlawful at 1\n"),
        ("00 14 00 23", &P4[..2], "open\n"),
        ("00 14 00 23", &P4[1..], "unlawful at 1\n"),
        ("00 13 00 00", &[], "refused 13\n"),
        ("00 14 00 00", &[], "refused 17\n"),
    ] {
        assert_eq!(line(&input(settings, packets)), expected);
    }
    for (whole, expected) in [
        ("", "refused 13\n"),
        ("00 14", "refused 17\n"),
        ("00 14 10", "refused 40\n"),
        ("00 14 10 00 02", "refused 40\n"),
        ("00 14 10 00 01", "lawful\n"),
        ("00 14 10 00 01 00", "refused 41\n"),
        ("00 14 10 00 01 00 00", "refused 42\n"),
        ("00 14 10 00 01 00 02 00", "refused 41\n"),
    ] {
        assert_eq!(line(&bytes(whole)), expected);
    }
    let longest = [bytes("00 00 00 00"), vec![1; 65_537]].concat();
    assert_eq!(line(&longest), "refused 1\n");
}

/// A judge that looks at packets with something of them made right, or tells something else.
struct Wrong {
    name: &'static str,
    before: fn(&mut [u64], &mut [Vec<u8>]),
    after: fn(&mut u64, &mut [u64]),
}

/// The packets of a capture, if it is whole.
fn packets(mut rest: &[u8]) -> Option<Vec<Vec<u8>>> {
    let mut found = Vec::new();
    rest = rest.strip_prefix(&[1])?;
    while let Some((length, after)) = rest.split_first_chunk::<2>() {
        let (packet, after) = after.split_at_checked(usize::from(u16::from_be_bytes(*length)))?;
        found.push(packet.to_vec());
        rest = after;
    }
    (rest.is_empty() && found.iter().all(|packet| !packet.is_empty())).then_some(found)
}

impl Implementation for Wrong {
    fn name(&self) -> &str {
        self.name
    }

    fn call(
        &self,
        operation: Operation,
        numbers: &[u64],
        inputs: &[Vec<u8>],
        state: &mut [u64],
        lent: Lent<'_>,
        answer: &mut [u64],
    ) -> u64 {
        let (mut numbers, mut inputs) = (numbers.to_vec(), inputs.to_vec());
        if operation == Operation::CaptureJudge {
            if let Some(mut found) = packets(&inputs[0]) {
                (self.before)(&mut numbers, &mut found);
                inputs[0] = capture(&found);
            }
        }
        let mut returned = Model.call(operation, &numbers, &inputs, state, lent, answer);
        if operation == Operation::CaptureJudge && answer.len() == 2 {
            (self.after)(&mut returned, answer);
        }
        returned
    }
}

/// Type 0, 1 or 2 and two bytes at least.
fn is_message(packet: &[u8]) -> bool {
    packet.len() > 1 && packet[1] >> 2 & 3 != 3
}

const WRONG: &[Wrong] = &[
    Wrong {
        name: "the flag may stand anywhere",
        before: |_, packets| {
            for packet in packets.iter_mut().filter(|packet| is_message(packet)) {
                packet[1] &= !2;
            }
        },
        after: |_, _| {},
    },
    Wrong {
        name: "any id will do",
        before: |_, packets| {
            for packet in packets.iter_mut().filter(|packet| is_message(packet)) {
                packet[0] &= 0xF0;
            }
        },
        after: |_, _| {},
    },
    Wrong {
        name: "any sequence will do",
        before: |_, packets| {
            let mut next = [0u8; 16];
            for packet in packets.iter_mut().filter(|packet| is_message(packet)) {
                let sequence = &mut next[usize::from(packet[0] >> 4)];
                *sequence = if packet[1] >> 2 & 3 == 0 {
                    0
                } else {
                    (*sequence + 1) % 16
                };
                packet[1] = packet[1] & 15 | *sequence << 4;
            }
        },
        after: |_, _| {},
    },
    Wrong {
        name: "an extender that need not stand, on a packet that follows",
        before: |_, packets| {
            for packet in packets.iter_mut().filter(|packet| packet.len() > 4) {
                if matches!(packet[1] >> 2 & 3, 1 | 2) && packet[1] & 1 == 1 && packet[2] == 0 {
                    packet[1] &= !1;
                    packet.remove(2);
                }
            }
        },
        after: |_, _| {},
    },
    Wrong {
        name: "the reserved byte is not looked at",
        before: |_, packets| {
            for packet in packets
                .iter_mut()
                .filter(|packet| packet.len() > 2 && packet[1] >> 2 & 3 == 0)
            {
                packet[2] = 0;
            }
        },
        after: |_, _| {},
    },
    Wrong {
        name: "a total one above the limit",
        before: |numbers, _| numbers[1] += u64::from((1..65_535).contains(&numbers[1])),
        after: |_, _| {},
    },
    Wrong {
        name: "a room one larger",
        before: |numbers, _| numbers[0] += u64::from((20..512).contains(&numbers[0])),
        after: |_, _| {},
    },
    Wrong {
        name: "open is lawful",
        before: |_, _| {},
        after: |_, answer| answer[0] = if answer[0] == 2 { 1 } else { answer[0] },
    },
    Wrong {
        name: "the place of the packet, not of its length",
        before: |_, _| {},
        after: |_, answer| answer[1] += if answer[0] == 3 { 2 } else { 0 },
    },
    Wrong {
        name: "a packet longer than the room is refused",
        before: |numbers, packets| {
            if packets
                .iter()
                .any(|packet| packet.len() as u64 > numbers[0])
            {
                packets[0].clear();
            }
        },
        after: |_, _| {},
    },
    Wrong {
        name: "42 without its place",
        before: |_, _| {},
        after: |returned, answer| answer[1] = if *returned == 42 { 0 } else { answer[1] },
    },
];

#[test]
fn wrong_judges_are_found() {
    let plan = Plan {
        seed: 3,
        scale: 0.05,
    };
    let part = PARTS
        .iter()
        .find(|part| part.name == "captures judged")
        .unwrap();
    for wrong in WRONG {
        let mut comparison = Comparison::new(&[&Model, wrong]);
        assert!(
            run_part(part, &mut comparison, plan).is_err(),
            "{}",
            wrong.name
        );
    }
}
