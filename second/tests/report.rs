//! The report: the worked capture, what each refusal leaves, that each number is met and those left open are the open
//! slots, and wrong reports, each of which a short run finds.

use second::comparison::Comparison;
use second::driver::judged::capture;
use second::driver::worked::bytes;
use second::driver::{run_part, Plan, PARTS};
use second::face::{report_add, Model};
use second::implementation::{Implementation, Lent, Operation, Slot};
use second::low_energy::{buffer, Stream, SLOTS};
use second::refusal::Refusal;
use second::report::{add, costs, listen, Costs, Report};
use second::rng::Rng;

const WORKED: [&str; 8] = [
    "03 00 00 00 02 01 07",
    "03 00 00 00 02 01 07",
    "03 14 01 01",
    "03",
    "71 00",
    "05 00 00 00 02 01 07",
    "20 00 00 00 01 01 09",
    "60 0E 00 02 01 00",
];
const EMPTY: Report = [Costs::of_row([0; 7]); 3];

fn worked() -> Vec<u8> {
    capture(&WORKED.map(bytes))
}

fn added(
    report: Report,
    limit: u64,
    row: usize,
    size: usize,
    capture: &[u8],
) -> Result<Report, Refusal> {
    match add(report, limit, row, &mut vec![0; size], capture) {
        Ok(added) => added.report,
        Err((refusal, _)) => Err(refusal),
    }
}

#[test]
fn the_worked_capture_gives_its_numbers() {
    let report = added(EMPTY, 64, SLOTS, buffer(64), &worked()).unwrap();
    let rows = [
        [3, 0, 1, 1, 1, 0, 26],
        [1, 1, 0, 0, 0, 1, 7],
        [0, 0, 0, 0, 0, 0, 6],
    ];
    assert_eq!(report.map(Costs::row), rows);
    let twice = added(report, 64, SLOTS, buffer(64), &worked()).unwrap();
    assert_eq!(
        twice.map(Costs::row),
        rows.map(|row| row.map(|number| 2 * number))
    );
    // At limit 1 the first packets' totals of 2 are refused by 6, and only OTA's is finished.
    let small = added(EMPTY, 1, SLOTS, buffer(1), &worked()).unwrap();
    assert_eq!(
        small.map(Costs::row),
        [[0, 0, 0, 0, 0, 0, 26], rows[1], rows[2]]
    );
    // A capture of no packets costs nothing.
    assert_eq!(added(report, 1, SLOTS, buffer(1), &[1]), Ok(report));
}

#[test]
fn refusals_come_in_their_order() {
    let full = [Costs::of_row([u64::MAX; 7]); 3];
    // Each of these has all that comes after it wrong too.
    for (limit, row, size, capture, expected) in [
        (0, 11, 0, &[2][..], Refusal::Limit),
        (65_536, 11, 0, &[2], Refusal::Limit),
        (u64::MAX, 12, 0, &[], Refusal::Limit),
        (64, 11, buffer(64), &[2], Refusal::Lent),
        (64, 13, buffer(64), &[2], Refusal::Lent),
        (64, 12, buffer(64) - 1, &[], Refusal::Lent),
        (64, 12, buffer(64) + 1, &[2], Refusal::Lent),
        (64, 12, 3 * 64, &[2], Refusal::Lent),
        (64, 12, buffer(64), &[], Refusal::Version),
        (64, 12, buffer(64), &[2, 0, 1, 3], Refusal::Version),
        (64, 12, buffer(64), &[1, 0, 1, 3, 0], Refusal::RecordCut),
        (
            64,
            12,
            buffer(64),
            &[1, 0, 1, 3, 0, 0],
            Refusal::RecordLength,
        ),
        (
            64,
            12,
            buffer(64),
            &[1, 0, 1, 3, 0, 2, 3],
            Refusal::RecordCut,
        ),
        (64, 12, buffer(64), &[1, 0, 1, 3], Refusal::Sum),
    ] {
        assert_eq!(added(full, limit, row, size, capture), Err(expected));
    }
    // A stream that is none, and no packet at all, add nothing.
    assert_eq!(added(full, 64, 12, buffer(64), &[1, 0, 1, 0x13]), Ok(full));
    assert_eq!(added(full, 64, 12, buffer(64), &[1]), Ok(full));
}

/// The row and the buffer are as after the last packet where a capture was read, under 19 too, and else as they were.
#[test]
fn nineteen_leaves_the_report_alone() {
    let unlawful = Slot {
        opened: 7,
        ..Slot::default()
    };
    let run = |report: &mut [u64], limit: u64| {
        let (mut slots, mut lent) = ([unlawful; SLOTS], vec![0xCC; buffer(64)]);
        let returned = report_add(report, limit, &mut slots, &mut lent, &worked(), &mut [9]);
        (returned, slots, lent)
    };
    let mut report = [0; 21];
    let (returned, slots, lent) = run(&mut report, 64);
    assert_eq!((returned, slots[0].id, slots[1]), (0, 5, Slot::default()));
    for place in 0..21 {
        // The largest that is not refused, and one more.
        let mut near = [1; 21];
        near[place] = u64::MAX - report[place];
        assert_eq!(run(&mut near, 64), (0, slots, lent.clone()));
        assert_eq!(near[place], u64::MAX);
        if report[place] > 0 {
            let mut full = [1; 21];
            full[place] = u64::MAX - report[place] + 1;
            let before = full;
            assert_eq!(run(&mut full, 64), (19, slots, lent.clone()));
            assert_eq!(full, before);
        }
    }
    assert_eq!(
        run(&mut [0; 21], 63),
        (1, [unlawful; SLOTS], vec![0xCC; buffer(64)])
    );
    assert_eq!(
        run(&mut [0; 20], 0),
        (1, [unlawful; SLOTS], vec![0xCC; buffer(64)])
    );
    assert_eq!(
        run(&mut [0; 21], 0),
        (17, [unlawful; SLOTS], vec![0xCC; buffer(64)])
    );
}

/// Packets of few streams, ids, sequences, totals and lengths, so that they meet often.
fn packet(rng: &mut Rng) -> Vec<u8> {
    let head = *rng.pick(&[0x00, 0x20, 0x60, 0x60, 0x10]) | rng.below(5) as u8;
    let kind = rng.below(3) as u8;
    let size = rng.between(1, 2) as u8;
    let mut packet = vec![head, (rng.below(3) as u8) << 4 | kind << 2];
    if kind == 0 {
        packet.extend([0, 0, rng.below(5) as u8]);
    }
    packet.push(size);
    packet.extend(rng.bytes(size.into()));
    packet
}

#[test]
fn left_open_are_the_open_slots_and_all_balances() {
    let mut rng = Rng::new(12);
    let mut sums = [[0; 7]; 3];
    for _ in 0..40_000 {
        let packets: Vec<_> = (0..rng.index(30)).map(|_| packet(&mut rng)).collect();
        let lent = &mut vec![0; buffer(4)];
        let (heard, slots) = listen(4, lent, packets.iter().map(|packet| &packet[..])).unwrap();
        for stream in Stream::ALL {
            let told = costs(&heard, stream);
            let open = slots[stream.places()].iter().flatten().count() as u64;
            assert_eq!(told.left_open, open);
            assert_eq!(
                told.firsts,
                told.finished + told.replaced + told.dropped + told.left_open
            );
            for (sum, number) in sums[stream as usize].iter_mut().zip(told.row()) {
                *sum += number;
            }
        }
    }
    // No number is one that is hardly met.
    assert!(
        sums.as_flattened().iter().all(|&sum| sum > 1_000),
        "{sums:?}"
    );
}

type Add = fn(&mut [u64], u64, &mut [Slot], &mut [u8], &[u8], &mut [u64]) -> u64;

/// A report that is wrong: the function takes the place of the right one.
struct Wrong {
    name: &'static str,
    add: Add,
}

impl Implementation for Wrong {
    fn name(&self) -> &str {
        self.name
    }

    fn call(
        &self,
        operation: Operation,
        numbers: &[u64],
        inputs: &[Vec<u8>],
        state: &mut [u64],
        lent: Lent<'_>,
        answer: &mut [u64],
    ) -> u64 {
        match operation {
            Operation::ReportAdd => (self.add)(
                state, numbers[0], lent.slots, lent.bytes, &inputs[0], answer,
            ),
            _ => Model.call(operation, numbers, inputs, state, lent, answer),
        }
    }
}

/// What a capture adds to an empty report, if it is taken.
fn alone(limit: u64, slots: &[Slot], lent: &[u8], capture: &[u8]) -> Option<[u64; 21]> {
    let mut report = [0; 21];
    let (mut slots, mut lent) = (slots.to_vec(), lent.to_vec());
    let returned = report_add(&mut report, limit, &mut slots, &mut lent, capture, &mut [0]);
    (returned == 0).then_some(report)
}

const WRONG: &[Wrong] = &[
    Wrong {
        name: "the lengths of the capture count",
        add: |report, limit, slots, lent, capture, answer| {
            let more = alone(limit, slots, lent, capture);
            let returned = report_add(report, limit, slots, lent, capture, answer);
            if let (0, Some(more)) = (returned, more) {
                report[6] = report[6].wrapping_add(2 * u64::from(more[6] > 0));
            }
            returned
        },
    },
    Wrong {
        name: "a sum that is too large stays at the largest number",
        add: |report, limit, slots, lent, capture, answer| {
            let more = alone(limit, slots, lent, capture);
            match report_add(report, limit, slots, lent, capture, answer) {
                19 => {
                    for (sum, more) in report.iter_mut().zip(more.unwrap()) {
                        *sum = sum.saturating_add(more);
                    }
                    0
                }
                returned => returned,
            }
        },
    },
    Wrong {
        name: "19 leaves the row",
        add: |report, limit, slots, lent, capture, answer| {
            let before = slots.to_vec();
            let returned = report_add(report, limit, slots, lent, capture, answer);
            if returned == 19 {
                slots.copy_from_slice(&before);
            }
            returned
        },
    },
    Wrong {
        name: "19 leaves the buffer",
        add: |report, limit, slots, lent, capture, answer| {
            let before = lent.to_vec();
            let returned = report_add(report, limit, slots, lent, capture, answer);
            if returned == 19 {
                lent.copy_from_slice(&before);
            }
            returned
        },
    },
    Wrong {
        name: "the streams before the one that passes 64 bits are added",
        add: |report, limit, slots, lent, capture, answer| {
            let more = alone(limit, slots, lent, capture);
            let returned = report_add(report, limit, slots, lent, capture, answer);
            if returned == 19 {
                for (sum, more) in report.iter_mut().zip(more.unwrap()) {
                    let Some(next) = sum.checked_add(more) else {
                        break;
                    };
                    *sum = next;
                }
            }
            returned
        },
    },
    Wrong {
        name: "a row of another length is refused before the limit",
        add: |report, limit, slots, lent, capture, answer| {
            if slots.len() != SLOTS {
                return 1;
            }
            report_add(report, limit, slots, lent, capture, answer)
        },
    },
    Wrong {
        name: "the capture is looked at before row and buffer",
        add: |report, limit, slots, lent, capture, answer| {
            if (1..=65_535).contains(&limit) && answer.len() == 1 && capture.first() != Some(&1) {
                answer[0] = 0;
                return 40;
            }
            report_add(report, limit, slots, lent, capture, answer)
        },
    },
    Wrong {
        name: "a row that is unlawful is refused",
        add: |report, limit, slots, lent, capture, answer| {
            if (1..=65_535).contains(&limit) && slots.iter().any(|slot| slot.opened > 1) {
                return 1;
            }
            report_add(report, limit, slots, lent, capture, answer)
        },
    },
    Wrong {
        name: "the row is left as it was where no packet comes",
        add: |report, limit, slots, lent, capture, answer| {
            let before = slots.to_vec();
            let returned = report_add(report, limit, slots, lent, capture, answer);
            if capture.len() == 1 {
                slots.copy_from_slice(&before);
            }
            returned
        },
    },
    Wrong {
        name: "the place of a cut is not told",
        add: |report, limit, slots, lent, capture, answer| {
            let returned = report_add(report, limit, slots, lent, capture, answer);
            if returned == 41 {
                answer[0] = 0;
            }
            returned
        },
    },
];

#[test]
fn wrong_reports_are_found() {
    let plan = Plan {
        seed: 3,
        scale: 0.05,
    };
    let part = PARTS
        .iter()
        .find(|part| part.name == "captures in a report")
        .unwrap();
    for wrong in WRONG {
        let mut comparison = Comparison::new(&[&Model, wrong]);
        assert!(
            run_part(part, &mut comparison, plan).is_err(),
            "{}",
            wrong.name
        );
    }
}
