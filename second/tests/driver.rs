//! The driver: all parts at a small scale, captures, and that a difference is found and told.

use second::comparison::Comparison;
use second::driver::{captures, run_part, Plan, PARTS};
use second::face::Model;
use second::implementation::{Call, Implementation, Lent, Operation, Slot};
use std::path::PathBuf;

const SHORT: Plan = Plan {
    seed: 3,
    scale: 0.01,
};

fn folder() -> PathBuf {
    [env!("CARGO_MANIFEST_DIR"), "captures"].iter().collect()
}

#[test]
fn a_short_run_meets_every_number() {
    let mut comparison = Comparison::new(&[&Model]);
    for part in PARTS {
        run_part(part, &mut comparison, SHORT).unwrap();
    }
    assert_eq!(comparison.never_met(), Vec::<String>::new());
}

#[test]
fn every_capture_gives_what_is_expected() {
    let captures = captures::load(&folder()).unwrap();
    assert!(captures.len() >= 6);
    for capture in &captures {
        captures::run(&mut Comparison::new(&[&Model]), capture).unwrap();
    }
}

/// A capture is held to every line: one that is changed, missing or too many fails.
#[test]
fn a_wrong_line_of_a_capture_fails() {
    for capture in captures::load(&folder()).unwrap() {
        for line in 0..capture.expected.len() {
            let mut changed = capture.clone();
            changed.expected[line] = match &changed.expected[line] {
                kind if line == 0 => format!("{kind}!"),
                told if told.ends_with("payload") || told.ends_with(':') => format!("{told} 00"),
                told => {
                    let last = told.chars().last().unwrap();
                    let other = if last == '0' { '1' } else { '0' };
                    format!("{}{other}", &told[..told.len() - 1])
                }
            };
            let told = captures::run(&mut Comparison::new(&[&Model]), &changed);
            assert!(
                told.is_err(),
                "{}: {:?}",
                capture.name,
                changed.expected[line]
            );
            if line > 0 && !capture.expected[line].starts_with("written") {
                let mut short = capture.clone();
                short.expected.remove(line);
                assert!(captures::run(&mut Comparison::new(&[&Model]), &short).is_err());
            }
        }
        let mut long = capture.clone();
        long.expected.push("refused: 1".to_string());
        assert!(captures::run(&mut Comparison::new(&[&Model]), &long).is_err());
    }
}

/// What a wrong implementation makes of what the right one returned and left.
type Spoil = fn(&mut u64, &mut [u64], Lent<'_>, &mut [u64]);

/// An implementation that is wrong in one operation, on some calls.
struct Wrong(Operation, Spoil);

impl Implementation for Wrong {
    fn name(&self) -> &str {
        "wrong"
    }

    fn call(
        &self,
        operation: Operation,
        numbers: &[u64],
        inputs: &[Vec<u8>],
        state: &mut [u64],
        lent: Lent<'_>,
        answer: &mut [u64],
    ) -> u64 {
        let all = Lent {
            slots: &mut *lent.slots,
            bytes: &mut *lent.bytes,
            reply: &mut *lent.reply,
        };
        let mut returned = Model.call(operation, numbers, inputs, state, all, answer);
        if operation == self.0 {
            (self.1)(&mut returned, state, lent, answer);
        }
        returned
    }
}

/// Whether a short run of all parts finds the difference.
fn found(wrong: &Wrong) -> Option<String> {
    let mut comparison = Comparison::new(&[&Model, wrong]);
    PARTS
        .iter()
        .find_map(|part| run_part(part, &mut comparison, SHORT).err())
        .map(|difference| difference.0)
}

#[test]
fn a_wrong_number_of_any_operation_is_found() {
    for operation in Operation::ALL {
        let returned = Wrong(operation, |returned, _, _, _| *returned ^= 1);
        assert!(found(&returned).is_some());
        let shape = operation.shape();
        if !shape.answer.is_empty() {
            let answer = Wrong(operation, |_, _, _, answer| {
                if let Some(last) = answer.last_mut() {
                    *last ^= 1;
                }
            });
            assert!(found(&answer).is_some());
        }
        if !shape.state.is_empty() {
            let state = Wrong(operation, |_, state, _, _| {
                if let Some(last) = state.last_mut() {
                    *last ^= 1;
                }
            });
            assert!(found(&state).is_some());
        }
        if shape.slots > 0 {
            let slots = Wrong(operation, |_, _, lent, _| {
                if let Some(last) = lent.slots.last_mut() {
                    last.wanted ^= 1;
                }
            });
            assert!(found(&slots).is_some());
        }
        if shape.lent != "nothing" {
            let lent = Wrong(operation, |_, _, lent, _| {
                if let Some(last) = lent.bytes.last_mut() {
                    *last ^= 1;
                }
            });
            assert!(found(&lent).is_some());
        }
        if shape.reply != "nothing" {
            let reply = Wrong(operation, |_, _, lent, _| {
                if let Some(last) = lent.reply.last_mut() {
                    *last ^= 1;
                }
            });
            assert!(found(&reply).is_some());
        }
    }
}

/// The bytes held in all slots.
fn held(slots: &[Slot]) -> u64 {
    slots.iter().map(|slot| u64::from(slot.held)).sum()
}

#[test]
fn streams_that_are_not_apart_are_found() {
    let part = PARTS
        .iter()
        .find(|part| part.name.contains("either order"))
        .unwrap();
    let found = |wrong: &Wrong| {
        run_part(part, &mut Comparison::new(&[wrong]), SHORT)
            .err()
            .is_some_and(|difference| difference.0.contains("in either order"))
    };
    // Alone, so that only the two orders are compared.
    let right = Wrong(Operation::ReceiverAccept, |_, _, _, _| {});
    assert!(!found(&right));
    // 10 makes the slots of the other streams idle too.
    let idle = Wrong(Operation::ReceiverAccept, |returned, _, lent, _| {
        if *returned == 10 {
            lent.slots.fill(Slot::default());
        }
    });
    assert!(found(&idle));
    // One byte of the buffer is the last packet's, whatever its stream.
    let byte = Wrong(Operation::ReceiverAccept, |returned, _, lent, _| {
        if let Some(last) = lent.bytes.last_mut() {
            *last = *returned as u8;
        }
    });
    assert!(found(&byte));
    // The answer tells a number of all slots.
    let answer = Wrong(Operation::ReceiverAccept, |returned, _, lent, answer| {
        if *returned == 0 {
            answer[3] = held(lent.slots);
        }
    });
    assert!(found(&answer));
    // The ACK's last byte is a number of all slots.
    let ack = Wrong(Operation::ReceiverAccept, |_, _, lent, _| {
        if let Some(code) = lent.reply.get_mut(5) {
            *code = held(lent.slots) as u8;
        }
    });
    assert!(found(&ack));
}

#[test]
fn a_difference_tells_the_call_and_both_answers() {
    let wrong = Wrong(Operation::FrameWrite, |_, _, lent, answer| {
        lent.bytes[1] = 0x03;
        answer[0] += 1;
    });
    let mut comparison = Comparison::new(&[&Model, &wrong]);
    comparison.at = "here".to_string();
    let mut call = Call::new(Operation::FrameWrite)
        .numbers(&[5, 4_096])
        .inputs(&[&[0xF0]])
        .lent(vec![0xCC; 12]);
    let text = comparison.run(&mut call).unwrap_err().0;
    for line in [
        "difference: here",
        "call: frame write",
        "given 2 numbers: sequence 5, limit 4096",
        "payload, 1 bytes: F0",
        "output before, 12 bytes: CC CC CC CC CC CC CC CC CC CC CC CC",
        "second: returned 0",
        "answer 1 numbers: written 10",
        "all from 0 to 9: F0 02 00 05 F2 02 00 F2 00 F1",
        "wrong: returned 0",
        "answer 1 numbers: written 11",
        "all from 0 to 9: F0 03 00 05 F2 02 00 F2 00 F1",
    ] {
        assert!(text.contains(line), "{line} is not in\n{text}");
    }
}
