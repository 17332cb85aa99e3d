//! Lines about replies to the handshake.

use crate::calls::*;
use crate::control::{FeaturesGiven, InformationGiven};
use crate::job::{Job, Row, Subject};
use crate::replies::Asked;
use crate::rows_control::{forget, letters, many, MESSAGES, ROUNDS};
use crate::{of_each, replies, work};
use std::rc::Rc;

const QUESTIONS: [(u64, &str); 2] = [(20, "device information"), (28, "features")];
const ROOMS: [usize; 2] = [20, 244];

pub fn rows() -> Vec<Row> {
    let mut rows = Vec::new();
    for (command, name) in QUESTIONS {
        for room in ROOMS {
            rows.push(Row::new(
                "replies written",
                format!("{name}, room {room}"),
                move || job(command, room),
            ));
        }
    }
    rows
}

/// Three strings of 20 bytes and three transports, and two features.
fn asked(command: u64) -> Vec<Asked> {
    many(|rng| Asked {
        command,
        message: vec![0x08, command as u8],
        information: InformationGiven {
            strings: [20; 3].map(|length| letters(rng, length)),
            transports: vec![1, 2, 3],
        },
        features: FeaturesGiven {
            features: rng.below(1 << 20),
            device_attributes: rng.below(1 << 20),
        },
    })
}

fn job(command: u64, room: usize) -> Job {
    forget();
    for one in &asked(command) {
        let [a, b, c] = one
            .information
            .strings
            .each_ref()
            .map(|string| (string.as_ptr(), string.len()));
        let transports = &one.information.transports;
        unsafe {
            nanopb::reply_prepare(
                one.command,
                a.0,
                a.1,
                b.0,
                b.1,
                c.0,
                c.1,
                transports.as_ptr(),
                transports.len(),
                one.features.features,
                one.features.device_attributes,
            )
        };
    }
    let asked = Rc::new(asked(command));
    let nanopb = asked.clone();
    Job::of("reply", MESSAGES * ROUNDS)
        .each(of_each!(ReplyWrite reply_write), |call| {
            let asked = asked.clone();
            work!(replies::write(call, &asked, ROUNDS, room))
        })
        .with(
            Subject::Nanopb,
            work!(replies::write_nanopb(&nanopb, ROUNDS, room)),
        )
}
