//! Lines about the outbox.

use crate::calls::*;
use crate::job::{Job, Row, Subject};
use crate::{inputs, of_each, outbox, work};
use second::outbox::{Version, ONE, TWO};
use std::rc::Rc;

/// The payload of each record.
const PAYLOAD: usize = 100;

pub fn rows() -> Vec<Row> {
    let line = |name, make: fn() -> Job| Row::new("outbox", name, make);
    vec![
        line("version 01, append 100 bytes to an empty outbox", || {
            append_job(inputs::outbox(ONE, 0, PAYLOAD), PAYLOAD, 2_048)
        }),
        line("version 01, append 100 bytes after 100 records", || {
            append_job(inputs::outbox(ONE, 100, PAYLOAD), PAYLOAD, 64)
        }),
        line("version 01, read 1,000 records, place after place", || {
            records_job(inputs::outbox(ONE, 1_000, PAYLOAD), 4)
        }),
        line("version 01, whole, 1,000 records", || {
            whole_job(inputs::outbox(ONE, 1_000, PAYLOAD), 4)
        }),
        line("version 01, whole, 1,000 records cut in the last", || {
            whole_job(cut(inputs::outbox(ONE, 1_000, PAYLOAD)), 4)
        }),
        line("version 02, append 100 bytes to a new outbox", || {
            append_job(inputs::outbox(TWO, 0, PAYLOAD), PAYLOAD, 2_048)
        }),
        line("version 02, append 100 bytes after 100 records", || {
            append_job(inputs::outbox(TWO, 100, PAYLOAD), PAYLOAD, 64)
        }),
        line("version 02, read 1,000 records, place after place", || {
            records_job(inputs::outbox(TWO, 1_000, PAYLOAD), 4)
        }),
        line("version 02, whole, 1,000 records", || {
            whole_job(inputs::outbox(TWO, 1_000, PAYLOAD), 4)
        }),
        line("version 02, whole, 1,000 records cut in the last", || {
            whole_job(cut(inputs::outbox(TWO, 1_000, PAYLOAD)), 4)
        }),
        line(
            "1,000 records of 100 bytes, version 01 written as 02",
            || moved_job(inputs::outbox(ONE, 1_000, PAYLOAD), TWO, 4),
        ),
        line(
            "1,000 records of 100 bytes, version 02 written as 01",
            || moved_job(inputs::outbox(TWO, 1_000, PAYLOAD), ONE, 4),
        ),
        line("payloads of 100 bytes of ASCII, as text", || {
            texts_job("Kiln seven: 1,240 degrees. ")
        }),
        line(
            "payloads of 100 bytes with characters of two and three, as text",
            || texts_job("Glühe: 1 240 °C – fünf. "),
        ),
    ]
}

/// Payloads of one text, again and again, judged as text.
pub fn texts_job(text: &str) -> Job {
    let payload: Vec<u8> = text.bytes().cycle().take(PAYLOAD).collect();
    let payloads = Rc::new(vec![payload; 2_048]);
    Job::of("byte", 2_048 * PAYLOAD).each(of_each!(Text text), |call| {
        let payloads = payloads.clone();
        work!(outbox::texts(call, &payloads))
    })
}

fn cut(mut bytes: Vec<u8>) -> Vec<u8> {
    bytes.pop();
    bytes
}

/// A payload of one size appended to the same outbox, call after call.
pub fn append_job(bytes: Vec<u8>, payload: usize, calls: usize) -> Job {
    let used = bytes.len();
    let payloads = Rc::new(inputs::messages(calls * payload, payload));
    Job::of("call", calls).each(of_each!(OutboxAppend outbox_append), |call| {
        let payloads = payloads.clone();
        let mut buffer = bytes.clone();
        buffer.resize(used + payload + 5, 0);
        work!(outbox::append(call, &mut buffer, used, &payloads))
    })
}

/// All records read, as often as is said.
pub fn records_job(bytes: Vec<u8>, rounds: usize) -> Job {
    let count = inputs::records(&bytes) * rounds;
    let bytes = Rc::new(bytes);
    Job::of("record", count).each(of_each!(OutboxRecord outbox_record), |call| {
        let bytes = bytes.clone();
        work!(outbox::records(call, &bytes, rounds))
    })
}

/// The whole outbox judged, as often as is said.
pub fn whole_job(bytes: Vec<u8>, rounds: usize) -> Job {
    let count = inputs::records(&bytes) * rounds;
    let bytes = Rc::new(bytes);
    Job::of("record", count).each(of_each!(OutboxWhole outbox_whole), |call| {
        let bytes = bytes.clone();
        work!(outbox::whole(call, &bytes, rounds))
    })
}

/// The whole outbox written as another version, as often as is said.
pub fn moved_job(bytes: Vec<u8>, wished: Version, rounds: usize) -> Job {
    let count = inputs::records(&bytes) * rounds;
    let calls = match wished == ONE {
        true => of_each!(OutboxTo outbox_to_01),
        false => of_each!(OutboxTo outbox_to_02),
    };
    let bytes = Rc::new(bytes);
    Job::of("record", count).each(calls, |call| {
        let bytes = bytes.clone();
        work!(outbox::moved(call, &bytes, rounds; 2 * bytes.len()))
    })
}
