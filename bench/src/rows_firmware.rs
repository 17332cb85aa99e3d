//! Lines about firmware messages.

use crate::calls::*;
use crate::firmware::{ApplyGiven, SegmentGiven, ROW};
use crate::job::{Job, Row, Subject};
use crate::rows_control::{
    bytes, forget, letters, many, read_job, readers, write_job, MESSAGES, ROUNDS,
};
use crate::{firmware, of_messages, work};
use second::driver::firmware::digits;
use second::firmware::{write_apply, write_segment, Apply, Component, Information};
use std::rc::Rc;

pub fn rows() -> Vec<Row> {
    let read = |name, make: fn() -> Job| Row::new("firmware messages read", name, make);
    let write = |name, make: fn() -> Job| Row::new("firmware messages written", name, make);
    vec![
        read("segment", read_segment_job),
        read("firmware, 1 component", || read_apply_job(1)),
        read("firmware, 8 components", || read_apply_job(8)),
        write("segment", write_segment_job),
        write("firmware, 1 component", || write_apply_job(1)),
        write("firmware, 8 components", || write_apply_job(8)),
    ]
}

fn segments() -> Vec<SegmentGiven> {
    many(|rng| SegmentGiven {
        name: letters(rng, 12),
        size: 552_960 + rng.below(1 << 16),
        signature: digits(rng),
    })
}

/// The messages as plain types, with the bytes that their parts are places in.
fn applies(components: usize) -> Vec<(Apply, Vec<u8>)> {
    many(|rng| {
        let version = 12_345 + rng.below(100) as u32;
        let one = |index: usize| Component {
            version,
            name: 20 + 24 * index..32 + 24 * index,
            size: 552_960 + index as u32,
            signature: 32 + 24 * index..44 + 24 * index,
        };
        let information = Information {
            version,
            name: 0..5,
            components: (0..components).map(one).collect(),
            locale: 5..10,
            version_name: 10..15,
        };
        let apply = Apply {
            information,
            restart_required: true,
        };
        (apply, letters(rng, 20 + 24 * components))
    })
}

/// The same messages as rows.
fn given(applies: Vec<(Apply, Vec<u8>)>) -> Vec<ApplyGiven> {
    let row_of = |apply: &Apply| {
        let information = &apply.information;
        let mut row = [0; ROW];
        let named = [
            &information.name,
            &information.locale,
            &information.version_name,
        ];
        let mut numbers = vec![apply.restart_required.into(), information.version.into()];
        for part in named {
            numbers.extend([part.start as u64, part.len() as u64]);
        }
        numbers.push(information.components.len() as u64);
        for one in &information.components {
            numbers.push(one.version.into());
            numbers.extend([one.name.start as u64, one.name.len() as u64]);
            numbers.push(one.size.into());
            numbers.extend([one.signature.start as u64, one.signature.len() as u64]);
        }
        row[..numbers.len()].copy_from_slice(&numbers);
        row
    };
    let one = |(apply, texts): (Apply, Vec<u8>)| ApplyGiven {
        row: row_of(&apply),
        texts,
    };
    applies.into_iter().map(one).collect()
}

fn read_segment_job() -> Job {
    let messages = bytes(&segments(), |one, output| {
        write_segment(&one.name, 0, one.size as u32, &one.signature, output).expect("lawful")
    });
    read_job!(messages, firmware::read_segment, segment_read)
}

fn read_apply_job(components: usize) -> Job {
    let messages = bytes(&applies(components), |(apply, texts), output| {
        write_apply(texts, apply, output).expect("lawful")
    });
    read_job!(messages, firmware::read_apply, apply_read)
}

fn write_segment_job() -> Job {
    forget();
    for one in &segments() {
        let (name, signature) = (&one.name, &one.signature);
        for prepare in [nanopb::segment_prepare, pbc::segment_prepare] {
            unsafe {
                prepare(
                    name.as_ptr(),
                    name.len(),
                    0,
                    one.size,
                    signature.as_ptr(),
                    signature.len(),
                )
            };
        }
    }
    write_job!(segments(), firmware::segment_write, SegmentWrite)
}

fn write_apply_job(components: usize) -> Job {
    forget();
    for one in &given(applies(components)) {
        let (row, texts) = (&one.row, &one.texts);
        for prepare in [nanopb::apply_prepare, pbc::apply_prepare] {
            unsafe { prepare(row.as_ptr(), row.len(), texts.as_ptr(), texts.len()) };
        }
    }
    write_job!(
        given(applies(components)),
        firmware::apply_write,
        ApplyWrite
    )
}
