//! Lines about Classic frames.

use crate::calls::*;
use crate::classic::{Payload, BUFFER, OUTPUT};
use crate::job::{Job, Row, Subject};
use crate::{classic, inputs, of_each, work};
use std::rc::Rc;

const MEGABYTE: usize = 1 << 20;
/// The input of the lines that are no goal's: enough for steady counts.
const SHORT: usize = MEGABYTE / 4;
const LARGE_CALL: usize = 65_536;

/// Makes payloads of so many bytes together.
type Payloads = fn(usize) -> Vec<Vec<u8>>;

pub fn rows() -> Vec<Row> {
    let mut rows = feed_rows();
    rows.extend(call_size_rows());
    rows.extend(writer_rows());
    rows.extend(part_rows());
    rows
}

/// The extractor over a stream, with every subject.
pub fn feed_job(stream: Vec<u8>, size: usize) -> Job {
    let stream = Rc::new(stream);
    Job::of("byte", stream.len()).each(of_each!(ExtractorFeed extractor_feed), |call| {
        let stream = stream.clone();
        work!(classic::feed(call, &stream, size; BUFFER))
    })
}

fn step_job(stream: Vec<u8>) -> Job {
    let stream = Rc::new(stream);
    Job::of("byte", stream.len()).each(of_each!(ExtractorStep extractor_step), |call| {
        let stream = stream.clone();
        work!(classic::step(call, &stream; BUFFER))
    })
}

const FEED: &str = "feed, 65,536 bytes a call";

fn feed_rows() -> Vec<Row> {
    let framed: [(_, _, Payloads); 4] = [
        (
            "ordinary frames, 0 to 255 random bytes",
            4 * MEGABYTE,
            inputs::ordinary,
        ),
        (
            "long clean frames, 4,096 bytes, no marks",
            MEGABYTE,
            inputs::long_clean,
        ),
        ("tiny frames, 0 to 7 bytes", SHORT, inputs::tiny),
        ("frames of marks only, all escaped", SHORT, inputs::marks),
    ];
    let framed = framed.into_iter().map(|(name, total, payloads)| {
        Row::new(FEED, name, move || {
            feed_job(inputs::frames(&payloads(total)), LARGE_CALL)
        })
    });
    framed.chain(stream_rows()).collect()
}

fn stream_rows() -> Vec<Row> {
    let line =
        |name, bytes: fn() -> Vec<u8>| Row::new(FEED, name, move || feed_job(bytes(), LARGE_CALL));
    let mut rows = vec![
        line("noise, random bytes", || inputs::rng().bytes(MEGABYTE)),
        line("random bytes, no F0", || inputs::no_start(MEGABYTE)),
        line("bodies of 4,099 bytes (24)", || {
            inputs::repeated(&inputs::too_long(), SHORT)
        }),
        line("wrong checksums, 64 bytes (25)", || {
            inputs::repeated(&inputs::wrong_sum(), SHORT)
        }),
    ];
    rows.extend(inputs::PATTERNS.map(|(name, pattern)| {
        Row::new(FEED, name, move || {
            feed_job(inputs::repeated(pattern, SHORT), LARGE_CALL)
        })
    }));
    rows
}

const CALLS: &str = "feed, ordinary frames by call size";

fn call_size_rows() -> Vec<Row> {
    let stream = || inputs::frames(&inputs::ordinary(SHORT));
    let sizes = [
        ("1 byte a call", 1),
        ("16 bytes a call", 16),
        ("64 bytes a call", 64),
        ("65,536 bytes a call", LARGE_CALL),
    ];
    let row = |(name, size)| Row::new(CALLS, name, move || feed_job(stream(), size));
    let mut rows: Vec<Row> = sizes.map(row).into();
    rows.push(Row::new(CALLS, "step, 1 byte a call", move || {
        step_job(stream())
    }));
    rows
}

/// The frame writer over payloads, into outputs of the frame's own size or of the largest one's.
pub fn write_job(parts: Vec<Vec<u8>>, exact: bool) -> Job {
    let bytes = parts.iter().map(Vec::len).sum();
    let payloads: Vec<Payload> = parts
        .iter()
        .enumerate()
        .map(|(index, part)| {
            let sequence = inputs::sequence(index);
            let room = match exact {
                true => second::classic::frame(sequence, part).len(),
                false => OUTPUT,
            };
            Payload {
                sequence,
                bytes: part.clone(),
                room,
            }
        })
        .collect();
    let payloads = Rc::new(payloads);
    Job::of("byte", bytes).each(of_each!(FrameWrite frame_write), |call| {
        let payloads = payloads.clone();
        work!(classic::write(call, &payloads; OUTPUT))
    })
}

fn writer_rows() -> Vec<Row> {
    let roomy: [(_, _, Payloads); 4] = [
        ("ordinary", 4 * MEGABYTE, inputs::ordinary),
        ("long clean", MEGABYTE, inputs::long_clean),
        ("tiny", SHORT, inputs::tiny),
        ("marks only", SHORT, inputs::marks),
    ];
    let exact: [(_, _, Payloads); 2] = [
        ("ordinary", MEGABYTE, inputs::ordinary),
        ("marks only", SHORT, inputs::marks),
    ];
    let row = |name, total, payloads: Payloads, exact| {
        Row::new("frame writer", name, move || {
            write_job(payloads(total), exact)
        })
    };
    let roomy = roomy.into_iter().map(|(name, total, payloads)| {
        row(
            format!("{name}, output of 8,201 bytes"),
            total,
            payloads,
            false,
        )
    });
    let exact = exact.into_iter().map(|(name, total, payloads)| {
        row(
            format!("{name}, output of the frame's size"),
            total,
            payloads,
            true,
        )
    });
    roomy.chain(exact).collect()
}

/// The frame writer by parts over payloads, into outputs of one size.
pub fn parts_job(parts: Vec<Vec<u8>>, room: usize) -> Job {
    let written = |(index, part): (usize, &Vec<u8>)| {
        let sequence = inputs::sequence(index);
        second::classic::frame(sequence, part).len()
    };
    let bytes = parts.iter().enumerate().map(written).sum();
    let payloads: Vec<Payload> = parts
        .iter()
        .enumerate()
        .map(|(index, part)| Payload {
            sequence: inputs::sequence(index),
            bytes: part.clone(),
            room,
        })
        .collect();
    let payloads = Rc::new(payloads);
    let begins = of_each!(FrameBegin frame_begin).into_iter();
    let parts = of_each!(FramePart frame_part).into_iter();
    begins.zip(parts).fold(
        Job::of("byte written", bytes),
        |job, ((subject, begin), (_, part))| {
            let payloads = payloads.clone();
            job.with(
                subject,
                work!(classic::parts((begin, part), &payloads; room)),
            )
        },
    )
}

fn part_rows() -> Vec<Row> {
    let lines: [(_, _, Payloads, _); 6] = [
        (
            "ordinary, outputs of 64 bytes",
            MEGABYTE,
            inputs::ordinary,
            64,
        ),
        (
            "long clean, outputs of 64 bytes",
            MEGABYTE,
            inputs::long_clean,
            64,
        ),
        ("marks only, outputs of 64 bytes", SHORT, inputs::marks, 64),
        ("ordinary, outputs of 1 byte", SHORT, inputs::ordinary, 1),
        ("marks only, outputs of 1 byte", SHORT, inputs::marks, 1),
        (
            "ordinary, output of 8,201 bytes",
            SHORT,
            inputs::ordinary,
            OUTPUT,
        ),
    ];
    lines
        .into_iter()
        .map(|(name, total, payloads, room)| {
            Row::new("frame writer by parts", name, move || {
                parts_job(payloads(total), room)
            })
        })
        .collect()
}
