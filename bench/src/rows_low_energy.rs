//! Lines about Low Energy packets.

use crate::calls::*;
use crate::job::{Job, Row, Subject};
use crate::low_energy::BUFFER;
use crate::{inputs, low_energy, of_each, work};
use second::driver::judged::capture;
use std::rc::Rc;

/// Messages by their size in bytes.
const SIZES: [(usize, &str); 2] = [(4_096, "4,096"), (100, "100")];
const ROOMS: [usize; 3] = [20, 244, 512];
const ACKS: usize = 8_192;

pub fn rows() -> Vec<Row> {
    let mut rows = Vec::new();
    for (size, name) in SIZES {
        for room in ROOMS {
            rows.push(Row::new(
                "packets written",
                format!("{name} bytes, room {room}"),
                move || write_packets_job(inputs::messages(16_384, size), room),
            ));
        }
    }
    rows.push(Row::new("packets written", "ACK and NACK", write_acks_job));
    for (size, name) in SIZES {
        for room in ROOMS {
            rows.push(Row::new(
                "packets accepted",
                format!("{name} bytes, room {room}"),
                move || accept_job(inputs::packets(&inputs::messages(65_536, size), room)),
            ));
        }
    }
    for room in ROOMS {
        rows.push(Row::new(
            "packets accepted",
            format!("100 bytes, room {room}, twelve at a time"),
            move || {
                let messages = inputs::messages(65_536, 100);
                accept_job(inputs::packets_by_turns(&messages, room))
            },
        ));
    }
    rows.push(Row::new("packets accepted", "ACK and NACK", || {
        accept_job(inputs::acks(ACKS))
    }));
    rows.extend(refused_rows());
    for (name, read) in [
        ("packets read", read_job as fn(Vec<Vec<u8>>) -> Job),
        ("captures read", captured_job),
    ] {
        rows.push(Row::new(name, "4,096 bytes, room 244", move || {
            read(inputs::packets(&inputs::messages(65_536, 4_096), 244))
        }));
        rows.push(Row::new(name, "ACK and NACK", move || {
            read(inputs::acks(ACKS))
        }));
    }
    for (size, name) in SIZES {
        for room in ROOMS {
            rows.push(Row::new(
                "captures judged",
                format!("{name} bytes, room {room}"),
                move || judge_job(inputs::packets(&inputs::messages(65_536, size), room), room),
            ));
        }
    }
    rows.push(Row::new("captures judged", "ACK and NACK", || {
        judge_job(inputs::acks(ACKS), 20)
    }));
    for (size, name) in SIZES {
        rows.push(Row::new(
            "captures judged",
            format!("{name} bytes, room 244, and told why"),
            move || why_job(inputs::packets(&inputs::messages(65_536, size), 244), 244),
        ));
    }
    for (size, name) in SIZES {
        rows.push(Row::new(
            "captures in a report",
            format!("{name} bytes, room 244"),
            move || report_job(inputs::packets(&inputs::messages(65_536, size), 244)),
        ));
    }
    rows.push(Row::new("captures in a report", "ACK and NACK", || {
        report_job(inputs::acks(ACKS))
    }));
    rows
}

/// Each refusal alone; 10, 11 and 18 by turns with the first packets that they need.
fn refused_rows() -> Vec<Row> {
    inputs::refused()
        .into_iter()
        .map(|(name, packets)| {
            Row::new("packets accepted", format!("refused: {name}"), move || {
                accept_job(packets.iter().cloned().cycle().take(ACKS).collect())
            })
        })
        .collect()
}

/// All packets of messages at a room, with every subject.
pub fn write_packets_job(messages: Vec<Vec<u8>>, room: usize) -> Job {
    let packets = inputs::packets(&messages, room).len();
    let messages = Rc::new(messages);
    Job::of("packet", packets).each(of_each!(PacketWrite packet_write), |call| {
        let messages = messages.clone();
        work!(low_energy::write(call, &messages, room))
    })
}

fn write_acks_job() -> Job {
    Job::of("packet", ACKS).each(of_each!(AckWrite ack_write), |call| {
        work!(low_energy::write_acks(call, ACKS))
    })
}

/// Joined packets read one by one.
fn read_job(packets: Vec<Vec<u8>>) -> Job {
    let joined = Rc::new(packets.concat());
    Job::of("packet", packets.len()).each(of_each!(PacketRead packet_read), |call| {
        let joined = joined.clone();
        work!(low_energy::read(call, &joined))
    })
}

/// The packets of a capture read one by one.
fn captured_job(packets: Vec<Vec<u8>>) -> Job {
    let capture = Rc::new(capture(&packets));
    Job::of("packet", packets.len()).each(of_each!(CapturePacket capture_packet), |call| {
        let capture = capture.clone();
        work!(low_energy::captured(call, &capture))
    })
}

/// A capture of packets judged at a room.
pub fn judge_job(packets: Vec<Vec<u8>>, room: usize) -> Job {
    let count = packets.len();
    let capture = Rc::new(capture(&packets));
    Job::of("packet", count).each(of_each!(CaptureJudge capture_judge), |call| {
        let capture = capture.clone();
        work!(low_energy::judge(call, &capture, room))
    })
}

/// .. and told why.
pub fn why_job(packets: Vec<Vec<u8>>, room: usize) -> Job {
    let capture = Rc::new(capture(&packets));
    Job::of("packet", packets.len()).each(of_each!(CaptureJudge capture_why), |call| {
        let capture = capture.clone();
        work!(low_energy::why(call, &capture, room))
    })
}

/// A capture of packets added to a report.
pub fn report_job(packets: Vec<Vec<u8>>) -> Job {
    let count = packets.len();
    let capture = Rc::new(capture(&packets));
    Job::of("packet", count).each(of_each!(ReportAdd report_add), |call| {
        let capture = capture.clone();
        work!(low_energy::report(call, &capture; BUFFER))
    })
}

/// The receiver over packets, with every subject.
pub fn accept_job(packets: Vec<Vec<u8>>) -> Job {
    let packets = Rc::new(packets);
    Job::of("packet", packets.len()).each(of_each!(ReceiverAccept receiver_accept), |call| {
        let packets = packets.clone();
        work!(low_energy::accept(call, &packets; BUFFER))
    })
}
