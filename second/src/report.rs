//! Document 02, No. 12, "What the radio cost us": a report over many captures, "each read by a fresh link of a given
//! limit". The numbers are "defined from the packets and answers, not from running sums".

use crate::judge::{packets, Refused};
use crate::low_energy::{accept, buffer, Accepted, Receiver, Reply, Slots, Stream, SLOTS};
use crate::refusal::{limit_in, Refusal};
use std::fmt::Write;

/// What a report has for one stream.
#[derive(Clone, Copy, Debug, Default, PartialEq, Eq)]
pub struct Costs {
    /// "first packets accepted"
    pub firsts: u64,
    /// "transactions finished"
    pub finished: u64,
    /// "replaced"
    pub replaced: u64,
    /// "dropped by 10 or 11"
    pub dropped: u64,
    /// "left open at the end"
    pub left_open: u64,
    /// "payload bytes of the finished ones"
    pub payload: u64,
    /// "the bytes of all packets with that stream field, ACK and refused ones too"
    pub bytes: u64,
}

/// "Per stream", in the row's order.
pub type Report = [Costs; 3];

/// The numbers of one stream, in the order of the paper's words.
pub const NUMBERS: usize = 7;

impl Costs {
    pub fn row(self) -> [u64; NUMBERS] {
        [
            self.firsts,
            self.finished,
            self.replaced,
            self.dropped,
            self.left_open,
            self.payload,
            self.bytes,
        ]
    }

    pub const fn of_row(row: [u64; NUMBERS]) -> Costs {
        let [firsts, finished, replaced, dropped, left_open, payload, bytes] = row;
        Costs {
            firsts,
            finished,
            replaced,
            dropped,
            left_open,
            payload,
            bytes,
        }
    }

    /// "19 a sum that would pass 64 bits".
    fn plus(self, other: Costs) -> Result<Costs, Refusal> {
        let mut row = self.row();
        for (sum, number) in row.iter_mut().zip(other.row()) {
            *sum = sum.checked_add(number).ok_or(Refusal::Sum)?;
        }
        Ok(Costs::of_row(row))
    }
}

/// A packet of a capture, with the answer that it got.
pub struct Heard<'a> {
    pub packet: &'a [u8],
    pub told: Result<Accepted, Refusal>,
}

impl Heard<'_> {
    /// Stream and id as they stand on the wire; every packet of a capture has this byte.
    fn zeroth(&self) -> u8 {
        self.packet[0]
    }

    /// A "first packet accepted": of type 0, and a piece taken or a transaction finished.
    fn is_first(&self) -> bool {
        let taken = matches!(
            self.told,
            Ok(Accepted::Held { .. } | Accepted::Finished { .. })
        );
        taken && self.packet[1] >> 2 & 3 == 0
    }

    /// The total of a transaction that this packet finished.
    fn finished(&self) -> Option<usize> {
        match self.told {
            Ok(Accepted::Finished { total, .. }) => Some(total),
            _ => None,
        }
    }

    fn has_replaced(&self) -> bool {
        match self.told {
            Ok(Accepted::Held { replaced, .. } | Accepted::Finished { replaced, .. }) => replaced,
            _ => false,
        }
    }

    fn has_dropped(&self) -> bool {
        matches!(self.told, Err(Refusal::OutOfOrder | Refusal::MissesTotal))
    }

    /// Whether a transaction that was open for this packet's stream and id is so no more.
    fn ends(&self) -> bool {
        self.finished().is_some() || self.is_first() || self.has_dropped()
    }
}

/// An accepted first packet that did not finish at once, after which nothing ended its transaction.
fn is_left_open(first: &Heard<'_>, later: &[Heard<'_>]) -> bool {
    let ended = |other: &Heard<'_>| other.zeroth() == first.zeroth() && other.ends();
    first.is_first() && first.finished().is_none() && !later.iter().any(ended)
}

/// The numbers of a capture for one stream, over its packets and their answers.
pub fn costs<'a>(heard: &[Heard<'a>], stream: Stream) -> Costs {
    let own = || {
        heard
            .iter()
            .enumerate()
            .filter(|(_, one)| one.zeroth() >> 4 == stream.number())
    };
    let count = |holds: fn(&Heard<'a>) -> bool| own().filter(|(_, one)| holds(one)).count() as u64;
    Costs {
        firsts: count(Heard::is_first),
        finished: count(|one| one.finished().is_some()),
        replaced: count(Heard::has_replaced),
        dropped: count(Heard::has_dropped),
        left_open: own()
            .filter(|(place, one)| is_left_open(one, &heard[place + 1..]))
            .count() as u64,
        payload: own()
            .filter_map(|(_, one)| one.finished())
            .map(|total| total as u64)
            .sum(),
        bytes: own().map(|(_, one)| one.packet.len() as u64).sum(),
    }
}

/// The packets given to a fresh link, one after another: the answers, and the slots after the last one. "the answers go
/// nowhere": the answer buffer is the call's own.
pub fn listen<'a>(
    limit: u64,
    lent: &mut [u8],
    packets: impl IntoIterator<Item = &'a [u8]>,
) -> Result<(Vec<Heard<'a>>, Slots), Refusal> {
    let mut link = Receiver::open(limit)?;
    let mut heard = Vec::new();
    for packet in packets {
        let reply = Reply {
            sequence: 0,
            buffer: &mut [0; 6],
        };
        let (after, told) = accept(link, lent, packet, reply);
        link = after;
        heard.push(Heard { packet, told });
    }
    Ok((heard, link.slots))
}

/// A capture that was read to its end: the slots then, and the new report, or 19.
pub struct Added {
    pub slots: Slots,
    pub report: Result<Report, Refusal>,
}

/// A capture added to a report: "17, then 1 for the link's lent row or buffer of the wrong size, then the capture's own,
/// then 19". What stands in the row before is not looked at: the link is fresh.
pub fn add(
    report: Report,
    limit: u64,
    row: usize,
    lent: &mut [u8],
    capture: &[u8],
) -> Result<Added, Refused> {
    let alone = |refusal| (refusal, 0);
    limit_in(limit).map_err(alone)?;
    if row != SLOTS || lent.len() != buffer(limit) {
        return Err(alone(Refusal::Lent));
    }
    let packets = packets(capture)?.into_iter().map(|(_, packet)| packet);
    let (heard, slots) = listen(limit, lent, packets).map_err(alone)?;
    let mut sums = report;
    let report = Stream::ALL
        .into_iter()
        .try_for_each(|stream| {
            let sum = &mut sums[stream as usize];
            *sum = sum.plus(costs(&heard, stream))?;
            Ok(())
        })
        .map(|()| sums);
    Ok(Added { slots, report })
}

/// A capture by its name; no bytes if it could not be read.
pub struct Named {
    pub name: String,
    pub bytes: Option<Vec<u8>>,
}

/// What the program prints of some captures: the refused ones, a line for each stream and for all, and how many of the
/// captures that is.
pub fn table(limit: u64, captures: &[Named]) -> String {
    let mut text = String::new();
    let mut report = Report::default();
    let mut count = 0;
    let mut lent = vec![0; buffer(limit)];
    for Named { name, bytes } in captures {
        let Some(bytes) = bytes else {
            continue;
        };
        let added = add(report, limit, SLOTS, &mut lent, bytes)
            .and_then(|added| added.report.map_err(|refusal| (refusal, 0)));
        match added {
            Ok(sums) => (report, count) = (sums, count + 1),
            Err((refusal, place)) => {
                let _ = writeln!(text, "{name}: refused {refusal} at {place}");
            }
        }
    }
    let heads = [
        "firsts", "finished", "replaced", "dropped", "open", "payload", "bytes",
    ];
    let heads: String = heads.iter().map(|head| format!(" {head:>10}")).collect();
    let _ = writeln!(text, "       {heads}");
    let mut total = [0; NUMBERS];
    for (name, costs) in ["control", "OTA", "Alexa"].iter().zip(report) {
        line(&mut text, name, costs.row());
        for (sum, number) in total.iter_mut().zip(costs.row()) {
            *sum += number;
        }
    }
    line(&mut text, "total", total);
    let _ = writeln!(text, "{count} of {} captures", captures.len());
    text
}

fn line(text: &mut String, name: &str, row: [u64; NUMBERS]) {
    let numbers: String = row.iter().map(|number| format!(" {number:>10}")).collect();
    let _ = writeln!(text, "{name:<7}{numbers}");
}
