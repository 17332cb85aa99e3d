//! Captures in a report (No. 12): the worked one; lists of captures of mixed streams, with all kinds of packets, each with
//! its limit, given in two orders; and single captures over rows that no receiver takes, with sizes, limits and captures
//! that are refused, and reports near the largest number. And the program `radio_report`, line by line.

use super::captures::Capture;
use super::judged::capture;
use super::packets::{self, Source};
use super::worked::bytes;
use super::{damage, edge, Plan};
use crate::comparison::{Compared, Comparison};
use crate::face;
use crate::implementation::{Call, Operation, Slot};
use crate::low_energy::{self, Reply, SLOTS};
use crate::report::{table, Named, NUMBERS};
use crate::rng::Rng;
use std::fs;
use std::path::Path;
use std::process::Command;

/// The longest capture that the program reads.
const LONGEST: usize = 1_048_576;

/// The numbers of a report.
const ROW: usize = 3 * NUMBERS;

/// Worked by hand from the request, at limit 64: the third packet is of type 1 and reaches the total, 11.
const WORKED: [&str; 8] = [
    "03 00 00 00 02 01 07",
    "03 00 00 00 02 01 07",
    "03 14 01 01",
    "03",
    "71 00",
    "05 00 00 00 02 01 07",
    "20 00 00 00 01 01 09",
    "60 0E 00 02 01 00",
];
const WORKED_ROW: [u64; ROW] = [
    3, 0, 1, 1, 1, 0, 26, //
    1, 1, 0, 0, 0, 1, 7, //
    0, 0, 0, 0, 0, 0, 6,
];

/// The limits that are tried, with how many lists of captures each gets. Every lent byte is compared at every call, so a
/// large buffer is dear.
const LIMITS: &[(u64, u64)] = &[
    (64, 5_000),
    (1, 400),
    (2, 400),
    (19, 400),
    (255, 400),
    (256, 400),
    (4_096, 200),
    (20_000, 10),
    (65_535, 4),
];

pub fn run(c: &mut Comparison<'_>, rng: &mut Rng, plan: Plan) -> Compared<()> {
    let packets: Vec<_> = WORKED.iter().map(|packet| bytes(packet)).collect();
    let mut worked = call(rng, 64, &capture(&packets));
    c.expect(&mut worked, 0, |call| {
        // Id 5 took the slot that 11 had made idle.
        let mut row = [Slot::default(); SLOTS];
        row[0] = Slot {
            opened: 1,
            id: 5,
            sequence: 0,
            wanted: 0,
            total: 2,
            held: 1,
        };
        call.state == WORKED_ROW && call.slots == row
    })?;
    for &(limit, lists) in LIMITS {
        c.at = format!("captures in a report, at limit {limit}");
        for _ in 0..plan.times(lists) {
            both_orders(c, rng, limit)?;
            refused(c, rng, limit)?;
        }
    }
    Ok(())
}

/// A capture for an empty report; what stands in row and buffer before is any.
fn call(rng: &mut Rng, limit: u64, capture: &[u8]) -> Call {
    Call::new(Operation::ReportAdd)
        .numbers(&[limit])
        .inputs(&[capture])
        .slots(&row(rng, limit))
        .lent(rng.bytes(low_energy::buffer(limit)))
}

/// A row of twelve slots, lawful or not.
fn row(rng: &mut Rng, limit: u64) -> Vec<Slot> {
    let mut row = if rng.once_in(2) {
        packets::lawful(rng, limit)
    } else {
        packets::unlawful(rng, limit)
    };
    row.resize(SLOTS, Slot::default());
    row
}

/// A capture of mixed streams. The packets made for a slot are made for those of the link that has read the ones before.
fn generated(rng: &mut Rng, limit: u64) -> Vec<u8> {
    let mut source = Source::new(rng, limit);
    let mut slots = vec![Slot::default(); SLOTS];
    let mut lent = vec![0; low_energy::buffer(limit)];
    let mut list = Vec::new();
    for _ in 0..rng.index(40) {
        let packet = source.next(rng, &slots);
        let reply = Reply {
            sequence: 0,
            buffer: &mut [0; 6],
        };
        face::receiver_accept(&[limit], &mut slots, &mut lent, &packet, reply, &mut [0; 8]);
        list.push(packet);
    }
    list.retain(|packet| !packet.is_empty() && packet.len() <= 65_535);
    capture(&list)
}

/// First packets accepted are those finished, replaced, dropped and left open.
fn balanced(report: &[u64]) -> bool {
    report
        .chunks(NUMBERS)
        .all(|stream| stream[0] == stream[1..5].iter().sum())
}

/// How many slots of each stream are open.
fn opened(slots: &[Slot]) -> Vec<u64> {
    slots
        .chunks(SLOTS / 3)
        .map(|slots| slots.iter().map(|slot| u64::from(slot.opened)).sum())
        .collect()
}

/// A list of captures, one refused now and then, given in two orders to an empty report or to one near the largest numbers:
/// an empty one balances after each; each capture's left open are the slots that are open after it; and where none is
/// refused by 19 in one order, none is in the other, and the report is the same.
fn both_orders(c: &mut Comparison<'_>, rng: &mut Rng, limit: u64) -> Compared<()> {
    let mut calls: Vec<Call> = (0..rng.between(1, 3))
        .map(|_| {
            let limit = if rng.once_in(4) { 64.min(limit) } else { limit };
            let mut made = generated(rng, limit);
            if rng.once_in(8) {
                spoil(rng, &mut made);
            }
            call(rng, limit, &made)
        })
        .collect();
    let start = match rng.below(3) {
        0 => vec![u64::MAX - rng.below(1_500); ROW],
        _ => vec![0; ROW],
    };
    let forth = one_order(c, &start, &calls)?;
    calls.reverse();
    let back = one_order(c, &start, &calls)?;
    let last = calls.last().expect("at least one");
    c.hold(
        (forth.is_none() && back.is_none()) || forth == back,
        "the same report in either order",
        last,
    )
}

/// The report after captures in their order; none if one of them is refused by 19.
fn one_order(c: &mut Comparison<'_>, start: &[u64], calls: &[Call]) -> Compared<Option<Vec<u64>>> {
    let mut report = start.to_vec();
    let mut over = false;
    for call in calls {
        let mut call = call.clone().state(&report);
        let returned = c.run(&mut call)?;
        over |= returned == 19;
        let balances = start[0] != 0 || balanced(&call.state);
        c.hold(balances, "the report balances", &call)?;
        if returned == 0 {
            let came = left_open(&call.state, &report);
            let open = came == opened(&call.slots);
            c.hold(open, "left open are the open slots", &call)?;
        } else {
            c.hold(call.state == report, "a refusal leaves the report", &call)?;
        }
        report = call.state;
    }
    Ok((!over).then_some(report))
}

/// How many more are left open on each stream in one report than in another.
fn left_open(after: &[u64], before: &[u64]) -> Vec<u64> {
    let streams = after.chunks(NUMBERS).zip(before.chunks(NUMBERS));
    streams
        .map(|(after, before)| after[4] - before[4])
        .collect()
}

/// Damages a capture, cuts it, or ends it with a length of 0.
fn spoil(rng: &mut Rng, made: &mut Vec<u8>) {
    match rng.below(4) {
        0 => damage(rng, made, |rng| rng.byte()),
        1 => made.truncate(rng.index(made.len() + 1)),
        2 => made.extend([0, 0]),
        _ => made[0] = *rng.pick(&[0, 2, 3, 255]),
    }
}

/// A capture for a report with numbers near the largest, with a size, the limit or the capture wrong now and then, and
/// several of them at once, so that the order of the refusals shows.
fn refused(c: &mut Comparison<'_>, rng: &mut Rng, limit: u64) -> Compared<()> {
    let mut made = generated(rng, limit);
    if rng.once_in(3) {
        spoil(rng, &mut made);
    }
    let mut call = call(rng, limit, &made);
    for number in &mut call.state {
        *number = match rng.below(12) {
            0 => u64::MAX - rng.below(4),
            1 => u64::MAX - rng.below(2_000),
            2 => edge(rng),
            _ => rng.below(1 << 40),
        };
    }
    if rng.once_in(6) {
        let length = rng.index(SLOTS + 4);
        call.slots.resize(length, Slot::default());
    }
    if rng.once_in(6) {
        let right = call.lent.len();
        let size = *rng.pick(&[0, 1, right / 4, right - 1, right + 1, 3 * limit as usize]);
        call.lent.resize(size, 0x77);
    }
    if rng.once_in(8) {
        call.numbers[0] =
            *rng.pick(&[0, limit + 1, limit - 1, 65_536, u64::MAX, limit + (1 << 32)]);
    }
    c.run(&mut call)?;
    Ok(())
}

/// A capture of another maker, whose chunks are packets, added to a report.
pub fn report_capture(c: &mut Comparison<'_>, of: &Capture) -> Compared<()> {
    c.at = format!("capture {} in a report", of.name);
    let mut call = Call::new(Operation::ReportAdd)
        .numbers(&[4_096])
        .inputs(&[&capture(&of.chunks)])
        .lent(vec![0xCC; low_energy::buffer(4_096)]);
    let size: usize = of.chunks.iter().map(Vec::len).sum();
    c.expect(&mut call, 0, |call| {
        let bytes: u64 = call.state.chunks(NUMBERS).map(|stream| stream[6]).sum();
        bytes == size as u64 && balanced(&call.state)
    })
}

/// Runs the program on files of generated captures, some refused, one that is missing and one that is too long; gives how
/// many files there were.
pub fn run_program(program: &Path, captures: &[Capture], plan: Plan) -> Result<usize, String> {
    let folder = std::env::temp_dir().join(format!("second-report-{}", std::process::id()));
    let told = fs::create_dir(&folder)
        .map_err(|error| format!("{}: {error}", folder.display()))
        .and_then(|()| in_folder(program, captures, plan, &folder));
    let _ = fs::remove_dir_all(&folder);
    told
}

fn in_folder(
    program: &Path,
    captures: &[Capture],
    plan: Plan,
    folder: &Path,
) -> Result<usize, String> {
    let mut rng = Rng::new(plan.seed ^ 0x7265_706F_7274);
    let makers = captures.iter().filter(|of| of.is_low_energy());
    let mut files: Vec<_> = makers.map(|of| capture(&of.chunks)).collect();
    // As long as may be, and a byte longer: one packet, and many of the largest.
    let mut long = capture(&vec![vec![0; 65_535]; 15]);
    long.extend(capture(&[vec![9; LONGEST - long.len() - 2]]).split_off(1));
    files.push(long.clone());
    long.push(0);
    files.push(long);
    for _ in 0..plan.times(30) {
        let mut made = generated(&mut rng, 64);
        if rng.once_in(4) {
            spoil(&mut rng, &mut made);
        }
        files.push(made);
    }
    let mut named = vec![Named {
        name: "missing.bin".to_string(),
        bytes: None,
    }];
    for (number, bytes) in files.into_iter().enumerate() {
        let name = format!("{number}.bin");
        fs::write(folder.join(&name), &bytes).map_err(|error| format!("{name}: {error}"))?;
        let bytes = (bytes.len() <= LONGEST).then_some(bytes);
        named.push(Named { name, bytes });
    }
    for limit in [1, 64, 300, 4_096, 65_535] {
        let output = Command::new(fs::canonicalize(program).map_err(|error| error.to_string())?)
            .arg(limit.to_string())
            .args(named.iter().map(|file| &file.name))
            .current_dir(folder)
            .output()
            .map_err(|error| format!("{}: {error}", program.display()))?;
        let (told, expected) = (
            String::from_utf8_lossy(&output.stdout),
            table(limit, &named),
        );
        if told != expected {
            let program = program.display();
            return Err(format!(
                "difference: report at limit {limit}\n  second prints\n{expected}  {program} prints\n{told}"
            ));
        }
    }
    Ok(named.len())
}
