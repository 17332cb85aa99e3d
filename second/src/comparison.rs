//! Runs every implementation on the same call and compares what they return, their answers, their
//! states, every lent slot and every lent byte.

use crate::implementation::{Call, Implementation, Lent, Operation, Slot};
use std::fmt::{self, Write};

/// What one implementation left.
#[derive(Clone, Debug, Default, PartialEq, Eq)]
struct Left {
    returned: u64,
    state: Vec<u64>,
    slots: Vec<Slot>,
    lent: Vec<u8>,
    reply: Vec<u8>,
    answer: Vec<u64>,
}

/// Two implementations that differ, or a result that is not the one expected; the text tells all.
pub struct Difference(pub String);

impl fmt::Debug for Difference {
    fn fmt(&self, f: &mut fmt::Formatter<'_>) -> fmt::Result {
        f.write_str(&self.0)
    }
}

/// Most calls change nothing, or end in a difference.
pub type Compared<T> = Result<T, Box<Difference>>;

/// The implementations, and a tally of what the calls came to.
pub struct Comparison<'i> {
    implementations: Vec<&'i dyn Implementation>,
    left: Vec<Left>,
    /// For each operation how often each number was returned.
    met: Vec<[u64; NUMBERS]>,
    /// For each operation how often each kind of success was told, in the order of `kinds`.
    outcomes: Vec<Vec<[u64; NUMBERS]>>,
    calls: u64,
    /// What the driver is at, for the text of a difference.
    pub at: String,
}

/// More than any refusal number.
const NUMBERS: usize = 64;

/// The places in an answer row of small numbers that tell the kind of success, each with the names
/// of its kinds.
type Kinds = &'static [(usize, &'static [&'static str])];

fn kinds(operation: Operation) -> Kinds {
    match operation {
        Operation::ExtractorStep => &[(0, &["skipped", "taken", "frame"])],
        Operation::ExtractorFeed => &[(0, &["all used", "", "frame"])],
        Operation::FramePart => &[(2, &["open", "ended"])],
        Operation::ReceiverAccept => &[
            (0, &["held", "finished", "ACK", "NACK"]),
            (5, &["", "answered"]),
        ],
        Operation::PacketRead => &[(4, &["first", "continuation", "last", "ACK or NACK"])],
        Operation::EnvelopeRead => &[(1, &["no payload", "response", "other member"])],
        Operation::FieldRead => &[(0, &["end", "field"])],
        Operation::OutboxRecord => &[(0, &["end", "record"])],
        Operation::CapturePacket => &[(0, &["end", "packet"])],
        Operation::CaptureJudge => &[(0, &["", "lawful", "open", "unlawful"])],
        Operation::CaptureWhy => &[
            (0, &["", "lawful", "open", "unlawful"]),
            (
                24,
                &["", "any first expected", "first expected", "next expected"],
            ),
        ],
        _ => &[],
    }
}

/// The kinds of an operation by name, each with how often it was told.
fn told_kinds(operation: Operation, told: &[[u64; NUMBERS]]) -> Vec<(&'static str, u64)> {
    let named = kinds(operation).iter().zip(told);
    named
        .flat_map(|((_, names), counts)| names.iter().copied().zip(counts.iter().copied()))
        .filter(|(name, _)| !name.is_empty())
        .collect()
}

impl<'i> Comparison<'i> {
    pub fn new(implementations: &[&'i dyn Implementation]) -> Comparison<'i> {
        assert!(!implementations.is_empty());
        Comparison {
            implementations: implementations.to_vec(),
            left: vec![Left::default(); implementations.len()],
            met: vec![[0; NUMBERS]; Operation::ALL.len()],
            outcomes: Operation::ALL
                .iter()
                .map(|&operation| vec![[0; NUMBERS]; kinds(operation).len()])
                .collect(),
            calls: 0,
            at: String::new(),
        }
    }

    pub fn names(&self) -> Vec<String> {
        self.implementations
            .iter()
            .map(|one| one.name().to_string())
            .collect()
    }

    pub fn calls(&self) -> u64 {
        self.calls
    }

    /// Runs the call on every implementation, each on its own copy of what is lent. If all agree,
    /// the call holds what they left, and what they returned is given.
    pub fn run(&mut self, call: &mut Call) -> Compared<u64> {
        self.calls += 1;
        // What stands in the answer row before is no number that an answer has.
        for (index, cell) in call.answer.iter_mut().enumerate() {
            *cell = 0xA5A5_5A5A_0000_0000 ^ self.calls << 8 ^ index as u64;
        }
        for (one, left) in self.implementations.iter().zip(&mut self.left) {
            left.state.clone_from(&call.state);
            left.slots.clone_from(&call.slots);
            left.lent.clone_from(&call.lent);
            left.reply.clone_from(&call.reply);
            left.answer.clone_from(&call.answer);
            left.returned = one.call(
                call.operation,
                &call.numbers,
                &call.inputs,
                &mut left.state,
                Lent {
                    slots: &mut left.slots,
                    bytes: &mut left.lent,
                    reply: &mut left.reply,
                },
                &mut left.answer,
            );
        }
        let (first, others) = self.left.split_first_mut().expect("at least one");
        if others.iter().any(|other| other != first) {
            return Err(self.difference(call));
        }
        std::mem::swap(&mut call.state, &mut first.state);
        std::mem::swap(&mut call.slots, &mut first.slots);
        std::mem::swap(&mut call.lent, &mut first.lent);
        std::mem::swap(&mut call.reply, &mut first.reply);
        std::mem::swap(&mut call.answer, &mut first.answer);
        let returned = first.returned;
        count(&mut self.met[call.operation as usize], returned);
        if returned == 0 {
            let told = &mut self.outcomes[call.operation as usize];
            for ((cell, _), counts) in kinds(call.operation).iter().zip(told) {
                count(counts, call.answer[*cell]);
            }
        }
        Ok(returned)
    }

    /// Runs the call and holds it to what the paper gives: the number returned, then whatever the
    /// caller says of what was left.
    pub fn expect(
        &mut self,
        call: &mut Call,
        returned: u64,
        holds: impl FnOnce(&Call) -> bool,
    ) -> Compared<()> {
        let before = call.clone();
        let got = self.run(call)?;
        if got == returned && holds(call) {
            return Ok(());
        }
        let mut text = format!("not as expected: {}\n", self.at);
        describe(&before, &mut text);
        let _ = writeln!(text, "  expected to return {returned}");
        let left = Left {
            returned: got,
            state: call.state.clone(),
            slots: call.slots.clone(),
            lent: call.lent.clone(),
            reply: call.reply.clone(),
            answer: call.answer.clone(),
        };
        describe_left(&before, &left, "all", &mut text);
        Err(Box::new(Difference(text)))
    }

    /// Holds to the paper what several calls came to, `last` being the last of them.
    pub fn hold(&self, holds: bool, what: &str, last: &Call) -> Compared<()> {
        if holds {
            return Ok(());
        }
        let mut text = format!("not as expected: {}: {what}\n", self.at);
        text.push_str("  the last call, as it stands after it:\n");
        describe(last, &mut text);
        Err(Box::new(Difference(text)))
    }

    fn difference(&self, call: &Call) -> Box<Difference> {
        let mut text = format!("difference: {}\n", self.at);
        describe(call, &mut text);
        for (one, left) in self.implementations.iter().zip(&self.left) {
            describe_left(call, left, one.name(), &mut text);
        }
        Box::new(Difference(text))
    }

    /// Adds what another comparison has counted.
    pub fn absorb(&mut self, other: &Comparison<'_>) {
        self.calls += other.calls;
        let others = other.met.iter().chain(other.outcomes.iter().flatten());
        let own = self
            .met
            .iter_mut()
            .chain(self.outcomes.iter_mut().flatten());
        for (sum, more) in own.flatten().zip(others.flatten()) {
            *sum += more;
        }
    }

    /// The operations and numbers returned that no call has met.
    pub fn never_met(&self) -> Vec<String> {
        let mut missing = Vec::new();
        for operation in Operation::ALL {
            let shape = operation.shape();
            for &number in shape.returns {
                if self.met[operation as usize][number as usize] == 0 {
                    missing.push(format!("{} {number}", shape.name));
                }
            }
            for (name, count) in told_kinds(operation, &self.outcomes[operation as usize]) {
                if count == 0 {
                    missing.push(format!("{} {name}", shape.name));
                }
            }
        }
        missing
    }

    /// How often each operation returned each number.
    pub fn tally(&self) -> String {
        let mut text = String::new();
        for operation in Operation::ALL {
            let counts: Vec<String> = self.met[operation as usize]
                .iter()
                .enumerate()
                .filter(|(_, &count)| count > 0)
                .map(|(number, count)| format!("{number}: {count}"))
                .collect();
            let _ = write!(text, "  {}  {}", operation.shape().name, counts.join(", "));
            let counts: Vec<String> = told_kinds(operation, &self.outcomes[operation as usize])
                .iter()
                .map(|(name, count)| format!("{name}: {count}"))
                .collect();
            if !counts.is_empty() {
                let _ = write!(text, " ({})", counts.join(", "));
            }
            text.push('\n');
        }
        text
    }
}

/// One more of a number.
fn count(row: &mut [u64; NUMBERS], number: u64) {
    let last = NUMBERS - 1;
    row[usize::try_from(number).map_or(last, |number| number.min(last))] += 1;
}

/// Bytes as text.
pub fn hex(bytes: &[u8]) -> String {
    bytes
        .iter()
        .map(|byte| format!("{byte:02X}"))
        .collect::<Vec<_>>()
        .join(" ")
}

/// A row of numbers with their names, or without where the row has another length.
fn row(names: &[&str], numbers: &[u64]) -> String {
    let shown: Vec<String> = if names.len() == numbers.len() {
        names
            .iter()
            .zip(numbers)
            .map(|(name, number)| format!("{name} {number}"))
            .collect()
    } else {
        numbers.iter().map(u64::to_string).collect()
    };
    format!("{} numbers: {}", numbers.len(), shown.join(", "))
}

fn describe(call: &Call, text: &mut String) {
    let shape = call.operation.shape();
    let _ = writeln!(text, "  call: {}", shape.name);
    let _ = writeln!(text, "  given {}", row(shape.numbers, &call.numbers));
    for (name, bytes) in shape.inputs.iter().zip(&call.inputs) {
        let _ = writeln!(text, "  {name}, {} bytes: {}", bytes.len(), hex(bytes));
    }
    let _ = writeln!(text, "  state before, {}", row(shape.state, &call.state));
    if shape.slots > 0 {
        describe_slots("slots before", &call.slots, text);
    }
    let lent = [(shape.lent, &call.lent), (shape.reply, &call.reply)];
    for (name, bytes) in lent.into_iter().filter(|(name, _)| *name != "nothing") {
        let (size, bytes) = (bytes.len(), hex(bytes));
        let _ = writeln!(text, "  {name} before, {size} bytes: {bytes}");
    }
    let _ = writeln!(text, "  answer before, {}", row(shape.answer, &call.answer));
}

/// A lent row: how many slots it has, and those that are not all 0.
fn describe_slots(what: &str, slots: &[Slot], text: &mut String) {
    let _ = writeln!(text, "  {what}, {}:", slots.len());
    let told = slots.iter().enumerate();
    for (place, slot) in told.filter(|(_, slot)| **slot != Slot::default()) {
        let _ = writeln!(text, "      {place} {slot:?}");
    }
}

fn describe_left(before: &Call, left: &Left, who: &str, text: &mut String) {
    let shape = before.operation.shape();
    let _ = writeln!(text, "  {who}: returned {}", left.returned);
    let _ = writeln!(text, "    state {}", row(shape.state, &left.state));
    if shape.slots > 0 {
        describe_slots("  slots", &left.slots, text);
    }
    let _ = writeln!(text, "    answer {}", row(shape.answer, &left.answer));
    for (name, before, left) in [
        (shape.lent, &before.lent, &left.lent),
        (shape.reply, &before.reply, &left.reply),
    ] {
        if name != "nothing" {
            describe_bytes(name, before, left, text);
        }
    }
}

/// What changed of lent bytes.
fn describe_bytes(name: &str, before: &[u8], left: &[u8], text: &mut String) {
    let changed: Vec<usize> = (0..left.len())
        .filter(|&place| before.get(place) != Some(&left[place]))
        .collect();
    let _ = match (changed.first(), changed.last()) {
        (Some(&first), Some(&last)) => writeln!(
            text,
            "    {name}: {} bytes changed, all from {first} to {last}: {}",
            changed.len(),
            hex(&left[first..=last])
        ),
        _ => writeln!(text, "    {name}: unchanged"),
    };
}
