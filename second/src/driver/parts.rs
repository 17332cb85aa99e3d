//! Frames by parts: payload and output cut at any places, refused calls among the others, and calls
//! from any state, on links with several limits.

use super::streams::{byte, near, payload, sequence};
use super::{edge, Plan};
use crate::classic::{self, escaped};
use crate::comparison::{Compared, Comparison};
use crate::implementation::{Call, Operation};
use crate::rng::Rng;

/// The limits that are tried: each with how many frames it gets, any and long ones.
const LIMITS: &[(u64, [u64; 2])] = &[
    (4_096, [200_000, 300]),
    (1, [10_000, 1_000]),
    (2, [10_000, 1_000]),
    (19, [10_000, 1_000]),
    (20, [10_000, 1_000]),
    (255, [10_000, 300]),
    (256, [10_000, 300]),
    (20_000, [10_000, 30]),
    (65_535, [10_000, 10]),
];

pub fn run(c: &mut Comparison<'_>, rng: &mut Rng, plan: Plan) -> Compared<()> {
    let mut call = Call::new(Operation::FramePart);
    for &(limit, [any, long]) in LIMITS {
        for number in 0..plan.times(any) {
            if number % 4_096 == 0 {
                c.at = format!("frame by parts {number} at limit {limit}");
            }
            let mut payload = payload(rng);
            payload.truncate(limit as usize);
            frame(c, rng, &mut call, limit, &payload)?;
        }
        c.at = format!("long frames by parts at limit {limit}");
        for _ in 0..plan.times(long) {
            let size = near(rng, limit, 96, 0);
            let payload: Vec<u8> = match rng.below(3) {
                0 => vec![*rng.pick(&[0xFF, 0xF0, 0xF2, 0x00]); size],
                1 => rng.bytes(size),
                _ => (0..size).map(|_| byte(rng)).collect(),
            };
            frame(c, rng, &mut call, limit, &payload)?;
        }
    }
    c.at = "parts from any state".to_string();
    for _ in 0..plan.times(400_000) {
        any_state(c, rng, &mut call)?;
    }
    c.at = "frames begun".to_string();
    for _ in 0..plan.times(20_000) {
        let numbers = [edge(rng), edge(rng), edge(rng)];
        let mut begin = Call::new(Operation::FrameBegin).numbers(&numbers);
        rng.fill_row(&mut begin.state);
        c.run(&mut begin)?;
    }
    Ok(())
}

/// "A payload byte is taken when its first output byte is written": where the first output byte of
/// each payload byte stands in the frame.
fn firsts(payload: &[u8]) -> Vec<usize> {
    let mut place = 4;
    let first = |&byte: &u8| {
        let first = place;
        place += escaped(&[byte]).len();
        first
    };
    payload.iter().map(first).collect()
}

/// A frame, cut in one way. Calls that are refused stand among the others, and calls after its end.
fn frame(
    c: &mut Comparison<'_>,
    rng: &mut Rng,
    call: &mut Call,
    limit: u64,
    payload: &[u8],
) -> Compared<()> {
    let sequence = sequence(rng);
    let whole = classic::frame(sequence, payload);
    let numbers = [u64::from(sequence), limit, payload.len() as u64];
    let mut begin = Call::new(Operation::FrameBegin).numbers(&numbers);
    c.expect(&mut begin, 0, |_| true)?;
    call.state.clone_from(&begin.state);
    let most_offered = *rng.pick(&[0, 1, 2, 7, 64, payload.len()]);
    let most_lent = *rng.pick(&[1, 2, 3, 9, 64, whole.len()]);
    let firsts = firsts(payload);
    let begun = |written: usize| firsts.partition_point(|&first| first < written);
    let mut joined = 0;
    let mut taken = 0;
    let mut after = 0;
    while after < 2 {
        let left = &payload[taken..];
        let offered = match rng.below(16) {
            0 => 0,
            1 => left.len(),
            2 => left.len() + rng.between(1, 3),
            _ => rng.index(most_offered.max(1) + 1).min(left.len()),
        };
        let lent = match rng.below(16) {
            0 => 0,
            1 => most_lent,
            _ => rng.between(1, most_lent),
        };
        call.inputs[0].clear();
        call.inputs[0].extend_from_slice(&left[..offered.min(left.len())]);
        call.inputs[0].resize(offered, 0x77);
        call.lent.clear();
        call.lent.resize(lent, 0xCC);
        let refusal = if offered > left.len() {
            26
        } else if lent == 0 {
            14
        } else {
            0
        };
        c.expect(call, refusal, |_| true)?;
        if refusal != 0 {
            continue;
        }
        let written = call.answer[1] as usize;
        let ended = call.answer[2] == 1;
        let on = whole[joined..].starts_with(&call.lent[..written]);
        joined += written;
        taken += call.answer[0] as usize;
        let beginning = on && ended == (joined == whole.len());
        c.hold(beginning, "the outputs begin the frame", call)?;
        c.hold(taken == begun(joined), "taken", call)?;
        // Why it stopped short: the end, or the first byte of a payload byte that was not offered.
        let full = written == lent;
        let wants = call.answer[0] as usize == offered && begun(joined + 1) > taken;
        c.hold(full || ended || wants, "the output is filled", call)?;
        after += u64::from(ended);
    }
    Ok(())
}

/// A state of any numbers, mostly lawful ones, with any part and output.
fn any_state(c: &mut Comparison<'_>, rng: &mut Rng, call: &mut Call) -> Compared<()> {
    let limit = rng.pick(LIMITS).0;
    let total = *rng.pick(&[0, 1, 2, 5, limit - 1, limit]);
    let near = |rng: &mut Rng| total - rng.below(4).min(total);
    call.state = vec![
        limit,
        u64::from(sequence(rng)),
        total,
        near(rng),
        match rng.below(3) {
            0 => u64::from(byte(rng)) << 8 | u64::from(byte(rng)),
            _ => rng.below(65_536),
        },
        rng.below(8),
        rng.below(4),
    ];
    if rng.once_in(8) {
        let place = rng.index(7);
        call.state[place] = edge(rng);
    }
    let offered = rng.index(6);
    call.inputs[0] = (0..offered).map(|_| byte(rng)).collect();
    call.lent.resize(rng.index(14), 0x99);
    c.run(call)?;
    Ok(())
}
