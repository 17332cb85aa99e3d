//! Strings, as the name of device information and as texts: every one of up to three bytes, and longer ones. What is
//! told of each is held to Rust's own decoder too.

use super::{text, Plan};
use crate::comparison::{hex, Compared, Comparison};
use crate::implementation::{Call, Operation};
use crate::rng::Rng;

/// The field of the name.
const NAME: u64 = 2;

pub fn run(c: &mut Comparison<'_>, rng: &mut Rng, plan: Plan) -> Compared<()> {
    let mut call = [
        Call::new(Operation::InformationRead),
        Call::new(Operation::Text),
    ];
    c.at = "strings of up to three bytes".to_string();
    for length in 0..3 {
        for number in 0..1 << (8 * length) {
            judge(c, &mut call, &big_endian(number, length))?;
        }
    }
    // All of three bytes from scale 4 on.
    let all = 1 << 24;
    let step = (all / plan.times(all / 4)).max(1);
    for number in (rng.below(step)..all).step_by(step as usize) {
        judge(c, &mut call, &big_endian(number, 3))?;
    }
    c.at = "longer strings".to_string();
    for _ in 0..plan.times(400_000) {
        let size = rng.index(100);
        let string = text(rng, size);
        judge(c, &mut call, &string)?;
    }
    Ok(())
}

/// The last bytes of a number.
fn big_endian(number: u64, length: usize) -> Vec<u8> {
    number.to_be_bytes()[8 - length..].to_vec()
}

fn judge(c: &mut Comparison<'_>, call: &mut [Call; 2], string: &[u8]) -> Compared<()> {
    let [name, text] = call;
    judge_name(c, name, string)?;
    judge_text(c, text, string)
}

/// A character that is followed and not shown, as Rust's `char` has it.
fn is_hidden(character: char) -> bool {
    character.is_control()
        || matches!(character, '\u{61C}' | '\u{200E}' | '\u{200F}' | '\u{2028}'..='\u{202E}' | '\u{2066}'..='\u{2069}')
}

/// Tells where a string is not text. What is hidden is looked for where it is well formed.
fn judge_text(c: &mut Comparison<'_>, call: &mut Call, string: &[u8]) -> Compared<()> {
    call.inputs[0].clear();
    call.inputs[0].extend(string);
    let returned = c.run(call)?;
    let decoded = std::str::from_utf8(string);
    let bad = decoded
        .err()
        .map_or(string.len(), |error| error.valid_up_to());
    let hidden = decoded.is_ok_and(|text| {
        let found = text
            .char_indices()
            .find(|&(_, character)| is_hidden(character));
        call.answer[1] != found.map_or(string.len(), |(place, _)| place) as u64
    });
    let number = if decoded.is_ok() { 0 } else { 36 };
    if returned == number && call.answer[0] == bad as u64 && !hidden {
        return Ok(());
    }
    let what = format!("Rust's decoder on {}", hex(string));
    c.hold(false, &what, call)
}

/// Reads device information with this name.
fn judge_name(c: &mut Comparison<'_>, call: &mut Call, string: &[u8]) -> Compared<()> {
    let message = &mut call.inputs[0];
    message.clear();
    message.extend([0x12, string.len() as u8]);
    message.extend(string);
    let returned = c.run(call)?;
    let told = (returned, call.answer[15], call.answer[16]);
    let expected = match std::str::from_utf8(string) {
        Ok(_) => (0, 0, 0),
        Err(error) => (36, NAME, error.valid_up_to() as u64),
    };
    if told == expected {
        return Ok(());
    }
    let what = format!("Rust's decoder on {}", hex(string));
    c.hold(false, &what, call)
}
