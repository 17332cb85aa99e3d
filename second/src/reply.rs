//! Document 02, No. 13: the reply to a finished control transaction, an envelope with a Response, as packets on the
//! control stream that stand joined.

use crate::control::{self, Envelope, Features, Given, Payload, TRANSPORTS};
use crate::low_energy::{self, Wish};
use crate::refusal::{deliver, limit_in, Broken, Refusal};
use crate::text;

/// What a box has to say of itself.
pub struct Own<'a> {
    pub serial_number: &'a [u8],
    pub name: &'a [u8],
    pub device_type: &'a [u8],
    /// None if one of them is no signed number of 32 bits: out of range where they are carried.
    pub transports: Option<Vec<i32>>,
    pub features: Features,
    /// The response's member numbers "from Amazon's schema".
    pub information_member: u64,
    pub features_member: u64,
}

/// "20 with success and device information, 28 with success and features, 94 and 95 with a bare success, any other command
/// with its own number and code 3". 15 for what is carried only: "Only what the reply carries is judged."
fn envelope(command: i32, own: &Own<'_>) -> Result<Vec<u8>, Refusal> {
    let (error_code, member) = match command {
        20 => {
            let transports = own.transports.as_deref().ok_or(Refusal::Argument)?;
            if transports.len() > TRANSPORTS {
                return Err(Refusal::Argument);
            }
            let made = control::information_bytes(
                own.serial_number,
                own.name,
                transports,
                own.device_type,
            );
            (0, Some((own.information_member, made)))
        }
        28 => {
            let made = control::features_bytes(own.features);
            (0, Some((own.features_member, made)))
        }
        94 | 95 => (0, None),
        _ => (3, None),
    };
    let member = member.as_ref().map(|(field, made)| (*field, &made[..]));
    control::envelope_bytes(command, Given::Response { error_code, member })
}

/// The packets of the reply, joined, and their length; none for an envelope that is itself a Response, "told before 13".
/// Refusals: "the message's own, then 13, 17, 15 (also for a reply above the link's limit), 36, and 14 for an output smaller
/// than all the packets". No wish is one out of its range.
pub fn write(
    message: &[u8],
    own: &Own<'_>,
    room: u64,
    limit: u64,
    wish: Option<Wish>,
    output: &mut [u8],
) -> Result<Option<usize>, Broken> {
    let question = Envelope::read(message)?;
    if matches!(question.payload, Payload::Response(_)) {
        return Ok(None);
    }
    let room = low_energy::room_in(room)?;
    let limit = limit_in(limit)?;
    let wish = wish.ok_or(Refusal::Argument)?;
    let reply = envelope(question.command, own)?;
    if reply.len() > limit {
        return Err(Refusal::Argument.into());
    }
    if question.command == 20 {
        text::judge(1, own.serial_number)?;
        text::judge(2, own.name)?;
        text::judge(4, own.device_type)?;
    }
    let joined: Vec<u8> = low_energy::pieces(reply.len(), room)
        .flat_map(|piece| low_energy::packet(wish, &reply, piece))
        .collect();
    Ok(Some(deliver(&joined, output)?))
}
