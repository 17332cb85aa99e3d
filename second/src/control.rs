//! "Control messages": the envelope with Response, DeviceInformation and DeviceFeatures.
//!
//! A message is read as a row of tags, each with its value; what a tag means is decided message by
//! message, in plain matches on field number and wire type.

use crate::refusal::{deliver, Broken, Refusal};
use crate::text;
use std::ops::Range;

/// The largest field number.
pub const LAST_FIELD: u64 = 536_870_911;
/// "repeated enum 3, packed or not, at most 8 entries"
pub const TRANSPORTS: usize = 8;

/// The wire types that are read; 3, 4, 6 and 7 are refused by 32.
#[derive(Clone, Copy, Debug, PartialEq, Eq)]
pub enum Wire {
    Varint,
    Eight,
    Delimited,
    Four,
}

/// What is left of a message, or of a part of one. Places are always places in the lent message.
pub(crate) struct Tokens<'m> {
    message: &'m [u8],
    pub(crate) left: Range<usize>,
}

impl<'m> Tokens<'m> {
    pub(crate) fn over(message: &'m [u8], part: Range<usize>) -> Tokens<'m> {
        Tokens {
            message,
            left: part,
        }
    }

    /// A varint: 31 if its tenth byte is above 01, 30 if the bytes end inside it. "Longer varints
    /// than needed are read."
    pub(crate) fn varint(&mut self) -> Result<u64, Refusal> {
        let mut value = 0;
        for (index, &byte) in self.message[self.left.clone()].iter().take(10).enumerate() {
            if index == 9 && byte > 1 {
                return Err(Refusal::Varint);
            }
            value |= u64::from(byte & 0x7F) << (7 * index);
            if byte < 0x80 {
                self.left.start += index + 1;
                return Ok(value);
            }
        }
        Err(Refusal::EndsInside)
    }

    /// The next tag, or nothing at the end: 31, 30 and "field 0 or above 536,870,911; wire type 3,
    /// 4, 6, 7".
    pub(crate) fn tag(&mut self) -> Result<Option<(u64, Wire)>, Refusal> {
        if self.left.is_empty() {
            return Ok(None);
        }
        let tag = self.varint()?;
        let wire = match tag & 7 {
            0 => Wire::Varint,
            1 => Wire::Eight,
            2 => Wire::Delimited,
            5 => Wire::Four,
            _ => return Err(Refusal::Tag),
        };
        match tag >> 3 {
            field @ 1..=LAST_FIELD => Ok(Some((field, wire))),
            _ => Err(Refusal::Tag),
        }
    }

    /// The next `count` bytes as a part of the message. "a length past the end (before its
    /// content)" is 30.
    pub(crate) fn bytes(&mut self, count: u64) -> Result<Range<usize>, Refusal> {
        if count > self.left.len() as u64 {
            return Err(Refusal::EndsInside);
        }
        let part = self.left.start..self.left.start + count as usize;
        self.left.start = part.end;
        Ok(part)
    }

    /// A length and as many bytes.
    pub(crate) fn part(&mut self) -> Result<Range<usize>, Refusal> {
        let length = self.varint()?;
        self.bytes(length)
    }

    /// A string: 36 is "judged when its field ends, after 30".
    pub(crate) fn text(&mut self, field: u64) -> Result<Range<usize>, Broken> {
        let part = self.part()?;
        text::judge(field, &self.message[part.clone()])?;
        Ok(part)
    }

    /// "Other fields of wire types 0, 1, 2, 5 are skipped."
    pub(crate) fn skip(&mut self, wire: Wire) -> Result<(), Refusal> {
        match wire {
            Wire::Varint => self.varint().map(drop),
            Wire::Eight => self.bytes(8).map(drop),
            Wire::Delimited => self.part().map(drop),
            Wire::Four => self.bytes(4).map(drop),
        }
    }
}

/// "the low 32 bits of the varint, in two's complement"
fn signed(value: u64) -> i32 {
    value as u32 as i32
}

/// "each other length-delimited field is a member, told as field number and part (start and
/// length)"
#[derive(Clone, Debug, PartialEq, Eq)]
pub struct Member {
    pub field: u64,
    pub part: Range<usize>,
}

/// Takes a payload member. A second one is 34, judged at its tag, before its value.
fn take_member(
    member: &mut Option<Member>,
    field: u64,
    tokens: &mut Tokens<'_>,
) -> Result<(), Refusal> {
    if member.is_some() {
        return Err(Refusal::TooMany);
    }
    let part = tokens.part()?;
    *member = Some(Member { field, part });
    Ok(())
}

/// "Response: error_code is field 1, any other length-delimited field its optional payload."
#[derive(Clone, Debug, PartialEq, Eq)]
pub struct Response {
    pub error_code: i32,
    pub member: Option<Member>,
}

impl Response {
    /// A message that is a response.
    pub fn read(message: &[u8]) -> Result<Response, Refusal> {
        Response::within(message, 0..message.len())
    }

    /// A response that is a part of a message.
    fn within(message: &[u8], part: Range<usize>) -> Result<Response, Refusal> {
        let mut tokens = Tokens::over(message, part);
        let mut error_code = 0;
        let mut member = None;
        while let Some(tag) = tokens.tag()? {
            match tag {
                (1, Wire::Varint) => error_code = signed(tokens.varint()?),
                (1, _) => return Err(Refusal::WireType),
                (field, Wire::Delimited) => take_member(&mut member, field, &mut tokens)?,
                (_, wire) => tokens.skip(wire)?,
            }
        }
        Ok(Response { error_code, member })
    }
}

/// "a payload is none, a response, or another member"
#[derive(Clone, Debug, PartialEq, Eq)]
pub enum Payload {
    None,
    Response(Response),
    Other(Member),
}

/// "ControlEnvelope: command is field 1".
#[derive(Clone, Debug, PartialEq, Eq)]
pub struct Envelope {
    pub command: i32,
    pub payload: Payload,
}

impl Envelope {
    /// "The envelope is read through before its response."
    pub fn read(message: &[u8]) -> Result<Envelope, Refusal> {
        let mut tokens = Tokens::over(message, 0..message.len());
        let mut command = 0;
        let mut member = None;
        while let Some(tag) = tokens.tag()? {
            match tag {
                (1, Wire::Varint) => command = signed(tokens.varint()?),
                (field, Wire::Delimited) if field != 1 => {
                    take_member(&mut member, field, &mut tokens)?
                }
                (1 | 9, _) => return Err(Refusal::WireType),
                (_, wire) => tokens.skip(wire)?,
            }
        }
        let payload = match member {
            None => Payload::None,
            Some(Member { field: 9, part }) => Payload::Response(Response::within(message, part)?),
            Some(member) => Payload::Other(member),
        };
        Ok(Envelope { command, payload })
    }
}

/// "DeviceInformation: strings 1, 2, 4 and repeated enum 3". Strings are parts of the message; an
/// absent one is the part 0..0.
#[derive(Clone, Debug, Default, PartialEq, Eq)]
pub struct Information {
    pub serial_number: Range<usize>,
    pub name: Range<usize>,
    pub transports: Vec<i32>,
    pub device_type: Range<usize>,
}

impl Information {
    pub fn read(message: &[u8]) -> Result<Information, Broken> {
        let mut tokens = Tokens::over(message, 0..message.len());
        let mut told = Information::default();
        while let Some(tag) = tokens.tag()? {
            match tag {
                (1, Wire::Delimited) => told.serial_number = tokens.text(1)?,
                (2, Wire::Delimited) => told.name = tokens.text(2)?,
                (4, Wire::Delimited) => told.device_type = tokens.text(4)?,
                (3, Wire::Varint) => told.transport(tokens.varint()?)?,
                (3, Wire::Delimited) => {
                    let list = tokens.part()?;
                    let mut entries = Tokens::over(message, list);
                    while !entries.left.is_empty() {
                        told.transport(entries.varint()?)?;
                    }
                }
                (1..=4, _) => return Err(Refusal::WireType.into()),
                (_, wire) => tokens.skip(wire)?,
            }
        }
        Ok(told)
    }

    /// One more transport; "a ninth transport once read" is 34.
    fn transport(&mut self, value: u64) -> Result<(), Refusal> {
        if self.transports.len() == TRANSPORTS {
            return Err(Refusal::TooMany);
        }
        self.transports.push(signed(value));
        Ok(())
    }
}

/// "DeviceFeatures: uint64 fields 1 and 2."
#[derive(Clone, Copy, Debug, Default, PartialEq, Eq)]
pub struct Features {
    pub features: u64,
    pub device_attributes: u64,
}

impl Features {
    pub fn read(message: &[u8]) -> Result<Features, Refusal> {
        let mut tokens = Tokens::over(message, 0..message.len());
        let mut told = Features::default();
        while let Some(tag) = tokens.tag()? {
            match tag {
                (1, Wire::Varint) => told.features = tokens.varint()?,
                (2, Wire::Varint) => told.device_attributes = tokens.varint()?,
                (1 | 2, _) => return Err(Refusal::WireType),
                (_, wire) => tokens.skip(wire)?,
            }
        }
        Ok(told)
    }
}

/// A message in the making. "The writer puts fields in rising order, leaves out scalars of 0 and
/// empty strings, packs field 3 unless it is empty, uses shortest varints, and extends a negative
/// number to ten bytes."
#[derive(Default)]
pub(crate) struct Making(pub(crate) Vec<u8>);

impl Making {
    fn varint(mut self, mut value: u64) -> Making {
        while value >= 0x80 {
            self.0.push(value as u8 | 0x80);
            value >>= 7;
        }
        self.0.push(value as u8);
        self
    }

    fn tag(self, field: u64, wire: u64) -> Making {
        self.varint(field << 3 | wire)
    }

    /// A number that is left out if it is 0.
    pub(crate) fn number(self, field: u64, value: u64) -> Making {
        match value {
            0 => self,
            _ => self.tag(field, 0).varint(value),
        }
    }

    /// A signed number that is left out if it is 0.
    fn signed(self, field: u64, value: i32) -> Making {
        self.number(field, extended(value))
    }

    /// A length-delimited field, also if it is empty.
    pub(crate) fn delimited(self, field: u64, bytes: &[u8]) -> Making {
        let mut made = self.tag(field, 2).varint(bytes.len() as u64);
        made.0.extend_from_slice(bytes);
        made
    }

    /// A string or packed list that is left out if it is empty.
    pub(crate) fn unless_empty(self, field: u64, bytes: &[u8]) -> Making {
        match bytes {
            [] => self,
            _ => self.delimited(field, bytes),
        }
    }
}

/// A signed number as its varint's 64 bits.
fn extended(value: i32) -> u64 {
    i64::from(value) as u64
}

/// "Its member numbers run from 2 to 536,870,911".
fn member_number(field: u64) -> Result<u64, Refusal> {
    match field {
        2..=LAST_FIELD => Ok(field),
        _ => Err(Refusal::Argument),
    }
}

fn response_bytes(error_code: i32, member: Option<(u64, &[u8])>) -> Result<Vec<u8>, Refusal> {
    let made = Making::default().signed(1, error_code);
    Ok(match member {
        None => made.0,
        Some((field, bytes)) => made.delimited(member_number(field)?, bytes).0,
    })
}

/// Writes a Response: 15, then 14.
pub fn write_response(
    error_code: i32,
    member: Option<(u64, &[u8])>,
    output: &mut [u8],
) -> Result<usize, Refusal> {
    deliver(&response_bytes(error_code, member)?, output)
}

/// What the envelope writer is given as payload.
#[derive(Clone, Copy, Debug)]
pub enum Given<'a> {
    None,
    Response {
        error_code: i32,
        member: Option<(u64, &'a [u8])>,
    },
    Other {
        field: u64,
        bytes: &'a [u8],
    },
}

/// "Its member numbers run from 2 to 536,870,911, not 9 in the envelope."
pub(crate) fn envelope_bytes(command: i32, payload: Given<'_>) -> Result<Vec<u8>, Refusal> {
    let made = Making::default().signed(1, command);
    let made = match payload {
        Given::None => made,
        Given::Response { error_code, member } => {
            made.delimited(9, &response_bytes(error_code, member)?)
        }
        Given::Other { field: 9, .. } => return Err(Refusal::Argument),
        Given::Other { field, bytes } => made.delimited(member_number(field)?, bytes),
    };
    Ok(made.0)
}

/// Writes a ControlEnvelope: 15, then 14.
pub fn write_envelope(
    command: i32,
    payload: Given<'_>,
    output: &mut [u8],
) -> Result<usize, Refusal> {
    deliver(&envelope_bytes(command, payload)?, output)
}

/// A DeviceInformation's bytes, whatever its strings are.
pub(crate) fn information_bytes(
    serial_number: &[u8],
    name: &[u8],
    transports: &[i32],
    device_type: &[u8],
) -> Vec<u8> {
    let list = transports
        .iter()
        .fold(Making::default(), |list, &transport| {
            list.varint(extended(transport))
        });
    let made = Making::default()
        .unless_empty(1, serial_number)
        .unless_empty(2, name)
        .unless_empty(3, &list.0)
        .unless_empty(4, device_type);
    made.0
}

/// Writes a DeviceInformation: 15 for more than eight transports, then 36, then 14.
pub fn write_information(
    serial_number: &[u8],
    name: &[u8],
    transports: &[i32],
    device_type: &[u8],
    output: &mut [u8],
) -> Result<usize, Broken> {
    if transports.len() > TRANSPORTS {
        return Err(Refusal::Argument.into());
    }
    text::judge(1, serial_number)?;
    text::judge(2, name)?;
    text::judge(4, device_type)?;
    let made = information_bytes(serial_number, name, transports, device_type);
    Ok(deliver(&made, output)?)
}

/// A DeviceFeatures' bytes.
pub(crate) fn features_bytes(told: Features) -> Vec<u8> {
    let made = Making::default()
        .number(1, told.features)
        .number(2, told.device_attributes);
    made.0
}

/// Writes a DeviceFeatures: 14 only.
pub fn write_features(told: Features, output: &mut [u8]) -> Result<usize, Refusal> {
    deliver(&features_bytes(told), output)
}
