//! Control messages. What is read are slices of the message, what is written goes into a lent output from its first byte on.

use crate::calls::{self, Told};
use crate::sizes;
use crate::{told, Refusal, Refused, UpToEight};

/// A member of an envelope, or the payload of a response: a field number and bytes.
#[derive(Clone, Copy, Debug, PartialEq, Eq)]
pub struct Member<'a> {
    /// 2 to 536,870,911; in an envelope not 9, which is the response.
    pub number: u32,
    /// What it holds.
    pub bytes: &'a [u8],
}

/// What an envelope carries.
#[derive(Clone, Copy, Debug, Default, PartialEq, Eq)]
pub enum Payload<'a> {
    /// Nothing.
    #[default]
    None,
    /// A response: the answer to a command.
    Response(Response<'a>),
    /// Any other member.
    Member(Member<'a>),
}

/// A control envelope.
///
/// ```
/// use pitokaenge::{Envelope, Payload, Refusal, Response};
///
/// let unsupported = Envelope {
///     command: 20,
///     payload: Payload::Response(Response { error_code: 3, payload: None }),
/// };
/// let mut output = [0; 64];
/// let message = unsupported.write(&mut output)?;
/// assert_eq!(message, b"\x08\x14\x4A\x02\x08\x03");
/// assert_eq!(Envelope::read(message)?, unsupported);
///
/// // A negative command takes ten bytes.
/// assert_eq!(Envelope::read(b"\x08\xFF\xFF\xFF\xFF\xFF\xFF\xFF\xFF\xFF\x01")?.command, -1);
/// assert_eq!(Envelope::read(b"\x08"), Err(Refusal::MessageCut));
/// # Ok::<(), Refusal>(())
/// ```
#[derive(Clone, Copy, Debug, Default, PartialEq, Eq)]
pub struct Envelope<'a> {
    /// 20 asks for device information, 28 for device features, 94 brings a segment, 95 applies firmware; any other is
    /// carried too.
    pub command: i32,
    /// What it carries.
    pub payload: Payload<'a>,
}

impl<'a> Envelope<'a> {
    /// Refused by 30 to 34.
    pub fn read(message: &'a [u8]) -> Result<Envelope<'a>, Refusal> {
        let row = calls::pito_envelope_read(message)?;
        let member = member(message, row.field, row.start, row.length)?;
        let payload = match (row.payload, member) {
            (sizes::PAYLOAD_RESPONSE, payload) => Payload::Response(Response {
                error_code: told::signed(row.error_code),
                payload,
            }),
            (_, Some(member)) => Payload::Member(member),
            (_, None) => Payload::None,
        };
        Ok(Envelope {
            command: told::signed(row.command),
            payload,
        })
    }

    /// [`envelope_size`](sizes::envelope_size) bytes are enough. Refused by 15 (a member's number), 14.
    pub fn write<'o>(&self, output: &'o mut [u8]) -> Result<&'o [u8], Refusal> {
        let (payload, error_code, (field, bytes)) = match self.payload {
            Payload::None => (sizes::PAYLOAD_NONE, 0, (0, &[][..])),
            Payload::Response(response) => (
                sizes::PAYLOAD_RESPONSE,
                told::row_number(response.error_code),
                response.parts()?,
            ),
            Payload::Member(member) => (
                sizes::PAYLOAD_MEMBER,
                0,
                (member.number.into(), member.bytes),
            ),
        };
        let command = told::row_number(self.command);
        let row = calls::pito_envelope_write(command, payload, error_code, field, bytes, output)?;
        told::written(output, row.written)
    }
}

/// A response: an error code (0 success, 1 unknown, 3 unsupported; any other too), and what it carries.
///
/// ```
/// use pitokaenge::{Member, Refusal, Response};
///
/// let success = Response { error_code: 0, payload: Some(Member { number: 9, bytes: b"\x08\x13" }) };
/// let mut output = [0; 40];
/// let message = success.write(&mut output)?;
/// assert_eq!(message, b"\x4A\x02\x08\x13");
/// assert_eq!(Response::read(message)?, success);
/// # Ok::<(), Refusal>(())
/// ```
#[derive(Clone, Copy, Debug, Default, PartialEq, Eq)]
pub struct Response<'a> {
    /// 0 success, 1 unknown, 3 unsupported; any other too.
    pub error_code: i32,
    /// What it carries, if anything.
    pub payload: Option<Member<'a>>,
}

impl<'a> Response<'a> {
    /// Refused by 30 to 34.
    pub fn read(message: &'a [u8]) -> Result<Response<'a>, Refusal> {
        let row = calls::pito_response_read(message)?;
        Ok(Response {
            error_code: told::signed(row.error_code),
            payload: member(message, row.field, row.start, row.length)?,
        })
    }

    /// [`response_size`](sizes::response_size) bytes are enough. Refused by 15 (a member's number), 14.
    pub fn write<'o>(&self, output: &'o mut [u8]) -> Result<&'o [u8], Refusal> {
        let (field, bytes) = self.parts()?;
        let error_code = told::row_number(self.error_code);
        let row = calls::pito_response_write(error_code, field, bytes, output)?;
        told::written(output, row.written)
    }

    /// The payload's number and bytes. To the archive 0 is no payload, so that a payload of this number is refused here.
    fn parts(&self) -> Result<(u64, &'a [u8]), Refusal> {
        match self.payload {
            None => Ok((0, &[])),
            Some(Member { number: 0, .. }) => Err(Refusal::Argument),
            Some(Member { number, bytes }) => Ok((number.into(), bytes)),
        }
    }
}

/// A member as rows tell it: its number is 0 where there is none.
fn member(
    message: &[u8],
    field: u64,
    start: u64,
    length: u64,
) -> Result<Option<Member<'_>>, Refusal> {
    match field as u32 {
        0 => Ok(None),
        number => {
            let bytes = told::part(message, start, length)?;
            Ok(Some(Member { number, bytes }))
        }
    }
}

/// What a device says of itself. An absent string is an empty one.
///
/// ```
/// use pitokaenge::{DeviceInformation, Refusal, UpToEight};
///
/// let information = DeviceInformation {
///     serial_number: "S",
///     name: "N",
///     device_type: "T",
///     transports: UpToEight::new(&[0])?,
/// };
/// let mut output = [0; 128];
/// let message = information.write(&mut output)?;
/// assert_eq!(message, b"\x0A\x01S\x12\x01N\x1A\x01\x00\x22\x01T");
/// assert_eq!(DeviceInformation::read(message)?, information);
/// # Ok::<(), Refusal>(())
/// ```
#[derive(Clone, Copy, Debug, Default, PartialEq, Eq)]
pub struct DeviceInformation<'a> {
    /// The device's own number.
    pub serial_number: &'a str,
    /// The name that people see.
    pub name: &'a str,
    /// Its type, as Amazon gave it.
    pub device_type: &'a str,
    /// The transports that it supports, by their numbers.
    pub transports: UpToEight<i32>,
}

impl<'a> DeviceInformation<'a> {
    /// Refused by 30 to 34, and by 36 with the string's field and the place in it.
    pub fn read(message: &'a [u8]) -> Result<DeviceInformation<'a>, Refused> {
        let row = match calls::pito_information_read(message) {
            Ok(row) => row,
            Err(Told { refusal, row }) => {
                return Err(Refused::of_text(refusal, row.field, row.place));
            }
        };
        let transports = row.transport.map(told::signed);
        let transports = transports.get(..row.transports as usize);
        Ok(DeviceInformation {
            serial_number: told::text(message, row.serial_number_start, row.serial_number_length)?,
            name: told::text(message, row.name_start, row.name_length)?,
            device_type: told::text(message, row.device_type_start, row.device_type_length)?,
            transports: UpToEight::new(transports.ok_or(Refusal::Unfit)?)?,
        })
    }

    /// [`information_size`](sizes::information_size) bytes are enough. Refused by 14.
    pub fn write<'o>(&self, output: &'o mut [u8]) -> Result<&'o [u8], Refusal> {
        let transports = self.transport_numbers();
        let row = calls::pito_information_write(
            self.serial_number.as_bytes(),
            self.name.as_bytes(),
            self.device_type.as_bytes(),
            &transports,
            output,
        )?;
        told::written(output, row.written)
    }

    /// The transports as rows have them.
    pub(crate) fn transport_numbers(&self) -> UpToEight<u64> {
        self.transports.map(told::row_number)
    }
}

/// What a device can do: any two numbers.
///
/// ```
/// use pitokaenge::{sizes, DeviceFeatures, Refusal};
///
/// let features = DeviceFeatures { features: 0x13, device_attributes: 0 };
/// let mut output = [0; sizes::FEATURES_SIZE];
/// let message = features.write(&mut output)?;
/// assert_eq!(message, b"\x08\x13");
/// assert_eq!(DeviceFeatures::read(message)?, features);
/// # Ok::<(), Refusal>(())
/// ```
#[derive(Clone, Copy, Debug, Default, PartialEq, Eq)]
pub struct DeviceFeatures {
    /// The features that it has, bit by bit.
    pub features: u64,
    /// Its attributes, bit by bit.
    pub device_attributes: u64,
}

impl DeviceFeatures {
    /// Refused by 30 to 33.
    pub fn read(message: &[u8]) -> Result<DeviceFeatures, Refusal> {
        let row = calls::pito_features_read(message)?;
        Ok(DeviceFeatures {
            features: row.features,
            device_attributes: row.device_attributes,
        })
    }

    /// [`FEATURES_SIZE`](sizes::FEATURES_SIZE) bytes are enough. Refused by 14.
    pub fn write<'o>(&self, output: &'o mut [u8]) -> Result<&'o [u8], Refusal> {
        let row = calls::pito_features_write(self.features, self.device_attributes, output)?;
        told::written(output, row.written)
    }
}
