//! Firmware messages.

use crate::calls::{self, Told};
use crate::sizes::{self, APPLY_ROW, COMPONENT_ANSWER};
use crate::{told, Refusal, Refused, UpToEight};

/// UpdateComponentSegment (command 94). Its offset is 0, and its signature 64 hexadecimal digits.
///
/// ```
/// use pitokaenge::{sizes, Refusal, UpdateComponentSegment};
///
/// let signature = "0123456789abcdefABCDEF9876543210".repeat(2);
/// let segment = UpdateComponentSegment {
///     component_name: "fan",
///     segment_size: 7,
///     segment_signature: &signature,
///     ..Default::default()
/// };
/// let mut output = [0; sizes::segment_size(3)];
/// let message = segment.write(&mut output)?;
/// assert_eq!(message[..9], *b"\x0A\x03fan\x18\x07\x22\x40");
/// assert_eq!(UpdateComponentSegment::read(message)?, segment);
///
/// let refused = UpdateComponentSegment::read(b"\x10\x01").unwrap_err();
/// assert_eq!((refused.refusal, refused.field), (Refusal::Profile, Some(2)));
/// # Ok::<(), Refusal>(())
/// ```
#[derive(Clone, Copy, Debug, Default, PartialEq, Eq)]
pub struct UpdateComponentSegment<'a> {
    /// The component that the segment is of.
    pub component_name: &'a str,
    /// Where the segment begins in the component: 0.
    pub component_offset: u32,
    /// How many bytes it has.
    pub segment_size: u32,
    /// Its SHA-256, as 64 hexadecimal digits.
    pub segment_signature: &'a str,
}

impl<'a> UpdateComponentSegment<'a> {
    /// Refused by 30 to 33, by 36 with the string's field and the place in it, and by 50 with the field.
    pub fn read(message: &'a [u8]) -> Result<UpdateComponentSegment<'a>, Refused> {
        let row = match calls::pito_segment_read(message) {
            Ok(row) => row,
            Err(Told { refusal, row }) => {
                return Err(Refused::of_text(refusal, row.field, row.place));
            }
        };
        Ok(UpdateComponentSegment {
            component_name: told::text(message, row.name_start, row.name_length)?,
            component_offset: row.offset as u32,
            segment_size: row.size as u32,
            segment_signature: told::text(message, row.signature_start, row.signature_length)?,
        })
    }

    /// [`segment_size`](sizes::segment_size) bytes are enough. Refused by 50 with the field, 14.
    pub fn write<'o>(&self, output: &'o mut [u8]) -> Result<&'o [u8], Refused> {
        let told = calls::pito_segment_write(
            self.component_name.as_bytes(),
            self.component_offset.into(),
            self.segment_size.into(),
            self.segment_signature.as_bytes(),
            output,
        );
        match told {
            Ok(row) => Ok(told::written(output, row.written)?),
            Err(Told { refusal, row }) => Err(Refused::of_text(refusal, row.field, row.place)),
        }
    }
}

/// A component of a firmware.
#[derive(Clone, Copy, Debug, Default, PartialEq, Eq)]
pub struct FirmwareComponent<'a> {
    /// Its version.
    pub version: u32,
    /// Its name.
    pub name: &'a str,
    /// Its size in bytes.
    pub size: u32,
    /// Its signature; not judged.
    pub signature: &'a str,
}

/// What an [`ApplyFirmware`] says of the firmware.
#[derive(Clone, Copy, Debug, Default, PartialEq, Eq)]
pub struct FirmwareInformation<'a> {
    /// Its version.
    pub version: u32,
    /// Its name.
    pub name: &'a str,
    /// What it is made of.
    pub components: UpToEight<FirmwareComponent<'a>>,
    /// The language that it is for.
    pub locale: &'a str,
    /// The version as people see it.
    pub version_name: &'a str,
}

/// ApplyFirmware (command 95), with the firmware information and the components within. An absent firmware information is
/// an empty one.
///
/// ```
/// use pitokaenge::{
///     sizes, ApplyFirmware, FirmwareComponent, FirmwareInformation, Refusal, UpToEight,
/// };
///
/// let fan = FirmwareComponent { version: 2, name: "fan", size: 9, signature: "" };
/// let apply = ApplyFirmware {
///     restart_required: true,
///     information: FirmwareInformation {
///         version: 3,
///         name: "Kiln 3",
///         components: UpToEight::new(&[fan])?,
///         ..Default::default()
///     },
/// };
/// assert_eq!(apply.texts_length(), 9);
/// let (mut texts, mut output) = ([0; 9], [0; sizes::apply_size(1, 9)]);
/// let message = apply.write(&mut texts, &mut output)?;
/// assert_eq!(message, b"\x0A\x15\x08\x03\x12\x06Kiln 3\x1A\x09\x08\x02\x12\x03fan\x18\x09\x10\x01");
/// assert_eq!(ApplyFirmware::read(message)?, apply);
/// # Ok::<(), Refusal>(())
/// ```
#[derive(Clone, Copy, Debug, Default, PartialEq, Eq)]
pub struct ApplyFirmware<'a> {
    /// Whether the device has to start anew.
    pub restart_required: bool,
    /// Of the firmware to apply.
    pub information: FirmwareInformation<'a>,
}

impl<'a> ApplyFirmware<'a> {
    /// Refused by 30 to 34, and by 36 with the field, in its own message, of the string and the place in it.
    pub fn read(message: &'a [u8]) -> Result<ApplyFirmware<'a>, Refused> {
        let row = match calls::pito_apply_read(message) {
            Ok(row) => row,
            Err(Told { refusal, row }) => {
                return Err(Refused::of_text(refusal, row.field, row.place));
            }
        };
        let mut components = [FirmwareComponent::default(); sizes::MOST_COMPONENTS];
        let components = components
            .get_mut(..row.components as usize)
            .ok_or(Refusal::Unfit)?;
        for (component, told) in components.iter_mut().zip(row.component) {
            *component = FirmwareComponent::told(message, told)?;
        }
        let information = FirmwareInformation {
            version: row.version as u32,
            name: told::text(message, row.name_start, row.name_length)?,
            components: UpToEight::new(components)?,
            locale: told::text(message, row.locale_start, row.locale_length)?,
            version_name: told::text(message, row.version_name_start, row.version_name_length)?,
        };
        Ok(ApplyFirmware {
            restart_required: row.restart_required == 1,
            information,
        })
    }

    /// Writes it from the output's first byte on. All its strings are first put together in `texts`, which is lent for that
    /// and has at least [`texts_length`](ApplyFirmware::texts_length) bytes;
    /// [`apply_size`](sizes::apply_size) bytes of output are enough. Refused by 14, of either.
    pub fn write<'o>(&self, texts: &mut [u8], output: &'o mut [u8]) -> Result<&'o [u8], Refusal> {
        let mut texts = Texts {
            bytes: texts,
            used: 0,
        };
        let row = self.row(&mut texts)?;
        let row = calls::pito_apply_write(&row, texts.bytes, output)?;
        told::written(output, row.written)
    }

    /// The length of all its strings together.
    pub fn texts_length(&self) -> usize {
        let FirmwareInformation {
            name,
            components,
            locale,
            version_name,
            ..
        } = &self.information;
        let of_components = components
            .iter()
            .map(|one| one.name.len() + one.signature.len());
        name.len() + locale.len() + version_name.len() + of_components.sum::<usize>()
    }

    /// The row that it is written from, with its strings as parts of the texts.
    fn row(&self, texts: &mut Texts) -> Result<[u64; APPLY_ROW], Refusal> {
        let information = &self.information;
        let [name_start, name_length] = texts.add(information.name)?;
        let [locale_start, locale_length] = texts.add(information.locale)?;
        let [version_name_start, version_name_length] = texts.add(information.version_name)?;
        let before = [
            self.restart_required.into(),
            information.version.into(),
            name_start,
            name_length,
            locale_start,
            locale_length,
            version_name_start,
            version_name_length,
            information.components.len() as u64,
        ];
        let mut row = [0; APPLY_ROW];
        let (head, rest) = row.split_at_mut(before.len());
        head.copy_from_slice(&before);
        for (numbers, component) in rest
            .chunks_exact_mut(COMPONENT_ANSWER)
            .zip(information.components.iter())
        {
            numbers.copy_from_slice(&component.row(texts)?);
        }
        Ok(row)
    }
}

impl<'a> FirmwareComponent<'a> {
    fn told(
        message: &'a [u8],
        numbers: [u64; COMPONENT_ANSWER],
    ) -> Result<FirmwareComponent<'a>, Refusal> {
        let [version, name_start, name_length, size, signature_start, signature_length] = numbers;
        Ok(FirmwareComponent {
            version: version as u32,
            name: told::text(message, name_start, name_length)?,
            size: size as u32,
            signature: told::text(message, signature_start, signature_length)?,
        })
    }

    fn row(&self, texts: &mut Texts) -> Result<[u64; COMPONENT_ANSWER], Refusal> {
        let [name_start, name_length] = texts.add(self.name)?;
        let [signature_start, signature_length] = texts.add(self.signature)?;
        Ok([
            self.version.into(),
            name_start,
            name_length,
            self.size.into(),
            signature_start,
            signature_length,
        ])
    }
}

/// Strings that are put one behind another.
struct Texts<'t> {
    bytes: &'t mut [u8],
    used: usize,
}

impl Texts<'_> {
    /// Where the string now stands: start and length.
    fn add(&mut self, text: &str) -> Result<[u64; 2], Refusal> {
        let start = self.used;
        self.bytes
            .get_mut(start..start + text.len())
            .ok_or(Refusal::Output)?
            .copy_from_slice(text.as_bytes());
        self.used += text.len();
        Ok([start as u64, text.len() as u64])
    }
}
