//! Change request No. 1: UpdateComponentSegment, and ApplyFirmware with its nested messages, "as
//! document 000 lists them".
//!
//! Strings are parts of the message that was read, in nested messages too; an absent one is 0..0.

use crate::control::{Making, Tokens, Wire};
use crate::refusal::{deliver, Broken, Refusal};
use crate::text;
use std::ops::Range;

/// "a ninth component is 34, 15 for the writer"
pub const COMPONENTS: usize = 8;
/// "segment_signature 64 hexadecimal digits of either case"
pub const SIGNATURE: usize = 64;

/// "A uint32 is the low 32 bits of its varint"
fn low(value: u64) -> u32 {
    value as u32
}

/// "Our profile on top: component_offset 0; segment_signature 64 hexadecimal digits of either case".
/// "50 a profile rule broken, told with the lowest field number"
fn profile(component_offset: u32, segment_signature: &[u8]) -> Result<(), Broken> {
    let digits = segment_signature.iter().all(u8::is_ascii_hexdigit);
    let field = if component_offset != 0 {
        2
    } else if segment_signature.len() != SIGNATURE || !digits {
        4
    } else {
        return Ok(());
    };
    Err(Broken {
        refusal: Refusal::Profile,
        field: Some(field),
        place: None,
    })
}

/// UpdateComponentSegment as it is read.
#[derive(Clone, Debug, Default, PartialEq, Eq)]
pub struct Segment {
    pub component_name: Range<usize>,
    pub component_offset: u32,
    pub segment_size: u32,
    pub segment_signature: Range<usize>,
}

impl Segment {
    /// 50 comes "after all others when reading".
    pub fn read(message: &[u8]) -> Result<Segment, Broken> {
        let mut tokens = Tokens::over(message, 0..message.len());
        let mut told = Segment::default();
        while let Some(tag) = tokens.tag()? {
            match tag {
                (1, Wire::Delimited) => told.component_name = tokens.text(1)?,
                (2, Wire::Varint) => told.component_offset = low(tokens.varint()?),
                (3, Wire::Varint) => told.segment_size = low(tokens.varint()?),
                (4, Wire::Delimited) => told.segment_signature = tokens.text(4)?,
                (1..=4, _) => return Err(Refusal::WireType.into()),
                (_, wire) => tokens.skip(wire)?,
            }
        }
        profile(
            told.component_offset,
            &message[told.segment_signature.clone()],
        )?;
        Ok(told)
    }
}

/// Writes an UpdateComponentSegment: 36, then 50, "between 15 and 14 when writing", then 14. No
/// number of 32 bits is out of range.
pub fn write_segment(
    component_name: &[u8],
    component_offset: u32,
    segment_size: u32,
    segment_signature: &[u8],
    output: &mut [u8],
) -> Result<usize, Broken> {
    text::judge(1, component_name)?;
    text::judge(4, segment_signature)?;
    profile(component_offset, segment_signature)?;
    let made = Making::default()
        .unless_empty(1, component_name)
        .number(2, u64::from(component_offset))
        .number(3, u64::from(segment_size))
        .unless_empty(4, segment_signature);
    Ok(deliver(&made.0, output)?)
}

/// FirmwareComponent.
#[derive(Clone, Debug, Default, PartialEq, Eq)]
pub struct Component {
    pub version: u32,
    pub name: Range<usize>,
    pub size: u32,
    pub signature: Range<usize>,
}

impl Component {
    fn within(message: &[u8], part: Range<usize>) -> Result<Component, Broken> {
        let mut tokens = Tokens::over(message, part);
        let mut told = Component::default();
        while let Some(tag) = tokens.tag()? {
            match tag {
                (1, Wire::Varint) => told.version = low(tokens.varint()?),
                (2, Wire::Delimited) => told.name = tokens.text(2)?,
                (3, Wire::Varint) => told.size = low(tokens.varint()?),
                (4, Wire::Delimited) => told.signature = tokens.text(4)?,
                (1..=4, _) => return Err(Refusal::WireType.into()),
                (_, wire) => tokens.skip(wire)?,
            }
        }
        Ok(told)
    }

    fn bytes(&self, texts: &[u8]) -> Result<Vec<u8>, Refusal> {
        let made = Making::default()
            .number(1, u64::from(self.version))
            .unless_empty(2, text(texts, &self.name)?)
            .number(3, u64::from(self.size))
            .unless_empty(4, text(texts, &self.signature)?);
        Ok(made.0)
    }
}

/// FirmwareInformation.
#[derive(Clone, Debug, Default, PartialEq, Eq)]
pub struct Information {
    pub version: u32,
    pub name: Range<usize>,
    pub components: Vec<Component>,
    pub locale: Range<usize>,
    pub version_name: Range<usize>,
}

impl Information {
    /// "Outer messages are read through before inner ones": the components after the end.
    fn within(message: &[u8], part: Range<usize>) -> Result<Information, Broken> {
        let mut tokens = Tokens::over(message, part);
        let mut told = Information::default();
        let mut components = Vec::new();
        while let Some(tag) = tokens.tag()? {
            match tag {
                (1, Wire::Varint) => told.version = low(tokens.varint()?),
                (2, Wire::Delimited) => told.name = tokens.text(2)?,
                // "both new 34s are judged at the tag"
                (3, Wire::Delimited) if components.len() == COMPONENTS => {
                    return Err(Refusal::TooMany.into())
                }
                (3, Wire::Delimited) => components.push(tokens.part()?),
                (4, Wire::Delimited) => told.locale = tokens.text(4)?,
                (5, Wire::Delimited) => told.version_name = tokens.text(5)?,
                (1..=5, _) => return Err(Refusal::WireType.into()),
                (_, wire) => tokens.skip(wire)?,
            }
        }
        for part in components {
            told.components.push(Component::within(message, part)?);
        }
        Ok(told)
    }

    fn bytes(&self, texts: &[u8]) -> Result<Vec<u8>, Refusal> {
        if self.components.len() > COMPONENTS {
            return Err(Refusal::Argument);
        }
        let mut made = Making::default()
            .number(1, u64::from(self.version))
            .unless_empty(2, text(texts, &self.name)?);
        for component in &self.components {
            made = made.delimited(3, &component.bytes(texts)?);
        }
        let made = made
            .unless_empty(4, text(texts, &self.locale)?)
            .unless_empty(5, text(texts, &self.version_name)?);
        Ok(made.0)
    }
}

/// ApplyFirmware.
#[derive(Clone, Debug, Default, PartialEq, Eq)]
pub struct Apply {
    pub information: Information,
    pub restart_required: bool,
}

impl Apply {
    /// "a second firmware_information is 34, an absent one reads as empty"
    pub fn read(message: &[u8]) -> Result<Apply, Broken> {
        let mut tokens = Tokens::over(message, 0..message.len());
        let mut information = None;
        let mut restart_required = false;
        while let Some(tag) = tokens.tag()? {
            match tag {
                (1, Wire::Delimited) if information.is_some() => {
                    return Err(Refusal::TooMany.into())
                }
                (1, Wire::Delimited) => information = Some(tokens.part()?),
                // "a bool is true when not 0"
                (2, Wire::Varint) => restart_required = tokens.varint()? != 0,
                (1 | 2, _) => return Err(Refusal::WireType.into()),
                (_, wire) => tokens.skip(wire)?,
            }
        }
        Ok(Apply {
            information: Information::within(message, information.unwrap_or(0..0))?,
            restart_required,
        })
    }
}

/// The text that is a part of the lent texts; a part that does not lie in them is 15.
fn text<'t>(texts: &'t [u8], part: &Range<usize>) -> Result<&'t [u8], Refusal> {
    texts.get(part.clone()).ok_or(Refusal::Argument)
}

/// 36 "in writing order": the components stand between name and locale.
fn judge_texts(texts: &[u8], information: &Information) -> Result<(), Broken> {
    text::judge(2, text(texts, &information.name)?)?;
    for component in &information.components {
        text::judge(2, text(texts, &component.name)?)?;
        text::judge(4, text(texts, &component.signature)?)?;
    }
    text::judge(4, text(texts, &information.locale)?)?;
    text::judge(5, text(texts, &information.version_name)?)
}

/// Writes an ApplyFirmware whose parts are places in the texts: 15, then 36, then 14. Of
/// firmware_information "the writer always writes one".
pub fn write_apply(texts: &[u8], apply: &Apply, output: &mut [u8]) -> Result<usize, Broken> {
    let made = Making::default()
        .delimited(1, &apply.information.bytes(texts)?)
        .number(2, u64::from(apply.restart_required));
    judge_texts(texts, &apply.information)?;
    Ok(deliver(&made.0, output)?)
}
