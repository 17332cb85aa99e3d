//! "The outbox file": "A version byte 01, then records." "New outboxes have version byte 02 and
//! four-byte lengths, 1 to 65,536. Version 01 files are still read and appended to, within their own
//! limit."

use crate::low_energy::Stream;
use crate::refusal::{deliver, Refusal};

/// What a version byte says of the records after it.
#[derive(Clone, Copy, Debug, PartialEq, Eq)]
pub struct Version {
    /// How many bytes a length has.
    pub width: usize,
    /// The largest payload; a length counts the stream byte besides.
    pub payload: usize,
}

/// "a two-byte length", "record length 0 or over 4,097"
pub const ONE: Version = Version {
    width: 2,
    payload: 4_096,
};
/// "four-byte lengths, 1 to 65,536"
pub const TWO: Version = Version {
    width: 4,
    payload: 65_535,
};

impl Version {
    /// "40 is for an empty file and versions other than 01 and 02"
    pub fn of(bytes: &[u8]) -> Result<Version, Refusal> {
        match bytes.first() {
            Some(0x01) => Ok(ONE),
            Some(0x02) => Ok(TWO),
            _ => Err(Refusal::Version),
        }
    }
}

/// A refusal of outbox bytes, with the place of the record's length where the paper tells it
/// (41 only).
#[derive(Clone, Copy, Debug, PartialEq, Eq)]
pub struct Broken {
    pub refusal: Refusal,
    pub place: Option<usize>,
}

impl From<Refusal> for Broken {
    fn from(refusal: Refusal) -> Broken {
        Broken {
            refusal,
            place: None,
        }
    }
}

/// A record as it stands in the outbox.
#[derive(Clone, Copy, Debug, PartialEq, Eq)]
pub struct Record {
    pub stream: Stream,
    /// Where the payload begins.
    pub start: usize,
    /// How long it is.
    pub length: usize,
    /// The place after the record.
    pub next: usize,
}

/// "New outboxes have version byte 02"
pub fn new(output: &mut [u8]) -> Result<usize, Refusal> {
    deliver(&[0x02], output)
}

/// "A record is read at a place, 1 or one told before; at the end of the bytes the answer is the
/// end; 0 or a place beyond is 15, after 40." Nothing is the end.
pub fn record(bytes: &[u8], place: u64) -> Result<Option<Record>, Broken> {
    let version = Version::of(bytes)?;
    if place == 0 || place > bytes.len() as u64 {
        return Err(Refusal::Argument.into());
    }
    let place = place as usize;
    let rest = &bytes[place..];
    if rest.is_empty() {
        return Ok(None);
    }
    let cut = Broken {
        refusal: Refusal::RecordCut,
        place: Some(place),
    };
    // "A record is a .. length, big-endian, counting what follows: a stream byte (0, 2, 6) and the
    // payload." "42 uses each version's range, a cut length is 41"
    let (field, rest) = rest.split_at_checked(version.width).ok_or(cut)?;
    let length = field
        .iter()
        .fold(0, |number, byte| number << 8 | usize::from(*byte));
    if length == 0 || length > version.payload + 1 {
        return Err(Refusal::RecordLength.into());
    }
    let [stream, payload @ ..] = rest.get(..length).ok_or(cut)? else {
        unreachable!("the length is at least 1");
    };
    let stream = Stream::of(u64::from(*stream)).ok_or(Refusal::RecordStream)?;
    let start = place + version.width + 1;
    Ok(Some(Record {
        stream,
        start,
        length: payload.len(),
        next: start + payload.len(),
    }))
}

/// All records of whole bytes, "judged record by record".
pub fn whole(bytes: &[u8]) -> Result<Vec<Record>, Broken> {
    let mut records: Vec<Record> = Vec::new();
    loop {
        let place = records.last().map_or(1, |record| record.next);
        match record(bytes, place as u64)? {
            Some(record) => records.push(record),
            None => return Ok(records),
        }
    }
}

/// "Appending writes the record right after the used bytes, which must be whole: otherwise it gives
/// their own refusal". The order is 1, 40 ("in appending comes right after 1"), 15 ("a payload above
/// the version's limit is 15 when appending"), 14, then 41 to 43. Gives the bytes used afterwards.
pub fn append(buffer: &mut [u8], used: u64, stream: u64, payload: &[u8]) -> Result<usize, Broken> {
    if used > buffer.len() as u64 {
        return Err(Refusal::Lent.into());
    }
    let (before, free) = buffer.split_at_mut(used as usize);
    let version = Version::of(before)?;
    let stream = Stream::of(stream).ok_or(Refusal::Argument)?;
    if payload.len() > version.payload {
        return Err(Refusal::Argument.into());
    }
    let length = (payload.len() as u32 + 1).to_be_bytes();
    let field = &length[length.len() - version.width..];
    let made = [field, &[stream.number()], payload].concat();
    if free.len() < made.len() {
        return Err(Refusal::Output.into());
    }
    whole(before)?;
    deliver(&made, free)?;
    Ok(before.len() + made.len())
}

/// "Write a version 01 file as version 02, and the other way. Records, streams and order stay". "A
/// file already in the wished version is copied. Refusals: the file's own first refusal (40 to 43);
/// then 46 .. told with the first such record's place; then 14 no room." Here each refusal of the
/// file has its place, 0 with 40.
pub fn write_as(wished: Version, bytes: &[u8], output: &mut [u8]) -> Result<usize, Broken> {
    let version = Version::of(bytes).map_err(|refusal| Broken {
        refusal,
        place: Some(0),
    })?;
    let mut made = vec![if wished == ONE { 0x01 } else { 0x02 }];
    let mut long = None;
    let mut place = 1;
    while place < bytes.len() {
        let read = record(bytes, place as u64).map_err(|broken| Broken {
            refusal: broken.refusal,
            place: Some(place),
        })?;
        let record = read.expect("the end is not here");
        if record.length > wished.payload && long.is_none() {
            long = Some(place);
        }
        let length = (record.length as u32 + 1).to_be_bytes();
        made.extend_from_slice(&length[length.len() - wished.width..]);
        made.push(record.stream.number());
        made.extend_from_slice(&bytes[record.start..record.next]);
        place = record.next;
    }
    if version == wished {
        return Ok(deliver(bytes, output)?);
    }
    if long.is_some() {
        return Err(Broken {
            refusal: Refusal::RecordLong,
            place: long,
        });
    }
    Ok(deliver(&made, output)?)
}
