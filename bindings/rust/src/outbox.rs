//! The outbox file's bytes.

use crate::calls::{self, Told};
use crate::sizes::{self, FIRST_PLACE};
use crate::{told, Refusal, Refused, Stream};

/// An outbox in lent bytes: a version byte, then records.
///
/// A new one is of version 02; one of version 01 stays so. Each append looks through all records, so that a large file is
/// better written one record at a time: a record in an outbox of its own has the same bytes as at the end of the file
/// (examples/rust).
///
/// ```
/// use pitokaenge::{Outbox, Refusal, Stream};
///
/// let mut buffer = [0; 64];
/// let mut outbox = Outbox::begin(&mut buffer)?;
/// outbox.append(Stream::Alexa, b"AB")?;
/// outbox.append(Stream::Control, b"")?;
/// assert_eq!(outbox.bytes(), b"\x02\x00\x00\x00\x03\x06AB\x00\x00\x00\x01\x00");
///
/// for record in outbox.records() {
///     let record = record?;
///     println!("at {}: {} bytes of {:?}", record.place, record.payload.len(), record.stream);
/// }
/// # assert_eq!(outbox.records().map(|one| one.unwrap().place).collect::<Vec<_>>(), [1, 8]);
/// # Ok::<(), Refusal>(())
/// ```
#[derive(Debug)]
pub struct Outbox<'a> {
    buffer: &'a mut [u8],
    used: usize,
}

impl<'a> Outbox<'a> {
    /// Begins a new outbox, of version 02. Refused by 14 if there is no byte.
    pub fn begin(buffer: &'a mut [u8]) -> Result<Outbox<'a>, Refusal> {
        let used = calls::pito_outbox_new(buffer)?.used as usize;
        Ok(Outbox { buffer, used })
    }

    /// Goes on with the outbox in the first `used` bytes. Refused by 1 if there are not so many, and if they are not a
    /// whole outbox by 40, 42, 43, or by 41 with the place of the cut record.
    pub fn resume(buffer: &'a mut [u8], used: usize) -> Result<Outbox<'a>, Refused> {
        whole(buffer.get(..used).ok_or(Refusal::Unfit)?)?;
        Ok(Outbox { buffer, used })
    }

    /// As [`resume`](Outbox::resume), but a cut last record is dropped, as a box does when it starts; its place is told.
    ///
    /// ```
    /// use pitokaenge::{Outbox, Refusal, Refused, Stream};
    ///
    /// let mut buffer = *b"\x01\x00\x03\x06AB\x00\x03\x06A.....";
    /// assert_eq!(Outbox::resume(&mut buffer, 10).unwrap_err().place, Some(6));
    /// let (mut outbox, dropped) = Outbox::recover(&mut buffer, 10)?;
    /// assert_eq!(dropped, Some(6));
    /// outbox.append(Stream::Ota, b"C")?;
    /// assert_eq!(outbox.bytes(), b"\x01\x00\x03\x06AB\x00\x02\x02C");
    /// # Ok::<(), Refused>(())
    /// ```
    pub fn recover(
        buffer: &'a mut [u8],
        used: usize,
    ) -> Result<(Outbox<'a>, Option<usize>), Refused> {
        match whole(buffer.get(..used).ok_or(Refusal::Unfit)?) {
            Ok(()) => Ok((Outbox { buffer, used }, None)),
            Err(Refused {
                refusal: Refusal::RecordCut,
                place: Some(used),
                ..
            }) => Ok((Outbox { buffer, used }, Some(used))),
            Err(refused) => Err(refused),
        }
    }

    /// Appends a record. Refused by 15 (a payload over 65,535 bytes, in version 01 over 4,096), 14.
    pub fn append(&mut self, stream: Stream, payload: &[u8]) -> Result<(), Refusal> {
        let used = self.used as u64;
        let row = calls::pito_outbox_append(self.buffer, used, stream.number(), payload)?;
        self.used = row.used as usize;
        Ok(())
    }

    /// The file: version byte and records.
    pub fn bytes(&self) -> &[u8] {
        self.buffer.get(..self.used).unwrap_or(&[])
    }

    /// Its records, from the first on.
    pub fn records(&self) -> Records<'_> {
        Records::of(self.bytes())
    }
}

/// A record of an outbox.
#[derive(Clone, Copy, Debug, PartialEq, Eq)]
pub struct Record<'a> {
    /// Where it begins.
    pub place: usize,
    /// The stream that it came over.
    pub stream: Stream,
    /// What was kept.
    pub payload: &'a [u8],
    /// Where the next one begins, or the outbox ends.
    pub next: usize,
}

/// Reads the record at a place of an outbox: at [`FIRST_PLACE`](sizes::FIRST_PLACE), or where the record before tells the
/// next; `None` at the end. Refused by 40, 15 (place 0, or beyond the bytes), and with the place by 41, 42, 43.
///
/// ```
/// use pitokaenge::{read_record, Record, Refusal, Stream};
///
/// let outbox = b"\x01\x00\x03\x06AB";
/// let record = read_record(outbox, 1)?.unwrap();
/// assert_eq!(record, Record { place: 1, stream: Stream::Alexa, payload: b"AB", next: 6 });
/// assert_eq!(read_record(outbox, 6)?, None);
///
/// let cut = read_record(&outbox[..5], 1).unwrap_err();
/// assert_eq!((cut.refusal, cut.place), (Refusal::RecordCut, Some(1)));
/// # Ok::<(), Refusal>(())
/// ```
pub fn read_record(bytes: &[u8], place: usize) -> Result<Option<Record<'_>>, Refused> {
    let row = match calls::pito_outbox_record(bytes, place as u64) {
        Ok(row) => row,
        Err(Told { refusal, .. }) => {
            return Err(match refusal {
                Refusal::RecordCut | Refusal::RecordLength | Refusal::RecordStream => {
                    Refused::at(refusal, place as u64)
                }
                _ => refusal.into(),
            })
        }
    };
    if row.outcome == sizes::END {
        return Ok(None);
    }
    Ok(Some(Record {
        place,
        stream: told::stream(row.stream)?,
        payload: told::part(bytes, row.start, row.length)?,
        next: row.next as usize,
    }))
}

/// The records of an outbox: an iterator that ends after the first refusal. Cut at any byte, an outbox still gives every
/// record that lies whole in it.
#[must_use = "an iterator does nothing until it is asked for the next"]
#[derive(Clone, Debug)]
pub struct Records<'a> {
    bytes: &'a [u8],
    /// Of the next record, until the end or a refusal.
    place: Option<usize>,
}

impl<'a> Records<'a> {
    /// Of any bytes.
    pub fn of(bytes: &'a [u8]) -> Records<'a> {
        Records {
            bytes,
            place: Some(FIRST_PLACE),
        }
    }
}

impl<'a> Iterator for Records<'a> {
    type Item = Result<Record<'a>, Refused>;

    fn next(&mut self) -> Option<Result<Record<'a>, Refused>> {
        let record = read_record(self.bytes, self.place.take()?).transpose()?;
        if let Ok(record) = record {
            self.place = Some(record.next);
        }
        Some(record)
    }
}

/// Whether all of an outbox is whole: refused by its first refusal, 40, 42, 43, or 41 with the place up to which it is whole.
pub fn whole(bytes: &[u8]) -> Result<(), Refused> {
    match calls::pito_outbox_whole(bytes) {
        Ok(_) => Ok(()),
        Err(Told { refusal, row }) => Err(match refusal {
            Refusal::RecordCut => Refused::at(refusal, row.cut_place),
            _ => refusal.into(),
        }),
    }
}

/// The two versions of an outbox: payloads of up to 4,096 bytes, and of up to 65,535.
#[derive(Clone, Copy, Debug, PartialEq, Eq)]
#[non_exhaustive]
pub enum Version {
    /// Lengths of two bytes, payloads of up to 4,096 bytes.
    V01,
    /// Lengths of four bytes, payloads of up to 65,535 bytes.
    V02,
}

/// Writes an outbox as a version: the same records in the same order. One that has the version already is copied.
/// As many bytes as it has are enough output to 01 and for a copy, twice as many to 02. Refused, with the place of the
/// record, by the outbox's first refusal, then by 46 (to version 01: a payload over 4,096); then by 14.
///
/// ```
/// use pitokaenge::{write_as, Refusal, Version};
///
/// let (mut output, mut back) = ([0; 12], [0; 12]);
/// let new = write_as(Version::V02, b"\x01\x00\x03\x06AB", &mut output)?;
/// assert_eq!(new, b"\x02\x00\x00\x00\x03\x06AB");
/// assert_eq!(write_as(Version::V01, new, &mut back)?, b"\x01\x00\x03\x06AB");
/// # Ok::<(), Refusal>(())
/// ```
pub fn write_as<'o>(
    version: Version,
    bytes: &[u8],
    output: &'o mut [u8],
) -> Result<&'o [u8], Refused> {
    let told = match version {
        Version::V01 => calls::pito_outbox_to_01(bytes, output)
            .map(|row| row.size)
            .map_err(|told| (told.refusal, told.row.place)),
        Version::V02 => calls::pito_outbox_to_02(bytes, output)
            .map(|row| row.size)
            .map_err(|told| (told.refusal, told.row.place)),
    };
    match told {
        Ok(size) => Ok(told::written(output, size)?),
        Err((Refusal::Output, _)) => Err(Refusal::Output.into()),
        Err((refusal, place)) => Err(Refused::at(refusal, place)),
    }
}
