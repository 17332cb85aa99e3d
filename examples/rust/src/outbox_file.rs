//! The outbox file: it is written one record at a time, through a small outbox in memory that has the version byte and room for
//! one record of the longest message, and read at a start as many records at a time as that holds. Nothing that ever stood in
//! the file is deleted.

use crate::notes::{tell_counted, write_line};
use crate::{note, system, Failure, Times};
use pitokaenge::sizes::FIRST_PLACE;
use pitokaenge::{read_record, Outbox, Refusal, Refused, Stream};
use std::ffi::OsString;
use std::fs::{self, File, Metadata, OpenOptions};
use std::io::{self, ErrorKind, Write};
use std::os::fd::AsFd;
use std::os::unix::fs::{FileExt, MetadataExt, OpenOptionsExt};
use std::path::{Path, PathBuf};

/// `SIZE` is `sizes::one_record` of the box's limit.
pub struct OutboxFile<const SIZE: usize> {
    file: File,
    /// With a symbolic link as the path that was given, what the link leads to.
    own_path: PathBuf,
    end: u64,
    /// Its first byte is the file's, from the start on.
    one_record: [u8; SIZE],
    reports: File,
    report_failed: bool,
    times: Times,
}

impl<const SIZE: usize> OutboxFile<SIZE> {
    /// Opens the file, or begins it, and finds the end of its last whole record. What stands cut behind that goes to the file
    /// PATH.dropped, and only then is dropped. A file that is no outbox, has a longer record than a message of this box can be,
    /// cannot be read, or has a cut end where PATH.dropped is a link, a pipe or a folder is put aside whole, as PATH.aside-1,
    /// or the first number that is free, and a new one is begun. Both are noted. A file that is open in another box, or is a
    /// standard stream of this one, is left as it was.
    pub fn open(path: &Path, times: Times) -> Result<OutboxFile<SIZE>, Failure> {
        check_apart(path, &io::stdin(), "standard input")?;
        check_apart(path, &io::stdout(), "standard output")?;
        check_apart(path, &io::stderr(), "standard error")?;
        let file = open_file(path)?;
        let own_path =
            fs::canonicalize(path).map_err(Failure::to("find the outbox file's folder"))?;
        let mut outbox = OutboxFile {
            file,
            own_path,
            end: 0,
            one_record: [0; SIZE],
            reports: duplicate(&io::stdout())?,
            report_failed: false,
            times,
        };
        outbox.start()?;
        Ok(outbox)
    }

    /// A start ends with all on disk that the file holds, and the file's name in its folder: the start before may have been
    /// killed at any point.
    fn start(&mut self) -> Result<(), Failure> {
        self.end = 0;
        self.sync()?;
        self.sync_folder()?;
        match self.read(0, FIRST_PLACE) {
            Ok(0) => self.begin(),
            Ok(_) => self.resume(),
            Err(reason) => self.put_unreadable_aside(&reason),
        }
    }

    /// Appends a message as a record; once it is on the disk, and not before, reports it on standard output. That it cannot be
    /// reported is noted once, and stops nothing.
    ///
    /// What goes to a file that was deleted is lost, and one that was moved is no longer looked for: the record is written
    /// again, to a new file under its name, which is noted.
    pub fn keep(&mut self, stream: Stream, message: &[u8]) -> Result<(), Failure> {
        let mut length = self.append(stream, message)?;
        if !self.has_its_name()? {
            self.file = open_file(&self.own_path)?;
            self.start()?;
            note(format_args!(
                "the outbox file was taken away, new outbox {}",
                last_name(&self.own_path)
            ));
            length = self.append(stream, message)?;
        }
        self.report(message.len());
        self.end += length;
        Ok(())
    }

    /// Answers the record's length. It is on the disk then.
    fn append(&mut self, stream: Stream, message: &[u8]) -> Result<u64, Failure> {
        let mut outbox =
            Outbox::resume(&mut self.one_record, FIRST_PLACE).map_err(Refusal::from)?;
        outbox.append(stream, message)?;
        let record = &outbox.bytes()[FIRST_PLACE..];
        self.file
            .write_all(record)
            .map_err(Failure::to("write the outbox file"))?;
        let length = record.len() as u64;
        self.sync()?;
        Ok(length)
    }

    fn has_its_name(&self) -> Result<bool, Failure> {
        let opened = self.look()?;
        Ok(fs::metadata(&self.own_path).is_ok_and(|named| is_same(&opened, &named)))
    }

    fn look(&self) -> Result<Metadata, Failure> {
        self.file
            .metadata()
            .map_err(Failure::to("look at the outbox file"))
    }

    fn report(&mut self, length: usize) {
        let line = match self.times {
            Times::None => format!("record {} {length}\n", self.end),
            Times::Told => format!("record {} {length} {}\n", self.end, system::now()),
        };
        tell_counted();
        if let Err(why) = write_line(&mut self.reports, &line) {
            if !self.report_failed {
                note(format_args!("box: report a record: {why}"));
            }
            self.report_failed = true;
        }
    }

    fn begin(&mut self) -> Result<(), Failure> {
        let outbox = Outbox::begin(&mut self.one_record)?;
        self.file
            .write_all(outbox.bytes())
            .map_err(Failure::to("write the outbox file"))?;
        self.end = FIRST_PLACE as u64;
        self.sync()?;
        self.sync_folder()
    }

    /// Finds the end of the last whole record. A record that the small outbox cuts is read again from its own place on: the
    /// largest of this box's then fits, so that only the end of the file can cut it. One that fills the small outbox is of
    /// another box.
    fn resume(&mut self) -> Result<(), Failure> {
        self.end = FIRST_PLACE as u64;
        loop {
            let before = self.end;
            let held = match self.read(FIRST_PLACE, SIZE) {
                Ok(count) => FIRST_PLACE + count,
                Err(reason) => return self.put_unreadable_aside(&reason),
            };
            let passed = self.pass_records(held);
            match passed.map_err(|refused| refused.refusal) {
                Ok(()) | Err(Refusal::RecordCut) if self.end > before => (),
                Ok(()) => return Ok(()),
                Err(Refusal::RecordCut) if held < SIZE => return self.drop_cut_record(held),
                Err(refusal @ Refusal::RecordCut) => {
                    let why = "a record is longer than this box's messages, refused";
                    return self.put_aside(why, refusal.number());
                }
                Err(refusal @ (Refusal::RecordLength | Refusal::RecordStream)) => {
                    return self.put_aside("refused", refusal.number())
                }
                Err(refusal @ Refusal::Version) => {
                    self.end = 0;
                    return self.put_aside("refused", refusal.number());
                }
                Err(refusal) => return Err(refusal.into()),
            }
        }
    }

    /// Moves the file's end behind the records that lie whole in the first `held` bytes of the small outbox, whose bytes behind
    /// the version byte are those from the file's end on. Answers what refused the next.
    fn pass_records(&mut self, held: usize) -> Result<(), Refused> {
        let mut place = FIRST_PLACE;
        let ended = loop {
            match read_record(&self.one_record[..held], place) {
                Ok(Some(record)) => place = record.next,
                Ok(None) => break Ok(()),
                Err(refused) => break Err(refused),
            }
        };
        self.end += (place - FIRST_PLACE) as u64;
        ended
    }

    /// Reads the file from its end on into a part of the small outbox. Answers how many bytes there were: fewer than the part
    /// has only at the end of the file.
    fn read(&mut self, from: usize, to: usize) -> io::Result<usize> {
        let part = &mut self.one_record[from..to];
        read_file(&self.file, part, self.end)
    }

    /// A record that was cut and one whose length was damaged look the same, and behind a damaged length whole records may
    /// stand. So what is dropped, and stands in the small outbox, is on the disk under another name first.
    fn drop_cut_record(&mut self, held: usize) -> Result<(), Failure> {
        let name = self.name_beside(".dropped");
        if !self.is_another_file(&name)? {
            let why = "cut, and .dropped is no file of its own, refused";
            return self.put_aside(why, Refusal::RecordCut.number());
        }
        let mut beside = OpenOptions::new()
            .append(true)
            .create(true)
            .mode(0o644)
            .open(&name)
            .map_err(Failure::to("open the file of what is dropped"))?;
        beside
            .write_all(&self.one_record[FIRST_PLACE..held])
            .and_then(|()| beside.sync_all())
            .map_err(Failure::to("write what is dropped"))?;
        self.sync_folder()?;
        self.file
            .set_len(self.end)
            .map_err(Failure::to("shorten the outbox file"))?;
        self.sync()?;
        note(format_args!(
            "dropped {}, kept in {}",
            self.end,
            last_name(&name)
        ));
        Ok(())
    }

    /// Whether what is appended there is kept: bytes would be lost in a link to the outbox file, and a pipe would stop the box.
    fn is_another_file(&self, name: &Path) -> Result<bool, Failure> {
        let own = self.look()?;
        let its = fs::symlink_metadata(name);
        Ok(its.map_or(true, |its| its.is_file() && !is_same(&own, &its)))
    }

    /// The file is closed, and its lock ended, only when it has another name.
    fn put_aside(&mut self, why: &str, number: u64) -> Result<(), Failure> {
        let (mut count, place) = (1, self.end);
        while fs::symlink_metadata(self.name_beside(&format!(".aside-{count}"))).is_ok() {
            count += 1;
        }
        let name = self.name_beside(&format!(".aside-{count}"));
        fs::rename(&self.own_path, &name).map_err(Failure::to("put the file aside"))?;
        self.sync_folder()?;
        self.file = open_file(&self.own_path)?;
        self.begin()?;
        note(format_args!(
            "put aside as {}: {why} {number} at {place}",
            last_name(&name)
        ));
        note(format_args!("new outbox {}", last_name(&self.own_path)));
        Ok(())
    }

    fn put_unreadable_aside(&mut self, reason: &io::Error) -> Result<(), Failure> {
        let number = reason.raw_os_error().unwrap_or_default();
        self.put_aside("cannot be read, error", number as u64)
    }

    /// A file beside the outbox file, with that one's name before its own ending.
    fn name_beside(&self, ending: &str) -> PathBuf {
        let mut name = OsString::from(&self.own_path);
        name.push(ending);
        name.into()
    }

    fn sync(&self) -> Result<(), Failure> {
        self.file
            .sync_all()
            .map_err(Failure::to("sync the outbox file"))
    }

    /// The folder that has the file's name: with a symbolic link as the path, not the link's.
    fn sync_folder(&self) -> Result<(), Failure> {
        let folder = self.own_path.parent().unwrap_or(Path::new("/"));
        File::open(folder)
            .and_then(|folder| folder.sync_all())
            .map_err(Failure::to("sync the outbox file's folder"))
    }
}

/// Answers how many bytes it has read, fewer than there is room for only at the end of the file.
fn read_file(file: &File, bytes: &mut [u8], place: u64) -> io::Result<usize> {
    let mut held = 0;
    while held < bytes.len() {
        match file.read_at(&mut bytes[held..], place + held as u64) {
            Ok(0) => break,
            Ok(count) => held += count,
            Err(reason) if reason.kind() == ErrorKind::Interrupted => (),
            Err(reason) => return Err(reason),
        }
    }
    Ok(held)
}

fn last_name(path: &Path) -> std::path::Display<'_> {
    Path::new(path.file_name().unwrap_or_default()).display()
}

/// Two boxes on one file would report places that are not theirs. The lock ends with the program, however that ends. A file that
/// lost its name before it was locked was put aside by another box.
fn open_file(path: &Path) -> Result<File, Failure> {
    let file = OpenOptions::new()
        .read(true)
        .append(true)
        .create(true)
        .mode(0o644)
        .open(path)
        .map_err(Failure::to("open the outbox file"))?;
    let free = system::lock(&file).map_err(Failure::to("lock the outbox file"))?;
    let look = Failure::to("look at the outbox file");
    let named = fs::metadata(path).map_err(&look)?;
    let opened = file.metadata().map_err(&look)?;
    if !free || !is_same(&opened, &named) {
        return Err(Failure::Other(
            "another box has the outbox file".to_string(),
        ));
    }
    if !opened.is_file() {
        let why = "the outbox is a device, a pipe or a folder";
        return Err(Failure::Other(why.to_string()));
    }
    Ok(file)
}

fn is_same(one: &Metadata, other: &Metadata) -> bool {
    (one.dev(), one.ino()) == (other.dev(), other.ino())
}

fn duplicate(stream: &impl AsFd) -> Result<File, Failure> {
    let own = stream.as_fd().try_clone_to_owned();
    Ok(File::from(own.map_err(Failure::to("open a stream"))?))
}

/// Fails if the path is that of a file which is open as something else.
pub fn check_apart(path: &Path, other: &impl AsFd, name: &str) -> Result<(), Failure> {
    let Ok(own) = fs::metadata(path) else {
        return Ok(());
    };
    let its = duplicate(other)?
        .metadata()
        .map_err(Failure::to("look at the open files"))?;
    if is_same(&own, &its) {
        let why = format!("the outbox file is {name} as well");
        return Err(Failure::Other(why));
    }
    Ok(())
}

/// Whether the path is that of a file that an outbox stands in. The bytes are room for a record.
pub fn is_outbox(path: &Path, bytes: &mut [u8]) -> bool {
    if !fs::metadata(path).is_ok_and(|its| its.is_file()) {
        return false;
    }
    let Ok(other) = File::open(path) else {
        return false;
    };
    let Ok(held) = read_file(&other, bytes, 0) else {
        return false;
    };
    match read_record(&bytes[..held], FIRST_PLACE) {
        Ok(_) => true,
        Err(refused) => refused.refusal == Refusal::RecordCut,
    }
}
