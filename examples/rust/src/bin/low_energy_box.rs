//! A Low Energy box's main loop: takes packets from standard input, keeps each message that they finish as a record of an
//! outbox file, answers with an ACK where one is wanted, and replies to what control messages ask. Without the replies to its
//! first two questions a speaker disconnects.
//!
//!     low_energy_box [--times] OUTBOX_FILE RADIO < PACKETS
//!
//! PACKETS is what came over the air, RADIO the path of what takes the packets to be sent (a pipe or a device, which is there
//! already): each packet with its length before it, two bytes, big-endian, and each one sent in one write.
//!
//! Standard output: `record PLACE LENGTH` for each record, as of classic_box, and written after the record's fsync has come
//! back.
//! Standard error: what classic_box says of the file; `refused NUMBER` for a refused packet, `replaced STREAM` where a first
//! packet replaced an open transaction of its id, `cleared STREAM` where one found no slot and the transaction that had been
//! silent longest gave way to it, `no envelope NUMBER` for a control message that is none, `too long LENGTH` for a packet that
//! no radio sends, each with `, COUNT more` where the same came again before the next record; and what ended the program.
//! Ends with 0 at the end of the input (a last packet that is cut is not taken); with 1 and with 2 as classic_box does, with 1
//! also where nothing can be sent any more, or for two seconds, since no ACK can go out then, and, before anything is written,
//! where RADIO is the outbox file or another outbox.
//!
//! AN ACK GOES OUT LAST, and after it only the reply. It says SUCCESS, and a speaker that has it does not send the message
//! again. So a message is on the disk before its ACK is sent. A box that ends before then, however it ends, sends none, and the
//! speaker sends the message again: none that was acknowledged is ever lost, and one that was not may be kept twice.

use boxes::{check_apart, is_outbox, is_ready, make_raw, note_number, Failure, OutboxFile};
use pitokaenge::{
    sizes, Accepted, Device, DeviceFeatures, DeviceInformation, Limit, Link, Message, Refusal,
    Room, Slot, Stream, UpToEight,
};
use std::fs::{File, OpenOptions};
use std::io::{self, ErrorKind, Read, StdinLock, Write};
use std::os::unix::fs::OpenOptionsExt;
use std::path::Path;
use std::process::ExitCode;

/// The largest message of the link, in bytes. The receiver's buffer has twelve times as much, since each stream may have four
/// transactions open at a time.
const LIMIT: usize = 2048;

const SLOTS_OF_A_STREAM: usize = sizes::SLOTS / 3;

/// An ACK belongs to no transaction of ours: any sequence will do.
const ACK_SEQUENCE: u8 = 0;

/// A radio that takes nothing for so many milliseconds is as good as gone.
const RADIO_PATIENCE: i32 = 2000;

/// Replies: every link has the least room. One is sent whole before the next begins, so that id and sequence can stay.
const ROOM: Room = Room::LEAST;
const REPLY_ID: u8 = 0;
const REPLY_SEQUENCE: u8 = 0;

/// What this box says of itself. The numbers of the response's members are those of tools/control.proto; a real box has
/// Amazon's.
const SERIAL_NUMBER: &str = "K-0042";
const NAME: &str = "Kiln 3";
const DEVICE_TYPE: &str = "A3KILN";
const TRANSPORTS: [i32; 1] = [0];
const INFORMATION_MEMBER: u32 = 3;
const FEATURES_MEMBER: u32 = 9;
const FEATURES: DeviceFeatures = DeviceFeatures {
    features: 0x13,
    device_attributes: 0,
};
const REPLY_SIZE: usize = sizes::reply_size(SERIAL_NUMBER.len(), NAME.len(), DEVICE_TYPE.len());

fn main() -> ExitCode {
    boxes::run(
        "low_energy_box [--times] OUTBOX_FILE RADIO < PACKETS",
        |[path, radio], times| {
            let path = Path::new(&path);
            make_raw(&io::stdin())?;
            let radio = open_radio(Path::new(&radio), path)?;
            let outbox = OutboxFile::open(path, times)?;
            LowEnergyBox {
                outbox,
                radio,
                last_packet: [0; sizes::SLOTS],
                packets: 0,
            }
            .take_packets()
        },
    )
}

/// A device is not to become the program's terminal. Where the two paths were exchanged, ACKs must not go into the outbox.
fn open_radio(path: &Path, outbox_path: &Path) -> Result<File, Failure> {
    const O_NOCTTY: i32 = 0o400;
    let radio = OpenOptions::new()
        .append(true)
        .custom_flags(O_NOCTTY)
        .open(path)
        .map_err(Failure::to("open the radio"))?;
    check_apart(outbox_path, &radio, "RADIO")?;
    if is_outbox(path, &mut [0; sizes::one_record(LIMIT)]) {
        return Err(Failure::Other("RADIO is an outbox".to_string()));
    }
    make_raw(&radio)?;
    Ok(radio)
}

struct LowEnergyBox {
    outbox: OutboxFile<{ sizes::one_record(LIMIT) }>,
    radio: File,
    /// How many packets had come when the last one went to a slot.
    last_packet: [u64; sizes::SLOTS],
    packets: u64,
}

impl LowEnergyBox {
    fn take_packets(&mut self) -> Result<(), Failure> {
        let mut row = [Slot::default(); sizes::SLOTS];
        let mut buffer = [0; sizes::receiver_buffer(LIMIT)];
        let mut link = Link::open(Limit::of::<LIMIT>(), &mut row, &mut buffer)?;
        let mut input = io::stdin().lock();
        let mut packet = [0; sizes::LARGEST_ROOM];
        let mut before = [0; 2];
        while read_whole(&mut input, &mut before)? {
            let length = u16::from_be_bytes(before);
            match packet.get_mut(..length.into()) {
                Some(packet) => {
                    if !read_whole(&mut input, packet)? {
                        break;
                    }
                    self.take(&mut link, packet)?;
                }
                None => pass_over(&mut input, length)?,
            }
        }
        Ok(())
    }

    /// A packet that found no slot is given again once one is free, and is then taken. The stream stands first in it.
    fn take(&mut self, link: &mut Link, packet: &[u8]) -> Result<(), Failure> {
        self.packets += 1;
        match link.accept(packet, ACK_SEQUENCE) {
            Err(Refusal::NoSlot) => (),
            accepted => return self.act(accepted),
        }
        self.clear_stalest(link, packet[0] >> 4);
        self.act(link.accept(packet, ACK_SEQUENCE))
    }

    /// A transaction that its speaker has given up stays open until its id comes again. Where four of a stream are open, the
    /// one that has been silent longest gives way.
    fn clear_stalest(&self, link: &mut Link, stream: u8) {
        let first = match stream {
            0 => 0,
            2 => SLOTS_OF_A_STREAM,
            _ => 2 * SLOTS_OF_A_STREAM,
        };
        let slots = first..first + SLOTS_OF_A_STREAM;
        if let Some(stalest) = slots.min_by_key(|&place| self.last_packet[place]) {
            link.clear_slot(stalest);
        }
        note_number("cleared", stream.into());
    }

    /// This box asks for no ACKs: those that come tell it nothing.
    fn act(&mut self, accepted: Result<Accepted, Refusal>) -> Result<(), Failure> {
        match accepted {
            Ok(Accepted::Piece {
                stream,
                place,
                replaced,
                ..
            }) => self.note_slot(place, stream, replaced),
            Ok(Accepted::Finished(message)) => self.finish(&message)?,
            Ok(_) => (),
            // Of this box's own making, not of the packet's.
            Err(
                refusal @ (Refusal::Unfit | Refusal::Argument | Refusal::Output | Refusal::NoSlot),
            ) => return Err(refusal.into()),
            Err(refusal) => note_number("refused", refusal.number()),
        }
        Ok(())
    }

    fn note_slot(&mut self, place: usize, stream: Stream, replaced: bool) {
        self.last_packet[place] = self.packets;
        if replaced {
            note_number("replaced", stream.number());
        }
    }

    /// Every stream's messages are kept.
    fn finish(&mut self, message: &Message) -> Result<(), Failure> {
        self.note_slot(message.place, message.stream, message.replaced);
        self.outbox.keep(message.stream, message.bytes)?;
        if let Some(ack) = message.ack {
            self.send(&ack)?;
        }
        if message.stream == Stream::Control {
            self.answer_question(message.bytes)?;
        }
        Ok(())
    }

    /// Sends the reply to a control message; one that is itself a response gets none, and so does what is no envelope.
    fn answer_question(&mut self, message: &[u8]) -> Result<(), Failure> {
        let device = Device {
            information: DeviceInformation {
                serial_number: SERIAL_NUMBER,
                name: NAME,
                device_type: DEVICE_TYPE,
                transports: UpToEight::new(&TRANSPORTS)?,
            },
            features: FEATURES,
            information_member: INFORMATION_MEMBER,
            features_member: FEATURES_MEMBER,
        };
        let mut output = [0; REPLY_SIZE];
        let limit = Limit::of::<LIMIT>();
        let reply = device.reply(message, ROOM, limit, REPLY_ID, REPLY_SEQUENCE, &mut output);
        match reply.map_err(Refusal::from) {
            Ok(packets) => {
                for packet in packets {
                    self.send(packet)?;
                }
            }
            Err(
                refusal @ (Refusal::MessageCut
                | Refusal::Varint
                | Refusal::Tag
                | Refusal::WireType
                | Refusal::TooMany),
            ) => note_number("no envelope", refusal.number()),
            // Of this box's own making, not of the message's.
            Err(refusal) => return Err(refusal.into()),
        }
        Ok(())
    }

    fn send(&mut self, packet: &[u8]) -> Result<(), Failure> {
        if !is_ready(&self.radio, RADIO_PATIENCE) {
            let why = ErrorKind::TimedOut.into();
            return Err(Failure::System("send a packet", why));
        }
        let mut sent = (packet.len() as u16).to_be_bytes().to_vec();
        sent.extend_from_slice(packet);
        self.radio
            .write_all(&sent)
            .map_err(Failure::to("send a packet"))
    }
}

/// Fills the bytes. Answers false at the end of the input.
fn read_whole(input: &mut StdinLock, bytes: &mut [u8]) -> Result<bool, Failure> {
    match input.read_exact(bytes) {
        Ok(()) => Ok(true),
        Err(reason) if reason.kind() == ErrorKind::UnexpectedEof => Ok(false),
        Err(reason) => Err(Failure::System("read the packets", reason)),
    }
}

/// Reads over a packet that is longer than any room.
fn pass_over(input: &mut StdinLock, length: u16) -> Result<(), Failure> {
    note_number("too long", length.into());
    io::copy(&mut input.take(length.into()), &mut io::sink())
        .map_err(Failure::to("read the packets"))?;
    Ok(())
}
