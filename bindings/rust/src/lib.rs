//! Safe types over Pitokaenge, the verified library for the link between a smart speaker and a box beside a wood kiln.
//!
//! No std, no heap, no dependencies: the caller lends every byte.
//!
//! | what | where |
//! |---|---|
//! | Classic frames, taken and written | [`Extractor`], [`write_frame`], [`FrameWriter`] |
//! | Low Energy packets, taken and written | [`Link`], [`Transaction`], [`ack`], [`nack`] |
//! | one packet read, by itself or in a capture | [`read_packet`], [`CapturedPackets`] |
//! | control and firmware messages | [`Envelope`], [`DeviceInformation`], [`UpdateComponentSegment`], .. |
//! | the reply to the handshake | [`Device::reply`] |
//! | the outbox file | [`Outbox`], [`Records`], [`write_as`] |
//! | another sender, judged, and why | [`judge`], [`why`] |
//! | what the radio cost, by captures | [`Report`] |
//! | bytes that may be text | [`Text`] |
//! | sizes of buffers and outputs | [`sizes`] |
//! | refusals, by number | [`Refusal`], [`Refused`] |
//!
//! Every function takes any bytes and always returns; none panics. What each does is proved of the archive's functions
//! (`docs/promises` of the repository); this crate itself is plain Rust around them, and is tested. The archive's functions
//! as they are, for callers that want no more, are in [`declarations`].
#![no_std]
#![deny(unsafe_code, missing_docs)]

#[cfg(not(target_pointer_width = "64"))]
compile_error!("the library is for 64-bit machines: a length is a number of 64 bits");

#[allow(unsafe_code)]
mod calls;
mod classic;
mod control;
#[allow(unsafe_code)]
pub mod declarations;
mod fields;
mod firmware;
mod judge;
mod link;
mod link_numbers;
mod outbox;
mod packet;
mod refusal;
mod reply;
mod report;
mod sending;
pub mod sizes;
mod text;
mod told;
mod up_to_eight;
mod why;

pub use classic::{next_sequence, write_frame, Buffer, Event, Extractor, Frame, FrameWriter, Step};
pub use control::{DeviceFeatures, DeviceInformation, Envelope, Member, Payload, Response};
pub use fields::{Field, Fields, Value};
pub use firmware::{ApplyFirmware, FirmwareComponent, FirmwareInformation, UpdateComponentSegment};
pub use judge::{judge, Verdict};
pub use link::{Accepted, Link, Message, OwnedLink, Row, Slot};
pub use link_numbers::{Limit, Room, Stream};
pub use outbox::{read_record, whole, write_as, Outbox, Record, Records, Version};
pub use packet::{
    read_captured, read_packet, CapturedPacket, CapturedPackets, PacketKind, ReadPacket,
};
pub use refusal::{Refusal, Refused};
pub use reply::Device;
pub use report::{Costs, Report};
pub use sending::{ack, nack, Joined, Packet, Packets, Transaction};
pub use text::Text;
pub use up_to_eight::UpToEight;
pub use why::{why, Came, Expected, NextPacket, OpenTransaction, Why};

/// The README's example, run as a test.
#[cfg(doctest)]
#[doc = include_str!("../README.md")]
struct Readme;
