//! What every implementation offers: one call for each operation, on rows of numbers and lent
//! bytes only, so that two implementations can be run side by side and compared number by number
//! and byte by byte.

/// The operations.
#[derive(Clone, Copy, Debug, PartialEq, Eq, PartialOrd, Ord)]
pub enum Operation {
    ExtractorOpen,
    ExtractorStep,
    ExtractorFeed,
    FrameWrite,
    FrameBegin,
    FramePart,
    NextSequence,
    PacketWrite,
    AckWrite,
    PacketRead,
    ReceiverOpen,
    ReceiverAccept,
    CapturePacket,
    CaptureJudge,
    CaptureWhy,
    ReportAdd,
    EnvelopeRead,
    EnvelopeWrite,
    ResponseRead,
    ResponseWrite,
    InformationRead,
    InformationWrite,
    FeaturesRead,
    FeaturesWrite,
    ReplyWrite,
    SegmentRead,
    SegmentWrite,
    ApplyRead,
    ApplyWrite,
    FieldRead,
    OutboxNew,
    OutboxAppend,
    OutboxRecord,
    OutboxWhole,
    OutboxTo01,
    OutboxTo02,
    Text,
}

/// A slot as the caller lends it: 8 bytes. "the slots come lent by the caller as a row of records" (No.
/// 11).
#[repr(C)]
#[derive(Clone, Copy, Debug, Default, PartialEq, Eq)]
pub struct Slot {
    pub opened: u8,
    pub id: u8,
    pub sequence: u8,
    pub wanted: u8,
    pub total: u16,
    pub held: u16,
}

/// What is lent to a call for writing besides its rows of numbers.
pub struct Lent<'a> {
    pub slots: &'a mut [Slot],
    pub bytes: &'a mut [u8],
    /// Where an ACK goes.
    pub reply: &'a mut [u8],
}

/// The rows of an operation, for building calls and for printing them.
pub struct Shape {
    pub name: &'static str,
    /// Numbers given by value (or as a row: the transports, last and of any length, and an ApplyFirmware).
    pub numbers: &'static [&'static str],
    /// Bytes that are only read.
    pub inputs: &'static [&'static str],
    /// The row that goes in and out.
    pub state: &'static [&'static str],
    /// How many slots are lent.
    pub slots: usize,
    /// The row that goes out.
    pub answer: &'static [&'static str],
    /// The bytes that are lent for writing.
    pub lent: &'static str,
    /// The bytes that are lent for writing besides: where an ACK goes.
    pub reply: &'static str,
    /// What the operation can return, 0 for success.
    pub returns: &'static [u64],
}

const EXTRACTOR: &[&str] = &["limit", "phase", "sequence", "held"];
const PARTS: &[&str] = &[
    "limit", "sequence", "total", "taken", "sum", "stage", "pending",
];
const RECEIVER: &[&str] = &["limit"];
const REPORT: &[&str] = &[
    "control.firsts",
    "control.finished",
    "control.replaced",
    "control.dropped",
    "control.left open",
    "control.payload",
    "control.bytes",
    "OTA.firsts",
    "OTA.finished",
    "OTA.replaced",
    "OTA.dropped",
    "OTA.left open",
    "OTA.payload",
    "OTA.bytes",
    "Alexa.firsts",
    "Alexa.finished",
    "Alexa.replaced",
    "Alexa.dropped",
    "Alexa.left open",
    "Alexa.payload",
    "Alexa.bytes",
];
const WHY: &[&str] = &[
    "outcome",
    "place",
    "control.opened",
    "control.id",
    "control.left",
    "control.sequence",
    "OTA.opened",
    "OTA.id",
    "OTA.left",
    "OTA.sequence",
    "Alexa.opened",
    "Alexa.id",
    "Alexa.left",
    "Alexa.sequence",
    "refusal",
    "size",
    "stream",
    "id",
    "sequence",
    "kind",
    "ack",
    "extended",
    "total",
    "length",
    "expected",
    "expected id",
    "expected sequence",
    "expected kind",
    "expected length",
    "expected extended",
    "expected last",
];
const INFORMATION: &[&str] = &[
    "serial_number.start",
    "serial_number.length",
    "name.start",
    "name.length",
    "device_type.start",
    "device_type.length",
    "transports",
    "transport 0",
    "transport 1",
    "transport 2",
    "transport 3",
    "transport 4",
    "transport 5",
    "transport 6",
    "transport 7",
    "field",
    "place",
];
/// The components count from 0.
const APPLY: &[&str] = &[
    "restart_required",
    "version",
    "name.start",
    "name.length",
    "locale.start",
    "locale.length",
    "version_name.start",
    "version_name.length",
    "components",
    "0.version",
    "0.name.start",
    "0.name.length",
    "0.size",
    "0.signature.start",
    "0.signature.length",
    "1.version",
    "1.name.start",
    "1.name.length",
    "1.size",
    "1.signature.start",
    "1.signature.length",
    "2.version",
    "2.name.start",
    "2.name.length",
    "2.size",
    "2.signature.start",
    "2.signature.length",
    "3.version",
    "3.name.start",
    "3.name.length",
    "3.size",
    "3.signature.start",
    "3.signature.length",
    "4.version",
    "4.name.start",
    "4.name.length",
    "4.size",
    "4.signature.start",
    "4.signature.length",
    "5.version",
    "5.name.start",
    "5.name.length",
    "5.size",
    "5.signature.start",
    "5.signature.length",
    "6.version",
    "6.name.start",
    "6.name.length",
    "6.size",
    "6.signature.start",
    "6.signature.length",
    "7.version",
    "7.name.start",
    "7.name.length",
    "7.size",
    "7.signature.start",
    "7.signature.length",
];
/// The row that is told: the same, and what goes with a refusal.
const APPLY_TOLD: &[&str] = &[
    "restart_required",
    "version",
    "name.start",
    "name.length",
    "locale.start",
    "locale.length",
    "version_name.start",
    "version_name.length",
    "components",
    "0.version",
    "0.name.start",
    "0.name.length",
    "0.size",
    "0.signature.start",
    "0.signature.length",
    "1.version",
    "1.name.start",
    "1.name.length",
    "1.size",
    "1.signature.start",
    "1.signature.length",
    "2.version",
    "2.name.start",
    "2.name.length",
    "2.size",
    "2.signature.start",
    "2.signature.length",
    "3.version",
    "3.name.start",
    "3.name.length",
    "3.size",
    "3.signature.start",
    "3.signature.length",
    "4.version",
    "4.name.start",
    "4.name.length",
    "4.size",
    "4.signature.start",
    "4.signature.length",
    "5.version",
    "5.name.start",
    "5.name.length",
    "5.size",
    "5.signature.start",
    "5.signature.length",
    "6.version",
    "6.name.start",
    "6.name.length",
    "6.size",
    "6.signature.start",
    "6.signature.length",
    "7.version",
    "7.name.start",
    "7.name.length",
    "7.size",
    "7.signature.start",
    "7.signature.length",
    "field",
    "place",
];
const MESSAGE_READ: &[u64] = &[0, 1, 30, 31, 32, 33, 34];
const STRINGS_READ: &[u64] = &[0, 1, 30, 31, 32, 33, 34, 36];

impl Operation {
    pub const ALL: [Operation; 37] = [
        Operation::ExtractorOpen,
        Operation::ExtractorStep,
        Operation::ExtractorFeed,
        Operation::FrameWrite,
        Operation::FrameBegin,
        Operation::FramePart,
        Operation::NextSequence,
        Operation::PacketWrite,
        Operation::AckWrite,
        Operation::PacketRead,
        Operation::ReceiverOpen,
        Operation::ReceiverAccept,
        Operation::CapturePacket,
        Operation::CaptureJudge,
        Operation::CaptureWhy,
        Operation::ReportAdd,
        Operation::EnvelopeRead,
        Operation::EnvelopeWrite,
        Operation::ResponseRead,
        Operation::ResponseWrite,
        Operation::InformationRead,
        Operation::InformationWrite,
        Operation::FeaturesRead,
        Operation::FeaturesWrite,
        Operation::ReplyWrite,
        Operation::SegmentRead,
        Operation::SegmentWrite,
        Operation::ApplyRead,
        Operation::ApplyWrite,
        Operation::FieldRead,
        Operation::OutboxNew,
        Operation::OutboxAppend,
        Operation::OutboxRecord,
        Operation::OutboxWhole,
        Operation::OutboxTo01,
        Operation::OutboxTo02,
        Operation::Text,
    ];

    // Each shape is written alike, also the one that has every part.
    #[allow(clippy::needless_update)]
    pub fn shape(self) -> Shape {
        let empty = Shape {
            name: "",
            numbers: &[],
            inputs: &[],
            state: &[],
            slots: 0,
            answer: &[],
            lent: "nothing",
            reply: "nothing",
            returns: &[],
        };
        match self {
            Operation::ExtractorOpen => Shape {
                name: "extractor open",
                numbers: &["limit"],
                state: EXTRACTOR,
                returns: &[0, 1, 17],
                ..empty
            },
            Operation::ExtractorStep => Shape {
                name: "extractor step",
                numbers: &["byte"],
                state: EXTRACTOR,
                answer: &["outcome", "sequence", "length"],
                lent: "buffer",
                returns: &[0, 1, 20, 21, 22, 23, 24, 25],
                ..empty
            },
            Operation::ExtractorFeed => Shape {
                name: "extractor feed",
                inputs: &["bytes"],
                state: EXTRACTOR,
                answer: &["outcome", "used", "sequence", "length"],
                lent: "buffer",
                returns: &[0, 1, 20, 21, 22, 23, 24, 25],
                ..empty
            },
            Operation::FrameWrite => Shape {
                name: "frame write",
                numbers: &["sequence", "limit"],
                inputs: &["payload"],
                answer: &["written"],
                lent: "output",
                returns: &[0, 1, 14, 15, 17],
                ..empty
            },
            Operation::FrameBegin => Shape {
                name: "frame begin",
                numbers: &["sequence", "limit", "total"],
                state: PARTS,
                returns: &[0, 1, 15, 17],
                ..empty
            },
            Operation::FramePart => Shape {
                name: "frame part",
                inputs: &["payload"],
                state: PARTS,
                answer: &["taken", "written", "ended"],
                lent: "output",
                returns: &[0, 1, 14, 26],
                ..empty
            },
            Operation::NextSequence => Shape {
                name: "next sequence",
                numbers: &["sequence"],
                answer: &["next"],
                returns: &[0, 1],
                ..empty
            },
            Operation::PacketWrite => Shape {
                name: "packet write",
                numbers: &[
                    "room",
                    "limit",
                    "stream",
                    "id",
                    "sequence",
                    "ack wanted",
                    "place",
                ],
                inputs: &["message"],
                answer: &["written", "next place"],
                lent: "output",
                returns: &[0, 1, 13, 14, 15, 17],
                ..empty
            },
            Operation::AckWrite => Shape {
                name: "ack write",
                numbers: &["stream", "id", "sequence", "positive"],
                answer: &["written"],
                lent: "output",
                returns: &[0, 1, 14, 15],
                ..empty
            },
            Operation::PacketRead => Shape {
                name: "packet read",
                numbers: &["limit"],
                inputs: &["bytes"],
                answer: &[
                    "end", "stream", "id", "sequence", "kind", "ack", "extended", "total", "start",
                    "length",
                ],
                returns: &[0, 1, 2, 3, 4, 5, 6, 7, 8, 12],
                ..empty
            },
            Operation::ReceiverOpen => Shape {
                name: "receiver open",
                numbers: &["limit"],
                state: RECEIVER,
                returns: &[0, 1, 17],
                ..empty
            },
            Operation::ReceiverAccept => Shape {
                name: "receiver accept",
                numbers: &["answer sequence"],
                inputs: &["packet"],
                state: RECEIVER,
                slots: 12,
                answer: &[
                    "outcome",
                    "stream",
                    "id",
                    "sequence",
                    "total",
                    "ack wanted",
                    "replaced",
                    "place",
                ],
                lent: "buffer",
                reply: "answer buffer",
                returns: &[0, 1, 2, 3, 4, 5, 6, 7, 8, 9, 10, 11, 12, 14, 15, 18],
                ..empty
            },
            Operation::CapturePacket => Shape {
                name: "capture packet",
                numbers: &["place"],
                inputs: &["capture"],
                answer: &["outcome", "start", "length", "next", "place"],
                returns: &[0, 1, 15, 40, 41, 42],
                ..empty
            },
            Operation::CaptureJudge => Shape {
                name: "capture judge",
                numbers: &["room", "limit"],
                inputs: &["capture"],
                answer: &["outcome", "place"],
                returns: &[0, 1, 13, 17, 40, 41, 42],
                ..empty
            },
            Operation::CaptureWhy => Shape {
                name: "capture why",
                numbers: &["room", "limit"],
                inputs: &["capture"],
                answer: WHY,
                returns: &[0, 1, 13, 17, 40, 41, 42],
                ..empty
            },
            Operation::ReportAdd => Shape {
                name: "report add",
                numbers: &["limit"],
                inputs: &["capture"],
                state: REPORT,
                slots: 12,
                answer: &["place"],
                lent: "buffer",
                returns: &[0, 1, 17, 19, 40, 41, 42],
                ..empty
            },
            Operation::EnvelopeRead => Shape {
                name: "envelope read",
                inputs: &["message"],
                answer: &[
                    "command",
                    "payload",
                    "error_code",
                    "field",
                    "start",
                    "length",
                ],
                returns: MESSAGE_READ,
                ..empty
            },
            Operation::EnvelopeWrite => Shape {
                name: "envelope write",
                numbers: &["command", "payload", "error_code", "field"],
                inputs: &["member"],
                answer: &["written"],
                lent: "output",
                returns: &[0, 1, 14, 15],
                ..empty
            },
            Operation::ResponseRead => Shape {
                name: "response read",
                inputs: &["message"],
                answer: &["error_code", "field", "start", "length"],
                returns: MESSAGE_READ,
                ..empty
            },
            Operation::ResponseWrite => Shape {
                name: "response write",
                numbers: &["error_code", "field"],
                inputs: &["member"],
                answer: &["written"],
                lent: "output",
                returns: &[0, 1, 14, 15],
                ..empty
            },
            Operation::InformationRead => Shape {
                name: "information read",
                inputs: &["message"],
                answer: INFORMATION,
                returns: STRINGS_READ,
                ..empty
            },
            Operation::InformationWrite => Shape {
                name: "information write",
                numbers: &["transports..."],
                inputs: &["serial_number", "name", "device_type"],
                answer: &["written", "field", "place"],
                lent: "output",
                returns: &[0, 1, 14, 15, 36],
                ..empty
            },
            Operation::FeaturesRead => Shape {
                name: "features read",
                inputs: &["message"],
                answer: &["features", "device_attributes"],
                // No member and no transport: nothing is too many.
                returns: &[0, 1, 30, 31, 32, 33],
                ..empty
            },
            Operation::FeaturesWrite => Shape {
                name: "features write",
                numbers: &["features", "device_attributes"],
                answer: &["written"],
                lent: "output",
                returns: &[0, 1, 14],
                ..empty
            },
            Operation::ReplyWrite => Shape {
                name: "reply write",
                numbers: &[
                    "features",
                    "device_attributes",
                    "information member",
                    "features member",
                    "room",
                    "limit",
                    "id",
                    "sequence",
                    "transports...",
                ],
                inputs: &["message", "serial_number", "name", "device_type"],
                answer: &["written", "field", "place"],
                lent: "output",
                returns: &[0, 1, 13, 14, 15, 17, 30, 31, 32, 33, 34, 36],
                ..empty
            },
            Operation::SegmentRead => Shape {
                name: "segment read",
                inputs: &["message"],
                answer: &[
                    "name.start",
                    "name.length",
                    "offset",
                    "size",
                    "signature.start",
                    "signature.length",
                    "field",
                    "place",
                ],
                // Nothing is too many.
                returns: &[0, 1, 30, 31, 32, 33, 36, 50],
                ..empty
            },
            Operation::SegmentWrite => Shape {
                name: "segment write",
                numbers: &["offset", "size"],
                inputs: &["name", "signature"],
                answer: &["written", "field", "place"],
                lent: "output",
                returns: &[0, 1, 14, 15, 36, 50],
                ..empty
            },
            Operation::ApplyRead => Shape {
                name: "apply read",
                inputs: &["message"],
                answer: APPLY_TOLD,
                returns: STRINGS_READ,
                ..empty
            },
            Operation::ApplyWrite => Shape {
                name: "apply write",
                numbers: APPLY,
                inputs: &["texts"],
                answer: &["written", "field", "place"],
                lent: "output",
                returns: &[0, 1, 14, 15, 36],
                ..empty
            },
            Operation::FieldRead => Shape {
                name: "field read",
                numbers: &["place"],
                inputs: &["message"],
                answer: &[
                    "outcome", "number", "kind", "value", "start", "length", "next",
                ],
                // No field is known and none is too many.
                returns: &[0, 1, 30, 31, 32],
                ..empty
            },
            Operation::OutboxNew => Shape {
                name: "outbox new",
                answer: &["used"],
                lent: "output",
                returns: &[0, 1, 14],
                ..empty
            },
            Operation::OutboxAppend => Shape {
                name: "outbox append",
                numbers: &["used", "stream"],
                inputs: &["payload"],
                answer: &["used", "cut place"],
                lent: "buffer",
                returns: &[0, 1, 14, 15, 40, 41, 42, 43],
                ..empty
            },
            Operation::OutboxRecord => Shape {
                name: "outbox record",
                numbers: &["place"],
                inputs: &["bytes"],
                answer: &["outcome", "stream", "start", "length", "next", "cut place"],
                returns: &[0, 1, 15, 40, 41, 42, 43],
                ..empty
            },
            Operation::OutboxWhole => Shape {
                name: "outbox whole",
                inputs: &["bytes"],
                answer: &["cut place"],
                returns: &[0, 1, 40, 41, 42, 43],
                ..empty
            },
            Operation::OutboxTo01 => Shape {
                name: "outbox to 01",
                inputs: &["bytes"],
                answer: &["size", "place"],
                lent: "output",
                returns: &[0, 1, 14, 40, 41, 42, 43, 46],
                ..empty
            },
            Operation::OutboxTo02 => Shape {
                name: "outbox to 02",
                inputs: &["bytes"],
                answer: &["size", "place"],
                lent: "output",
                // Every payload of 01 is short enough for 02.
                returns: &[0, 1, 14, 40, 41, 42, 43],
                ..empty
            },
            Operation::Text => Shape {
                name: "text",
                inputs: &["text"],
                answer: &["bad", "hidden"],
                returns: &[0, 1, 36],
                ..empty
            },
        }
    }
}

/// Somebody who answers calls, also of several threads at a time.
pub trait Implementation: Sync {
    fn name(&self) -> &str;

    /// One call: returns 0 or the refusal number; `state`, what is lent and `answer` are what it left.
    fn call(
        &self,
        operation: Operation,
        numbers: &[u64],
        inputs: &[Vec<u8>],
        state: &mut [u64],
        lent: Lent<'_>,
        answer: &mut [u64],
    ) -> u64;
}

/// A call with everything that goes into it.
#[derive(Clone, Debug)]
pub struct Call {
    pub operation: Operation,
    pub numbers: Vec<u64>,
    pub inputs: Vec<Vec<u8>>,
    pub state: Vec<u64>,
    pub slots: Vec<Slot>,
    pub lent: Vec<u8>,
    pub reply: Vec<u8>,
    pub answer: Vec<u64>,
}

impl Call {
    /// A call with rows of the right lengths, all 0, and no bytes.
    pub fn new(operation: Operation) -> Call {
        let shape = operation.shape();
        Call {
            operation,
            numbers: vec![0; shape.numbers.len()],
            inputs: vec![Vec::new(); shape.inputs.len()],
            state: vec![0; shape.state.len()],
            slots: vec![Slot::default(); shape.slots],
            lent: Vec::new(),
            reply: Vec::new(),
            answer: vec![0; shape.answer.len()],
        }
    }

    pub fn numbers(mut self, numbers: &[u64]) -> Call {
        self.numbers = numbers.to_vec();
        self
    }

    pub fn inputs(mut self, inputs: &[&[u8]]) -> Call {
        self.inputs = inputs.iter().map(|bytes| bytes.to_vec()).collect();
        self
    }

    pub fn lent(mut self, lent: Vec<u8>) -> Call {
        self.lent = lent;
        self
    }

    pub fn reply(mut self, reply: Vec<u8>) -> Call {
        self.reply = reply;
        self
    }

    pub fn state(mut self, state: &[u64]) -> Call {
        self.state = state.to_vec();
        self
    }

    pub fn slots(mut self, slots: &[Slot]) -> Call {
        self.slots = slots.to_vec();
        self
    }
}
