//! "Worked by hand", P1 to P12, and "Slips we have seen", on the model itself.

mod common;

use common::{accept, BUFFER};
use second::classic::{self, listing, next_sequence, write_frame, Decided, Extractor};
use second::control::{self, Envelope, Given, Payload, Response};
use second::driver::worked::bytes;
use second::low_energy::{
    acknowledgement, pieces, write_packet, Accepted, Open, Stream, Wish, IDLE,
};
use second::outbox;
use second::refusal::Refusal;

fn alexa(ack: bool) -> Option<Wish> {
    Some(Wish {
        stream: Stream::Alexa,
        id: 1,
        sequence: 0,
        ack,
    })
}

/// Writes into an output that is large enough and gives what was written.
fn made(write: impl FnOnce(&mut [u8]) -> Result<usize, Refusal>) -> Vec<u8> {
    let mut output = vec![0xCC; 64];
    let written = write(&mut output).expect("no refusal");
    assert!(output[written..].iter().all(|&byte| byte == 0xCC));
    output.truncate(written);
    output
}

#[test]
fn p1_empty_payload() {
    let frame = made(|output| write_frame(0, classic::LIMIT, &[], output));
    assert_eq!(frame, bytes("F0 02 00 00 00 02 F1"));
}

#[test]
fn p2_payload_of_a_mark() {
    let frame = made(|output| write_frame(5, classic::LIMIT, &[0xF0], output));
    assert_eq!(frame, bytes("F0 02 00 05 F2 02 00 F2 00 F1"));
}

#[test]
fn p3_sequence_bytes() {
    assert_eq!([0xEF, 0xFF, 0x00].map(next_sequence), [0xF3, 0x00, 0x01]);
}

#[test]
fn p4_headers_of_35_bytes_at_room_20() {
    let message: Vec<u8> = (0..35).collect();
    let mut place = 0;
    let mut headers = Vec::new();
    let mut piece_sizes = Vec::new();
    while place < 35 {
        let mut output = [0; 20];
        let (written, next) = write_packet(
            20,
            classic::LIMIT,
            alexa(true),
            &message,
            place as u64,
            &mut output,
        )
        .unwrap();
        let header = written - (next - place);
        assert_eq!(output[header..written], message[place..next]);
        headers.push(output[..header].to_vec());
        piece_sizes.push(next - place);
        place = next;
    }
    let expected = ["61 00 00 00 23 0E", "61 14 11", "61 2A 04"].map(bytes);
    assert_eq!(headers, expected);
    assert_eq!(piece_sizes, [14, 17, 4]);
}

fn sizes(length: usize, room: usize) -> Vec<usize> {
    pieces(length, room).map(|piece| piece.size).collect()
}

#[test]
fn p5_490_bytes_at_room_244() {
    assert_eq!(sizes(490, 244), [238, 241, 11]);
}

#[test]
fn p6_300_bytes() {
    assert_eq!(sizes(300, 262), [255, 45]);
    assert_eq!(sizes(300, 263), [256, 44]);
    let message = [7; 300];
    let mut output = [0; 263];
    write_packet(263, classic::LIMIT, alexa(false), &message, 0, &mut output).unwrap();
    assert_eq!(output[..7], bytes("61 01 00 01 2C 01 00"));
    write_packet(262, classic::LIMIT, alexa(false), &message, 0, &mut output).unwrap();
    assert_eq!(output[..6], bytes("61 00 00 01 2C FF"));
}

#[test]
fn p7_after_sequence_15() {
    let open = Open {
        id: 2,
        total: 10,
        held: 3,
        sequence: 15,
        wanted: false,
    };
    let mut slots = IDLE;
    slots[0] = Some(open);
    let mut buffer = vec![0; BUFFER];
    let (after, told) = accept(slots, &mut buffer, &bytes("02 04 01 AA"));
    assert!(matches!(told, Ok(Accepted::Held { .. })));
    let open = after[0].unwrap();
    assert_eq!((open.held, open.sequence), (4, 0));
    let (after, told) = accept(slots, &mut buffer, &bytes("02 A4 01 BB"));
    assert_eq!(told, Err(Refusal::OutOfOrder));
    assert_eq!(after, IDLE);
    assert_eq!(buffer[..5], [0, 0, 0, 0xAA, 0]);
}

#[test]
fn p8_acknowledgements() {
    let ack = acknowledgement(Stream::Alexa, 1, 0, true);
    let nack = acknowledgement(Stream::Alexa, 1, 0, false);
    assert_eq!(ack[..], bytes("61 0E 00 02 01 00"));
    assert_eq!(nack[..], bytes("61 0C 00 02 01 03"));
    let mut buffer = vec![0; BUFFER];
    for sequence in 0..16 {
        for positive in [false, true] {
            let packet = acknowledgement(Stream::Ota, 5, sequence, positive);
            let (after, told) = accept(IDLE, &mut buffer, &packet);
            let expected = Accepted::Acknowledgement {
                stream: Stream::Ota,
                id: 5,
                sequence,
                positive,
            };
            assert_eq!((after, told), (IDLE, Ok(expected)));
        }
    }
}

#[test]
fn p9_empty_transaction() {
    let wish = Wish {
        stream: Stream::Control,
        id: 0,
        sequence: 0,
        ack: false,
    };
    let mut output = [0xCC; 20];
    assert_eq!(
        write_packet(20, classic::LIMIT, Some(wish), &[], 0, &mut output),
        Ok((6, 0))
    );
    assert_eq!(output[..7], [0, 0, 0, 0, 0, 0, 0xCC]);
    let mut buffer = vec![0xEE; BUFFER];
    let (after, told) = accept(IDLE, &mut buffer, &output[..6]);
    assert_eq!(after, IDLE);
    let expected = Accepted::Finished {
        place: 0,
        stream: Stream::Control,
        id: 0,
        total: 0,
        ack_wanted: false,
        replaced: false,
    };
    assert_eq!(told, Ok(expected));
    assert!(buffer.iter().all(|&byte| byte == 0xEE));
}

#[test]
fn p10_commands() {
    for (command, error_code, message) in [(94, 0, "08 5E 4A 00"), (20, 3, "08 14 4A 02 08 03")] {
        let given = Given::Response {
            error_code,
            member: None,
        };
        let written = made(|output| control::write_envelope(command, given, output));
        assert_eq!(written, bytes(message));
        let response = Response {
            error_code,
            member: None,
        };
        let expected = Envelope {
            command,
            payload: Payload::Response(response),
        };
        assert_eq!(Envelope::read(&written), Ok(expected));
    }
}

#[test]
fn p11_minus_one() {
    let message = bytes("08 FF FF FF FF FF FF FF FF FF 01");
    let told = Envelope::read(&message).unwrap();
    assert_eq!(told.command, -1);
    assert_eq!(told.payload, Payload::None);
    let written = made(|output| control::write_envelope(-1, Given::None, output));
    assert_eq!(written, message);
}

#[test]
fn p12_one_record() {
    let file = bytes("01 00 03 06 41 42");
    let records = outbox::whole(&file).unwrap();
    let [record] = records[..] else {
        panic!("one record")
    };
    assert_eq!(record.stream, Stream::Alexa);
    assert_eq!(file[record.start..][..record.length], *b"AB");
    let broken = outbox::whole(&file[..5]).unwrap_err();
    assert_eq!(broken.refusal, Refusal::RecordCut);
    assert_eq!(broken.place, Some(1));
    assert_eq!(outbox::record(&file[..5], 1).unwrap_err(), broken);
}

#[test]
fn frames_prints_the_listing() {
    let stream = bytes("00 F0 02 00 05 F2 02 00 F2 00 F1 F0 02 F0 02 00 06 00 02 F1");
    let expected = "\
frame 10 5 1
refused 20 at 13
frame 19 6 0
skipped 1
end 20 outside
";
    assert_eq!(listing(&stream), expected);
}

#[test]
fn frames_says_inside_if_a_frame_is_open() {
    assert_eq!(listing(&[]), "skipped 0\nend 0 outside\n");
    assert_eq!(listing(&[0xF0]), "skipped 0\nend 1 inside\n");
    let cut = bytes("11 22 F0 02 01 33 F0 02 00 09");
    assert_eq!(listing(&cut), "refused 22 at 4\nskipped 3\nend 10 inside\n");
}

/// Feeds a stream from outside and gives what each call decided, until all is used.
fn decisions(stream: &[u8]) -> Vec<Decided> {
    let mut buffer = vec![0; classic::buffer(classic::LIMIT)];
    let mut state = Extractor::open(classic::LIMIT).unwrap();
    let mut rest = stream;
    let mut all = Vec::new();
    loop {
        let (next, used, decided) = state.feed(&mut buffer, rest);
        if decided == Decided::AllUsed {
            return all;
        }
        all.push(decided);
        state = next;
        rest = &rest[used..];
    }
}

#[test]
fn slip_waiting_for_f1_after_a_fresh_f0() {
    let stream = bytes("F0 02 00 07 11 22 F0 02 00 08 00 02 F1");
    let frame = Decided::Frame {
        sequence: 8,
        length: 0,
    };
    let expected = [Decided::Refused(Refusal::StartInside), frame];
    assert_eq!(decisions(&stream), expected);
}

#[test]
fn slip_summing_the_escaped_payload() {
    let wrong = bytes("F0 02 00 05 F2 02 00 F6 F1");
    assert_eq!(decisions(&wrong), [Decided::Refused(Refusal::Checksum)]);
}

#[test]
fn slip_leaving_the_checksum_unescaped() {
    let frame = made(|output| write_frame(1, classic::LIMIT, &[0xEE], output));
    assert_eq!(frame, bytes("F0 02 00 01 EE 00 F2 02 F1"));
    let wrong = bytes("F0 02 00 01 EF 00 F1 F1");
    assert_eq!(decisions(&wrong)[0], Decided::Refused(Refusal::Checksum));
}

#[test]
fn slip_refusing_an_extender_on_200() {
    let mut buffer = vec![0; BUFFER];
    let packet = [bytes("61 01 00 00 C8 00 C8"), vec![9; 200]].concat();
    let (_, told) = accept(IDLE, &mut buffer, &packet);
    assert!(matches!(told, Ok(Accepted::Finished { total: 200, .. })));
}

#[test]
fn slip_finishing_14_of_35() {
    let mut buffer = vec![0; BUFFER];
    let packet = [bytes("61 02 00 00 23 0E"), vec![9; 14]].concat();
    let (after, told) = accept(IDLE, &mut buffer, &packet);
    assert!(matches!(told, Ok(Accepted::Held { .. })));
    let open = after[8].unwrap();
    assert_eq!((open.held, open.total), (14, 35));
}
