//! What the examples of the documentation leave out: each outcome and each refusal that the types can tell.

use pitokaenge::*;

const LIMIT: Limit = Limit::of::<64>();

/// Payloads of all kinds and lengths, from a fixed seed.
fn payloads() -> Vec<Vec<u8>> {
    let mut state = 1_u64;
    let mut next = move || {
        state = state.wrapping_mul(6364136223846793005).wrapping_add(1);
        (state >> 33) as u8
    };
    (0..=64)
        .map(|length| {
            (0..length)
                .map(|_| {
                    if next() % 3 == 0 {
                        0xF0 + next() % 3
                    } else {
                        next()
                    }
                })
                .collect()
        })
        .collect()
}

#[test]
fn frames_come_back_however_they_are_written() {
    let mut whole = [0; sizes::frame_size(64)];
    let mut buffer = [0; 80];
    let mut extractor = Extractor::new(LIMIT, &mut buffer[..]).unwrap();
    let mut sequence = 0xEC;
    for payload in payloads() {
        let frame = write_frame(sequence, LIMIT, &payload, &mut whole).unwrap();
        for (part, room) in [(1, 1), (7, 3), (64, 200)] {
            let mut writer = FrameWriter::begin(sequence, LIMIT, payload.len()).unwrap();
            let (mut output, mut joined) = ([0; 200], Vec::new());
            let mut parts = payload.chunks(part);
            let mut rest: &[u8] = &[];
            while !writer.has_ended() {
                if rest.is_empty() {
                    rest = parts.next().unwrap_or(&[]);
                }
                joined.extend_from_slice(writer.write(&mut rest, &mut output[..room]).unwrap());
            }
            assert_eq!(joined, frame);
        }
        let mut rest = frame;
        let expected = Frame {
            sequence,
            payload: &payload,
        };
        assert_eq!(extractor.feed(&mut rest), Some(Event::Frame(expected)));
        assert_eq!(rest, b"");
        sequence = next_sequence(sequence);
    }
}

#[test]
fn refused_bytes_and_buffers() {
    assert_eq!(Extractor::new(LIMIT, [0; 65]).err(), Some(Refusal::Unfit));
    let mut extractor = Extractor::new(LIMIT, [0; 66]).unwrap();
    let long = [&b"\xF0\x02\x00\x00"[..], &[7; 67]].concat();
    let cases: [(&[u8], Refusal, usize); 6] = [
        (b"\xF0\xF0", Refusal::StartInside, 0),
        (b"\xF0\x02\x00\x00\x01\xF1.", Refusal::FrameShort, 1),
        (b"\xF0\x03..", Refusal::Header, 2),
        (b"\xF0\x02\x00\x00\xF2\x05.", Refusal::Escape, 1),
        (&long, Refusal::FrameLong, 0),
        (b"\xF0\x02\x00\x00\x00\x03\xF1", Refusal::Checksum, 0),
    ];
    for (bytes, refusal, left) in cases {
        let mut extractor = extractor.clone();
        let mut rest = bytes;
        assert_eq!(extractor.feed(&mut rest), Some(Event::Refused(refusal)));
        assert_eq!(rest.len(), left);
    }
    extractor.step(0xF0).unwrap();
    assert_eq!(extractor.step(0xF1), Err(Refusal::FrameShort));
    let mut writer = FrameWriter::begin(0, LIMIT, 1).unwrap();
    assert_eq!(
        writer.write(&mut &b"ab"[..], &mut [0; 9]),
        Err(Refusal::TooMuch)
    );
    assert_eq!(writer.write(&mut &b"a"[..], &mut []), Err(Refusal::Output));
    assert_eq!(
        FrameWriter::begin(0, LIMIT, 65).err(),
        Some(Refusal::Argument)
    );
}

#[test]
fn messages_arrive_at_every_room() {
    let mut row = [Slot::default(); sizes::SLOTS];
    let mut buffer = vec![0; sizes::receiver_buffer(65_535)];
    let limit = Limit::LARGEST;
    let mut link = Link::open(limit, &mut row, &mut buffer).unwrap();
    let message: Vec<u8> = (0..1000).map(|place| (place % 251) as u8).collect();
    for (room, ack_wanted) in [(20, true), (262, false), (263, true), (512, false)] {
        let transaction = Transaction {
            room: Room::new(room).unwrap(),
            limit,
            stream: Stream::Ota,
            id: 15,
            sequence: 14,
            ack_wanted,
        };
        let mut by_hand = transaction.packets(&message).unwrap();
        let mut arrived = 0;
        for packet in transaction.packets(&message).unwrap() {
            assert_eq!(
                by_hand.write_next(&mut vec![0; room - 1]),
                Err(Refusal::Output)
            );
            let mut output = vec![0; room];
            assert_eq!(by_hand.write_next(&mut output), Ok(Some(&packet[..])));
            if let Accepted::Finished(whole) = link.accept(&packet, 3).unwrap() {
                assert_eq!(whole.bytes, message);
                assert_eq!(
                    whole.ack,
                    ack_wanted.then(|| ack(Stream::Ota, 15, 3).unwrap())
                );
                arrived += 1;
            }
        }
        assert_eq!(by_hand.write_next(&mut []), Ok(None));
        assert_eq!(arrived, 1);
    }
}

#[test]
fn four_transactions_of_a_stream() {
    let mut row = [Slot {
        opened: 2,
        ..Slot::default()
    }; sizes::SLOTS];
    let mut buffer = [0; sizes::receiver_buffer(64)];
    assert_eq!(
        Link::open(LIMIT, &mut row, &mut buffer[1..]).err(),
        Some(Refusal::Unfit)
    );
    let mut link = Link::open(LIMIT, &mut row, &mut buffer).unwrap();
    let first = |id: u8| [id, 0, 0, 0, 2, 1, 0xA0 + id];
    let piece = |id, place, replaced| {
        Ok(Accepted::Piece {
            stream: Stream::Control,
            id,
            place,
            replaced,
        })
    };
    for (place, id) in [3, 1, 2, 0].into_iter().enumerate() {
        assert_eq!(link.accept(&first(id), 0), piece(id, place, false));
    }
    assert_eq!(link.accept(&first(4), 0), Err(Refusal::NoSlot));
    assert_eq!(link.accept(&first(2), 0), piece(2, 2, true));
    assert_eq!(link.accept(&[9, 0, 0, 0, 0, 0], 0), Err(Refusal::NoSlot));
    assert_eq!(link.accept(&[], 16), Err(Refusal::Argument));
    link.clear();
    assert_eq!(link.accept(&first(4), 0), piece(4, 0, false));

    let (stream, id, sequence) = (Stream::Alexa, 1, 7);
    let (yes, no) = (
        ack(stream, id, sequence).unwrap(),
        nack(stream, id, sequence).unwrap(),
    );
    assert_eq!(
        link.accept(&yes, 0),
        Ok(Accepted::Ack {
            stream,
            id,
            sequence
        })
    );
    assert_eq!(
        link.accept(&no, 0),
        Ok(Accepted::Nack {
            stream,
            id,
            sequence
        })
    );
}

#[test]
fn messages_are_read_as_they_were_written() {
    let member = Member {
        number: 5,
        bytes: b"abc",
    };
    let payloads = [
        Payload::None,
        Payload::Member(member),
        Payload::Response(Response::default()),
        Payload::Response(Response {
            error_code: -1,
            payload: Some(member),
        }),
    ];
    for payload in payloads {
        let envelope = Envelope {
            command: -20,
            payload,
        };
        let mut output = [0; sizes::envelope_size(3)];
        assert_eq!(
            Envelope::read(envelope.write(&mut output).unwrap()),
            Ok(envelope)
        );
    }
    for number in [0, 1, 536_870_912] {
        let payload = Some(Member { number, bytes: b"" });
        let response = Response {
            error_code: 0,
            payload,
        };
        assert_eq!(response.write(&mut [0; 40]), Err(Refusal::Argument));
    }
    let information = DeviceInformation {
        name: "Ofen 3, Tür",
        transports: UpToEight::new(&[0, -1, i32::MAX, i32::MIN, 4, 5, 6, 7]).unwrap(),
        ..Default::default()
    };
    let mut output = [0; sizes::information_size(0, 12, 0)];
    assert_eq!(
        DeviceInformation::read(information.write(&mut output).unwrap()),
        Ok(information)
    );
    assert_eq!(information.write(&mut output[..20]), Err(Refusal::Output));
    assert_eq!(DeviceFeatures::read(b"\x0D"), Err(Refusal::WireType));
}

#[test]
fn firmware_messages() {
    let component = FirmwareComponent {
        version: u32::MAX,
        name: "Lüfter",
        size: 1,
        signature: "s",
    };
    let apply = ApplyFirmware {
        restart_required: true,
        information: FirmwareInformation {
            version: 7,
            name: "name",
            components: UpToEight::new(&[component; 8]).unwrap(),
            locale: "de",
            version_name: "7.0",
        },
    };
    let length = apply.texts_length();
    assert_eq!(length, 4 + 8 * (7 + 1) + 2 + 3);
    let (mut texts, mut output) = (vec![0; length], vec![0; sizes::apply_size(8, length)]);
    assert_eq!(
        apply.write(&mut texts[1..], &mut output),
        Err(Refusal::Output)
    );
    assert_eq!(
        apply.write(&mut texts, &mut output[..9]),
        Err(Refusal::Output)
    );
    assert_eq!(
        ApplyFirmware::read(apply.write(&mut texts, &mut output).unwrap()),
        Ok(apply)
    );
    assert_eq!(ApplyFirmware::read(b""), Ok(ApplyFirmware::default()));
    let locale = ApplyFirmware::read(b"\x0A\x03\x22\x01\xC3").unwrap_err();
    assert_eq!(
        (locale.refusal, locale.field, locale.place),
        (Refusal::Text, Some(4), Some(0))
    );
    let segment = UpdateComponentSegment::default();
    let refused = segment.write(&mut [0; 99]).unwrap_err();
    assert_eq!(
        (refused.refusal, refused.field, refused.place),
        (Refusal::Profile, Some(4), None)
    );
}

#[test]
fn fields_of_every_kind() {
    let message = b"\x08\x05\x11abcdefgh\x1A\x00\x25wxyz";
    let fields: Vec<_> = Fields::of(message).map(Result::unwrap).collect();
    let field = |number, value| Field { number, value };
    assert_eq!(
        fields,
        [
            field(1, Value::Varint(5)),
            field(2, Value::EightBytes(b"abcdefgh")),
            field(3, Value::Bytes(b"")),
            field(4, Value::FourBytes(b"wxyz")),
        ]
    );
    assert_eq!(Fields::of(b"\x0B").next(), Some(Err(Refusal::Tag)));
}

#[test]
fn replies() {
    let device = Device {
        information: DeviceInformation {
            name: "n",
            ..Default::default()
        },
        features: DeviceFeatures::default(),
        information_member: 0,
        features_member: 9,
    };
    let mut output = [0; sizes::reply_size(0, 1, 0)];
    let mut reply = |message: &[u8]| {
        let packets = device.reply(message, Room::LEAST, LIMIT, 0, 0, &mut output);
        packets
            .map(|packets| (packets.bytes().len(), packets.count()))
            .map_err(Refusal::from)
    };
    assert_eq!(reply(b"\x08\x14"), Err(Refusal::Argument));
    assert_eq!(reply(b"\x08\x1C"), Ok((12, 1)));
    assert_eq!(reply(b"\x08\x14\x4A\x00"), Ok((0, 0)));
    assert_eq!(reply(b"\x08"), Err(Refusal::MessageCut));
}

#[test]
fn outboxes_cut_anywhere() {
    let mut buffer = [0; 64];
    let mut outbox = Outbox::begin(&mut buffer).unwrap();
    for (stream, payload) in [
        (Stream::Alexa, &b"AB"[..]),
        (Stream::Ota, b""),
        (Stream::Control, b"C"),
    ] {
        outbox.append(stream, payload).unwrap();
    }
    assert_eq!(outbox.append(Stream::Alexa, &[0; 60]), Err(Refusal::Output));
    let file = outbox.bytes().to_vec();
    let all: Vec<_> = Records::of(&file).map(Result::unwrap).collect();
    assert_eq!(all.len(), 3);
    for length in 1..=file.len() {
        let whole_ones = all.iter().filter(|record| record.next <= length).count();
        let mut records = Records::of(&file[..length]);
        for record in &all[..whole_ones] {
            assert_eq!(records.next(), Some(Ok(*record)));
        }
        let end = all[..whole_ones].last().map_or(1, |record| record.next);
        let cut = Refused {
            refusal: Refusal::RecordCut,
            field: None,
            place: Some(end),
        };
        assert_eq!(records.next(), (length > end).then_some(Err(cut)));
        assert_eq!(records.next(), None);
        assert_eq!(whole(&file[..length]).err(), (length > end).then_some(cut));
        let mut bytes = file.clone();
        let (outbox, dropped) = Outbox::recover(&mut bytes, length).unwrap();
        assert_eq!(outbox.bytes(), &file[..end]);
        assert_eq!(dropped, (length > end).then_some(end));
    }
    assert_eq!(Outbox::begin(&mut []).err(), Some(Refusal::Output));
    assert_eq!(
        Outbox::resume(&mut [2], 2).unwrap_err().refusal,
        Refusal::Unfit
    );
    assert_eq!(
        Outbox::recover(&mut [3], 1).unwrap_err().refusal,
        Refusal::Version
    );
}

#[test]
fn outboxes_of_either_version() {
    let mut old = *b"\x01\x00\x03\x06AB\x00\x02\x00C";
    let (mut output, mut back) = ([0; 20], [0; 20]);
    let new = write_as(Version::V02, &old, &mut output).unwrap();
    assert_eq!(write_as(Version::V01, new, &mut back).unwrap(), old);
    let refused = |version, bytes: &[u8], output: &mut [u8]| {
        let refused = write_as(version, bytes, output).unwrap_err();
        (refused.refusal, refused.place)
    };
    assert_eq!(
        refused(Version::V02, &old, &mut [0; 9]),
        (Refusal::Output, None)
    );
    assert_eq!(
        refused(Version::V02, &old[..8], &mut [0; 20]),
        (Refusal::RecordCut, Some(6))
    );
    let mut large = [&b"\x02\x00\x00\x10\x02\x06"[..], &[0; 4097]].concat();
    assert_eq!(
        refused(Version::V01, &large, &mut [0; 9000]),
        (Refusal::RecordLong, Some(1))
    );
    let mut outbox = Outbox::resume(&mut old, 10).unwrap();
    assert_eq!(
        outbox.append(Stream::Alexa, &[0; 4097]),
        Err(Refusal::Argument)
    );
    assert_eq!(
        Outbox::resume(&mut large, 4103).unwrap().records().count(),
        1
    );
}

#[test]
fn every_refusal_has_its_number() {
    for refusal in (0..=255).filter_map(Refusal::of) {
        assert_eq!(Refusal::of(refusal.number()), Some(refusal));
        assert!(!refusal.meaning().is_empty());
    }
}

#[test]
fn packets_read_one_by_one() {
    let transaction = Transaction {
        room: Room::LEAST,
        limit: LIMIT,
        stream: Stream::Ota,
        id: 3,
        sequence: 14,
        ack_wanted: true,
    };
    let message: Vec<u8> = (0..64).collect();
    let sent: Vec<_> = transaction.packets(&message).unwrap().collect();
    let mut joined: Vec<u8> = sent.iter().flat_map(|packet| packet.to_vec()).collect();
    joined.extend(nack(Stream::Alexa, 9, 5).unwrap());
    let mut rest = &joined[..];
    let mut payload: Vec<u8> = Vec::new();
    for (index, packet) in sent.iter().enumerate() {
        let read = read_packet(rest, LIMIT).unwrap();
        assert_eq!(read.bytes, &packet[..]);
        assert_eq!((read.stream, read.id), (Stream::Ota, 3));
        assert_eq!(usize::from(read.sequence), (14 + index) % 16);
        let last = index + 1 == sent.len();
        let kind = match index {
            0 => PacketKind::First { total: 64 },
            _ if last => PacketKind::Last,
            _ => PacketKind::Continuation,
        };
        assert_eq!((read.kind, read.ack_wanted), (kind, last));
        // Whatever is left out of it, it is refused.
        for length in 0..packet.len() {
            assert!(read_packet(&rest[..length], LIMIT).is_err());
        }
        payload.extend(read.payload);
        rest = &rest[read.bytes.len()..];
    }
    assert_eq!(payload, message);
    let read = read_packet(rest, LIMIT).unwrap();
    assert_eq!((read.kind, read.sequence), (PacketKind::Nack, 5));
    assert_eq!((read.payload, read.ack_wanted), (&[][..], false));
    assert_eq!(read_packet(&[], LIMIT), Err(Refusal::PacketShort));
    let small = Limit::of::<63>();
    assert_eq!(read_packet(&joined, small), Err(Refusal::Total));
}

#[test]
fn captures_cut_anywhere() {
    let capture = b"\x01\x00\x02AB\x00\x01C";
    let whole: Vec<_> = CapturedPackets::of(capture).map(Result::unwrap).collect();
    assert_eq!(whole.len(), 2);
    for length in 0..=capture.len() {
        let mut packets = CapturedPackets::of(&capture[..length]);
        for packet in whole.iter().filter(|packet| packet.next <= length) {
            assert_eq!(packets.next(), Some(Ok(*packet)));
        }
        match length {
            1 | 5 | 8 => assert_eq!(packets.next(), None),
            0 => {
                let refused = packets.next().unwrap().unwrap_err();
                assert_eq!((refused.refusal, refused.place), (Refusal::Version, None));
            }
            _ => {
                let refused = packets.next().unwrap().unwrap_err();
                let place = if length < 5 { 1 } else { 5 };
                assert_eq!(refused.refusal, Refusal::RecordCut);
                assert_eq!(refused.place, Some(place));
            }
        }
        assert_eq!(packets.next(), None);
    }
    let refused = read_captured(capture, 9).unwrap_err();
    assert_eq!((refused.refusal, refused.place), (Refusal::Argument, None));
    assert_eq!(read_captured(capture, 0), Err(Refusal::Argument.into()));
}
