//! Whole lists: round trips, steps against feeds, frames in a stream, messages in interleaved
//! packets.

mod common;

use common::{accept, BUFFER};
use second::classic::{self, Decided, Extractor, Outcome, Standing};
use second::control::{self, Features, Given, Information, Payload};
use second::low_energy::{self, Accepted, Stream, Wish, IDLE, SLOTS};
use second::outbox;
use second::rng::Rng;

fn marked(rng: &mut Rng) -> u8 {
    match rng.below(3) {
        0 => *rng.pick(&[0xF0, 0xF1, 0xF2]),
        1 => *rng.pick(&[0x00, 0x02, 0x03]),
        _ => rng.byte(),
    }
}

fn noise(rng: &mut Rng, most: usize) -> Vec<u8> {
    (0..rng.index(most)).map(|_| marked(rng)).collect()
}

fn sequence(rng: &mut Rng) -> u8 {
    loop {
        let byte = rng.byte();
        if !classic::is_mark(byte) {
            return byte;
        }
    }
}

#[test]
fn feeds_decide_what_steps_decide() {
    let mut rng = Rng::new(7);
    for _ in 0..3_000 {
        let mut stream = Vec::new();
        for _ in 0..rng.between(1, 4) {
            let body = noise(&mut rng, 9);
            let sequence = rng.byte();
            stream.extend(classic::frame(sequence, &body));
            stream.extend(noise(&mut rng, 3));
            if rng.once_in(2) {
                let place = rng.index(stream.len());
                stream[place] = marked(&mut rng);
            }
        }
        let limit = *rng.pick(&[1, 2, 19, 20, 255, 256, 4_096, 20_000, 65_535]);
        let room = classic::buffer(limit);
        let held = rng.between(room.saturating_sub(13), room);
        let standing = match rng.below(3) {
            0 => Standing::Body {
                sequence: 1,
                held,
                escape: rng.once_in(2),
            },
            _ => Standing::Outside,
        };
        let mut state = Extractor { limit, standing };
        let mut buffer = rng.bytes(room);
        let mut rest = &stream[..];
        while !rest.is_empty() {
            let (mut stepped, mut stepped_buffer) = (state, buffer.clone());
            let mut decided = (rest.len(), Decided::AllUsed);
            for (place, &byte) in rest.iter().enumerate() {
                let (next, told) = stepped.step(&mut stepped_buffer, byte);
                stepped = next;
                decided = match told {
                    Ok(Outcome::Frame { sequence, length }) => {
                        (place + 1, Decided::Frame { sequence, length })
                    }
                    Err(refusal) => (place + 1, Decided::Refused(refusal)),
                    Ok(_) => continue,
                };
                break;
            }
            let (next, used, told) = state.feed(&mut buffer, rest);
            assert_eq!((used, told), decided);
            assert_eq!(next, stepped);
            assert!(buffer == stepped_buffer);
            state = next;
            rest = &rest[used..];
        }
    }
}

/// "The outcomes "frame" that are decided in the closing frames match the undamaged frames among
/// them, one each, in order": whatever stands between, a whole frame is always read at its last
/// byte.
#[test]
fn every_whole_frame_of_a_stream_is_given() {
    let mut rng = Rng::new(8);
    for _ in 0..2_000 {
        let mut stream = noise(&mut rng, 6);
        let mut expected = Vec::new();
        for _ in 0..rng.between(1, 5) {
            let body = noise(&mut rng, 12);
            let sequence = sequence(&mut rng);
            stream.extend(classic::frame(sequence, &body));
            expected.push((stream.len(), sequence, body));
            // Any noise may follow, and it may decide things too, but no frame: it has no F1.
            stream.extend(noise(&mut rng, 6).iter().filter(|&&byte| byte != 0xF1));
        }
        let limit = *rng.pick(&[12, 19, 20, 255, 256, 4_096, 20_000, 65_535]);
        let mut buffer = rng.bytes(classic::buffer(limit));
        let mut state = Extractor::open(limit).unwrap();
        let mut place = 0;
        let mut got = Vec::new();
        while place < stream.len() {
            let count = rng.between(1, 20).min(stream.len() - place);
            let (next, used, told) = state.feed(&mut buffer, &stream[place..place + count]);
            state = next;
            place += used;
            if let Decided::Frame { sequence, length } = told {
                got.push((place, sequence, buffer[..length].to_vec()));
            }
        }
        let (first, whole) = got.split_at(got.len() - expected.len());
        assert_eq!(whole, expected);
        // Noise before the first frame may be a frame by chance.
        assert!(first.len() <= 1);
    }
}

/// "The packets of one message are all that our writer writes for it, place after place": mixed
/// with packets of other streams, of other ids and ACK packets, each message is given.
#[test]
fn interleaved_messages_are_given() {
    let mut rng = Rng::new(9);
    for _ in 0..300 {
        let mut buffer = rng.bytes(BUFFER);
        let mut slots = IDLE;
        // Four of each stream at a time, with four ids.
        let first = rng.below(16);
        let messages: Vec<(Wish, Vec<u8>, usize)> = (0..SLOTS)
            .map(|index| {
                let wish = Wish {
                    stream: Stream::ALL[index / 4],
                    id: ((first + 5 * index as u64) % 16) as u8,
                    sequence: rng.below(16) as u8,
                    ack: rng.once_in(2),
                };
                let size = if rng.once_in(5) {
                    rng.index(4_097)
                } else {
                    rng.index(200)
                };
                (wish, rng.bytes(size), rng.between(20, 512))
            })
            .collect();
        let mut left: Vec<_> = messages
            .iter()
            .map(|(_, message, room)| low_energy::pieces(message.len(), *room))
            .collect();
        let mut finished = 0;
        let mut goes = [None; SLOTS];
        while finished < SLOTS {
            let turn = rng.index(SLOTS);
            let (wish, message, room) = &messages[turn];
            let Some(piece) = left[turn].next() else {
                continue;
            };
            let packet = low_energy::packet(*wish, message, piece);
            assert!(packet.len() <= *room);
            let (after, told) = accept(slots, &mut buffer, &packet);
            slots = after;
            let told = told.unwrap();
            let (Accepted::Held { place, .. } | Accepted::Finished { place, .. }) = told else {
                panic!("{told:?}")
            };
            // All packets of a message are told with one place, of its stream.
            assert!(wish.stream.places().contains(&place));
            assert_eq!(*goes[turn].get_or_insert(place), place);
            if piece.last {
                let expected = Accepted::Finished {
                    place,
                    stream: wish.stream,
                    id: wish.id,
                    total: message.len(),
                    ack_wanted: wish.ack,
                    replaced: false,
                };
                assert_eq!(told, expected);
                assert!(buffer[place * 4_096..].starts_with(message));
                finished += 1;
            } else {
                assert!(matches!(told, Accepted::Held { .. }));
            }
            let ack = low_energy::acknowledgement(wish.stream, wish.id, 3, rng.once_in(2));
            assert_eq!(accept(slots, &mut buffer, &ack).0, slots);
        }
        assert_eq!(slots, IDLE);
    }
}

/// "Each piece is the largest that is no more than the rest and fits its header in the room."
#[test]
fn pieces_are_the_largest() {
    for room in 20..=512 {
        let first = match room {
            ..=262 => (room - 6).min(255),
            _ => room - 7,
        };
        let next = match room {
            ..=259 => (room - 3).min(255),
            _ => room - 4,
        };
        let mut rest = 4_096;
        for piece in low_energy::pieces(4_096, room) {
            let most = if piece.index == 0 { first } else { next };
            assert_eq!(piece.size, most.min(rest), "room {room}");
            rest -= piece.size;
            assert_eq!(piece.last, rest == 0);
        }
        assert_eq!(rest, 0);
    }
}

#[test]
fn control_messages_come_back() {
    let mut rng = Rng::new(10);
    for _ in 0..3_000 {
        let text = |rng: &mut Rng| {
            let size = rng.index(150);
            let code = |_| char::from_u32(rng.below(0x11_0000) as u32);
            String::from_iter((0..size / 4).filter_map(code)).into_bytes()
        };
        let (serial, name, kind) = (text(&mut rng), text(&mut rng), text(&mut rng));
        let transports: Vec<i32> = (0..rng.index(9))
            .map(|_| rng.draw() as i32 >> rng.below(32))
            .collect();
        let mut output = vec![0; 700];
        let written =
            control::write_information(&serial, &name, &transports, &kind, &mut output).unwrap();
        let told = Information::read(&output[..written]).unwrap();
        assert_eq!(output[told.serial_number], serial);
        assert_eq!(output[told.name], name);
        assert_eq!(output[told.device_type], kind);
        assert_eq!(told.transports, transports);

        let features = Features {
            features: rng.draw() >> rng.below(64),
            device_attributes: rng.draw() >> rng.below(64),
        };
        let written = control::write_features(features, &mut output).unwrap();
        assert_eq!(Features::read(&output[..written]), Ok(features));

        let command = rng.draw() as i32 >> rng.below(32);
        let error_code = rng.draw() as i32 >> rng.below(32);
        let field = rng.below(control::LAST_FIELD - 1) + 2;
        let given = Given::Response {
            error_code,
            member: Some((field, &serial)),
        };
        let written = control::write_envelope(command, given, &mut output).unwrap();
        let told = control::Envelope::read(&output[..written]).unwrap();
        assert_eq!(told.command, command);
        let Payload::Response(response) = told.payload else {
            panic!("a response")
        };
        assert_eq!(response.error_code, error_code);
        let member = response.member.unwrap();
        assert_eq!(member.field, field);
        assert_eq!(output[member.part], serial);
    }
}

#[test]
fn outboxes_come_back() {
    let mut rng = Rng::new(11);
    for _ in 0..500 {
        let mut buffer = rng.bytes(5_000);
        let mut used = outbox::new(&mut buffer).unwrap();
        // A record's length and stream byte, in each version.
        let head = *rng.pick(&[3, 5]);
        if head == 3 {
            buffer[0] = 0x01;
        }
        let mut expected = Vec::new();
        for _ in 0..rng.index(6) {
            let stream = *rng.pick(&Stream::ALL);
            let size = if rng.once_in(9) { 4_096 } else { rng.index(40) };
            let payload = rng.bytes(size);
            let number = u64::from(stream.number());
            match outbox::append(&mut buffer, used as u64, number, &payload) {
                Ok(after) => {
                    assert_eq!(after, used + head + payload.len());
                    used = after;
                    expected.push((stream, payload));
                }
                Err(_) => assert!(used + head + payload.len() > 5_000),
            }
        }
        let got: Vec<(Stream, Vec<u8>)> = outbox::whole(&buffer[..used])
            .unwrap()
            .iter()
            .map(|record| {
                let payload = &buffer[record.start..record.start + record.length];
                (record.stream, payload.to_vec())
            })
            .collect();
        assert_eq!(got, expected);
    }
}
