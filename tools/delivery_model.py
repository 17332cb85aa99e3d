#!/usr/bin/env python3
"""A second model of the writer's contract and of the claims of crate `ble_claims`, written from docs/FORMATS.md.

A must-fail edit shows only that a written proof no longer fits. This model shows that the statement itself is false under it:
it tries each statement on random instances, in the words of specs/Delivery.antt. As they stand no counterexample may be found;
with each edit one has to be found for the statements named beside it, and none for the others. Run it with no argument.

  contract   the writer's answer and output are those of its definition, at any place (crate sender, `write_packet`): the
             largest pieces, one ACK flag, sequences modulo 16, 13, 15 and 14
  delivery   where a packet is the first of those that the writer's calls give for a message, after any packets, its id is
             then open in its stream or a slot of its stream idle, and those of its stream and id after it are the others,
             among packets of other streams and other ids, each packet with an answer sequence and an answer buffer, in
             their ranges for the message's own, what the replies to these show is `atLast` of the message at some place: all
             are told with it, and the last gives the message, with the ACK if the wish was one (`messages_arrive`)
  returning  the same with nothing before or between (`round_trip`)
  asked      `atLast` of a message has it once, whatever packets there are, none too (`message_asked`)

An edit that stands in must-fail of the two crates has its name here; those in brackets show which statements a writer, receiver
or reader that does nothing, or answers otherwise, meets. A writer's edit that leaves `delivery` true (a smaller piece arrives just
as well) is ruled out by the contract alone, and so is a receiver that looks at the packet before 15 and 14. With an `atLast`
that asks for nothing where there are no packets after the first, a writer that refuses all meets `delivery`: that is why
`asked` is one."""
import random
import sys

EDITS = {
    "ack_on_the_first": ("contract", "the ACK flag stands on the first packet"),
    "last_piece_empty": ("contract", "a piece of no bytes begins where the message ends"),
    "piece_of_254": ("contract", "a full piece is one byte less than fits, where 255 would"),
    "sequence_not_modulo": ("contract", "the definition does not reduce the sequence modulo 16"),
    "extender_at_255": ("contract", "the extender is used at 255 too"),
    "last_not_told": ("contract", "the last packet is told with a next place"),
    "own_id_between": ("delivery", "packets of the message's own stream and id may come between"),
    "no_slot_asked": ("delivery returning", "the message's first packet may find no slot"),
    "another_ack_wish": ("delivery returning", "the message given always wants an ACK"),
    "given_at_each": ("delivery returning asked", "each packet gives the message"),
    "part_of_control": ("delivery returning", "the message stands in the first part, whatever its place"),
    "state_not_kept": ("delivery returning", "each packet meets the slots of the beginning"),
    "ack_always": ("delivery returning", "the last packet's answer buffer begins with an ACK whatever the wish"),
    "nothing_asked": ("delivery returning asked", "after the last packet nothing is asked for"),
    "(refusing writer)": ("contract delivery returning", "the writer refuses all"),
    "(refusing writer, nothing_asked)": ("contract returning asked", "both: `delivery` holds of it"),
    "(idle receiver)": ("delivery returning", "the receiver takes every packet and does nothing"),
    "(refusing reader)": ("delivery returning", "every packet that is read is refused"),
    "(replaced wish kept)": ("delivery returning", "a first packet adds its flag to the wish of what it replaces"),
    "(last flag alone)": ("", "the last packet's flag alone says whether an ACK is wanted"),
    "(highest idle slot)": ("", "a first packet takes the highest idle slot"),
    "(second slot)": ("delivery returning", "a first packet whose id is open takes an idle slot"),
    "(18 for an open id)": ("delivery returning", "a first packet whose id is open is refused"),
    "(another stream's slot)": ("delivery", "an id is looked for in all streams"),
    "(no 18)": ("delivery", "a first packet that finds no slot takes its stream's first"),
    "(one at a time)": ("delivery", "a first packet replaces what is open in its stream's first slot"),
    "(first place told)": ("delivery returning", "the place told is that of the stream's first slot"),
    "(ack unasked)": ("delivery returning", "every finished transaction is answered"),
    "(piece answered)": ("delivery returning", "every piece is answered"),
    "(packet's sequence)": ("delivery returning", "the ACK has the last packet's sequence"),
    "(nack)": ("delivery returning", "what is written is a NACK"),
    "(no ack)": ("delivery returning", "nothing is answered"),
    "(packet before 15 and 14)": ("", "a packet's own refusal comes before 15 and 14"),
    "(own packets answerable or not)": ("delivery returning", "the message's own packets may get 15 and 14"),
}
STREAMS = [0, 2, 6]
EACH, SLOTS = 4, 12
edit = None


# ---- the writer: the definition (pieces by search) and the code (pieces by division)
def size_for(room, first, rest):
    fits = lambda n: (6 if first else 3) + (n > 255) + n <= room
    return max(n for n in range(rest + 1) if n == 0 or fits(n))


def pieces(room, length):
    out, place = [], 0
    while True:
        out.append((len(out), place, size_for(room, not out, length - place)))
        place += out[-1][2]
        if place == length:
            return out


def full_size(room, first):
    plain = room - (6 if first else 3)
    return plain if plain < (255 if edit == "piece_of_254" else 256) else plain - 1


def piece_at(room, length, place):
    first, following = full_size(room, True), full_size(room, False)
    if place == 0:
        return 0, 0, min(length, first)
    beyond = length < place if edit == "last_piece_empty" else length <= place
    if beyond or place < first or (place - first) % following:
        return None
    return (place - first) // following + 1, place, min(length - place, following)


def packet(w, m, piece, by_code):
    room, stream, ident, sequence, ack = w
    index, place, size = piece
    last, first = place + size == len(m), index == 0
    wrong = edit if by_code else None
    flag = ack and (first if wrong == "ack_on_the_first" else last)
    extended = size >= 255 if wrong == "extender_at_255" else size > 255
    seq = sequence + index if edit == "sequence_not_modulo" and not by_code else (sequence + index) % 16
    second = seq * 16 + (0 if first else 2 if last else 1) * 4 + flag * 2 + extended
    total = [0, len(m) // 256, len(m) % 256] if first else []
    length = [size // 256, size % 256] if extended else [size]
    return [stream * 16 + ident, second] + total + length + m[place:place + size]


def write(limit, w, m, place, out, by_code=True):
    room, stream, ident, sequence, ack = w
    if by_code and edit in ("(refusing writer)", "(refusing writer, nothing_asked)"):
        return 15, out
    if not 20 <= room <= 512:
        return 13, out
    found = piece_at(room, len(m), place) if by_code else next((p for p in pieces(room, len(m)) if p[1] == place), None)
    if stream not in STREAMS or ident > 15 or sequence > 15 or len(m) > limit or found is None:
        return 15, out
    if len(out) < room:
        return 14, out
    p, end = packet(w, m, found, by_code), found[1] + found[2]
    last = end == len(m) and not (by_code and edit == "last_not_told")
    return ("last", len(p)) if last else ("more", len(p), end), p + out[len(p):]


def calls(limit, w, m, out):
    got, place = [], 0
    for _ in range(len(m) + 1):
        told, out = write(limit, w, m, place, out)
        if isinstance(told, int):
            break
        got.append(out[:told[1]])
        if told[0] == "last":
            break
        place = told[2]
    return got


# ---- the receiver
def read(limit, p):
    if len(p) < 2 or edit == "(refusing reader)":
        return 2
    kind, ack, ext = p[1] // 4 % 4, p[1] // 2 % 2 == 1, p[1] % 2
    header = (6 if kind == 0 else 3) + ext
    if kind != 3 and len(p) < header:
        return 2
    if p[0] // 16 not in STREAMS:
        return 3
    head = (p[0] // 16, p[0] % 16, p[1] // 16 % 16)
    if kind == 3:
        return ("ack", head) if not ext and p[2:] == [0, 2, 1, 0 if ack else 3] else 12
    if kind == 0 and p[2] != 0:
        return 4
    n = p[header - 2] * 256 + p[header - 1] if ext else p[header - 1]
    total = p[3] * 256 + p[4] if kind == 0 else None
    if len(p) != header + n:
        return 5
    if kind == 0 and total > limit:
        return 6
    if n == 0 and total != 0:
        return 7
    if kind == 0 and n > total:
        return 8
    return ("first", head, ack, total, p[header:]) if kind == 0 else ("next", head, ack, kind == 2, p[header:])


def acknowledgement(stream, ident, sequence, positive=True):
    return [stream * 16 + ident, sequence * 16 + 12 + positive * 2, 0, 2, 1, 0 if positive else 3]


def accept(limit, slots, buf, call):
    """What is told of a packet with its answer sequence and answer buffer, and what it leaves: slots, buffer, answer buffer."""
    p, sequence, out = call
    first = read(limit, p) if edit == "(packet before 15 and 14)" else None
    t, slots, buf = ((first, slots, buf) if isinstance(first, int) else (15, slots, buf) if sequence > 15
                     else (14, slots, buf) if len(out) < 6 else take(limit, slots, buf, p))
    if isinstance(t, int) or edit == "(no ack)":
        return t, slots, buf, out
    asked = t[0] == "finished" and (t[4] or edit == "(ack unasked)") or t[0] == "taken" and edit == "(piece answered)"
    if asked:
        own = p[1] // 16 if edit == "(packet's sequence)" else sequence
        out = acknowledgement(p[0] // 16, p[0] % 16, own, edit != "(nack)") + out[6:]
    return t, slots, buf, out


def own_places(stream):
    first = EACH * STREAMS.index(stream)
    return range(first, first + EACH)


def place_for(slots, stream, ident, first):
    """Where a packet goes: the slot that is open for its id, or for a first packet else the lowest idle one."""
    lane = own_places(stream)
    if first and edit == "(one at a time)":
        return lane[0]
    among = range(SLOTS) if edit == "(another stream's slot)" else lane
    found = next((i for i in among if slots[i] is not None and slots[i][0] == ident), None)
    if not first or found is not None and edit not in ("(second slot)", "(18 for an open id)"):
        return found
    if found is not None and edit == "(18 for an open id)":
        return None
    idle = [i for i in lane if slots[i] is None]
    if not idle:
        return lane[0] if edit == "(no 18)" else None
    return idle[-1] if edit == "(highest idle slot)" else idle[0]


def has_slot(slots, w):
    lane = [slots[i] for i in own_places(w[1])]
    return edit == "no_slot_asked" or any(slot is None or slot[0] == w[2] for slot in lane)


def take(limit, slots, buf, p):
    if edit == "(idle receiver)":
        return ("taken", 0), slots, buf
    t = read(limit, p)
    if isinstance(t, int) or t[0] == "ack":
        return t, slots, buf
    (stream, ident, sequence), ack, bytes_ = t[1], t[2], t[4]
    i = place_for(slots, stream, ident, t[0] == "first")
    if i is None:
        return 18 if t[0] == "first" else 9, slots, buf
    slot, slots = slots[i], slots[:]
    slots[i] = None
    if t[0] == "first":
        total, at, last = t[3], 0, len(bytes_) == t[3]
        wanted = ack or edit == "(replaced wish kept)" and slot is not None and slot[4]
    else:
        if sequence != (slot[3] + 1) % 16:
            return 10, slots, buf
        total, at, last = slot[1], slot[2], t[3]
        end = at + len(bytes_)
        if end != total if last else end >= total:
            return 11, slots, buf
        wanted = ack or slot[4] and edit != "(last flag alone)"
    start = i * limit + at
    buf = buf[:start] + bytes_ + buf[start + len(bytes_):]
    told = i // EACH * EACH if edit == "(first place told)" else i
    if last:
        return ("finished", stream, ident, total, wanted, told), slots, buf
    slots[i] = (ident, total, at + len(bytes_), sequence, wanted)
    return ("taken", told), slots, buf


# ---- the statements, on one random instance each
def bytes_of(r, n):
    return [r.randrange(256) for _ in range(n)]


def sending(r):
    return r.choice([20, 21, 22, 40, 261, 262, 263, 512]), r.choice(STREAMS), r.randrange(16), r.randrange(16), r.random() < .5


def contract(r):
    limit = r.choice([0, 20, 60, 300, 700])
    w, m = sending(r), bytes_of(r, r.randint(0, limit + 1))
    ends = [p[1] + p[2] for p in pieces(w[0], len(m))]
    place, out = r.choice([0, r.randint(0, len(m) + 1)] + ends), bytes_of(r, w[0] + r.randint(-1, 2))
    return write(limit, w, m, place, out) == write(limit, w, m, place, out, by_code=False)


def given_by(limit, t, buf):
    if isinstance(t, int) or t[0] != "finished":
        return None
    part = 0 if edit == "part_of_control" else t[5] * limit
    return t[1:5] + (buf[part:part + limit][:t[3]],)


def place_in(t):
    return None if isinstance(t, int) or t[0] not in ("taken", "finished") else t[-1]


def run(limit, slots, buf, handed):
    replies = []
    for call in handed:
        t, left, buf, out = accept(limit, slots, buf, call)
        slots = slots if edit == "state_not_kept" else left
        replies.append((call, t, buf, out))
    return replies, slots


def shown(limit, replies):
    return [(place_in(t), given_by(limit, t, buf), out) for call, t, buf, out in replies]


def message_of(w, m):
    room, stream, ident, sequence, ack = w
    return stream, ident, len(m), True if edit == "another_ack_wish" else ack, m


def last_out(w, call):
    room, stream, ident, sequence, ack = w
    asked = ack or edit == "ack_always"
    return acknowledgement(stream, ident, call[1]) + call[2][6:] if asked else call[2]


def at_last(place, w, m, call, later):
    message = message_of(w, m)
    if not later:
        return [] if edit in ("nothing_asked", "(refusing writer, nothing_asked)") else [(place, message, last_out(w, call))]
    return [(place, message if edit == "given_at_each" else None, call[2])] + at_last(place, w, m, later[0], later[1:])


def arrived(w, m, first, later, shows):
    """At some place."""
    return any(shows == at_last(place, w, m, first, later) for place in range(SLOTS))


def lawful_row(r, limit):
    """No two open slots of a stream have one id; of some streams all four are open."""
    slots = []
    for _ in STREAMS:
        open_ones = 0 if limit < 2 else r.choice([0, .5, .5, 1])
        for ident in r.sample(range(16), EACH):
            held = r.randint(1, max(1, limit - 1))
            slots.append((ident, limit, held, r.randrange(16), r.random() < .5) if r.random() < open_ones else None)
    return slots, bytes_of(r, SLOTS * limit)


def any_packet(r, limit):
    w = (20, r.choice(STREAMS), r.randrange(16), r.randrange(16), r.random() < .5)
    m, kind = bytes_of(r, r.randint(0, limit)), r.random()
    return [] if kind < .1 else bytes_of(r, r.randint(1, 9)) if kind < .4 else packet(w, m, r.choice(pieces(20, len(m))), by_code=True)


def answerable(r):
    if edit == "(own packets answerable or not)":
        return any_answer(r)
    return r.randrange(16), bytes_of(r, r.randint(6, 9))


def any_answer(r):
    return r.choice([0, 15, 16, 255, r.randrange(16)]), bytes_of(r, r.randint(0, 9))


def handed(r, packets, ours):
    return [(p,) + (answerable(r) if ours(p) else any_answer(r)) for p in packets]


def delivery(r):
    limit = r.choice([1, 20, 60, 300])
    slots, buf = lawful_row(r, limit)
    w, m = sending(r), bytes_of(r, r.randint(0, limit))
    sent = calls(limit, w, m, bytes_of(r, w[0]))
    ours = lambda p: p[:1] == [w[1] * 16 + w[2]]
    others = lambda n: [p for p in (any_packet(r, limit) for _ in range(n)) if edit == "own_id_between" or not ours(p)]
    before, after = ([any_packet(r, limit) for _ in range(r.randint(0, 4))] for _ in "ab")
    later = [q for p in sent[1:] for q in others(r.choice([0, 0, 1, 2])) + [p]] + others(r.randint(0, 2))
    before, after = (handed(r, packets, lambda p: False) for packets in (before, after))
    first, later = handed(r, sent[:1] or [[]], lambda p: True), handed(r, later, ours)
    during = first + later
    replies, _ = run(limit, slots, buf, before + during + after)
    own = [reply for reply in replies[len(before):][:len(during)] if ours(reply[0][0])]
    if not has_slot(run(limit, slots, buf, before)[1], w):
        return True
    return arrived(w, m, first[0], [call for call in later if ours(call[0])], shown(limit, own))


def returning(r):
    limit = r.choice([1, 20, 60, 300])
    slots, buf = lawful_row(r, limit)
    w, m = sending(r), bytes_of(r, r.randint(0, limit))
    sent = calls(limit, w, m, bytes_of(r, w[0]))
    calls_made = handed(r, sent or [[]], lambda p: True)
    if not has_slot(slots, w):
        return True
    return arrived(w, m, calls_made[0], calls_made[1:], shown(limit, run(limit, slots, buf, calls_made)[0]))


def asked(r):
    w, m = sending(r), bytes_of(r, 9)
    first, *later = handed(r, [bytes_of(r, 3) for _ in range(r.randint(1, 4))], lambda p: True)
    return [g for place, g, out in at_last(5, w, m, first, later) if g is not None] == [message_of(w, m)]


def tries(claim, n):
    r = random.Random(7)
    return next((k for k in range(1, n + 1) if not claim(r)), None)


bad = False
for edit in [None] + list(EDITS):
    expected, what = EDITS.get(edit, ("", "as it stands"))
    found = {claim.__name__: tries(claim, 2000) for claim in (contract, delivery, returning, asked)}
    said = ", ".join("%s false after %d tries" % f for f in found.items() if f[1]) or "no counterexample"
    right = [name for name, k in found.items() if k] == expected.split()
    bad |= not right
    print("%s%s: %s" % ("" if right else "NOT AS EXPECTED ", what if edit is None else edit + " (" + what + ")", said))
sys.exit(bad)
