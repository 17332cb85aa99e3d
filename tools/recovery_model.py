#!/usr/bin/env python3
"""A second model of the claims of crate `classic_claims`, written from docs/FORMATS.md and not from the specs.

It tries the claims on random instances: with the definitions as they are no counterexample may be found, and with each edit
of a definition one has to be found for the claims named beside it, and none for the others. A proof that no longer fits after
an edit shows little; a counterexample shows that the claim itself rules the edit out. Run it with no argument."""
import random
import sys

START, END, ESCAPE = MARKS = (0xF0, 0xF1, 0xF2)
CODES = {START: 0x02, END: 0x03, ESCAPE: 0x00}
OUTSIDE, BEGUN = ("outside", 0, 0), ("id", 0, 0)


class Link:
    """Frames, extractor and claims as docs/FORMATS.md has them. A state is (phase, sequence, held)."""

    def __init__(self, limit):
        self.limit = limit

    # ---- the writer

    def checksum(self, payload):
        return (2 + sum(payload)) % 65536

    def spelt(self, b):
        return [ESCAPE, CODES[b]] if b in CODES else [b]

    def escaped(self, bytes):
        return [y for b in bytes for y in self.spelt(b)]

    def pair(self, payload):
        return list(divmod(self.checksum(payload), 256))

    def frame(self, sequence, payload):
        return [START, 2, 0, sequence] + self.escaped(payload + self.pair(payload)) + [END]

    def write(self, sequence, payload, out):
        """The length told, None where it is refused, and the output afterwards."""
        frame = self.frame(sequence, payload)
        if sequence in MARKS or len(payload) > self.limit or len(out) < len(frame):
            return None, out
        return len(frame), frame + out[len(frame):]

    def sent(self, sequence, payload, out):
        told, out = self.write(sequence, payload, out)
        return [] if told is None else out[:told]

    # ---- the extractor: each answers (report, next state, buffer)

    def room(self):
        return self.limit + 2

    def place(self, held):
        return held

    def refuse(self, number, state, buffer):
        return ("refused", number), OUTSIDE, buffer

    def restart(self, state, buffer):
        return ("refused", 20), BEGUN, buffer

    def code(self, b):
        return {c: m for m, c in CODES.items()}.get(b)

    def store(self, state, buffer, x):
        phase, sequence, held = state
        if held >= self.room():
            return self.refuse(24, state, buffer)
        at = self.place(held)
        return ("taken",), ("body", sequence, held + 1), buffer[:at] + [x] + buffer[at + 1:] if at < len(buffer) else buffer

    def agrees(self, payload, high, low):
        return self.checksum(payload) == 256 * high + low

    def finish(self, state, buffer):
        phase, sequence, held = state
        n = held - 2
        if n < 0:
            return self.refuse(21, state, buffer)
        high, low = (buffer + [0, 0, 0])[n:n + 2]
        if not self.agrees(buffer[:n], high, low):
            return self.refuse(25, state, buffer)
        return ("frame", sequence, n), OUTSIDE, buffer

    def advance(self, state, buffer, b):
        phase, sequence, held = state
        if phase == "outside":
            return (("taken",), BEGUN, buffer) if b == START else (("skipped",), state, buffer)
        if b == START:
            return self.restart(state, buffer)
        if phase == "body":
            if b == END:
                return self.finish(state, buffer)
            return (("taken",), ("escaped", sequence, held), buffer) if b == ESCAPE else self.store(state, buffer, b)
        if phase == "escaped":
            x = None if b in MARKS else self.code(b)
            return self.refuse(23, state, buffer) if x is None else self.store(state, buffer, x)
        if b == END:
            return self.refuse(21, state, buffer)
        if b == ESCAPE:
            return self.refuse(22, state, buffer)
        if phase == "sequence":
            return ("taken",), ("body", b, 0), buffer
        wanted, after = {"id": (2, "error"), "error": (0, "sequence")}[phase]
        return (("taken",), (after, 0, 0), buffer) if b == wanted else self.refuse(22, state, buffer)

    def ready(self, state, buffer):
        phase, sequence, held = state
        lawful = sequence not in MARKS and held <= self.limit + 2 if phase in ("body", "escaped") else sequence == held == 0
        return lawful and len(buffer) == self.limit + 2

    # ---- the calls: each answers (used, report, next state, buffer)

    def step(self, state, buffer, b):
        return (1,) + (self.advance(state, buffer, b) if self.ready(state, buffer) else (("refused", 1), state, buffer))

    def stops(self, report):
        return report[0] in ("frame", "refused")

    def feed(self, state, buffer, bytes):
        if not self.ready(state, buffer):
            return 0, ("refused", 1), state, buffer
        for i, b in enumerate(bytes):
            report, state, buffer = self.advance(state, buffer, b)
            if self.stops(report):
                return i + 1, report, state, buffer
        return len(bytes), ("all used",), state, buffer

    # ---- the premises of the claims

    def sendable(self, sequence, payload, out):
        return sequence not in MARKS and len(payload) <= self.limit and len(self.frame(sequence, payload)) <= len(out)

    def turned(self, bytes, place, new):
        return place < len(bytes) and bytes[place] not in MARKS and new not in MARKS and new < 256 and new != bytes[place]

    def may_turn(self, bytes, place, new):
        return place != 3 and self.turned(bytes, place, new)

    # ---- the claims

    def handed(self, report, buffer):
        return [(report[1], report[2], buffer[:report[2]])] if report[0] == "frame" else []

    def counts(self, before, used):
        return used > before

    def run(self, state, buffer, before, bytes, calls):
        """What is handed out behind the first `before` bytes, and whether all bytes are used."""
        at, given = 0, []
        for n in calls:
            if n is None and at >= len(bytes):
                continue
            used, report, state, buffer = self.step(state, buffer, bytes[at]) if n is None else self.feed(state, buffer, bytes[at:at + n])
            if self.counts(before, at + used):
                given += self.handed(report, buffer)
            at += used
        return given, at >= len(bytes)

    def undamaged(self, items):
        return [(q, len(p), p) for q, p, turned in items if turned is None]

    def uses(self, used, bytes):
        return used == len(bytes)

    def byte(self, rng):
        return rng.choice([0, 2, 3, 5, 0xEE, START, END, ESCAPE, rng.randrange(256)])

    def plain(self, rng):
        return rng.choice([0, 2, 3, 1, 5, 0x80, 0xEE, 0xF3, 0xFF, rng.randrange(START)])

    def sending(self, rng):
        """A sequence, a payload and an output, in their ranges and a little beyond."""
        q, p = self.plain(rng), [self.byte(rng) for _ in range(rng.randrange(self.limit + 2))]
        return q, p, [rng.randrange(256) for _ in range(len(self.frame(q, p)) + rng.choice([0, 0, 1, 9, -1]))]

    def lawful(self, rng):
        """A lawful state, and a buffer of the right size."""
        phase = rng.choice(["outside", "id", "error", "sequence", "body", "escaped"])
        state = (phase, self.plain(rng), rng.randrange(self.limit + 3)) if phase in ("body", "escaped") else (phase, 0, 0)
        return state, [rng.randrange(256) for _ in range(self.limit + 2)]

    def damage_ends(self, rng):
        state, buffer = self.lawful(rng)
        before = [self.byte(rng) for _ in range(rng.randrange(8))] + rng.choice([[], self.frame(5, [])[:rng.randrange(8)]])
        items, closing = [], []
        for _ in range(rng.randrange(4)):
            q, p, out = self.sending(rng)
            if not self.sendable(q, p, out):
                continue
            bytes, turned = self.sent(q, p, out), None
            place, new = rng.randrange(max(len(bytes), 1)), self.byte(rng)
            if rng.random() < 0.6 and self.may_turn(bytes, place, new):
                bytes, turned = bytes[:place] + [new] + bytes[place + 1:], place
            items.append((q, p, turned))
            closing += bytes
        calls = [rng.choice([None, rng.randrange(4), rng.randrange(12), 99]) for _ in range(200)]
        given, all_used = self.run(state, buffer, len(before), before + closing, calls)
        return not all_used or given == self.undamaged(items)

    def frame_returns(self, rng):
        q, p, out = self.sending(rng)
        if not self.sendable(q, p, out):
            return True
        bytes = self.sent(q, p, out)
        used, report, state, buffer = self.feed(OUTSIDE, [rng.randrange(256) for _ in range(self.limit + 2)], bytes)
        return self.handed(report, buffer) == [(q, len(p), p)] and self.uses(used, bytes)

    def facts_suffice(self, rng):
        """What docs/FORMATS.md says of a frame, of a byte that turned and of the calls is all that the premises ask for."""
        q, p = self.plain(rng), [rng.randrange(256) for _ in range(rng.randrange(self.limit + 1))]
        frame = self.frame(q, p)
        place, new = rng.choice([i for i, b in enumerate(frame) if i != 3 and b not in MARKS]), self.plain(rng)
        state, buffer = self.lawful(rng)
        bytes = [self.byte(rng) for _ in range(rng.randrange(12))]
        calls = [rng.choice([None, rng.randrange(1, 4), 99]) for _ in bytes]
        return (self.sendable(q, p, [0] * len(frame))
                and (new == frame[place] or self.may_turn(self.sent(q, p, [0] * len(frame)), place, new))
                and self.ready(state, buffer)
                and self.run(state, buffer, 0, bytes, calls)[1])


def edit(**methods):
    return type("Edited", (Link,), methods)


def stays(numbers):
    return lambda link, n, state, buffer: (("refused", n), state if n in numbers else OUTSIDE, buffer)


def feed_by(change, of):
    def feed(link, state, buffer, bytes):
        used, report, state, buffer = Link.feed(link, state, buffer, bytes)
        return max(0, used + change) if of(report) else used, report, state, buffer
    return feed


def start_ignored(phases, answer):
    return lambda link, state, buffer: answer(link, state, buffer) if state[0] in phases else Link.restart(link, state, buffer)


D, F, S, NONE = {"damage_ends"}, {"frame_returns"}, {"facts_suffice"}, set()
EDITS = [
    # ---- the definitions as they are
    ("as they are", NONE, Link),
    # ---- edits of the writer and of the extractor
    ("the end waits after a fresh F0", D, edit(restart=start_ignored(["body"], lambda k, s, l: (("taken",), s, l)))),
    ("F0 after F2 is refused by 23", D, edit(restart=start_ignored(["escaped"], lambda k, s, l: k.refuse(23, s, l)))),
    ("F0 in the header is refused by 22", D, edit(restart=start_ignored(["id", "error", "sequence"], lambda k, s, l: k.refuse(22, s, l)))),
    ("a store one place off", D | F, edit(place=lambda k, held: held + 1)),
    ("room for one byte less", D | F, edit(room=lambda k: k.limit + 1)),
    ("room for one byte more", D | S, edit(room=lambda k: k.limit + 3)),
    ("the writer sums the escaped payload", D | F, edit(pair=lambda k, p: list(divmod(k.checksum(k.escaped(p)), 256)))),
    ("the writer leaves the checksum unescaped", D | F, edit(frame=lambda k, q, p: [START, 2, 0, q] + k.escaped(p) + k.pair(p) + [END])),
    ("the writer leaves the payload unescaped", D | F, edit(frame=lambda k, q, p: [START, 2, 0, q] + p + k.escaped(k.pair(p)) + [END])),
    ("the writer refuses everything", D | F | S, edit(write=lambda k, q, p, out: (None, out))),
    ("the writer tells one byte less", D | F, edit(sent=lambda k, q, p, out: Link.sent(k, q, p, out)[:-1])),
    ("nothing is sent", D | F | S, edit(sent=lambda k, q, p, out: [])),
    ("the extractor skips every byte", D | F, edit(advance=lambda k, s, l, b: (("skipped",), s, l))),
    ("the extractor refuses every call by 1", D | F | S, edit(ready=lambda k, s, l: False)),
    ("many bytes do nothing", F | S, edit(feed=lambda k, s, l, bytes: (0, ("all used",), s, l))),
    ("the checksum is not compared", D, edit(agrees=lambda k, p, high, low: True)),
    ("a checksum of seven bits", D, edit(checksum=lambda k, p: (2 + sum(p)) % 128)),
    ("any code stands for F1", D, edit(code=lambda k, b: Link.code(k, b) or END)),
    ("a wrong header byte leaves the extractor inside", D, edit(refuse=stays([22]))),
    ("a length one more", D | F, edit(handed=lambda k, r, l: [(r[1], r[2] + 1, l[:r[2] + 1])] if r[0] == "frame" else [])),
    ("one fixed sequence", D | F, edit(handed=lambda k, r, l: [(0, r[2], l[:r[2]])] if r[0] == "frame" else [])),
    ("many bytes go on past a frame", D | F, edit(stops=lambda k, r: r[0] == "refused")),
    ("many bytes tell one more where they stop", D | F, edit(feed=feed_by(1, lambda r: r[0] != "all used"))),
    ("many bytes tell one less where they stop", F | S, edit(feed=feed_by(-1, lambda r: r[0] != "all used"))),
    ("many bytes tell one less at their end", D | S, edit(feed=feed_by(-1, lambda r: r[0] == "all used"))),
    # ---- edits of the claims: those of crates/classic_claims/must-fail, under their names
    ("payload_of_another", D, edit(undamaged=lambda k, items: Link.undamaged(k, items)[::-1])),
    ("payload_not_first", D | F, edit(handed=lambda k, r, l: [(r[1], r[2], l[1:r[2] + 1])] if r[0] == "frame" else [])),
    ("damaged_handed_out", D, edit(undamaged=lambda k, items: [(q, len(p), p) for q, p, turned in items])),
    ("sequence_byte_turned", D | S, edit(may_turn=lambda k, f, i, v: i != 4 and k.turned(f, i, v))),
    ("mark_turned", D, edit(turned=lambda k, f, i, v: i < len(f) and v not in MARKS and v != f[i])),
    ("turned_into_mark", D, edit(turned=lambda k, f, i, v: i < len(f) and f[i] not in MARKS and v != f[i])),
    ("turned_into_itself", D, edit(turned=lambda k, f, i, v: i < len(f) and f[i] not in MARKS and v not in MARKS)),
    ("counted_early", D, edit(counts=lambda k, before, used: used >= before)),
    ("counted_late", D, edit(counts=lambda k, before, used: used > before + 7)),
    ("step_uses_two", D, edit(step=lambda k, s, l, b: (2,) + k.advance(s, l, b))),
    ("over_the_limit", D | F, edit(sendable=lambda k, q, p, out: q not in MARKS and len(p) <= k.limit + 1 and len(k.frame(q, p)) <= len(out))),
    ("used_one_less", F, edit(uses=lambda k, used, bytes: used + 1 == len(bytes))),
    ("payload_below_limit", S, edit(sendable=lambda k, q, p, out: len(p) < k.limit and Link.sendable(k, q, p, out))),
    ("turned_below_marks", S, edit(turned=lambda k, f, i, v: v < START and Link.turned(k, f, i, v))),
    ("header_not_turned", S, edit(may_turn=lambda k, f, i, v: i > 3 and k.turned(f, i, v))),
    # ---- edits that no claim rules out: the contracts of `step`, `feed` and the writer do, and the worked cases
    ("after a frame the state stays as it was", NONE, edit(finish=lambda k, s, l: (Link.finish(k, s, l)[0], s, l))),
    ("both sum the escaped payload", NONE, edit(checksum=lambda k, p: (2 + sum(k.escaped(p))) % 65536)),
]


def tries(link, claim, most):
    rng = random.Random(1)
    for i in range(most):
        if not getattr(link(rng.randrange(6)), claim)(rng):
            return i + 1
    return None


def main():
    wrong = 0
    for name, expected, link in EDITS:
        line = []
        for claim in ("damage_ends", "frame_returns", "facts_suffice"):
            found = tries(link, claim, 60000 if claim in expected else 20000 if link is Link else 4000)
            wrong += (found is not None) != (claim in expected)
            line.append("%s %s" % (claim, "holds" if found is None else "false at try %d" % found))
        print("%-50s %s" % (name, ", ".join(line)))
    print("%d wrong" % wrong)
    return 1 if wrong else 0


if __name__ == "__main__":
    sys.exit(main())
