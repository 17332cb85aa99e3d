#!/usr/bin/env python3
"""outbox_model.py [SECONDS]: the claims about the outbox file, tried on small files.

The definitions of crates/outbox/specs are written down here once more, over a format (version, width, limit), with a switch for
each wrong definition that a claim is to rule out. Every file of up to seven bytes over a small alphabet is tried, and random
appends. It prints, for the definitions as they are, that no counterexample was found, and for each wrong one the claims that
fall by it and the first counterexample; it fails where a wrong one has none, or a right one has one. A writer or reader that
does nothing must make every claim fall that speaks of it."""
import itertools, random, sys, time

STREAMS = (0, 2, 6)
WRONG = {
    "length_without_stream": "the length is written without the stream byte",
    "little_endian": "the length is written with its last byte first",
    "over_last_byte": "an append begins at the last byte before it",
    "next_one_more": "the next place is one too far",
    "size_one_more": "the payload is told one byte longer",
    "length_zero": "a length of 0 is taken",
    "cut_as_whole": "the bytes of the length count as the record's own",
    "length_of_one_byte": "a length of one byte is judged as a length",
    "end_before_last": "a record that ends with the file is read as the end",
    "read_in_place": "records are owed at one place and not one after another",
    "cut_place": "41 is told at the number of bytes kept",
    "all_usable": "the cut record is not dropped before the next append",
    "version_in_record": "a record made in an outbox of its own is taken with the version byte",
    "place_not_moved": "a payload is told at its place in the outbox of its own",
    "longest_not_held": "the longest payload's bytes are taken for its record",
}

CLAIMS = ("records_return", "cuts_are_found", "appends_after_cut", "appends_as_alone", "reads_as_alone")

# what does nothing, and the claims that must fall by it: all that speak of it
NOTHING = {
    "append_refuses": ("appending refuses everything by 14", {"records_return", "cuts_are_found", "appends_after_cut", "appends_as_alone"}),
    "always_end": ("reading a file that has the version always gives the end", {"records_return", "cuts_are_found", "appends_after_cut", "reads_as_alone"}),
    "nothing_owed": ("no records are owed", {"records_return", "cuts_are_found", "appends_after_cut"}),
}


class Outbox:
    def __init__(self, version, width, limit, wrong=None):
        self.version, self.width, self.limit, self.wrong = version, width, limit, wrong
        self.head = width + 1

    def number(self, b):
        return sum((b[i] if i < len(b) else 0) * 256 ** (self.width - 1 - i) for i in range(self.width))

    def record(self, stream, payload):
        n = len(payload) + (self.wrong != "length_without_stream")
        field = [n // 256 ** (self.width - 1 - i) % 256 for i in range(self.width)]
        if self.wrong == "little_endian":
            field.reverse()
        return field + [stream] + payload

    def record_at(self, place, rest):
        n = self.number(rest)
        there = self.width <= len(rest) or self.wrong == "length_of_one_byte"
        if there and ((n == 0 and self.wrong != "length_zero") or n > self.limit + 1):
            return ("refused", 42, place)
        if len(rest) < (n if self.wrong == "cut_as_whole" else self.width + n):
            return ("refused", 41, place)
        stream = rest[self.width] if self.width < len(rest) else 0
        if stream not in STREAMS:
            return ("refused", 43, place)
        size = max(n - 1, 0) + (self.wrong == "size_one_more")
        return ("found", stream, place + self.head, size, place + self.head + max(n - 1, 0) + (self.wrong == "next_one_more"))

    def read(self, file, place):
        if not file or file[0] != self.version:
            return ("refused", 40, 0)
        if place == 0 or place > len(file):
            return ("refused", 15, None)
        if place == len(file) or self.wrong == "always_end":
            return ("end",)
        a = self.record_at(place, file[place:])
        return ("end",) if self.wrong == "end_before_last" and a[0] == "found" and a[4] == len(file) else a

    def read_all(self, file):
        told, place = [], 1
        for _ in range(len(file) + 1):
            a = self.read(file, place)
            told.append((a, file[a[2]:a[2] + a[3]] if a[0] == "found" else []))
            if a[0] != "found":
                break
            place = a[4]
        return told

    def walk(self, file):
        return next((a for a, _ in self.read_all(file) if a[0] == "refused"), None)

    def append(self, buffer, used, stream, payload):
        if self.wrong == "append_refuses":
            return ("refused", 14, None), buffer
        if used > len(buffer):
            return ("refused", 1, None), buffer
        if used == 0 or buffer[0] != self.version:
            return ("refused", 40, 0), buffer
        if stream not in STREAMS or len(payload) > self.limit:
            return ("refused", 15, None), buffer
        bytes_ = self.record(stream, payload)
        if len(buffer) - used < len(bytes_):
            return ("refused", 14, None), buffer
        refusal = self.walk(buffer[:used])
        if refusal:
            return refusal, buffer
        at = used - (self.wrong == "over_last_byte")
        return ("used", used + len(bytes_)), buffer[:at] + bytes_ + buffer[at + len(bytes_):]

    # what reading owes for some records from a place on
    def expected(self, place, entries):
        told = []
        for stream, payload in entries if self.wrong != "nothing_owed" else []:
            told.append((("found", stream, place + self.head, len(payload), place + self.head + len(payload)), payload))
            place += self.head + len(payload) if self.wrong != "read_in_place" else 0
        return told + [(("end",), [])]

    def after(self, place, entries):
        return place + sum(self.head + len(p) for _, p in entries)

    def append_all(self, buffer, entries):
        told, b = ("used", 1), [self.version] + buffer[1:]
        for stream, payload in entries:
            if told[0] == "used":
                told, b = self.append(b, told[1], stream, payload)
        return told, b

    # ---- the claims: what contradicts one, or None

    def records_return(self, buffer, entries):
        end = self.after(1, entries)
        if end > len(buffer):
            return None
        told, b = self.append_all(buffer, entries)
        if told != ("used", end) or self.read_all(b[:end]) != self.expected(1, entries):
            return "appended %s to a buffer of %d" % (entries, len(buffer))

    def cut(self, kept, told):
        if kept == 0:
            return [(("refused", 40, 0), [])]
        place, left = 1, []
        for a, payload in told:
            if a[0] != "found":
                return left + [(a, payload)]
            if a[4] > kept:
                return left + [(("end",) if place == kept else ("refused", 41, kept if self.wrong == "cut_place" else place), [])]
            left.append((a, payload))
            place = a[4]
        return left

    def cuts_are_found(self, file, kept, entries=None):
        if self.walk(file) is None and self.read_all(file[:kept]) != self.cut(kept, self.read_all(file)):
            return "of %s kept %d bytes" % (file, kept)
        if entries is not None:
            end = self.after(1, entries)
            made = self.append_all([9] * end, entries)[1][:end]
            if self.read_all(made[:kept]) != self.cut(kept, self.expected(1, entries)):
                return "appended %s and kept %d bytes" % (entries, kept)

    def appends_after_cut(self, file, kept, room, entry):
        left = file[:kept]
        if kept == 0 or self.walk(file) is not None:
            return None
        refusal = self.walk(left)
        used = len(left) if refusal is None or self.wrong == "all_usable" else refusal[2] or 0
        end = self.after(used, [entry])
        if end > len(left + room):
            return None
        told, b = self.append(left + room, used, *entry)
        before = [h for h in self.read_all(left) if h[0][0] == "found"]
        if told != ("used", end) or self.walk(b[:end]) is not None or self.read_all(b[:end]) != before + self.expected(used, [entry]):
            return "of %s kept %d bytes, appended %s" % (file, kept, entry)

    # a record appended to a whole file, and to a new outbox
    def appends_as_alone(self, file, room, own, entry):
        end, own_end = self.after(len(file), [entry]), self.after(1, [entry])
        if self.walk(file) is not None or end > len(file + room) or own_end > len(own):
            return None
        told, b = self.append(file + room, len(file), *entry)
        own_told, own_b = self.append_all(own, [entry])
        added = own_b[0 if self.wrong == "version_in_record" else 1:own_end]
        if told != ("used", end) or own_told != ("used", own_end) or b[:end] != file + added:
            return "appended %s to %s" % (entry, file)

    def read_at(self, file, place):
        a = self.read(file, place)
        return a, file[a[2]:a[2] + a[3]] if a[0] == "found" else []

    def moved(self, d, h):
        a, payload = h
        if a[0] == "found":
            return (a[0], a[1], a[2] + (d if self.wrong != "place_not_moved" else 0), a[3], a[4] + d), payload
        return ((a[0], a[1], a[2] if a[2] is None else a[2] + d) if a[0] == "refused" else a), payload

    # the version byte with the bytes from a place on
    def reads_as_alone(self, file, place, some, entry=None):
        if not file or file[0] != self.version or not 1 <= place <= len(file):
            return None
        enough = self.limit if self.wrong == "longest_not_held" else self.head + self.limit
        if self.read_at(file, place) != self.moved(place - 1, self.read_at([self.version] + file[place:][:enough], 1)):
            return "of %s at %d" % (file, place)
        if entry is not None:
            record = self.record(*entry)
            own = self.read_at([self.version] + record + [7], 1)
            if own != (("found", entry[0], 1 + self.head, len(entry[1]), 1 + len(record)), entry[1]):
                return "%s in an outbox of its own" % (entry,)
        part = file[:some]
        refusal = self.walk(part)
        if some >= 1 and place == (len(part) if refusal is None else refusal[2]):
            before = [h for h in self.read_all(part) if h[0][0] == "found"]
            if self.read_all(file) != before + [self.moved(place - 1, h) for h in self.read_all([self.version] + file[place:])]:
                return "of %s the rest from %d on" % (file, place)


def tries(wrong, seconds, claims):
    """the first counterexample to some claims, and how many cases were tried"""
    count, rnd = 0, random.Random(5)

    def found(box, calls):
        return next((name + ": " + why for name, call in calls if name in claims for why in [call()] if why), None)

    for version, width, limit in ((1, 1, 0), (2, 1, 2), (1, 2, 1), (2, 2, 3)):
        box = Outbox(version, width, limit, wrong)
        for size in range(1, 8):
            for rest in itertools.product((0, 1, 2, 3), repeat=size - 1):
                file = [version] + list(rest)
                for kept in range(size + 1):
                    entry = (6, [5] * min(limit, 1))
                    count += 4
                    why = found(box, (
                        ("cuts_are_found", lambda: box.cuts_are_found(file, kept)),
                        ("appends_after_cut", lambda: box.appends_after_cut(file, kept, [9] * 8, entry)),
                        ("appends_as_alone", lambda: box.appends_as_alone(file, [9] * 8, [9] * 8, entry)),
                        ("reads_as_alone", lambda: box.reads_as_alone(file, kept, kept) or box.reads_as_alone(file, 1 + kept // 2, kept)),
                    ))
                    if why:
                        return "width %d, limit %d: %s" % (width, limit, why), count
    until = time.time() + seconds
    while time.time() < until:
        box = Outbox(rnd.choice((1, 2)), rnd.choice((1, 2, 4)), rnd.randrange(200), wrong)
        entries = [(rnd.choice(STREAMS), [rnd.randrange(256) for _ in range(rnd.randrange(box.limit + 1))]) for _ in range(rnd.randrange(4))]
        right = Outbox(box.version, box.width, box.limit)
        whole = [box.version] + [b for e in entries for b in right.record(*e)]
        kept = rnd.randrange(len(whole) + 1)
        entry = (rnd.choice(STREAMS), [rnd.randrange(256) for _ in range(rnd.randrange(box.limit + 1))])
        room = [rnd.randrange(256) for _ in range(300)]
        at = sum(len(right.record(*e)) for e in entries[:1]) + 1
        count += 5
        why = found(box, (
            ("records_return", lambda: box.records_return([rnd.randrange(256) for _ in range(len(whole) + rnd.randrange(3))], entries)),
            ("cuts_are_found", lambda: box.cuts_are_found(whole, kept, entries)),
            ("appends_after_cut", lambda: box.appends_after_cut(whole, kept, room, entry)),
            ("appends_as_alone", lambda: box.appends_as_alone(whole, room, room, entry)),
            ("reads_as_alone", lambda: box.reads_as_alone(whole, at, min(at + 1, len(whole)), entry)),
        ))
        if why:
            return "width %d, limit %d: %s" % (box.width, box.limit, why), count
    return None, count


def main():
    seconds = float(sys.argv[1]) if len(sys.argv) > 1 else 5
    why, count = tries(None, seconds, CLAIMS)
    print("as they are: %s (%d cases)" % (why or "no counterexample", count))
    failed = why is not None
    for wrong in WRONG:
        why, count = tries(wrong, seconds, CLAIMS)
        print("%s: %s: %s" % (wrong, WRONG[wrong], "case %d: %s" % (count, why[:200]) if why else "NO COUNTEREXAMPLE in %d cases" % count))
        failed = failed or why is None
    for wrong, (what, must) in NOTHING.items():
        fallen = {}
        for claim in CLAIMS:
            why, count = tries(wrong, seconds if claim in must else 1, (claim,))
            if why:
                fallen[claim] = why
        for claim in CLAIMS:
            print("%s: %s: %s" % (wrong, what, (fallen[claim][:150] if claim in fallen else claim + ": holds" + ("" if claim not in must else ", AND MUST NOT"))))
        failed = failed or not must <= set(fallen)
    sys.exit(failed)


if __name__ == "__main__":
    main()
