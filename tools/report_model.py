#!/usr/bin/env python3
"""A second model of a report over captures and of the claims of crate `capture_report_claims`, written from docs/FORMATS.md.

A must-fail edit shows only that a written proof no longer fits. This model shows that the statement itself is false under it:
it tries each statement on random captures, in the words of specs/Captures.antt. As they stand no counterexample may be found;
with each edit one has to be found for the statements named beside it, and none for the others. Run it with no argument.

  worked   captures with every byte written out leave what the worked captures say (`worked_captures`, `two_orders`)
  left     what is left open, by the packets and their answers, is open in the row (`left_open_is_open`)
  balance  from an empty report, over any captures, refused ones included (`reports_balance`)
  order    where no capture is refused by 19, none is in another order, and the report is the same (`order_is_free`)

An edit that stands in must-fail of crate `capture_report` or `capture_report_claims` has its name here; those in brackets are other wrong rules.
Counts and sums that are wrong alike in every capture balance and come out the same in each order: the worked captures are there
for them. What is left open, taken as what the other numbers leave, meets all: the balance would then say nothing."""
import random
import sys

EDITS = {
    "refused_bytes_left_out": ("worked", "the bytes of accepted packets only"),
    "acks_begin": ("worked balance", "an ACK counts as a first packet"),
    "replaced_is_dropped": ("worked balance", "a replaced transaction counts as dropped too"),
    "open_not_counted": ("worked left balance", "nothing is left open"),
    "over_is_added": ("worked", "a sum that passes 64 bits is taken over"),
    "limit_left_out": ("order", "captures may change their limits"),
    "(any packet begins)": ("worked balance", "every piece that is taken counts as a first packet"),
    "(whole ones stay)": ("worked left balance", "a message of one packet is left open"),
    "(closed by any)": ("worked left balance", "any packet of the same stream and id closes a transaction"),
    "(closed by id)": ("worked left balance", "a packet of another stream with the same id closes a transaction"),
    "(replaced ones stay)": ("worked left balance", "a transaction that is replaced is left open"),
    "(11 drops nothing)": ("worked left balance", "10 alone drops a transaction"),
    "(9 drops)": ("worked balance", "9 counts as dropped"),
    "(replaced only at once)": ("worked balance", "a replacement is noted only by a message of one packet"),
    "(open by difference)": ("", "left open is what the other numbers leave"),
    "(lengths count)": ("worked", "a packet's length in the capture counts"),
    "(other streams)": ("worked", "packets of other streams count as control's"),
    "(lent link)": ("worked left balance order", "the link begins with the slots that are lent"),
    "(contents judged)": ("worked order", "a lent row that is not lawful is refused by 1"),
    "(19 clears)": ("worked", "19 clears the report"),
    "(19 at once)": ("worked", "packets after the sum has passed 64 bits are not taken"),
    "(cut at the end)": ("worked", "a packet that is cut short ends the capture, and those before it are taken"),
    "(order with 19)": ("order", "some may be refused by 19"),
    "(refusing link)": ("worked", "the link refuses all"),
    "(nothing added)": ("worked", "the call leaves the report"),
    "over_leaves_row": ("worked", "19 leaves the row and the buffer as they were"),
    "(longer lent)": ("worked", "a longer row or a longer buffer is taken"),
    "(65535 refused)": ("worked", "a limit of 65,535 is refused by 17"),
    "(19 first)": ("worked order", "19 comes before the capture's own refusal"),
    "(payload wraps)": ("worked", "payload bytes are cut to 64 bits"),
    "(continued begins)": ("worked balance", "a piece of type 1 counts as a first packet"),
    "(empty nowhere)": ("worked", "a message of no bytes counts nowhere"),
}
STREAMS = [0, 2, 6]
EACH, SLOTS, MOST = 4, 12, 2 ** 64 - 1
IDLE = (0, 0, 0, 0, 0, 0)
edit = None


# ---- the link: a slot is opened, id, sequence, wanted, total, held
def read(limit, p):
    if len(p) < 2:
        return 2
    kind, ack, ext = p[1] // 4 % 4, p[1] // 2 % 2, p[1] % 2
    header = (6 if kind == 0 else 3) + ext
    if kind != 3 and len(p) < header:
        return 2
    if p[0] // 16 not in STREAMS:
        return 3
    if kind == 3:
        return "ack" if not ext and p[2:] == [0, 2, 1, 0 if ack else 3] else 12
    if kind == 0 and p[2]:
        return 4
    n = p[header - 2] * 256 + p[header - 1] if ext else p[header - 1]
    total = p[3] * 256 + p[4] if kind == 0 else None
    if len(p) != header + n:
        return 5
    if kind == 0 and total > limit:
        return 6
    if n == 0 and total != 0:
        return 7
    if kind == 0 and n > total:
        return 8
    return kind, ack, total, p[header:]


def accept(limit, slots, buf, p):
    """The answer: a number of a refusal, "ack", or (whether it finished, the total, whether one was replaced)."""
    if edit == "(refusing link)":
        return 1
    got = read(limit, p)
    if isinstance(got, (int, str)):
        return got
    kind, ack, total, payload = got
    ident, sequence, first = p[0] % 16, p[1] // 16, EACH * STREAMS.index(p[0] // 16)
    lane = range(first, first + EACH)
    at = next((i for i in lane if slots[i][0] == 1 and slots[i][1] == ident), None)
    replaced = kind == 0 and at is not None
    if kind == 0 and at is None:
        at = next((i for i in lane if slots[i][0] != 1), None)
    if at is None:
        return 18 if kind == 0 else 9
    _, _, last_sequence, wanted, open_total, held = slots[at]
    if kind == 0:
        wanted, held = 0, 0
        finished = len(payload) == total
    else:
        total = open_total
        slots[at] = IDLE
        if sequence != (last_sequence + 1) % 16:
            return 10
        if (held + len(payload) != total) if kind == 2 else (held + len(payload) >= total):
            return 11
        finished = kind == 2
    buf[at * limit + held:at * limit + held + len(payload)] = payload
    slots[at] = IDLE if finished else (1, ident, sequence, int(wanted or ack), total, held + len(payload))
    return finished, total, replaced


def lawful(limit, slots):
    one = lambda s: s == IDLE or s[0] == 1 and s[1] < 16 and s[2] < 16 and s[3] < 2 and s[4] <= limit and 1 <= s[5] < s[4]
    ids = [[s[1] for s in slots[i:i + EACH] if s[0] == 1] for i in range(0, SLOTS, EACH)]
    return all(map(one, slots)) and all(len(set(i)) == len(i) for i in ids)


# ---- the numbers, from the packets and their answers
def accepted(told):
    return isinstance(told, tuple)


def begins(p, told):
    kind = p[1] // 4 % 4 if accepted(told) else None
    return accepted(told) and (kind == 0 or edit == "(any packet begins)" or edit == "(continued begins)" and kind == 1)


def finishes(told):
    return accepted(told) and told[0]


def replaces(told):
    return accepted(told) and told[2] and (told[0] or edit != "(replaced only at once)")


def drops(told):
    if edit == "replaced_is_dropped" and replaces(told):
        return True
    return told in ([10] if edit == "(11 drops nothing)" else [9, 10, 11] if edit == "(9 drops)" else [10, 11]) and not accepted(told)


def closes(p, told):
    if edit == "(closed by any)":
        return True
    return begins(p, told) and edit != "(replaced ones stay)" or finishes(told) or drops(told)


def stays_open(p, told, later):
    if not begins(p, told) or finishes(told) and edit != "(whole ones stay)":
        return False
    same = (lambda q: q[0] % 16 == p[0] % 16) if edit == "(closed by id)" else (lambda q: q[0] == p[0])
    return not any(closes(q, t) and same(q) for q, t in later)


def costs(stream, heard):
    of = lambda p: p[0] // 16 == stream or edit == "(other streams)" and stream == 0 and p[0] // 16 not in STREAMS
    mine = [(p, told, heard[i + 1:]) for i, (p, told) in enumerate(heard) if of(p)]
    count = lambda test: sum(map(bool, map(test, mine)))
    numbers = [count(lambda h: begins(h[0], h[1]) or edit == "acks_begin" and h[1] == "ack"), count(lambda h: finishes(h[1])), count(lambda h: replaces(h[1])), count(lambda h: drops(h[1]))]
    numbers.append(0 if edit == "open_not_counted" else numbers[0] - sum(numbers[1:]) if edit == "(open by difference)" else count(lambda h: stays_open(*h)))
    if edit == "(empty nowhere)":
        empty = count(lambda h: finishes(h[1]) and h[1][1] == 0)
        numbers[:2] = [numbers[0] - empty, numbers[1] - empty]
    numbers.append(sum(told[1] for p, told, later in mine if finishes(told)))
    more = 2 if edit == "(lengths count)" else 0
    numbers.append(sum(len(p) + more for p, told, later in mine if edit != "refused_bytes_left_out" or accepted(told)))
    return numbers


# ---- a capture added: what is told, the report, the row and the buffer afterwards
def packets_of(capture):
    if not capture or capture[0] != 1:
        return 40, 0
    at, packets = 1, []
    while at < len(capture):
        n = capture[at] * 256 + capture[at + 1] if at + 1 < len(capture) else None
        if n == 0:
            return 42, at
        if n is None or at + 2 + n > len(capture):
            return packets if edit == "(cut at the end)" else (41, at)
        packets.append(capture[at + 2:at + 2 + n])
        at += 2 + n
    return packets


def plus(report, more):
    return [[a + b for a, b in zip(x, y)] for x, y in zip(report, more)]


def fits(report):
    return all(n <= MOST for numbers in report for n in numbers)


def cost_of(heard):
    return [costs(stream, heard) for stream in STREAMS]


def run(limit, slots, buf, packets, report=None):
    slots, buf, heard = list(slots), list(buf), []
    for p in packets:
        heard.append((p, accept(limit, slots, buf, p)))
        if edit == "(19 at once)" and report is not None and not fits(plus(report, cost_of(heard))):
            break
    return heard, slots, buf


def add(report, limit, slots, buf, capture):
    if not 1 <= limit <= (65534 if edit == "(65535 refused)" else 65535):
        return (17, 0), report, slots, buf
    wrong = len(slots) < SLOTS or len(buf) < SLOTS * limit if edit == "(longer lent)" else len(slots) != SLOTS or len(buf) != SLOTS * limit
    if wrong or edit == "(contents judged)" and not lawful(limit, slots):
        return (1, 0), report, slots, buf
    packets = packets_of(capture)
    if isinstance(packets, tuple):
        full = edit == "(19 first)" and max(n for numbers in report for n in numbers) == MOST
        return (19, 0) if full else packets, report, slots, buf
    heard, row, after = run(limit, slots if edit == "(lent link)" else [IDLE] * SLOTS, buf, packets, report)
    total = plus(report, cost_of(heard))
    if edit == "(payload wraps)":
        total = [n[:5] + [n[5] % (MOST + 1)] + n[6:] for n in total]
    if edit == "(nothing added)":
        return None, report, row, after
    if not fits(total) and edit != "over_is_added":
        report = [[0] * 7] * 3 if edit == "(19 clears)" else report
        return ((19, 0), report, slots, buf) if edit == "over_leaves_row" else ((19, 0), report, row, after)
    return None, total, row, after


# ---- the statements, on one random instance each
def captured(packets):
    return [1] + [b for p in packets for b in [len(p) // 256, len(p) % 256] + p]


def first(byte, total=2):
    return [byte, 0, 0, 0, total, 1, 7 if total == 2 else 9]


NONE = [0] * 7
EMPTY = [NONE, NONE, NONE]
ODD = [(1, 200, 99, 7, 0, 9)] * SLOTS
BEGUN = lambda ident: (1, ident, 0, 0, 2, 1)
MIXED = [first(3), first(3), [3, 0x14, 1, 1], [3], [0x71, 0], first(5), first(0x20, 1), [0x60, 0x0E, 0, 2, 1, 0]]
TWO = [first(3), first(5), first(5), [3, 0x18, 1, 8], first(4), [4, 0x28, 1, 8], [5], first(0x25, 1)]
THREE = [[0x27, 0xF2, 0, 0, 3, 1, 10], [0x27, 0x0E, 0, 2, 1, 0], [0x27, 4, 2, 11], [0x67, 0, 0, 0, 3, 1, 10], [0x27, 4, 1, 11], [0x67, 0x14, 1, 11],
         [0x28, 0, 0, 0, 0, 0], [0x27, 0x18, 1, 12]]
FULL = [[MOST] * 7] * 3
FIVE = [first(0x60 + i) for i in range(1, 6)] + [first(0x61, 1), [0x21, 0x0C, 0, 2, 1, 3], first(0x11)]


def worked(r):
    lent = [0xEE] * 24
    near = lambda n: [[0] * 6 + [n], NONE, NONE]
    left = lambda *rows: [dict(rows).get(i, IDLE) for i in range(SLOTS)]
    wrote = lambda *runs: [next((b for at, b in runs if at == i), 0xEE) for i in range(24)]
    rows = [
        (EMPTY, MIXED, None, [[3, 0, 1, 1, 1, 0, 26], [1, 1, 0, 0, 0, 1, 7], [0] * 6 + [6]], left((0, BEGUN(5))), wrote((0, 7), (8, 9))),
        ([list(range(n, n + 7)) for n in (1, 11, 21)], TWO, None, [[5, 3, 4, 5, 6, 8, 44], [12, 13, 13, 14, 15, 17, 24], list(range(21, 28))], left((1, BEGUN(5))),
         wrote((0, 7), (1, 8), (2, 7), (8, 9))),
        (EMPTY, FIVE, None, [NONE, [0] * 6 + [6], [5, 1, 1, 0, 3, 1, 42]], left((9, BEGUN(2)), (10, BEGUN(3)), (11, BEGUN(4))),
         wrote((16, 9), (18, 7), (20, 7), (22, 7))),
        (EMPTY, [], None, EMPTY, left(), lent),
        (EMPTY, [[3, 0x14, 1, 1]], None, near(4), left(), lent),
        (near(MOST - 7), [first(3)], None, [[1, 0, 0, 0, 1, 0, MOST], NONE, NONE], left((0, BEGUN(3))), wrote((0, 7))),
        ([[MOST] + [0] * 6, NONE, NONE], [first(3), first(0x20, 1)], (19, 0), [[MOST] + [0] * 6, NONE, NONE], left((0, BEGUN(3))), wrote((0, 7), (8, 9))),
    ]
    paid = [NONE, NONE, [0] * 5 + [MOST, 0]]
    rows.append((paid, [first(0x61, 1)], (19, 0), paid, left(), wrote((16, 9))))
    pieces = add(EMPTY, 3, ODD, [0xEE] * 36, captured(THREE))
    told = [NONE, [2, 2, 0, 0, 0, 3, 31], [1, 0, 0, 0, 1, 0, 11]]
    bytes_left = [{12: 10, 13: 11, 14: 12, 24: 10, 25: 11}.get(i, 0xEE) for i in range(36)]
    keeps = [(2, ODD, lent, captured([first(3)]) + more, why) for more, why in (([0, 0], (42, 10)), ([0, 2, 3], (41, 10)))]
    keeps += [(0, [], [], [], (17, 0)), (65536, ODD, lent, [], (17, 0)), (2, ODD[:11], lent, [], (1, 0)), (2, ODD, lent[:23], [], (1, 0))]
    keeps += [(2, ODD, lent, capture, (40, 0)) for capture in ([], [2])]
    keeps += [(65535, ODD, lent, [], (1, 0)), (1, ODD, lent, [], (1, 0)), (2, ODD + ODD[:1], lent, captured(MIXED), (1, 0)), (2, ODD, lent + [0xEE], captured(MIXED), (1, 0))]
    return (all(add(before, 2, ODD, lent, captured(packets)) == (told, report, row, buf) for before, packets, told, report, row, buf in rows)
            and pieces == (None, told, left((8, (1, 7, 1, 0, 3, 2))), bytes_left)
            and all(add(FULL, limit, row, buf, capture) == (why, FULL, row, buf) for limit, row, buf, capture, why in keeps))


def any_packets(r, limit):
    """Packets of few streams and ids, most of them such that they go on with what is open; some cut or changed."""
    slots, buf, packets = [IDLE] * SLOTS, [0] * (SLOTS * limit), []
    for _ in range(r.randint(0, 12)):
        ident = r.randrange(3) if r.random() < .8 else r.randrange(16)
        stream = r.choice([0, 0, 2, 6])
        lane = EACH * STREAMS.index(stream)
        own = next((s for s in slots[lane:lane + EACH] if s[0] == 1 and s[1] == ident), None)
        if own is not None and r.random() < .7:
            rest = own[4] - own[5]
            n = r.choice([rest, r.randint(1, rest)])
            last = n == rest if r.random() < .8 else r.random() < .5
            sequence = (own[2] + (1 if r.random() < .9 else 2)) % 16
            p = [stream * 16 + ident, sequence * 16 + (8 if last else 4) + r.choice([0, 2]), n] + [r.randrange(256) for _ in range(n)]
        elif r.random() < .15:
            p = [stream * 16 + ident, r.choice([0x0E, 0x0C]), 0, 2, 1, r.choice([0, 3])]
        else:
            total = r.randint(0, limit + (r.random() < .1))
            n = r.choice([total, r.randint(0, total)])
            p = [stream * 16 + ident, r.randrange(16) * 16, 0, 0, total, n] + [r.randrange(256) for _ in range(n)]
        if r.random() < .15:
            i = r.randrange(len(p))
            p = p[:i + 1] if r.random() < .5 else p[:i] + [r.randrange(256)] + p[i + 1:]
        accept(limit, slots, buf, p)
        packets.append(p)
    return packets


def left(r):
    limit = r.choice([1, 2, 3, 9])
    slots = [r.choice([IDLE, (1, r.randrange(16), 0, 0, limit, 1)]) for _ in range(SLOTS)] if edit == "(lent link)" else [IDLE] * SLOTS
    heard, row, _ = run(limit, slots, [0] * (SLOTS * limit), any_packets(r, limit))
    return all(costs(stream, heard)[4] == sum(s[0] == 1 for s in row[EACH * i:EACH * i + EACH]) for i, stream in enumerate(STREAMS))


def any_capture(r):
    limit = r.choice([0, 1, 2, 3, 9, 9])
    content = captured(any_packets(r, max(limit, 1)))
    if r.random() < .1:
        content = content[:r.randrange(len(content) + 1)] + r.choice([[], [0], [0, 0]])
    return limit, SLOTS - (r.random() < .05), SLOTS * limit - (r.random() < .05), content


def lend(r, capture):
    limit, count, size, content = capture
    row = [r.choice([IDLE, IDLE, (1, r.randrange(16), r.randrange(16), 0, limit, 1), ODD[0]]) for _ in range(count)]
    return limit, row, [r.randrange(256) for _ in range(max(size, 0))], content


def report_after(report, captures):
    over = False
    for capture in captures:
        told, report, _, _ = add(report, *capture)
        over |= told == (19, 0)
    return report, over


def balance(r):
    report, _ = report_after(EMPTY, [lend(r, any_capture(r)) for _ in range(r.randint(1, 4))])
    return all(n[0] == n[1] + n[2] + n[3] + n[4] for n in report)


def order(r):
    captures = [any_capture(r) for _ in range(r.randint(2, 4))]
    turned = [(r.choice([1, 2, 3, 9]),) + c[1:2] + c[2:] if edit == "limit_left_out" else c for c in captures]
    if edit == "limit_left_out":
        turned = [(limit, count, SLOTS * limit, content) if size == SLOTS * c[0] else (limit, count, size, content)
                  for c, (limit, count, size, content) in zip(captures, turned)]
    r.shuffle(turned)
    report = [[r.choice([0, 0, MOST - r.randint(0, 40)]) for _ in range(7)] for _ in STREAMS]
    (one, over), (other, over_too) = (report_after(report, [lend(r, c) for c in cs]) for cs in (captures, turned))
    return over and edit != "(order with 19)" or one == other and (not over_too or edit == "(order with 19)")


def tries(claim, n):
    r = random.Random(12)
    return next((k for k in range(1, n + 1) if not claim(r)), None)


def main():
    global edit
    bad = False
    for edit in [None] + list(EDITS):
        expected, what = EDITS.get(edit, ("", "as it stands"))
        found = {claim.__name__: tries(claim, 1 if claim is worked else 1500) for claim in (worked, left, balance, order)}
        said = ", ".join("%s false after %d tries" % f for f in found.items() if f[1]) or "no counterexample"
        right = [name for name, k in found.items() if k] == expected.split()
        bad |= not right
        print("%s%s: %s" % ("" if right else "NOT AS EXPECTED ", what if edit is None else edit + " (" + what + ")", said), flush=True)
    return bad


if __name__ == "__main__":
    sys.exit(main())
