"""Why rows take more than 1.5 times the careful C's instructions, as the machine code shows it."""

SEARCH = ("the next F0 is searched 16 bytes at a time, in plain x86-64; C calls the C library's memchr, which takes 32 at a time by this "
          "processor's AVX2")
WALK = ("one walk over the fields serves eight messages: each field is handed to its message with the message so far as a value. 41 moves "
        "of the stack and 20 pushes and pops in an envelope with a command only, in C none and 2; a varint of more than a byte is read again "
        "from its first")
COPY = "a loop by the compiler, behind tests of the length and of overlap"

# The group, the beginning of the row's name, and the reason; the first that fits counts.
REASONS = [
    ("feed", "step", "the state is a value: taken from the row, advanced by a call and put back whole, 14 pushes and pops; C writes the one "
     "number that changes, 2"),
    ("feed", "random bytes", SEARCH),
    ("feed", "F1 only", SEARCH),
    ("feed", "noise", SEARCH),
    ("feed", "F0", "a refusal ends the call, and a call costs more: 22 pushes and pops and 50 instructions of a call of its own for the byte "
     "that refuses, in C 12 and none"),
    ("frame writer by parts", "", "an output of one byte is a call for each, and the state of seven numbers a value: 36 moves of the stack, in "
     "C 8"),
    ("frame writer", "marks only", "each mark is found as the end of a run, and a run of no bytes is copied before it; C stays with the marks"),
    ("packets written", "", f"the copy is {COPY}; gcc makes one instruction of it, `rep movs`, which takes longer than it counts"),
    ("packets read", "", "where the packet ends is told by its header, which the receiver's reader then reads and judges once more: 28 "
     "comparisons and 13 moves of the stack, in C 11 and none"),
    ("packets accepted", "", "the packet, the slot that it finds and what comes of it are values: 114 moves of the stack at room 20, in C 32, "
     "and 55 with a packet that is refused at once, in C 13; an open slot is judged field by field, in C as one number"),
    ("captures judged", "", "the three streams' transactions are values: 73 moves of the stack a packet, in C 4"),
    ("captures in a report", "", "each packet goes through the whole receiver, its outcome and its stream's sums are values: 281 moves of the "
     "stack for an ACK, in C 1"),
    ("messages read", "", WALK),
    ("firmware messages read", "", WALK),
    ("strings read", "", "a letter's row of the one table of nine is found by comparing, then each later byte is held to the row's bounds; C "
     "has a branch for each length"),
    ("replies written", "", "the question is read by the walk for eight messages; the envelope's parts are counted before they are written, and "
     "the packets filled from those parts, not cut out of one message: 167 moves of the stack with features, in C 28"),
    ("outbox", "1,000 records", f"the copy is {COPY}; C calls memcpy, 21 of its 60 instructions"),
]


def why(group, name):
    return next((reason for of, begin, reason in REASONS if group.startswith(of) and name.startswith(begin)), "not looked into")
