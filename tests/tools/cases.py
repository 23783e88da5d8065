"""The cases of tests/tools: texts with their bytes, wrong texts and refused recordings with what is said of them, renumbered recordings,
the clauses by which the steps of a ring are named, and misuses."""

WORKED = "01 02 01 01 01 00 00 00 02 02 00 00 00 01 00 00 00 01 00 00 00 01 00 01 00 01 01 00"
HAND_WRITTEN = [  # a text, its file's bytes
    ("source\n", "01 00 00 00 00 00 00 00"),
    ("\n# nothing\n  chip   locations x y z a b c d e # all eight", "02 00 08 00 00 00 00 00"),
    ("source locations x\nthread 1\n1: write relaxed x = 1\n2: read relaxed x = 1\nrf 1 -> 2\n", WORKED),
    ("source locations x\r\nrf 1->2\r\nthread 1\r\n01:write relaxed x=01\r\n\t2 :read relaxed  x =1", WORKED),
    # threads in any order, the first of them empty, events numbered across them, links among the events and two from initial writes
    ("chip locations x y\nthread 4\n1: dmb sy\nthread 2\n3: str x = 65535\n5: dmb ld\n4: stlr y = 300\n"
     "data 3 -> 4\nco init y -> 4\nctrl 3 -> 2\nctrl 3 -> 4\nrf 4 -> 2\nco 56 -> 3\nthread 3\n2: ldar exclusive y = 300\n",
     """02 05 02 06 00 03 02 01
     00 03 06 00 00 00 00 00    00 01 01 01 01 2c 01 03    05 02 00 00 00 ff ff 06    00 02 02 00 01 2c 01 01    04 03 05 00 00 00 00 00
     02 04 03 00    04 02 39 00    05 06 03 00    00 06 03 00    00 01 04 00    00 02 38 00"""),
    # an isb first in its thread, and one that a ctrl link leads into
    ("chip locations x y\nthread 1\n3: isb\n1: ldr y = 1\n4: isb\n2: ldr x = 0\nctrl 1 -> 4\nrf init x -> 2\n",
     """02 04 02 02 03 00 00 00
     04 01 00 00 01 01 00 00    00 01 00 00 00 00 00 02    01 03 07 00 00 00 00 00    02 03 07 00 00 00 00 01
     00 06 01 00    00 01 38 00"""),
    # a link three times, chained in an order of its own
    ("source locations x\nthread 2\n1: read relaxed x = 0\nrf init x -> 1\nrf 56 -> 1\nrf 56 -> 1\nchain 1: 2 3 1\n",
     "01 01 01 03 00 01 00 00    00 01 00 00 00 00 00 02    00 01 38 00    03 01 38 00    01 01 38 00"),
]
NAMES = {  # the event on a line: class, mode and flag in its file, the event in a drawing; by kind
    "source": {"read relaxed x = 0": ("01 00 00", "R rlx x=0"), "read relaxed exclusive x = 0": ("01 00 01", "R rlx excl x=0"),
               "read acquire x = 0": ("01 01 00", "R acq x=0"), "read acquire exclusive x = 0": ("01 01 01", "R acq excl x=0"),
               "write relaxed x = 0": ("02 00 00", "W rlx x=0"), "write relaxed strong x = 0": ("02 00 01", "W rlx strong x=0"),
               "write release x = 0": ("02 02 00", "W rel x=0"), "write release strong x = 0": ("02 02 01", "W rel strong x=0"),
               "fence acquire": ("03 01 00", "F acq"), "fence release": ("03 02 00", "F rel"),
               "fence acquire-release": ("03 03 00", "F acq-rel"), "fence sc": ("03 04 00", "F sc")},
    "chip": {"ldr x = 0": ("01 00 00", "ldr x=0"), "ldr exclusive x = 0": ("01 00 01", "ldr excl x=0"),
             "ldar x = 0": ("01 01 00", "ldar x=0"), "ldar exclusive x = 0": ("01 01 01", "ldar excl x=0"),
             "str x = 0": ("02 00 00", "str x=0"), "stlr x = 0": ("02 02 00", "stlr x=0"),
             "dmb ld": ("03 05 00", "dmb ld"), "dmb sy": ("03 06 00", "dmb sy"), "isb": ("03 07 00", "isb")},
}

# Wrong texts.

SOURCE_EVENTS = ("read relaxed, read relaxed exclusive, read acquire, read acquire exclusive, write relaxed, write relaxed strong, "
                 "write release, write release strong, fence acquire, fence release, fence acquire-release, fence sc")
CHIP_EVENTS = "ldr, ldr exclusive, ldar, ldar exclusive, str, stlr, dmb ld, dmb sy, isb"
HELD = "; a read or write has a location and a value, as x = 0"
NO_EVENT = "a source recording has no event {!r}; it has " + SOURCE_EVENTS + HELD
FORM = ("no line of a recording has this form: {!r}; a line is as `source locations x y`, `thread 1`, `3: read acquire x = 1`, `rf 1 -> 3`, "
        "`rf init x -> 3` or `chain 3: 2 1`")
FIRST = "the first line is source or chip with its locations, as `source locations x y`"
ORDER = "locations are x y z a b c d e, in this order and parted by spaces"
LOCATION = "location {} is not in the header, which has x y; locations are x y z a b c d e, in this order"
VALUE = "value {!r}: values are 0 to 65535"
START = "there is no event {}; events are 1 to 1, and initial writes are init x, init y"
END = "there is no event {} to link to; events are 1 to 1"
LINK_TYPES = [
    "rf: a write or initial write -> a read of the same location and value, which has no other source",
    "co: a write or initial write -> another write of the same location",
    "rmw: an exclusive read -> the write directly after it, of the same location",
    "data: a read -> a write later in its thread", "addr: a read -> a read or write later in its thread",
    "ctrl: a read -> an event later in its thread", "casdep: a read -> an exclusive read later in its thread; in a source recording only",
]


def fences(kind, *threads):
    """A text with so many fences in each thread."""
    name, lines = {"source": "fence sc", "chip": "dmb ld"}[kind], [kind]
    for k, size in enumerate(threads, 1):
        number = len(lines) - k  # the events above
        lines += [f"thread {k}", *(f"{number + n}: {name}" for n in range(1, size + 1))]
    return "\n".join(lines) + "\n"


ONE = "source locations x y\nthread 1\n1: write relaxed x = 1\n"  # three lines of a good text
WRONG = [  # a text, the line that is wrong, what is said
    ("", 1, "an empty text"), ("# nothing\n\n", 1, "an empty text"), ("thread 1\nsource\n", 1, FIRST), ("sauce\n", 1, FORM.format("sauce")),
    ("source locations y\n", 1, ORDER), ("source locations x y z a b c d e f\n", 1, ORDER), ("source locations xy\n", 1, ORDER),
    ("source locations\n", 1, FORM.format("source locations")),
    (ONE + "chip\n", 4, "a second header"), (ONE + "thread 1\n", 4, "thread 1 stands above"),
    (ONE + "thread 5\n", 4, "thread 5: threads are 1 to 4"), (ONE + "thread\n", 4, FORM.format("thread")),
    ("source\n1: fence sc\n", 2, "an event above the first thread"), (ONE + "1: fence sc\n", 4, "event 1 stands above"),
    (ONE + "\n3: fence sc\n", 5, "event 3, but 2 events are numbered 1 to 2"), (ONE + "0: fence sc\n", 4, "event 0, but 2 events are numbered 1 to 2"),
    (ONE + "2: read aquire x = 1\n", 4, NO_EVENT.format("read aquire")), (ONE + "2: ldar x = 1\n", 4, NO_EVENT.format("ldar")),
    (ONE + "2: dmb sy\n", 4, NO_EVENT.format("dmb sy")), (ONE + "2: isb\n", 4, NO_EVENT.format("isb")),
    (ONE + "2: read strong x = 1\n", 4, NO_EVENT.format("read strong")), (ONE + "2: read relaxed x\n", 4, NO_EVENT.format("read relaxed x")),
    ("chip locations x\nthread 1\n1: stlr strong x = 1\n", 3, "a chip recording has no event 'stlr strong'; it has " + CHIP_EVENTS + HELD),
    ("chip\nthread 1\n1: isb sy\n", 3, "a chip recording has no event 'isb sy'; it has " + CHIP_EVENTS + HELD),
    (ONE + "2: fence sc x = 0\n", 4, "a fence has no location and no value"),
    ("chip locations x\nthread 1\n1: isb x = 0\n", 3, "a fence has no location and no value"),
    (ONE + "2: read acquire\n", 4, "a read or write has a location and a value, as read acquire x = 0"),
    (ONE + "2: read relaxed z = 1\n", 4, LOCATION.format("z")), (ONE + "2: read relaxed xy = 1\n", 4, LOCATION.format("xy")),
    ("source\nthread 1\n1: read relaxed x = 1\n", 3, LOCATION.format("x").replace("has x y", "has none")),
    (ONE + "2: read relaxed x = 65536\n", 4, VALUE.format("65536")), (ONE + "2: read relaxed x = -1\n", 4, VALUE.format("-1")),
    (ONE + "2: read relaxed x = one\n", 4, VALUE.format("one")), (ONE + "2: read relaxed x = " + "9" * 5000 + "\n", 4, VALUE.format("9" * 60)),
    (ONE + "2: read relaxed x = \u0661\n", 4, VALUE.format("\u0661")),
    (ONE + "9" * 5000 + ": fence sc\n", 4, FORM.format("9" * 60)), (ONE + "2 fence sc\n", 4, FORM.format("2 fence sc")),
    (ONE + "fr 1 -> 1\n", 4, "there is no link type fr; the types are " + "; ".join(LINK_TYPES)),
    (ONE + "rf 1 -> 9\n", 4, END.format(9)), (ONE + "rf 1 -> 56\n", 4, END.format(56)), (ONE + "rf 2 -> 1\n", 4, START.format(2)),
    ("source\nrf 1 -> 1\n", 2, "there is no event 1; the text has no events"),
    (ONE + "rf 0 -> 1\n", 4, START.format(0)), (ONE + "rf 58 -> 1\n", 4, START.format(58)), (ONE + "rf init z -> 1\n", 4, LOCATION.format("z")),
    (ONE + "rf 1 ->\n", 4, FORM.format("rf 1 ->")), (ONE + "rf 1 -> init x\n", 4, FORM.format("rf 1 -> init x")),
    (ONE + "co init x -> 1\nchain 1: 2\n", 5, "the links into event 1 are 1"), (ONE + "chain 1: 1\n", 4, "the links into event 1 are none"),
    (ONE + "chain 9: 1\n", 4, "there is no event 9; events are 1 to 1"),
    (ONE + "co 56 -> 1\nco 56 -> 1\nchain 1: 2 1\nchain 1: 1 2\n", 7, "event 1 is chained above"),
    (fences("source", 12, 12, 8, 1), 38, "more than 32 events"), (fences("chip", 18, 18, 12, 1), 54, "more than 48 events"),
    (fences("source", 13), 15, "more than 12 events in this thread"), (fences("source", 1, 12, 14), 30, "more than 12 events in this thread"),
    (fences("chip", 19), 21, "more than 18 events in this thread"), (fences("chip", 18, 2, 19, 1), 43, "more than 18 events in this thread"),
    (ONE + "co init x -> 1\n" * 201, 204, "more than 200 links"),
    ("chip locations x\nthread 1\n1: str x = 1\n" + "co init x -> 1\n" * 256, 259, "more than 255 links"),
]

# Refused recordings. The text of each link has one condition of its type broken.

EVENTS = ("source locations x y\nthread 1\n1: write relaxed x = 1\n2: read relaxed x = 1\n3: read relaxed exclusive x = 0\n4: write relaxed x = 2\n"
          "5: fence sc\n6: read relaxed exclusive y = 0\n7: write relaxed y = 1\nthread 2\n8: read relaxed y = 1\n9: write relaxed y = 1\n")
CHIP = "chip locations x\nthread 1\n1: ldr x = 0\n2: ldr exclusive x = 0\n"
ISB = "chip locations x\nthread 1\n1: ldr x = 0\n2: isb\n3: ldr x = 0\n"
STRONG = "source locations x\nthread 1\n1: write release strong x = 1\n"
REASONS = [  # a text, the reason why its recording is refused, or that it loads
    *((EVENTS + f"{link}\n", f"link 1 ({link}): {reason} (refusal 8)") for link, reason in [
        ("rf 3 -> 2", "rf starts at a write, and event 3 is a read"), ("rf 5 -> 2", "rf starts at a write, and event 5 is a fence"),
        ("rf 1 -> 4", "rf ends in a read, and event 4 is a write"), ("rf init x -> 5", "rf ends in a read, and event 5 is a fence"),
        ("rf 9 -> 2", "the write has location y, the read x"), ("rf init y -> 3", "the write has location y, the read x"),
        ("rf 1 -> 3", "the write has value 1, the read 0"), ("rf init x -> 2", "the write has value 0, the read 1"),
        ("co 2 -> 1", "co starts at a write, and event 2 is a read"), ("co 1 -> 2", "co ends in a write, and event 2 is a read"),
        ("co init x -> 5", "co ends in a write, and event 5 is a fence"), ("co 1 -> 7", "the source has location x, the target y"),
        ("co init y -> 1", "the source has location y, the target x"), ("co 1 -> 1", "co leads to another write, not to the same"),
        ("rmw init x -> 4", "rmw starts at an exclusive read, and init x is a write"),
        ("rmw 1 -> 4", "rmw starts at an exclusive read, and event 1 is a write"),
        ("rmw 2 -> 4", "rmw starts at an exclusive read, and event 2 is not exclusive"),
        ("rmw 6 -> 8", "rmw ends in a write, and event 8 is a read"), ("rmw 3 -> 7", "the read has location x, the write y"),
        ("rmw 6 -> 9", "event 9 is not directly after event 6"), ("rmw 3 -> 1", "event 1 is not directly after event 3"),
        ("data init x -> 4", "data starts at a read, and init x is a write"), ("data 5 -> 7", "data starts at a read, and event 5 is a fence"),
        ("data 2 -> 3", "data ends in a write, and event 3 is a read"), ("data 2 -> 1", "event 1 is not later than event 2 in its thread"),
        ("data 2 -> 9", "event 9 is not later than event 2 in its thread"), ("addr 1 -> 2", "addr starts at a read, and event 1 is a write"),
        ("addr 2 -> 5", "addr ends in a read or a write, and event 5 is a fence"),
        ("addr 8 -> 7", "event 7 is not later than event 8 in its thread"), ("ctrl init y -> 9", "ctrl starts at a read, and init y is a write"),
        ("ctrl 6 -> 5", "event 5 is not later than event 6 in its thread"), ("ctrl 2 -> 2", "event 2 is not later than event 2 in its thread"),
        ("casdep 1 -> 3", "casdep starts at a read, and event 1 is a write"),
        ("casdep 2 -> 4", "casdep ends in an exclusive read, and event 4 is a write"),
        ("casdep 3 -> 2", "casdep ends in an exclusive read, and event 2 is not exclusive"),
        ("casdep 6 -> 3", "event 3 is not later than event 6 in its thread"),
    ]),
    (CHIP + "casdep 1 -> 2\n", "link 1 (casdep 1 -> 2): a chip recording has no casdep (refusal 8)"),
    (ISB, "loads"), (ISB + "ctrl 1 -> 2\n", "loads"),
    (ISB + "addr 1 -> 2\n", "link 1 (addr 1 -> 2): addr ends in a read or a write, and event 2 is a fence (refusal 8)"),
    (ISB + "ctrl 2 -> 3\n", "link 1 (ctrl 2 -> 3): ctrl starts at a read, and event 2 is a fence (refusal 8)"),
    (EVENTS + "rf 7 -> 8\nrf 1 -> 2\nrf 9 -> 8\nco 1 -> 9\n", "event 8 has two rf sources: 7, 9 (refusal 8)"),
    (EVENTS.replace("= 1", "= 0") + "rf 7 -> 8\nrf 9 -> 8\nrf 57 -> 8\nchain 8: 3 1 2\n", "event 8 has 3 rf sources: init y, 7, 9 (refusal 8)"),
    (EVENTS + "co 9 -> 1\nrf 1 -> 3\n", "link 1 (co 9 -> 1): the source has location y, the target x (refusal 8)"),
    (EVENTS + "rf 1 -> 3\nco 9 -> 1\n", "link 2 (co 9 -> 1): the source has location y, the target x (refusal 8)"),
    (EVENTS + "co 7 -> 9\nco 9 -> 7\n", "co leads back: 7 9 (refusal 9)"),
    (EVENTS.replace(" y = ", " x = ") + "co 1 -> 4\nco 4 -> 7\nco 7 -> 9\nco 9 -> 7\nco 9 -> 4\n", "co leads back: 4 7 9 (refusal 9)"),
    (EVENTS.replace(" y = ", " x = ") + "co init x -> 9\nco 9 -> 4\nco 4 -> 1\nco 1 -> 9\n", "co leads back: 1 9 4 (refusal 9)"),
    (STRONG, "event 1: strong write without rmw (refusal 10)"),
    (STRONG + "2: read relaxed exclusive x = 1\n3: write relaxed strong x = 2\n4: write relaxed strong x = 3\nrmw 2 -> 3\nrf 1 -> 2\nco 1 -> 3\n",
     "event 1: strong write without rmw (refusal 10)"),
    *((fences(kind, *sizes), "loads") for kind, *sizes in [("source", 12), ("source", 12, 0, 8, 12), ("chip", 18), ("chip", 18, 0, 12, 18)]),
]


def chained(size, mode):
    """The records of events 1 to size, fences on one chain."""
    return "".join(f"    {n + 1 if n < size else 0:02x} 03 {mode:02x} 00 00 00 00 00" for n in range(1, size + 1))


LONG = "thread {}: {} events, a thread of a {} recording has at most {} (refusal 13)"
ALONE = "    00 03 04 00 00 00 00 00"  # an event more, a fence
HEAD = "01 01 01 01 01 00 00 00    00 01 00 00 00 00 00 01"  # the header and the one event, a read, of a file with one link
BYTES = [  # a file, the reason why it is refused
    ("01", "1 bytes, a header has 8 (refusal 1)"), ("03" + " 00" * 7, "kind 3 is neither 1, source, nor 2, chip (refusal 2)"),
    ("01 21" + " 00" * 6, "33 events, a source recording has at most 32 (refusal 3)"),
    ("02 00 09" + " 00" * 5, "9 locations, a chip recording has at most 8 (refusal 3)"),
    ("01 00 00 c9" + " 00" * 4, "201 links, a source recording has at most 200 (refusal 3)"),
    ("01 01 00 01" + " 00" * 4, "8 bytes, but 1 events and 1 links make 20 (refusal 4)"),
    ("01 01 01 00 01 00 00 00    00 01 02 00 00 00 00 00", "event 1: a source recording has no class 1 with mode 2 and flag 0 (refusal 5)"),
    ("01 01 01 00 01 00 00 00    00 03 04 00 00 01 00 00", "event 1: a fence with a location or a value (refusal 5)"),
    ("01 01 01 00 01 00 00 00    00 01 00 00 01 00 00 00", "event 1: location 1, but there are 1 (refusal 5)"),
    ("01 01 00 00 01 00 00 00    00 03 07 00 00 00 00 00", "event 1: a source recording has no class 3 with mode 7 and flag 0 (refusal 5)"),
    ("02 01 00 00 01 00 00 00    00 03 07 01 00 00 00 00", "event 1: a chip recording has no class 3 with mode 7 and flag 1 (refusal 5)"),
    ("02 01 00 00 01 00 00 00    00 03 08 00 00 00 00 00", "event 1: a chip recording has no class 3 with mode 8 and flag 0 (refusal 5)"),
    ("02 01 02 00 01 00 00 00    00 03 07 00 01 00 00 00", "event 1: a fence with a location or a value (refusal 5)"),
    ("02 01 02 00 01 00 00 00    00 03 07 00 00 00 01 00", "event 1: a fence with a location or a value (refusal 5)"),
    ("01 01 01 00 02 00 00 00    00 01 00 00 00 00 00 00", "a chain leads to event 2, but there are 1 (refusal 6)"),
    ("01 01 01 00 01 01 00 00    00 01 00 00 00 00 00 00", "event 1 is chained twice (refusal 6)"),
    ("01 01 01 00 00 00 00 00    00 01 00 00 00 00 00 00", "event 1 is in no chain (refusal 6)"),
    ("01 0d 00 00 01 00 00 00" + chained(13, 4), LONG.format(1, 13, "source", 12)),
    *(("02 13 00 00 00 00 00 01" + chained(19, mode), LONG.format(4, 19, "chip", 18)) for mode in (5, 7)),
    ("01 0f 00 00 0f 01 00 00" + chained(14, 4) + ALONE, LONG.format(2, 14, "source", 12)),
    ("01 0e 00 00 01 00 00 00" + chained(13, 4) + ALONE, "event 14 is in no chain (refusal 6)"),
    ("02 13 00 00 01 00 01 00" + chained(19, 5), "event 1 is chained twice (refusal 6)"),
    ("01 0d 01 01 01 00 00 00" + chained(13, 4) + "    00 01 38 00", LONG.format(1, 13, "source", 12)),  # and link 1 is in no chain
    ("02 13 01 01 00 01 00 00" + chained(19, 6)[:-2] + "02    00 01 38 00", LONG.format(2, 19, "chip", 18)),  # and a chain leads to link 2
    (HEAD + " 02 01 38 00", "a chain leads to link 2, but there are 1 (refusal 7)"), (HEAD + " 01 01 38 00", "link 1 is chained twice (refusal 7)"),
    (HEAD[:-2] + "00 00 01 38 00", "link 1 is in no chain (refusal 7)"),
    (HEAD + " 00 08 38 00", "link 1 (type 8 56 -> 1): there is no type 8, types are 1 to 7 (refusal 8)"),
    (HEAD + " 00 01 02 00", "link 1 (rf 2 -> 1): there is no event 2 (refusal 8)"),
    (HEAD + " 00 01 39 00", "link 1 (rf 57 -> 1): there is no event 57 (refusal 8)"),
    (HEAD + " 00 01 ff 00", "link 1 (rf 255 -> 1): there is no event 255 (refusal 8)"),
    (HEAD + " 00 01 38 01", "link 1 (rf 56 -> 1): its last byte is 1, not 0 (refusal 8)"),
]

# Renumbered recordings.

SEEDS = [(), ("--seed", "1"), ("--seed", "2"), ("--seed", "999999999")]  # words of the program; the first two are the same seed
BRANCHED = "source locations x\nthread 2\n1: read relaxed exclusive x = 0\n2: write relaxed x = 1\nthread 3\n3: write relaxed x = 2\n"
BRANCHED += "rf init x -> 1\nrmw 1 -> 2\ndata 1 -> 2\nco 3 -> 2\nco 3 -> 2\nchain 2: 3 2 5 4\n"  # one link is there twice
RENUMBERED = [  # a text, a seed, the bytes of its file with other numbers, which must stay as they are
    (BRANCHED, "1", """01 03 01 05 00 02 01 00
     03 01 00 01 00 00 00 04    00 02 00 00 00 02 00 00    00 02 00 00 00 01 00 01
     05 04 01 00    03 03 01 00    00 02 02 00    00 01 38 00    02 02 02 00"""),
    (BRANCHED, "2", """01 03 01 05 00 00 01 03
     00 02 00 00 00 02 00 00    00 02 00 00 00 01 00 03    02 01 00 01 00 00 00 02
     04 02 01 00    00 01 38 00    01 02 01 00    05 03 03 00    00 04 03 00"""),
    ("chip locations x y\n", "5", "02 00 02 00 00 00 00 00"),
    ("source\n", "1", "01 00 00 00 00 00 00 00"),
]
OTHER = """01 06 02 02 00 00 01 05
 04 02 00 00 00 01 00 00    00 01 00 00 00 00 00 01    02 03 04 00 00 00 00 00
 06 03 04 00 00 00 00 00    03 02 00 00 01 01 00 00    00 01 00 00 01 00 00 02
 00 01 38 00    00 01 39 00"""  # store buffering with SC fences, renumbered without a seed: the README says what the judge prints of it

# The program.

BREAKS = {  # how a drawing names a broken rule, of any model or of one
    "1": "a read without rf", "2": "two writes of a location that co does not order", "4": "an rmw pair that is also fre then coe",
    "source 3": "a ring of po and sw, one step may be of eco", "source 5": "a ring of ar",
    "chip 3": "a ring of po-loc, rf, co and fr", "chip 5": "a ring of ob", "tso 3": "a ring of po-loc, rf, co and fr", "tso 5": "a ring of tso",
}
CLAUSES = {  # the clauses that steps are named by, of a model and a rule
    "source 3": ["po", "sw", "rf", "co", "co;rf", "fr", "fr;rf"],
    "source 5": ["rfe", "po;[Wrel]", "[Racq];po", "po;[F]", "[F];po", "[Wrel];po-loc;[W]", "ppo", "detour", "psc", "[Wstrong];po;[W]"],
    "chip 3": ["po-loc", "rf", "fr", "co"],
    "chip 5": ["rfe", "fre", "coe", "(addr|data);rfi?", "(ctrl|data);[W];coi?", "addr;po;[W]", "(ctrl|addr;po);[Fisb];po;[R]", "rmw",
               "[codom(rmw)];rfi;[Racq]", "po;[Fsy];po", "[R];po;[Fld];po", "[Racq];po", "po;[Wrel];coi?", "[Wrel];po;[Racq]"],
    "tso 3": ["po-loc", "rf", "fr", "co"],
    "tso 5": ["[R];po;([R]|[W])", "[W];po;[W]", "node;po;full", "full;po;node", "rfe", "co", "fr"],
}
RING_OF_ONE = ("source locations x\nthread 1\n1: fence sc\n", "source broken 3 1")
MISUSES = [  # words, part of what is said behind the usage
    ((), "the following arguments are required"), (("text",), "required: file"), (("renumber",), "required: file"),
    (("list", "x.rec"), "(choose from 'text', 'bytes', 'check', 'renumber', 'draw')"), (("renumber", "x", "y"), "renumber takes one file"),
    (("text", "x.rec", "y.rec"), "text takes one file"), (("bytes", "x", "y"), "bytes takes one file"), (("check", "x", "y"), "check takes one file"),
    (("check", "x", "-o", "y"), "check writes to standard output and has no -o"), (("text", "x", "-o", ""), "-o has an empty name"),
    (("draw", "x.rec", "-o", "x.png"), "-o x.png: a drawing's name ends in .dot or .svg"), (("text", "x", "-x"), "unrecognized arguments: -x"),
    *(((word, "x.rec", "--tso"), "--tso draws a line of VERDICT, and none is given") for word in ("draw", "text", "renumber")),
    (("renumber", "x", "-o", ""), "-o has an empty name"), (("renumber", "x", "--seed"), "argument --seed: expected one argument"),
    *((("renumber", "x.rec", "--seed", word), f"--seed {word}: a seed is a number from 0 to 999999999")
      for word in ("", "one", "-1", "1.0", "0x1", " 1", "1_0", "1000000000")),
    (("renumber", "x.rec", "--seed", "1", "2"), "renumber takes one file"),
    *(((word, "x.rec", "--seed", "1"), f"{word} has no --seed") for word in ("text", "bytes", "check", "draw")),
]
