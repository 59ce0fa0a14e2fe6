#!/usr/bin/env python3
"""Makes data/faulty_lines.case: lines that differ from a good request in one thing, and the fault of each.

It is run in this folder, whenever a request gets other members or another range:

    python3 faulty_lines.py > data/faulty_lines.case

It knows nothing of the program. The two tables below say which members a request has, of which kind each is, and in
which range a kind lies; what fault a line has follows from these alone. 0 is no fault, 2 a line that is no JSON, 3
one with a member missing, unknown or of another kind, 4 one whose members are all of their kinds, and one of them is
out of its range.
"""

# Kinds that are whole numbers, each with its least and its greatest number.
NUMBERS = {
    "account": (0, 65_535),
    "amount": (1, 10**15),
    "condition": (0, 4_095),
    "event": (0, 511),
    "order": (0, 2**32 - 1),
    "bits": (0, 2**32 - 1),
    "numerator": (0, 1_000_000),
    "question": (0, 10**15),
    "moment": (0, 10**15),
    "nonce": (0, 10**15),
    "slots": (2, 32),
    "questions": (2, 32),
    "event's question": (0, 31),
    "event's fee": (0, 10_000),
    "order's fee": (0, 1_000),
    "place's set": (0, 255),
}

# Kinds that are lists: the kinds of an entry's numbers, the fewest and the most entries, and whether the first numbers
# have to ascend. An entry of one number is that number, one of two is a pair.
LISTS = {
    "key": (("condition", "bits"), 0, 32, True),
    "sets": (("bits",), 1, 32, False),
    "payouts": (("numerator",), 1, 32, False),
    "makers": (("order", "amount"), 1, 16, False),
}

# Kinds of which each value is listed.
WORDS = {
    "truth": ["true", "false"],
    "side": ['"buy"', '"sell"'],
}

NAMED = {"parent": "key", "condition": "condition", "sets": "sets"}

# The members of each request beside `do` and `by`.
REQUESTS = {
    "deposit": {"to": "account", "amount": "amount"},
    "withdraw": {"amount": "amount"},
    "move": {"to": "account", "key": "key", "amount": "amount"},
    "prepare": {"oracle": "account", "question": "question", "slots": "slots"},
    "event": {"oracle": "account", "questions": "questions", "fee": "event's fee"},
    "split": {**NAMED, "amount": "amount"},
    "merge": {**NAMED, "amount": "amount"},
    "report": {"condition": "condition", "payouts": "payouts"},
    "answer": {"event": "event", "question": "event's question", "yes": "truth"},
    "redeem": NAMED,
    "convert": {"event": "event", "set": "bits", "amount": "amount"},
    "market": {"condition": "condition"},
    "place": {
        "market": "condition",
        "set": "place's set",
        "side": "side",
        "making": "amount",
        "taking": "amount",
        "expires": "moment",
        "nonce": "nonce",
        "fee": "order's fee",
    },
    "cancel": {"order": "order"},
    "bump": {},
    "match": {"taker": "order", "fill": "amount", "makers": "makers"},
    "lapse": {"order": "order"},
    "cross": {"market": "condition"},
    "balance": {"of": "account", "key": "key"},
    "order": {"order": "order"},
    "vault": {},
}

# A value of each kind of JSON, with numbers that are no whole number: a fraction, a sign, and more than 64 bits.
NULL, TRUTH, TEXT, LIST, OBJECT = "null", "true", '"2"', "[]", "{}"
NO_WHOLE = ["2.0", "-2", str(2**64)]
NO_NUMBER = [NULL, TRUTH, TEXT, LIST, OBJECT]


def entry(numbers):
    """An entry of a list, of one number or of a pair."""
    return numbers[0] if len(numbers) == 1 else "[" + ",".join(numbers) + "]"


def list_of(entries):
    """A list of entries."""
    return "[" + ",".join(entries) + "]"


def good_entry(kinds, turn):
    """An entry with the numbers of this turn, each in its range; the first ones ascend with the turns."""
    return entry([str(NUMBERS[kind][0] + turn) for kind in kinds])


def good_list(kind, count):
    """A list of so many good entries."""
    return list_of(good_entry(LISTS[kind][0], turn) for turn in range(count))


def good(kind):
    """A value that is in its range."""
    if kind in NUMBERS:
        return str(NUMBERS[kind][0] + 1)
    if kind in LISTS:
        return good_list(kind, 2)
    return WORDS[kind][0]


def other_good(kind):
    """Another value that is in its range."""
    if kind in NUMBERS:
        return str(NUMBERS[kind][0])
    if kind in LISTS:
        return good_list(kind, 1)
    return WORDS[kind][1]


def out_of_range(kind):
    """A value that is of its kind and out of its range, or none where there is none."""
    if kind in NUMBERS:
        return str(NUMBERS[kind][1] + 1)
    if kind in LISTS:
        kinds = LISTS[kind][0]
        return list_of([entry([out_of_range(kinds[0])] + [good(kind) for kind in kinds[1:]])])
    return None


def number_values(kind):
    """Values for a whole number, each with its fault."""
    for value in NO_NUMBER:
        yield value, 3
    yield from bound_values(kind)


def bound_values(kind):
    """Numbers that are no whole number, at a bound, or beyond one, each with its fault."""
    least, greatest = NUMBERS[kind]
    for value in NO_WHOLE:
        yield value, 3
    yield str(least), 0
    yield str(greatest), 0
    if least > 0:
        yield str(least - 1), 4
    yield str(greatest + 1), 4


def length_values(kind):
    """Lists of the fewest and the most entries, and of one more and one less, each with its fault."""
    _, fewest, most, _ = LISTS[kind]
    yield good_list(kind, fewest), 0
    yield good_list(kind, most), 0
    if fewest > 0:
        yield good_list(kind, fewest - 1), 4
    yield good_list(kind, most + 1), 4


def order_values(kind):
    """Lists whose first numbers don't ascend, each with its fault."""
    kinds, _, _, ascends = LISTS[kind]
    one, two = good_entry(kinds, 0), good_entry(kinds, 1)
    fault = 4 if ascends else 0
    yield list_of([two, one]), fault
    yield list_of([one, one]), fault
    yield list_of([one, two, one]), fault


def entry_values(kind):
    """Lists of one entry, each number of which is in turn at a bound, beyond one, or none; each with its fault."""
    kinds = LISTS[kind][0]
    goods = [good(kind) for kind in kinds]
    for place, number in enumerate(kinds):
        for value, fault in [(TEXT, 3), *bound_values(number)]:
            yield list_of([entry(goods[:place] + [value] + goods[place + 1 :])]), fault


def form_values(kind):
    """Lists with an entry of another form, each with its fault: also where another entry is out of its range."""
    kinds = LISTS[kind][0]
    one = good_entry(kinds, 0)
    wide = out_of_range(kind)[1:-1]
    if len(kinds) == 2:
        for other in [LIST, OBJECT, "2", "[2]", "[2,2,2]"]:
            yield list_of([other]), 3
    yield list_of([one, NULL]), 3
    yield list_of([wide, NULL]), 3
    yield list_of([NULL, wide]), 3
    yield list_of([one, wide]), 4


def list_values(kind):
    """Values for a list, each with its fault."""
    for value in [NULL, TRUTH, TEXT, OBJECT, "2", "2.0", "-2"]:
        yield value, 3
    for values in (length_values, order_values, entry_values, form_values):
        yield from values(kind)


def word_values(kind):
    """Values for a word, each with its fault."""
    words = WORDS[kind]
    for word in words:
        yield word, 0
    for value in NO_NUMBER + ["0", "1", "2.0", "-2", '""', '"Buy"', '"sell "', '"true"', "false"]:
        if value not in words:
            yield value, 3


def values(kind):
    """Values for a kind, each with its fault."""
    if kind in NUMBERS:
        return number_values(kind)
    if kind in LISTS:
        return list_values(kind)
    return word_values(kind)


def line(members):
    """The line of an object with these members, each a name and a text."""
    return "{" + ",".join(f'"{name}":{text}' for name, text in members) + "}"


def changed(members, name, text):
    """The members, of which one has another text."""
    return [(other, text if other == name else old) for other, old in members]


def without(members, name):
    """The members without one."""
    return [member for member in members if member[0] != name]


def member_lines(kinds, members):
    """A request's lines with each of its members missing, named twice, and with each value; with their faults."""
    for name, kind in kinds.items():
        yield line(without(members, name)), 3
        yield line(members + [(name, other_good(kind))]), 0
        for value, fault in values(kind):
            yield line(changed(members, name, value)), fault


def mixed_lines(kinds, members):
    """A request's lines with a member out of its range, and another of another kind, missing or unknown."""
    wide = changed(members, "by", out_of_range("account"))
    yield line(wide + [("x", "1")]), 3
    yield line(without(wide, "do")), 3
    names = list(kinds)
    for name, other in zip(names, names[1:] + names[:1]):
        value = out_of_range(kinds[name])
        if value is not None and name != other:
            yield line(changed(changed(members, name, value), other, NULL)), 3
            yield line(changed(members, name, value)), 4


def name_lines(members):
    """A request's lines with its name missing, named twice, of another kind or of no request."""
    yield line(without(members, "do")), 3
    yield line(members + [members[0]]), 0
    for value in [NULL, TRUTH, "2", LIST, OBJECT, '"steal"']:
        yield line(changed(members, "do", value)), 3


def request_lines(name):
    """A request's lines, each with its fault."""
    kinds = {"by": "account", **REQUESTS[name]}
    members = [("do", f'"{name}"')] + [(member, good(kind)) for member, kind in kinds.items()]
    yield line(members), 0
    yield line(members[::-1]), 0
    yield line(members + [("x", "1")]), 3
    yield from name_lines(members)
    yield from member_lines(kinds, members)
    yield from mixed_lines(kinds, members)


def other_lines():
    """Lines that are no request of any name, each with its fault."""
    vault = line([("do", '"vault"'), ("by", "2")])
    for text in ["vault", vault[:-1], vault + vault, vault[:-1] + ",}", "[" + vault]:
        yield text, 2
    for text in ["[]", "[" + vault + "]", "{}", "2", "2.5", "-2", "null", "true", '"vault"']:
        yield text, 3


def write(title, lines):
    """Writes lines under a title, each once."""
    print(f"\n# {title}")
    for text, fault in dict.fromkeys(lines):
        print(f"fault {fault} {text}")


def main():
    """Writes the case."""
    print("# Lines that differ from a good request in one thing. This file was made by `faulty_lines.py`: change that.")
    write("No request of any name.", other_lines())
    for name, kinds in REQUESTS.items():
        write(f"{name}: {', '.join(kinds) or 'no further member'}.", request_lines(name))


if __name__ == "__main__":
    main()
