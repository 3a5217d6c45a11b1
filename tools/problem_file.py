#!/usr/bin/env python3
"""Makes a problem file from readable text, and shows a problem file as text. Needs Python 3 alone.

    problem_file.py write TEXT FILE    make FILE from TEXT
    problem_file.py show FILE          print FILE as text that `write` takes
    problem_file.py dump FILE          print the records of FILE, twenty words to a line, whatever they hold
    problem_file.py pack DUMP FILE     make FILE from such lines

The text has one thing on a line; what follows a # is a remark:

    squares N GAP                      or   linear N GAP RATE_1 .. RATE_N
    plain LO HI COEFFICIENT_1 .. COEFFICIENT_N
    switch LO HI COEFFICIENT_1 .. COEFFICIENT_N
    point Q P_1 .. P_N
    proof S Y_1 .. Y_M
    split ROW SIDE                     SIDE is lower or upper

Numbers at the end of a line that are 0 may be left out. Nothing is judged here but the form of the lines: a
file with a wrong number in it can be made on purpose.
"""
import struct
import sys

WORDS = 20
FAMILIES = {"squares": 1, "linear": 2}
KINDS = {"plain": 1, "switch": 2, "point": 3, "proof": 4, "split": 5}
LENGTHS = {"plain": 10, "switch": 10, "point": 9, "proof": 17, "split": 2}
SIDES = {"lower": 0, "upper": 1}


class Wrong(Exception):
    """A line or a file that has not the form above."""


def name_of(table, number):
    for name, value in table.items():
        if value == number:
            return name
    return None


def number(word):
    try:
        value = int(word)
    except ValueError:
        raise Wrong(f"not a number: {word}") from None
    if not -(2**31) <= value < 2**31:
        raise Wrong(f"not a number of 32 bits: {word}")
    return value


def padded(numbers, length):
    if len(numbers) > length:
        raise Wrong(f"{len(numbers)} numbers where there is room for {length}")
    return numbers + [0] * (length - len(numbers))


def lines_of(text):
    for place, line in enumerate(text.splitlines(), 1):
        words = line.split("#")[0].split()
        if words:
            yield place, words


def parse_line(words):
    """The kind of a line and its list."""
    kind, rest = words[0], words[1:]
    if kind == "split" and len(rest) == 2 and rest[1] in SIDES:
        rest = [rest[0], SIDES[rest[1]]]
    if kind in LENGTHS:
        return kind, padded([number(w) for w in rest], LENGTHS[kind])
    if kind in FAMILIES:
        return kind, padded([number(w) for w in rest], 10)
    raise Wrong(f"unknown word: {kind}")


def records_of(text):
    """The records of the file that a text describes: record 0, the rows and then the calls."""
    head, rows, calls = None, [], []
    for place, words in lines_of(text):
        try:
            kind, numbers = parse_line(words)
        except Wrong as wrong:
            raise Wrong(f"line {place}: {wrong}") from None
        if kind in FAMILIES:
            if head is not None:
                raise Wrong(f"line {place}: a second family")
            head = [FAMILIES[kind]] + numbers
        elif KINDS[kind] <= 2:
            rows.append([KINDS[kind]] + numbers)
        else:
            calls.append([KINDS[kind]] + numbers)
    if head is None:
        raise Wrong("no line names the family")
    first_call = len(rows) + 1 if calls else 0
    records = [padded([1 if rows else 0, first_call] + head, WORDS)]
    for chain, start in ((rows, 1), (calls, len(rows) + 1)):
        for index, record in enumerate(chain):
            link = 0 if index + 1 == len(chain) else start + index + 1
            records.append(padded([link] + record, WORDS))
    return records


def bytes_of(records):
    return b"".join(struct.pack("<20i", *record) for record in records)


def records_in(data):
    if not data or len(data) % 80:
        raise Wrong(f"{len(data)} bytes are no whole number of records")
    return [list(struct.unpack_from("<20i", data, 80 * r)) for r in range(len(data) // 80)]


def trimmed(numbers):
    while numbers and numbers[-1] == 0:
        numbers = numbers[:-1]
    return " ".join(str(z) for z in numbers)


def chain_of(records, first):
    at, seen = first, set()
    while at:
        if not 0 < at < len(records) or at in seen:
            raise Wrong(f"the chain breaks at record {at}; `dump` shows all records")
        seen.add(at)
        yield at, records[at]
        at = records[at][0]


def text_of(records):
    head = records[0]
    family = name_of(FAMILIES, head[2])
    if family is None:
        raise Wrong(f"no family has the number {head[2]}; `dump` shows all records")
    yield f"{family} {trimmed(head[3:13]) or 0}"
    for first in head[:2]:
        for at, record in chain_of(records, first):
            kind = name_of(KINDS, record[1])
            if kind is None:
                raise Wrong(f"record {at} has the kind {record[1]}; `dump` shows all records")
            numbers = record[2 : 2 + LENGTHS[kind]]
            if kind == "split" and numbers[1] in (0, 1):
                yield f"split {numbers[0]} {name_of(SIDES, numbers[1])}"
            else:
                yield f"{kind} {trimmed(numbers) or 0}"


def read(path):
    with open(path, "rb") as file:
        return file.read()


def text_in(path):
    try:
        return read(path).decode()
    except UnicodeDecodeError as error:
        raise Wrong(f"{path} is no text: {error}") from error


def save(path, data):
    with open(path, "wb") as file:
        file.write(data)


def main(words):
    if len(words) == 3 and words[0] == "write":
        save(words[2], bytes_of(records_of(text_in(words[1]))))
    elif len(words) == 2 and words[0] == "show":
        print("\n".join(text_of(records_in(read(words[1])))))
    elif len(words) == 2 and words[0] == "dump":
        for record in records_in(read(words[1])):
            print(" ".join(str(z) for z in record))
    elif len(words) == 3 and words[0] == "pack":
        rows = [padded([number(w) for w in ws], WORDS) for _, ws in lines_of(text_in(words[1]))]
        save(words[2], bytes_of(rows))
    else:
        print(__doc__, file=sys.stderr)
        return 2
    return 0


if __name__ == "__main__":
    try:
        sys.exit(main(sys.argv[1:]))
    except (Wrong, OSError) as wrong:
        print(f"problem_file: {wrong}", file=sys.stderr)
        sys.exit(1)
