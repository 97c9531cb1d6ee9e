"""The stored cases, as crates/vectors holds them (make-vectors says how), and what the programs write of them."""
import os
import struct
from started import ROOT

CHECK, RUN = 0, 1
# kind, how long the text and the input are, and what is lent: string space, room for output, budget, records
HEAD = struct.Struct('<B6I')
# run_recipe takes no more records than this: one too many is as good as any more
MOST_RECORDS = 257
CASES, ANSWERS = (os.path.join(ROOT, 'crates/vectors', name) for name in ('stdin', 'stdout'))


def stored():
    """Each case's kind, text, input, what is lent, and the row that the program `vectors` must write."""
    cases = open(CASES, 'rb').read()
    place = 0
    for row in open(ANSWERS):
        kind, text_len, input_len, *lent = HEAD.unpack_from(cases, place)
        start = place + HEAD.size
        place = start + text_len + input_len
        yield kind, cases[start:start + text_len], cases[start + text_len:place], lent, row


def line(*fields):
    return '\t'.join(str(field) for field in fields).encode() + b'\n'


def run_output(outcome, number, at, steps, printed):
    return printed + line(outcome, number, at, steps)


def asked(lent):
    """What is lent, as run_recipe is asked for it."""
    *others, records = lent
    return [*others, min(records, MOST_RECORDS)]


def answered():
    """The same, but what run_recipe or check_recipe must write for the row."""
    for kind, text, taken, lent, row in stored():
        word, *numbers = row.split()
        numbers = [int(number) for number in numbers]
        if kind == CHECK:
            yield CHECK, text, b'', [], line(word, *numbers)
        else:
            number, at, refused_at, steps = numbers[:4]
            printed = bytes(numbers[7:7 + numbers[6]])
            yield RUN, text, taken, asked(lent), run_output(word, number, refused_at if word == 'refused' else at, steps, printed)
