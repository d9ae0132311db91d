#!/usr/bin/env python3
"""Prints lists of calls, made from a seed, in the lines of docs/REPLAY.md: an input, and then 5 to 40 calls on it.

    python3 tools/lists.py SEED COUNT [--limits N]

The same seed gives the same lists, under every Python from 3.7 on. Only calls that the Rust has too stand in them, so any
implementation that speaks these lines can be asked the same. --limits adds N lists on inputs at the limit of their length.
"""
import argparse
import random

LIMIT = 65535
CODES_LIMIT = 16383
HUGE = 2**64 - 1

BLANKS = [" ", " ", "  ", "\t", " \t", "\t ", "    ", " " * 17, "\t" * 16, " \t" * 9]
BREAKS = ["\n", "\n", "\n", "\r", "\r\n", "\n\n", "\0", "\n  ", "\0\0"]
COMMENTS = ["#", "#x", "a#b", " #", "\t#", " # note", "\t# n", "  #\n", " #\0", " # \u00e9\u2028\u0001\ufeff \U0001f525",
            " \t # a longer note, with: a colon", "\n# own line\n", "#\t", " ##"]
COLONS = [":" + after for after in [" ", "\t", "\n", "\r", "\0", ",", "[", "]", "{", "}", "a", "0", "_", "-", "#", ":", "",
                                    "\u00e9", "\u65e5", "\U0001f525", "\u0001", "\ufeff"]]
COLONS += ["a: b", "a:b", "a,b: c", "key:\tvalue", "a:,b", "http://x:80"]
MARKERS = [mark + after for mark in ["---", "..."]
           for after in [" ", "\t", "\n", "\r", "\0", "", "a", "-", ".", "\u00e9", "\u2028", "#"]]
MARKERS += ["-", "--", ".", "..", "--.", "..-", "- ", "-\n"]
OWN_LINES = ["\n---\n", "\n...\n", "\r\n---\r\n", "\r...\r", "\n--- a\n", "\n---a\n", "\n... \n", "\n---\0", "\n...\0"]
FLOWS = [",", "[", "]", "{", "}", "[a, b]", "{a: b}", "a,b", "[]", "{}", "{a:[b]}", ", ", "a]", "[:]"]
WORDS = ["a", "b", "z", "A", "_", "0", "9", "key", "a_b-c", "X9", "left-hand", "42", "7", "3.5", "0x7f", "true",
         "notes: |", "!tag", "%2F", "&x", "*x", "@", "\"q\"", "'s'", "?", "|", "~", "caf\u00e9", "20\u00b0C",
         "\u65e5\u672c\u8a9e", "\x1b[2J"]
LONGS = ["abcdefghijklmnopqrstuvwxyz", "0123456789abcdef", "0123456789abcdefg", "-" * 18, "." * 17, ":" * 17, "a:" * 10, "_" * 16,
         "\u00e9" * 17, "\u65e5" * 20, "\U0001f525" * 16, "a\u00e9\u65e5\U0001f525" * 5, "\u0085\u00a0\u2028" * 6,
         "x\ufeffy\x7f" * 5, "some words in a line, as they come"]
ODD = [0x1, 0x1B, 0x7E, 0x7F, 0x80, 0x85, 0x9F, 0xA0, 0xFF, 0x7FF, 0x800, 0x2028, 0x2029, 0xD7FF, 0xE000, 0xFEFF, 0xFFFD, 0xFFFE,
       0xFFFF, 0x10000, 0x1F525, 0xFFFFF, 0x100000, 0x10FFFE, 0x10FFFF]
ENDS = ["---", "...", "\n---", "\n...", "--", "..", "-", ":", "a:", " ", "\t", "#", " #", "\n", "\r", "\r\n", "\0",
        "\u00e9", "\u65e5", "\U0001f525", ",", "---\0", "\ufeff"]
PIECES = [(4, BLANKS), (4, BREAKS), (4, COMMENTS), (5, COLONS), (4, MARKERS), (3, OWN_LINES), (4, FLOWS), (7, WORDS), (3, LONGS)]

# bytes that are no character, and fronts of characters
ILL = ["80", "bf", "c0", "c1", "c080", "c1bf", "c3", "c328", "c3c3", "e2", "e282", "e228a1", "e08080", "e09fbf", "eda080", "edbfbf",
       "edb080", "f0", "f09f", "f09f98", "f0808080", "f08fbfbf", "f4908080", "f5808080", "f888808080", "fe", "ff", "f09f9861"]
NO_CHARACTER = [0xD800, 0xDBFF, 0xDC00, 0xDFFF, 0x110000, 0x7FFFFFFF, 0xFFFFFFFF]

TESTS = ["buf_is_empty", "next_is_blank_or_break", "next_is_blank_or_breakz", "next_is_blank", "next_is_break", "next_is_breakz",
         "next_is_z", "next_is_flow", "next_is_digit", "next_is_alpha"]
TRUE_OF = [("next_is_digit", "0123456789"), ("next_is_flow", ",[]{}"), ("next_is_blank", " \t"),
           ("next_is_blank_or_break", " \t\n\r"), ("next_is_break", "\n\r"), ("next_is_breakz", "\n\r\0"),
           ("next_is_alpha", "abcxyzAXZ0379_-")]
MARKER_TESTS = ["next_is_document_indicator", "next_is_document_start", "next_is_document_end"]
CLASSES = ["is_z", "is_break", "is_breakz", "is_blank", "is_blank_or_breakz", "is_digit", "is_alpha", "is_hex", "is_flow", "is_bom",
           "is_yaml_non_break", "is_printable", "is_yaml_non_space", "is_anchor_char", "is_word_char", "is_uri_char", "is_tag_char"]


class Dice:
    """Draws by random() alone: its numbers are the same under every Python."""

    def __init__(self, seed, number):
        self.random = random.Random(seed * 2**32 + number).random

    def below(self, n):
        return int(self.random() * n)

    def between(self, low, high):
        return low + self.below(high - low + 1)

    def percent(self, n):
        return self.below(100) < n

    def of(self, items):
        return items[self.below(len(items))]

    def weighed(self, table):
        at = self.below(sum(weight for weight, _ in table))
        for weight, item in table:
            if at < weight:
                return item
            at -= weight


# Texts

def any_character(dice):
    low, high = dice.of([(0, 0x7F), (0x80, 0x7FF), (0x800, 0xD7FF), (0xE000, 0xFFFF), (0x10000, 0x10FFFF)])
    return dice.between(low, high)


def piece(dice):
    if dice.percent(12):
        return chr(dice.of(ODD))
    if dice.percent(4):
        return chr(any_character(dice))
    return dice.of(dice.weighed(PIECES))


def mixed(dice):
    return "".join(piece(dice) for _ in range(dice.of([1, 2, 3, 5, 8, 12, 20, 30])))


def one_kind(dice):
    """Runs of one kind of piece, with a few others between them."""
    pieces = dice.weighed(PIECES)
    return "".join(piece(dice) if dice.percent(15) else dice.of(pieces) for _ in range(dice.between(2, 10)))


def entry(dice):
    """A line as of a program: an indent, a key, a value, a comment."""
    words = [" " * dice.of([0, 0, 2, 4, 17]), dice.of(WORDS), dice.of([": ", ":", ":\t", " : ", " ", ""]), dice.of(WORDS + LONGS)]
    if dice.percent(40):
        words.append(dice.of(COMMENTS))
    return "".join(words)


def lines(dice):
    rows = [dice.of(["---", "...", "--- a", ""]) if dice.percent(20) else entry(dice) for _ in range(dice.between(1, 4))]
    return dice.of(["\n", "\n", "\r", "\r\n", "\0"]).join(rows)


def text(dice):
    if dice.percent(4):
        return ""
    made = dice.weighed([(4, mixed), (2, one_kind), (2, lines)])(dice)
    return made + dice.of(ENDS) if dice.percent(45) else made


def put_in(dice, items, new):
    """Puts new items among the first 40 or so, or at the end."""
    at = len(items) if dice.percent(20) else dice.below(min(len(items), 40) + 1)
    return items[:at] + new + items[at:]


def ill_formed(dice, data):
    if dice.percent(25):
        return data + dice.of(["\u00e9", "\u65e5", "\U0001f525"]).encode()[:-1]
    data = put_in(dice, data, bytes.fromhex(dice.of(ILL)))
    return put_in(dice, data, bytes([dice.below(256)])) if dice.percent(10) else data


# Inputs: the line that asks for one, and the characters that are compared and bounded by

def of_bytes(kind, share):
    def make(dice):
        made = text(dice)
        data = made.encode()
        if dice.percent(share):
            data = ill_formed(dice, data)
        return f"new {kind} {data.hex() or '-'}", made
    return make


def of_codes(dice):
    made = text(dice)
    codes = [ord(c) for c in made]
    if dice.percent(25):
        codes = put_in(dice, codes, [dice.of(NO_CHARACTER)])
    return " ".join(["new ring codes", dice.of(["clean", "io"])] + [f"{c:x}" for c in codes]), made


INPUTS = [(34, of_bytes("slice", 4)), (24, of_bytes("ring text", 2)), (22, of_bytes("ring bytes", 50)), (20, of_codes)]


def at_limit(dice):
    """An input of about as many bytes or codes as may be."""
    unit = dice.of(["a", " ", "\u00e9", "\u65e5", "\U0001f525", "a b: ", "-"])
    if dice.percent(25):
        made = (unit * CODES_LIMIT)[:CODES_LIMIT + dice.between(-1, 1)]
        return " ".join(["new ring codes", dice.of(["clean", "io"])] + [f"{ord(c):x}" for c in made]), made
    size = LIMIT + dice.between(-1, 1)
    made = unit * (size // len(unit.encode()))
    made += "x" * (size - len(made.encode()))
    return f"new {dice.of(['slice', 'ring text', 'ring bytes'])} {made.encode().hex()}", made


# Calls: each move gives some. The place is about where the list has come to, so that calls can be aimed at what is next.

class Walk:
    def __init__(self, dice, made):
        self.dice = dice
        self.made = made
        self.place = 0

    def next(self):
        return self.made[self.place:self.place + 1]

    def take(self, count):
        self.place = min(self.place + count, len(self.made))

    def take_run(self, inside, most=HUGE):
        start = self.place
        while self.place < len(self.made) and self.place - start < most and inside(self.made[self.place]):
            self.place += 1
        return self.place - start

    def character(self, at):
        """The number of a character to compare the one at this place with."""
        if self.dice.percent(4):
            return self.dice.of(NO_CHARACTER)
        if self.dice.percent(12):
            return self.dice.of([0, 0x20, 0x2D, 0x3A, 0x61])
        return ord(self.made[at]) if at < len(self.made) else 0


def blank(c):
    return c in " \t"


def alpha(c):
    return c.isascii() and (c.isalnum() or c in "_-")


def no_space(c):
    return c not in " \t\n\r\0"


def in_line(c):
    return c not in "\n\r\0"


RUNS = {"skip_while_blank": blank, "fetch_while_is_alpha": alpha, "fetch_while_is_yaml_non_space": no_space,
        "skip_while_non_breakz": in_line, "fetch_block_scalar_line": in_line}


def count(dice):
    """How many characters to look at, to skip or to scan."""
    if dice.percent(2):
        return dice.of([100, 127, 128, 129, 1000, 65535, 2**32, HUGE])
    if dice.percent(30):
        return dice.below(21)
    return dice.of([0, 1, 1, 1, 2, 2, 2, 3, 3, 4, 4, 5, 8, 15, 16, 17])


def flag(dice):
    return dice.of(["true", "false"])


def yes(dice):
    return dice.of(["yes", "no"])


def run(walk, call=None):
    call = call or walk.dice.of(list(RUNS))
    walk.take_run(RUNS[call])
    return [call]


def blanks(walk):
    dice = walk.dice
    if dice.percent(20):
        return run(walk, "skip_while_blank")
    tabs = yes(dice)
    moved = walk.take_run(blank if tabs == "yes" else " ".__eq__)
    if dice.percent(30):
        return [f"skip_ws_to_eol_blanks {tabs}"]
    if moved and walk.next() == "#":
        walk.take_run(in_line)
    return [f"skip_ws_to_eol {tabs}"]


def scan(walk):
    return run(walk) if walk.dice.percent(65) else blanks(walk)


def chunk(walk):
    dice = walk.dice
    many = dice.of([0, 1, 2, 3, 5, 7, 16, 17, 100]) if dice.percent(60) else count(dice)
    walk.take_run(no_space, many)
    call = dice.of(["fetch_plain_scalar_chunk", "skip_plain_scalar_chunk"]) + f" {many} {flag(dice)}"
    return [f"lookahead {dice.of([1, 2, 2, 2, 4])}", call] if dice.percent(40) else [call]


def read(walk):
    walk.take(1)
    return [walk.dice.of(["raw_read_ch", "raw_read_non_breakz_ch", "skip"])]


def at_break(walk):
    walk.take(1)
    before = walk.dice.of([[], [], ["raw_read_non_breakz_ch"], ["next_is_break"], ["lookahead 2"], ["buf_is_empty"]])
    return before + [walk.dice.of(["raw_read_ch", "skip", "skip"])]


def skip_n(walk):
    dice = walk.dice
    left = len(walk.made) - walk.place
    many = dice.of([left, max(left - dice.between(1, 5), 0), left + 1, 100]) if dice.percent(12) else count(dice)
    walk.take(many)
    return [f"skip_n {many}"]


def lookahead(walk):
    return [f"lookahead {count(walk.dice)}"]


def window(walk):
    return [walk.dice.of(["buflen", "buflen", "bufmaxlen"])]


def peek(walk):
    return [walk.dice.of(["peek", "look_ch", f"peek_nth {count(walk.dice)}"])]


def one_test(walk):
    dice = walk.dice
    at = count(dice)
    return [dice.weighed([(6, dice.of(TESTS)), (2, f"next_can_be_plain_scalar {flag(dice)}"),
                          (2, f"next_char_is {walk.character(walk.place):x}"),
                          (2, f"nth_char_is {at} {walk.character(walk.place + at):x}")])]


def several(walk):
    if walk.dice.percent(40):
        return [walk.dice.of(MARKER_TESTS)]
    size = walk.dice.of([2, 3])
    if walk.dice.percent(10):
        return [f"next_{size}_are " + " ".join([walk.dice.of(["2d", "2e", "3a", "0"])] * size)]
    return [f"next_{size}_are " + " ".join(f"{walk.character(walk.place + i):x}" for i in range(size))]


def look(walk):
    """As a scanner does: a lookahead, and a test that it is enough for, or nearly."""
    return [f"lookahead {walk.dice.of([1, 2, 2, 3, 3, 4, 4, 4, 4])}"] + walk.dice.of([one_test, several, several, peek])(walk)


def marker(walk):
    enough = [f"lookahead {walk.dice.of([3, 4, 4, 4, 5])}"] if walk.dice.percent(70) else []
    fitting = MARKER_TESTS + {"-": ["next_is_document_start"], ".": ["next_is_document_end"]}.get(walk.next(), [])
    after = walk.dice.of([[], ["skip_n 3"], ["next_3_are 2d 2d 2d"]])
    if after == ["skip_n 3"]:
        walk.take(3)
    return enough + [walk.dice.of(fitting)] + after


def plain(walk):
    return [f"lookahead {walk.dice.of([1, 2, 2, 3])}", f"next_can_be_plain_scalar {flag(walk.dice)}"]


def ask(walk):
    return ["take_source_error"] * walk.dice.of([1, 1, 1, 2])


def part(walk):
    dice = walk.dice
    size = len(walk.made.encode())
    low, high = dice.between(0, size), dice.between(0, size + 1)
    if dice.percent(70):
        low, high = min(low, high), max(low, high)
    if dice.percent(10):
        low, high = dice.of([(0, size), (size, size), (0, size + 1), (size + 1, size + 1), (0, HUGE), (HUGE, 0), (low, low)])
    return [f"slice_borrowed {low} {high}"]


def of_class(walk):
    c = any_character(walk.dice) if walk.dice.percent(30) else walk.character(walk.place)
    return [f"class {walk.dice.of(CLASSES)} {c:x}"]


def at_end(walk):
    return walk.dice.of([read, read, scan, chunk, peek, one_test, several, skip_n, ask, look])(walk)


def near_end(walk):
    left = max(len(walk.made) - walk.place - walk.dice.of([1, 2, 3, 3, 3, 4]), 0)
    walk.take(left)
    return [f"skip_n {left}"] + aimed(walk) + aimed(walk)


def end(walk):
    """To the end, past it, and questions there."""
    walk.take(len(walk.made))
    taking = walk.dice.of([[f"skip_n {len(walk.made) + 1}"], ["fetch_block_scalar_line", "skip"] * 3])
    return taking + ask(walk) + at_end(walk) + at_end(walk) + at_end(walk) + ask(walk)


def fitting_test(walk):
    c = walk.next()
    fitting = [test for test, members in TRUE_OF if c and c in members]
    return ["lookahead 1"] * walk.dice.below(2) + [walk.dice.of(fitting or TESTS)]


def aimed(walk):
    """A call that fits what is next."""
    c = walk.next()
    if walk.dice.percent(15):
        move = fitting_test
    elif c == "":
        move = at_end
    elif blank(c):
        move = walk.dice.of([blanks, blanks, blanks, scan])
    elif not in_line(c):
        move = at_break
    elif c == "#":
        move = walk.dice.of([blanks, run, read])
    elif walk.made.startswith(("---", "..."), walk.place):
        move = walk.dice.of([marker, marker, marker, several, run, chunk])
    elif c in ":,[]{}":
        move = walk.dice.of([plain, chunk, chunk, read, one_test, run])
    else:
        move = walk.dice.of([run, run, chunk, read])
    return move(walk)


SCANNING = [(22, aimed), (2, scan), (1, chunk), (2, read), (1, skip_n), (2, lookahead), (1, window), (1, peek), (1, one_test),
            (1, look), (1, ask), (1, part)]
TESTING = [(4, read), (2, skip_n), (4, lookahead), (1, window), (4, peek), (6, one_test), (4, several), (8, look), (1, ask),
           (1, part), (1, of_class), (3, aimed)]
WALKING = [(20, aimed), (3, read), (2, skip_n), (2, lookahead), (2, ask), (1, peek), (1, one_test)]
ALL = [(1, move) for move in [scan, chunk, read, at_break, skip_n, lookahead, window, peek, one_test, several, look, marker,
                              plain, ask, part, of_class, aimed]]
MANNERS = [(4, SCANNING), (3, TESTING), (4, WALKING), (2, ALL)]


def calls(dice, made, most):
    walk = Walk(dice, made)
    manner = dice.weighed(MANNERS)
    wanted = dice.between(5, most)
    out = []
    while len(out) < wanted:
        move = dice.weighed(manner)
        if manner is not TESTING and len(out) * 2 > wanted and dice.percent(26):
            move = dice.of([near_end, end, end])
        out += move(walk)
    return out[:wanted]


def one_list(dice):
    line, made = dice.weighed(INPUTS)(dice)
    return [line] + calls(dice, made, 12 if dice.percent(20) else min(12 + len(made), 40))


def long_list(dice):
    line, made = at_limit(dice)
    return [line] + calls(dice, made, 12)


def main():
    parser = argparse.ArgumentParser(description="Prints lists of calls in the lines of docs/REPLAY.md.")
    parser.add_argument("seed", type=int)
    parser.add_argument("count", type=int)
    parser.add_argument("--limits", type=int, default=0, help="add N lists on inputs at their limits")
    args = parser.parse_args()
    for number in range(1, args.count + 1):
        print("\n".join(one_list(Dice(args.seed, number))))
    for number in range(1, args.limits + 1):
        print("\n".join(long_list(Dice(args.seed, 2**31 + number))))


if __name__ == "__main__":
    main()
