#!/usr/bin/env python3
"""Compares the built program with a second one that takes the same words, on mutated cases:

    python3 bench/mutate.py PROGRAM OTHER [--kinds programs,reports,words] [--cases N] [--first N] [--seed N]
                            [--workers N] [--seconds N] [--keep FOLDER]

programs  files with bits, header fields and instructions changed, and made-up programs, under each action
reports   texts with bytes, lines, digits and numbers changed, under replay and check
words     commands with words left out, doubled, swapped and changed

Each case is run by both, and status, out and err are compared. Printed are the numbers of cases, of each status, of
differences, of deaths by a signal and of calls that were stopped after --seconds; each such case is kept in FOLDER,
and the status is then 1. A case is made by seed, kind and number alone, so that these three make it again. A run that
is interrupted prints what it did. It is no part of the gate.
"""
import argparse
import collections
import hashlib
import multiprocessing
import os
import random
import re
import signal
import struct
import sys
import tempfile
import time

EXAMPLES = os.path.join(os.path.dirname(os.path.dirname(os.path.abspath(__file__))), "examples")
ACTIONS = (b"make", b"run", b"check", b"replay")
BOUNDS = (0, 1, 2, 3, 4, 7, 8, 31, 32, 33, 51, 52, 53, 63, 64, 65, 0xFF, 0xFFF, 0x1000, 0xFFFF, 0x10000, 0x20000,
          0x1000000, 0x3FFFFFF, 0x4000000, 0x4000001, 0x7FEFFFFF, 0x7FF00000, 0x7FFFFFFF, 0x80000000, 0xFFFFFFFC,
          0xFFFFFFFF)
NUMBERS = (0, 1, 2, 3, 4, 8, 9, 10, 31, 32, 33, 254, 255, 256, 65535, 65536, 65537, 1000000, 1000001, 8388608, 10000000,
           10000001, 16777216, 16777217, 2**31, 2**32 - 1, 2**32, 2**63, 2**64 - 1, 2**64, 10**19, 10**20 - 1, 10**40)
FIRST_WORDS = (0x00010593, 0x00000613, 0x03F00893, 0x00000073)  # reads bytes to the stack: their number is bits 20 to 31 of the second
# Loops, jumps, calls and groups of one, two, three and more bytes, behind these first words.
BODIES = (
    (3, "00014283 00114303 00214383 00062e433 00147413 02040663 fff34493 0092e433 00147413 00040e63 00100073"),
    (4, "00011283 00211303 026283b3 0083d393 0013f393 00038663 05d00893 00000073 00100073"),
    (4, "00012283 12345337 67830313 00628663 05d00893 00000073 00100073"),
    (1, "00014283 06400313 025353b3 fff00413 00838663 05d00893 00000073 00100073"),
    (1, "00014503 05d00893 00000073"),
    (4, "000202b7 00012303 0062a023 00028067"),
    (2, "00000513 0d600893 00000073 00014283 00550533 0d600893 00000073 00a52023 00114303 0062c463 00100073 00028067"),
    (8, "00000393 00810293 00014303 006383b3 00110113 fe511ae3 25800413 0083f463 00000000 00100073"),
)


def elf(words, memory=4096):
    """A program of these instruction words at 00010000, and of zeros at 00020000 that may be read, written and run."""
    code = struct.pack("<%dI" % len(words), *words)
    head = struct.pack("<4sBBB9xHHIIIIIHHHHHH", b"\x7fELF", 1, 1, 1, 2, 243, 1, 0x10000, 52, 0, 0, 52, 32, 2, 0, 0, 0)
    loads = ((116, 0x10000, len(code), len(code), 5), (116 + len(code), 0x20000, 0, memory, 7))
    return head + b"".join(struct.pack("<8I", 1, at, base, base, held, size, rights, 4) for at, base, held, size, rights in loads) + code


def reading(count, body):
    return elf([FIRST_WORDS[0], FIRST_WORDS[1] | count << 20, *FIRST_WORDS[2:], *body])


def bases():
    """The programs that are changed, each with an input."""
    def held(name):
        with open(os.path.join(EXAMPLES, name), "rb") as file:
            return file.read()

    names = (("order/order", "order/order.txt"), ("groups/groups", "groups/groups.txt"), ("crash", "record.bin"),
             ("breakpoint.elf", "input.txt"), ("loop.elf", "input.txt"))
    found = [(held(program), held(record)) for program, record in names]
    for count, body in BODIES:
        program = reading(count, [int(word, 16) & 0xFFFFFFFF for word in body.split()])
        found += [(program, bytes(count)), (program, b"\xff" * count), (program, b"xV4\x12abcd"[:count])]
    return found


def instruction(r):
    """A word, most often of an instruction that works on the bytes that were read."""
    opcode = r.choice((0x03,) * 4 + (0x13,) * 4 + (0x33,) * 5 + (0x63,) * 3 + (0x23,) * 2 + (0x37, 0x17, 0x67, 0x6F, 0x0F, 0x73))
    if r.random() < 0.1:
        return r.getrandbits(25) << 7 | opcode
    rd, rs1, rs2 = (r.choice((0, 2, 5, 5, 6, 6, 7, 7, 8, 10, 11, 17)) for _ in range(3))
    kind, near = r.randrange(8), r.choice((0, 1, 2, 3, 4, 8, 0xFFF))
    word = opcode | rd << 7 | kind << 12 | rs1 << 15
    if opcode == 0x73:
        return r.choice((0x73, 0x00100073))
    if opcode in (0x03, 0x67):
        return word & ~(0x1F << 15) | r.choice((2, 2, 11, 11, rs1)) << 15 | near << 20
    if opcode == 0x23:
        return word & ~0xFFF80 | (kind % 3) << 12 | r.choice((2, 11)) << 15 | rs2 << 20 | near % 32 << 7
    if opcode == 0x63:
        return word & ~0xF80 | rs2 << 20 | r.choice((4, 8, 12, 16, 20)) << 7
    if opcode == 0x33 or opcode == 0x13 and kind in (1, 5):
        return word | rs2 << 20 | r.choice((0, 0, 0x20, 1, 1)) << 25
    if opcode == 0x6F:
        return opcode | rd << 7 | r.choice((4, 8, 12, 16)) << 20
    return word | r.choice((near, r.getrandbits(12))) << 20


def made_up(r):
    count = r.choice((0, 1, 2, 3, 3, 4, 8))
    body = [instruction(r) for _ in range(r.randrange(2, 24))]
    return reading(count, body + [0x00100073]), bytes(r.choice((0, 1, 65, 127, 128, 255, r.randrange(256))) for _ in range(count))


def changed_bytes(r, text):
    """A bit, a byte or a piece is changed, left out, doubled or put in, or the end is cut off."""
    at, way = r.randrange(len(text) + 1), r.randrange(8)
    end = min(len(text), at + r.choice((1, 1, 2, 4, 16, 64)))
    if way < 2 and at < len(text):
        return text[:at] + bytes([text[at] ^ 1 << r.randrange(8)]) + text[at + 1:]
    if way < 4:
        return text[:at] + bytes([r.choice(b"\0\1\x7f\x80\xff\n\r\t 09afAFgz+-") if way == 2 else r.randrange(256)]) + text[at + 1:]
    if way == 4:
        return text[:at] + text[end:]
    if way == 5:
        return text[:end] + text[at:]
    if way == 6:
        return text[:at] + bytes(r.choice((0, 10, 32, 48, 255, r.randrange(256))) for _ in range(r.choice((1, 1, 2, 4, 33)))) + text[at:]
    return text[:at]


def changed_field(r, file):
    """A field of the file's header or of a program header gets a value at a border, or next to its own."""
    table = struct.unpack_from("<I", file, 28)[0] if len(file) >= 32 else 52
    header = [(4, 1), (5, 1), (16, 2), (18, 2), (20, 4), (24, 4), (28, 4), (36, 4), (40, 2), (42, 2), (44, 2), (46, 2)]
    at, size = r.choice(header + [(table + 32 * r.randrange(3) + 4 * k, 4) for k in range(8)] * 2)
    if at + size > len(file):
        return changed_bytes(r, file)
    old = int.from_bytes(file[at:at + size], "little")
    near = (old - 1, old + 1, old + 4, old ^ 1 << r.randrange(8 * size), len(file), len(file) - 1, len(file) + 1)
    new = r.choice(BOUNDS + near * 2) % 256**size
    return file[:at] + new.to_bytes(size, "little") + file[at + size:]


def changed_word(r, file):
    """An instruction is changed, or another one takes its place."""
    from_end = 4 * r.randrange(1, max(2, len(file) // 4 - 20))
    at = max(0, len(file) - from_end) & ~3
    if at + 4 > len(file):
        return changed_bytes(r, file)
    word = int.from_bytes(file[at:at + 4], "little")
    words = (instruction(r), instruction(r), word ^ 1 << r.randrange(32), word ^ 1 << r.randrange(7, 32), word + (1 << 20),
             0, 0xFFFFFFFF, 0x00100073, 0x73, 0x13, r.getrandbits(32))
    return file[:at] + (r.choice(words) & 0xFFFFFFFF).to_bytes(4, "little") + file[at + 4:]


def limits(r):
    words = [b"--steps", b"%d" % r.choice((1, 2, 3, 10, 100, 1000, 1000, 3000, 3000)), b"--conflicts", b"%d" % r.choice((1, 2, 3, 10, 100))]
    return words + ([b"--seed", b"%d" % r.choice((0, 1, 7, r.getrandbits(64), 2**64 - 1))] if r.random() < 0.5 else [])


def named(report, program):
    """The report with the length and the digest of this program."""
    head, _, rest = report.split(b"\n", 2)
    return b"%s\nprogram %d %s\n%s" % (head, len(program), hashlib.sha256(program).hexdigest().encode(), rest)


def program_case(r):
    program, record = made_up(r) if r.random() < 0.4 else r.choice(BASES)
    for _ in range(r.choice((0, 1, 1, 1, 2, 3, 6))):
        program = r.choice((changed_bytes, changed_field, changed_word, changed_word))(r, program)
    if r.random() < 0.3:
        record = changed_bytes(r, record)
    action, options = r.choice(ACTIONS), limits(r)
    files = {"mutated": program, "second": record}
    if action in (b"check", b"replay"):
        way = r.randrange(6)
        report = call(PROGRAM, [b"make", b"mutated", b"second", *options], files).out if way < 4 else b""
        files["second"] = report or (named(r.choice(REPORTS)[1], program) if way else r.choice(REPORTS)[1])
    return [action, b"mutated", b"second", *options], files


def changed_number(r, text):
    found = r.choice(list(re.finditer(rb"(?<= )[0-9]+(?=[ \n])", text)) or [None])
    if not found:
        return changed_bytes(r, text)
    old = int(found[0])
    number = b"%d" % abs(r.choice((old - 1, old + 1, 8 * old, *NUMBERS)))
    spelled = r.choice((number, number, number, b"0" + number, b"+" + number, b"-" + number, number + b".0", b""))
    return text[:found.start()] + spelled + text[found.end():]


def changed_lines(r, text):
    """A line is left out, doubled, moved, taken from another report, or spelled in another way."""
    lines = text.split(b"\n")
    at, to, way = r.randrange(len(lines)), r.randrange(len(lines)), r.randrange(9)
    if way == 0:
        del lines[at]
    elif way == 1:
        lines.insert(at, lines[at])
    elif way == 2:
        lines[at], lines[to] = lines[to], lines[at]
    elif way == 3:
        lines.insert(to, lines.pop(at))
    elif way == 4:
        lines[at] = r.choice(r.choice(REPORTS)[1].split(b"\n"))
    elif way == 5:
        lines[at] = r.choice((lines[at].upper(), lines[at].title(), lines[at].replace(b" ", b"  ", 1), lines[at].replace(b" ", b"\t")))
    elif way == 6:
        lines[at] += r.choice((b" ", b"\r", b"\0", b"0", b" 0"))
    elif way == 7:
        lines = lines[:at]
    else:
        lines.append(r.choice((b"", b"end", b"\n", b"data 00", b"x")))
    return b"\n".join(lines)


def changed_digit(r, text):
    """A digit of the data, of a set, of the trap or of the digest is changed, or its case."""
    found = r.choice(list(re.finditer(rb"(?<= )[0-9a-f]{8,64}(?=[ \n])", text)) or [None])
    if not found:
        return changed_bytes(r, text)
    at = r.randrange(*found.span())
    digit = r.choice((b"%x" % r.randrange(16), b"%x" % (int(text[at:at + 1], 16) ^ 1 << r.randrange(4)), text[at:at + 1].upper(), b"A", b"g"))
    return text[:at] + digit + text[at + 1:]


def mended(text):
    """The text with what its own lines fix (bytes in their sets, sizes, sums), as far as it has the form of a report."""
    data = b"".join(bytes.fromhex(digits.decode()) for digits in re.findall(rb"(?m)^data ((?:[0-9a-f]{2})+)$", text))
    lines, bits = [], 0
    for line in text.split(b"\n"):
        found = re.fullmatch(rb"set ([0-9]+) .* ?([0-9a-f]{64})", line)
        if found and int(found[1]) < len(data):
            byte = data[int(found[1])]
            members = int.from_bytes(bytes.fromhex(found[2].decode()), "little") | 1 << byte
            size = bin(members).count("1")
            bits += 9 - size.bit_length()
            line = b"set %s %d %s" % (found[1], size, members.to_bytes(32, "little").hex().encode())
            if size == 256:
                continue
        elif line.startswith((b"input ", b"revealed ")):
            line = b"input %d" % len(data) if line.startswith(b"input ") else b"revealed %d of %d" % (bits, 8 * len(data))
        lines.append(line)
    return b"\n".join(lines)


def changed_meaning(r, text):
    """A digit of a line is changed, or a set is left out or changed: once it is mended, the text has the form of a report."""
    lines = text.split(b"\n")
    kind = r.choice((b"trap ", b"steps ", b"seed ", b"data ", b"data ", b"set ", b"set ", b"set "))
    found = [at for at, line in enumerate(lines) if line.startswith(kind)]
    if not found:
        return changed_digit(r, text)
    at = r.choice(found)
    place, digits = r.randrange(1, len(lines[at].split(b" ")[-1]) + 1), b"0123456789abcdef"
    digit = r.choice(digits[:10] if kind in (b"steps ", b"seed ") else digits)
    end = len(lines[at]) - place
    lines[at:at + 1] = [] if kind == b"set " and r.random() < 0.3 else [lines[at][:end] + bytes([digit]) + lines[at][end + 1:]]
    return b"\n".join(lines)


def report_case(r):
    program, text = r.choice(REPORTS)
    form = r.random() < 0.5
    ways = (changed_meaning,) if form else (changed_bytes, changed_number, changed_lines, changed_digit)
    for _ in range(r.choice((1, 1, 1, 2, 3))):
        text = r.choice(ways)(r, text)
    if form or r.random() < 0.3:
        text = mended(text)
    if r.random() < 0.05:
        program = r.choice(REPORTS)[0]
    return [r.choice(ACTIONS[2:]), b"mutated", b"second", *limits(r)], {"mutated": program, "second": text}


COMMANDS = [line.split() for line in (
    b"make program input", b"run program input", b"replay program report", b"check program report", b"demo single 5",
    b"demo triple 4", b"make program input --seed 7", b"run program input --steps 332", b"check program report --conflicts 9",
    b"demo triple 9 --conflicts 1", b"make --seed=1 program --steps=400 input --conflicts=20", b"replay --steps 5 program -- report")]
TEXTS = (b"make", b"run", b"replay", b"check", b"demo", b"single", b"triple", b"Make", b"help", b"prove", b"version", b"", b" ", b"-", b"--",
         b"---", b"-h", b"--help", b"-V", b"--version", b"-s", b"--see", b"--seed", b"--steps", b"--conflicts", b"--seed=", b"--seed=5",
         b"--steps=x", b"--Seed", b"--seeds", b"--conflict=1", b"--seed=-1", b"--=1", b"=", b"-5", b"\xff", b"--seed=\xff", b"\xc3\xa9",
         b"--\xc3\xa9", b"program", b"input", b"report", b"empty", b"most", b"long", b"long report", b"long program", b"folder", b"folder/x",
         b"program/", b"program/x", b"./program", b"none", b".", b"/", b"/dev/null", b"/dev/zero", b"-input", b"\n", b"a\nb", b"a" * 5000,
         b"\xd9\xa3", b"\xef\xbc\x95", b"0x5", b"5e0", b" 5", b"5 ", b"05", b"00", b"+5", b"5.", b"1_000", b"1,000", b"%d", b"NaN", b"inf")
FILES = {"empty": b"", "most": bytes(65536), "long": bytes(65537), "long report": bytes(8388609), "long program": bytes(16777217),
         "-input": b"x", "\u00e9": b"x", "none of these": b""}


def a_text(r):
    return r.choice(TEXTS) if r.random() < 0.6 else r.choice((b"%d", b"--seed=%d", b"--steps=%d", b"--conflicts=%d")) % r.choice(NUMBERS)


def word_case(r):
    words = list(r.choice(COMMANDS))
    for _ in range(r.choice((0, 1, 1, 1, 2, 2, 3))):
        at, way = r.randrange(len(words) + 1), r.randrange(7)
        if way == 0:
            del words[at:at + 1]
        elif way == 1:
            words[at:at] = words[at:at + r.choice((1, 2))]
        elif way == 2:
            words.insert(at, words.pop(r.randrange(len(words))) if words else b"")
        elif way == 3:
            words[at:at + 1] = [a_text(r)]
        elif way == 4:
            words.insert(at, a_text(r))
        elif way == 5:
            words[at:at] = [r.choice((b"--seed", b"--steps", b"--conflicts")), b"%d" % r.choice(NUMBERS)]
        else:
            words[at:at + 1] = [changed_bytes(r, word).replace(b"\0", b"0") for word in words[at:at + 1]]
    # A demonstration of 65,536 bytes takes a second or more.
    return [b"65537" if word in (b"65535", b"65536") and b"demo" in words and r.random() < 0.99 else word for word in words], {}


CASES = {"programs": program_case, "reports": report_case, "words": word_case}
Called = collections.namedtuple("Called", "status out err stopped seconds")
running = None
stopped = False


def stop(*_):
    global stopped
    stopped = True
    if running:
        os.kill(running, signal.SIGKILL)


def call(program, words, files):
    """Runs a program in this folder. A status below 0 is a signal."""
    global running, stopped
    for name, held in files.items():
        with open(name, "wb") as file:
            file.write(held)
    fresh = os.O_WRONLY | os.O_CREAT | os.O_TRUNC
    streams = [(os.POSIX_SPAWN_OPEN, 0, "/dev/null", os.O_RDONLY, 0)]
    streams += [(os.POSIX_SPAWN_OPEN, at, name, fresh, 0o600) for at, name in ((1, ".out"), (2, ".err"))]
    stopped, began = False, time.monotonic()
    running = os.posix_spawn(program, [b"crash_cli", *words], os.environ, file_actions=streams)
    signal.setitimer(signal.ITIMER_REAL, SECONDS)
    status = os.waitstatus_to_exitcode(os.waitpid(running, 0)[1])
    running = None
    signal.setitimer(signal.ITIMER_REAL, 0)
    took = time.monotonic() - began
    with open(".out", "rb") as out, open(".err", "rb") as err:
        return Called(status, out.read(), err.read(), stopped, took)


def keep(name, words, files, called):
    folder = os.path.join(KEEP, name)
    os.makedirs(folder, exist_ok=True)
    texts = {"words": b"\n".join(words) + b"\n", **files}
    for side, answer in zip(("first", "other"), called):
        texts.update({side + ".status": b"%d\n" % answer.status, side + ".out": answer.out, side + ".err": answer.err})
    for file_name, text in texts.items():
        with open(os.path.join(folder, file_name), "wb") as file:
            file.write(text)


def work(task):
    """Runs the cases of one kind with these numbers, and counts them."""
    kind, numbers = task
    counts, slowest = collections.Counter(), 0
    for number in numbers:
        words, files = CASES[kind](random.Random("%d %s %d" % (SEED, kind, number)))
        first = call(PROGRAM, words, files)
        other = call(OTHER, words, {})
        action = words[0].decode() if words and words[0] in (*ACTIONS, b"demo") else "another word"
        found = ["differs in " + part for part in ("status", "out", "err") if getattr(first, part) != getattr(other, part)]
        found += ["died by a signal"] * (first.status < 0 and not first.stopped) + ["stopped"] * first.stopped
        found += ["other died by a signal"] * (other.status < 0 and not other.stopped) + ["other stopped"] * other.stopped
        counts.update([(kind, action, "status %d" % first.status)] + [(kind, action, what) for what in found])
        slowest = max(slowest, first.seconds)
        if found:
            keep("%s-%d" % (kind, number), words, files, (first, other))
    return counts, slowest


def enter(rooms):
    """A worker has a folder of its own, with the files that commands name."""
    signal.signal(signal.SIGALRM, stop)
    signal.signal(signal.SIGINT, signal.SIG_IGN)
    signal.signal(signal.SIGTERM, signal.SIG_DFL)
    os.chdir(tempfile.mkdtemp(dir=rooms))
    os.mkdir("folder")
    program, text = REPORTS[0]
    for name, held in {"program": program, "report": text, "input": BASES[0][1], **FILES}.items():
        with open(name, "wb") as file:
            file.write(held)


def reports():
    """A program and its report, for each program that crashes on its input, under several seeds."""
    found = []
    for program, record in BASES:
        for seed in (b"0", b"1", b"18446744073709551615"):
            made = call(PROGRAM, [b"make", b"mutated", b"second", b"--seed", seed, b"--conflicts", b"1000"], {"mutated": program, "second": record})
            found += [(program, made.out)] * (made.status == 0)
    return found


def options():
    parser = argparse.ArgumentParser(description=__doc__, formatter_class=argparse.RawDescriptionHelpFormatter)
    parser.add_argument("program", type=os.path.abspath)
    parser.add_argument("other", type=os.path.abspath)
    parser.add_argument("--kinds", default=",".join(CASES))
    for name, default in (("cases", 1000), ("first", 0), ("seed", 0), ("workers", 1), ("seconds", 60)):
        parser.add_argument("--" + name, type=int, default=default)
    parser.add_argument("--keep", type=os.path.abspath, default="kept")
    return parser.parse_args()


def run_all(given, rooms):
    """Runs all the cases that are asked for, and counts what came of those that were done."""
    kinds, last = given.kinds.split(","), given.first + given.cases
    tasks = [(kind, range(at, min(last, at + 250))) for at in range(given.first, last, 250) for kind in kinds]
    counts, slowest, began = collections.Counter(), 0, time.monotonic()
    with multiprocessing.get_context("fork").Pool(given.workers, enter, (rooms,)) as pool:
        try:
            for done, (some, slow) in enumerate(pool.imap_unordered(work, tasks), 1):
                counts.update(some)
                slowest = max(slowest, slow)
                if done % 40 == 0 or done == len(tasks):
                    print("%d of %d parts, %.0f s" % (done, len(tasks), time.monotonic() - began), file=sys.stderr)
        except KeyboardInterrupt:
            print("stopped early: this is what was done", file=sys.stderr)
    return counts, slowest


def main():
    global PROGRAM, OTHER, SECONDS, SEED, KEEP, BASES, REPORTS
    given = options()
    PROGRAM, OTHER, SECONDS, SEED, KEEP = given.program, given.other, given.seconds, given.seed, os.path.abspath(given.keep)
    signal.signal(signal.SIGALRM, stop)
    signal.signal(signal.SIGTERM, signal.default_int_handler)
    with tempfile.TemporaryDirectory(dir="/dev/shm" if os.path.isdir("/dev/shm") else None) as rooms:
        os.chdir(rooms)
        BASES = bases()
        REPORTS = reports()
        counts, slowest = run_all(given, rooms)
        os.chdir("/")
    for (kind, action, what), number in sorted(counts.items()):
        print("%-9s %-13s %-24s %d" % (kind, action, what, number))
    bad = sum(number for (_, _, what), number in counts.items() if not what.startswith("status"))
    total = sum(number for (_, _, what), number in counts.items() if what.startswith("status"))
    print("seed %d: %d cases, %d findings, slowest call %.2f s" % (SEED, total, bad, slowest))
    return 1 if bad else 0


if __name__ == "__main__":
    sys.exit(main())
