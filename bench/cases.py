#!/usr/bin/env python3
"""Runs a transcript of cases against a built program, over files and pipes of the system:

    python3 bench/cases.py --program PROGRAM [TRANSCRIPT] [--lines FIRST..LAST]

TRANSCRIPT is crates/tool_cases/stdin where none is named; crates/tool_cases/README.md has its form. Every command runs in
a folder that has the files which its words name, and its status, out and err are compared with what the transcript says.
Each difference is printed, and at the end what was left out, by kind, and the line that tool_cases prints:
`N cases hold` or `N of M cases differ`. The exit status is 0 where all hold, else 1, and 2 where the text is malformed.
--lines runs only commands whose line is in the range; the files and reports of earlier lines are made all the same.

Programs are built here anew from their words, by the layout in docs/MACHINE.md and not by the project's assembler.

What a sink and a folder in memory do is done by the system as far as it can:
    room N, err-room N   a file that may only grow by so many bytes (RLIMIT_FSIZE): the write that would pass it is cut
                         short, and the next one fails with EFBIG; no room at all is /dev/full
    failing K            where read K is the first of its file, a folder is in the file's place: it opens, and its read
                         fails. A read in mid-file can't be made to fail: such rounds are left out (bench/failing.py has them)
    reads N              the files are named pipes that are fed so many bytes at a time, the next ones when these were read;
                         of files above 64 KiB the system gives what it gives
    course               how many pieces were written and what was opened isn't looked at
A word that is no UTF-8 can't stand in a transcript: two such commands are run besides.
"""
import argparse
import array
import collections
import fcntl
import hashlib
import os
import re
import resource
import shlex
import shutil
import signal
import struct
import subprocess
import sys
import tempfile
import termios
import threading
import time

TOP = os.path.dirname(os.path.dirname(os.path.abspath(__file__)))
USAGE = b"usage: crash_cli ACTION FIRST SECOND [--seed N] [--steps N] [--conflicts N]\n"
# The words that aren't UTF-8, and what is answered.
BESIDES = ((b"make", b"\xff", b"x"), (b"run", b"p", b"\xc3\x28"))
ROOM = 65_536
# Where a file with little room begins, so that both streams end at one limit of the process.
FRONT = 1 << 20
SECONDS = 120
# The longest file that is given in pieces.
MOST = 65_536


class Malformed(Exception):
    pass


class Number:
    """A number, or the loop's where it is written as `*`."""

    def __init__(self, word):
        if word != "*" and not re.fullmatch("[0-9]{1,10}", word):
            raise Malformed("a number is wanted")
        self.word = word

    def at(self, turn):
        return turn if self.word == "*" else int(self.word)


def split(line):
    """The first word of a line, and what follows one space after it."""
    word, _, rest = line.partition(" ")
    return word, rest


def words_of(line):
    """The words of a command: a word in single quotes may hold spaces, or nothing."""
    words = re.findall(r"'([^']*)'(?= |$)|([^' ][^ ]*)", line)
    if re.sub(r"'[^']*'(?= |$)|[^' ][^ ]*| ", "", line):
        raise Malformed("a quote without its end")
    return [(quoted or plain) for quoted, plain in words]


def hexadecimal(words):
    try:
        return bytes.fromhex(words)
    except ValueError:
        raise Malformed("bytes in hexadecimal are wanted")


class Case:
    def __init__(self, line, title, command):
        self.line, self.title, self.command, self.words = line, title, command, words_of(command)
        self.answers, self.lines, self.before, self.after = [], [], False, False
        self.out = self.digest = self.save = self.course = self.piece = self.room = self.err_room = None
        self.failing = []

    def add(self, line, _):
        if line == "|" or line.startswith("| "):
            self.lines.append(line[2:])
            return
        word, rest = split(line)
        if word == "...":
            if not self.lines and not self.before:
                self.before = True
            else:
                self.after = True
        elif word == "reads":
            self.piece = Number(rest)
        elif word == "failing":
            self.failing += [Number(each) for each in rest.split()]
        elif word == "room":
            self.room = Number(rest)
        elif word == "err-room":
            self.err_room = Number(rest)
        elif word == "out":
            self.out = rest
        elif word == "digest":
            self.digest = tuple(rest.split())
        elif word == "course":
            self.course = rest
        elif word == "save":
            self.save = rest
        else:
            found = re.fullmatch(r"(?:(\d+)(?:\.\.(\d+))? )?(\d+):(?: (.*))?", line)
            if not found:
                raise Malformed("no such part of a command")
            first, last, status, text = found.groups()
            span = (0, 1 << 32) if first is None else (int(first), int(last or first))
            self.answers.append((*span, int(status), text or ""))

    def answer(self, turn):
        """The status and the line that are wanted in a round."""
        for first, last, status, text in self.answers or [(0, 1 << 32, 0, "")]:
            if first <= turn <= last:
                return status, (text + "\n").encode() if text else b""
        raise Malformed("no answer for this number")


class NewFile:
    def __init__(self, line, name):
        self.line, self.name, self.steps = line, name, []

    def add(self, line, number):
        self.steps.append((number, line))


def program(words, regions):
    """The file of a program: the header, a program header for the code and for each region, the code, the regions' bytes."""
    code = b"".join(struct.pack("<I", word) for word in words)
    parts = [(0x10000, len(code), 5, code), *regions]
    place, table = 52 + 32 * len(parts), b""
    for base, size, rights, held in parts:
        table += struct.pack("<8I", 1, place, base, base, len(held), size, rights, 1)
        place += len(held)
    head = b"\x7fELF\1\1\1" + bytes(9) + struct.pack("<HHIIIIIHHHHHH", 2, 243, 1, 0x10000, 52, 0, 0, 52, 32, len(parts), 0, 0, 0)
    return head + table + b"".join(part[3] for part in parts)


def code_of(rest, words):
    for word in rest.split():
        if word.startswith("#"):
            return
        if re.fullmatch("x[0-9]+", word) and words:
            words += words[-1:] * (int(word[1:]) - 1)
        elif re.fullmatch("[0-9a-f]{1,8}", word):
            words.append(int(word, 16))
        else:
            raise Malformed("bytes in hexadecimal are wanted")


def changed_line(held, number, text):
    lines = held.split(b"\n")
    if number >= len(lines):
        raise Malformed("the file has no such place or line")
    lines[number - 1] = text.encode()
    return b"\n".join(lines)


def plain_step(word, rest, held, files, turn):
    """The bytes after a step that is neither code nor a region."""
    if word == "|":
        return held + rest.encode() + b"\n"
    if word == "hex":
        return held + hexadecimal(rest)
    if word == "text":
        return held + rest.encode()
    if word == "fill":
        count, byte = split(rest)
        return held + hexadecimal(byte) * Number(count).at(turn)
    if word == "copy":
        if rest not in files:
            raise Malformed("no file of this name stands before")
        return held + files[rest]
    if word == "keep":
        return held[:Number(rest).at(turn)]
    if word not in ("at", "line"):
        raise Malformed("no such part of a file")
    place, more = split(rest)
    place = Number(place).at(turn)
    if word == "at":
        more = hexadecimal(more)
        if place + len(more) > len(held):
            raise Malformed("the file has no such place or line")
        return held[:place] + more + held[place + len(more):]
    return changed_line(held, place, more)


def bytes_of(new, files, turn):
    """The bytes of a file, by its steps."""
    held, words, regions = b"", [], []
    for number, step in [*new.steps, (new.line, "text ")]:
        word, rest = split(step)
        try:
            if word == "code":
                code_of(rest, words)
            elif word == "region":
                base, size, rights, *more = rest.split()
                regions.append((int(base, 16), int(size), int(rights), hexadecimal("".join(more))))
            else:
                if words:
                    held += program(words, regions)
                    words, regions = [], []
                held = plain_step(word, rest, held, files, turn)
        except (Malformed, ValueError) as problem:
            raise Malformed("line %d: %s" % (number, problem if isinstance(problem, Malformed) else "a number is wanted"))
    return held


def sections(text):
    """The transcript as a list of rounds' ranges with their files and cases."""
    done, items, span, title, number = [], [], None, "", 0
    try:
        for number, line in enumerate(text.split("\n"), 1):
            line = line.lstrip()
            word, rest = split(line)
            if not line or line.startswith("#"):
                continue
            if word == "case":
                title = rest
            elif word == "file":
                name, first = split(rest)
                items.append(NewFile(number, name))
                if first:
                    items[-1].add(first, number)
            elif word == "$":
                items.append(Case(number, title, rest))
            elif word in ("each", "end"):
                if (span is None) != (word == "each"):
                    raise Malformed("a loop within a loop, or an end without one")
                done.append((span or (0, 0), items))
                first, _, last = rest.partition("..")
                span, items = (int(first), int(last or first)) if word == "each" else None, []
            elif items:
                items[-1].add(line, number)
            else:
                raise Malformed("neither a file, a case, a command nor a loop")
        if span is not None:
            raise Malformed("a loop within a loop, or an end without one")
    except (Malformed, ValueError) as problem:
        raise Malformed("line %d: %s" % (number, problem if isinstance(problem, Malformed) else "a number is wanted"))
    return [*done, ((0, 0), items)]


def cut(text, room):
    return text if room is None else text[:room]


def stream_of(name, room):
    """A stream with so much room: a pipe, /dev/full, or a file that ends at the limit of the process."""
    if room is None:
        return subprocess.PIPE
    if room == 0:
        return open("/dev/full", "r+b", buffering=0)
    stream = open(name, "w+b", buffering=0)
    stream.seek(FRONT - room)
    return stream


def limit_files():
    signal.signal(signal.SIGXFSZ, signal.SIG_IGN)
    resource.setrlimit(resource.RLIMIT_FSIZE, (FRONT, FRONT))


def taken(stream, piped, room):
    if room is None:
        return piped
    with stream:
        if room == 0:
            return b""
        stream.seek(FRONT - room)
        return stream.read()


def call(path, words, folder, room=None, err_room=None):
    """Runs the program in a folder, and answers its status and what out and err took."""
    out, err = stream_of(folder + "-out", room), stream_of(folder + "-err", err_room)
    limit = limit_files if room or err_room else None
    done = subprocess.run([path, *words], cwd=folder, stdin=subprocess.DEVNULL, stdout=out, stderr=err, preexec_fn=limit, timeout=SECONDS)
    return done.returncode, taken(out, done.stdout, room), taken(err, done.stderr, err_room)


class Pipe(threading.Thread):
    """A named pipe that gives bytes in pieces: the next one is written when the one before was read."""

    def __init__(self, path, held, piece):
        super().__init__(daemon=True)
        self.path, self.held, self.piece = path, held, piece
        os.mkfifo(path)
        self.start()

    def run(self):
        end, unread = os.open(self.path, os.O_WRONLY), array.array("i", [0])
        try:
            for place in range(0, len(self.held), self.piece):
                os.write(end, self.held[place:place + self.piece])
                fcntl.ioctl(end, termios.FIONREAD, unread)
                while unread[0] and not self.path_is_gone():
                    time.sleep(0)
                    fcntl.ioctl(end, termios.FIONREAD, unread)
        except BrokenPipeError:
            pass
        finally:
            os.close(end)

    def path_is_gone(self):
        return not os.path.exists(self.path)

    def stop(self):
        """Ends the thread, also where nobody opened the pipe, or read it to its end."""
        end = os.open(self.path, os.O_RDONLY | os.O_NONBLOCK)
        os.remove(self.path)
        self.join()
        os.close(end)


class Run:
    """The files so far, what was tried, and what was left out."""

    def __init__(self, path, folder, span):
        self.path, self.folder, self.span = path, folder, span
        self.files, self.there, self.left = {}, {}, collections.Counter()
        self.tried = self.differing = 0

    def put(self, name, held):
        """Puts a file into the folder, or a folder in its place."""
        before = self.there.get(name, self)
        if before is held:
            return
        path = os.path.join(self.folder, name)
        if before is None:
            os.rmdir(path)
        elif held is None and before is not self:
            os.remove(path)
        self.there[name] = held
        if held is None:
            os.mkdir(path)
            return
        with open(path, "wb") as file:
            file.write(held)

    def put_all(self, case, names, folders, turn):
        """Puts the files that a command names, and answers those that are pipes."""
        pipes = []
        for name in names:
            held = self.files[name]
            if case.piece is None or name in folders or len(held) > MOST:
                self.put(name, None if name in folders else held)
                continue
            path = os.path.join(self.folder, name)
            before = self.there.pop(name, self)
            if before is None:
                os.rmdir(path)
            elif before is not self:
                os.remove(path)
            pipes.append(Pipe(path, held, max(1, case.piece.at(turn))))
        return pipes

    def firsts(self, case, turn):
        """The number of each fetched file's first read, and of the first read after them all."""
        piece, number, found = case.piece.at(turn) if case.piece else 1 << 25, 1, {}
        names = [word for word in case.words if word in self.files]
        for name in names:
            found[number] = name
            number += -(-len(self.files[name]) // piece) + 1
        return found, number

    def in_place(self, case, turn):
        """The files that are a folder instead, or nothing where a read in mid-file is to fail."""
        found, after = self.firsts(case, turn)
        numbers = [number for number in (each.at(turn) for each in case.failing) if number < after]
        if all(number in found for number in numbers):
            return {found[number] for number in numbers}
        return None

    def wanted(self, case, turn):
        status, err = case.answer(turn)
        if case.out is not None:
            if case.out not in self.files:
                raise Malformed("line %d: no file of this name stands before" % case.line)
            out = self.files[case.out]
        else:
            out = "".join(line + "\n" for line in case.lines).encode()
        return status, out, err

    def holds(self, case, said, wanted, rooms):
        status, out, err = said
        if (status, err) != (wanted[0], cut(wanted[2], rooms[1])):
            return False
        if case.digest:
            return (str(len(out)), hashlib.sha256(out).hexdigest()) == case.digest
        text = cut(wanted[1], ROOM if rooms[0] is None else rooms[0])
        if case.before and case.after:
            return text in out
        if case.before:
            return not text or out.endswith(text)
        return out.startswith(text) if case.after else out == text

    def try_case(self, case, turn):
        self.tried += 1
        folders = self.in_place(case, turn)
        if folders is None:
            self.left["a read fails in mid-file"] += 1
            self.tried -= 1
            return
        wanted = self.wanted(case, turn)
        words = [str(turn) if word == "*" else word for word in case.words]
        pipes = self.put_all(case, set(words) & set(self.files), folders, turn)
        room = case.room.at(turn) if case.room else None
        err_room = case.err_room.at(turn) if case.err_room else None
        # Room that is enough is a pipe's.
        rooms = (room if room is not None and wanted[0] == 4 else None, err_room if err_room is not None and err_room < len(wanted[2]) else None)
        said = call(self.path, words, self.folder, *rooms)
        for pipe in pipes:
            pipe.stop()
        if case.course:
            self.left["a course isn't looked at"] += 1
        if not self.holds(case, said, wanted, rooms):
            self.differing += 1
            print("line %d, round %d: %s\n  $ %s" % (case.line, turn, case.title, case.command))
            print("  status %d, wanted %d\n  out: %r\n  wanted: %r\n  err: %r\n  wanted: %r" % (said[0], wanted[0], said[1][:2000], wanted[1][:2000], said[2], wanted[2]))
        if case.save:
            self.files[case.save] = said[1]

    def go(self, parts):
        for (first, last), items in parts:
            for turn in range(first, last + 1):
                for item in items:
                    if isinstance(item, NewFile):
                        self.files[item.name] = bytes_of(item, self.files, turn)
                    elif item.save or self.span[0] <= item.line <= self.span[1]:
                        self.try_case(item, turn)

    def besides(self):
        for words in BESIDES:
            self.tried += 1
            said = call(self.path, words, self.folder)
            if said != (2, b"", USAGE):
                self.differing += 1
                print("besides: %r\n  said: %r" % (words, said))


def main():
    reader = argparse.ArgumentParser(description=__doc__.split("\n")[0])
    reader.add_argument("--program", required=True)
    reader.add_argument("transcript", nargs="?", default=os.path.join(TOP, "crates", "tool_cases", "stdin"))
    reader.add_argument("--lines", default="1..1000000000")
    given = reader.parse_args()
    with open(given.transcript, encoding="utf-8") as file:
        text = file.read()
    room = tempfile.mkdtemp()
    try:
        folder = os.path.join(room, "files")
        os.mkdir(folder)
        run = Run(os.path.abspath(given.program), folder, tuple(map(int, given.lines.split(".."))))
        run.go(sections(text))
        run.besides()
    except Malformed as problem:
        print(problem)
        return 2
    finally:
        shutil.rmtree(room)
    for kind, count in sorted(run.left.items()):
        print("left out: %s: %d" % (kind, count))
    print("%d cases hold" % run.tried if not run.differing else "%d of %d cases differ" % (run.differing, run.tried))
    return 1 if run.differing else 0


if __name__ == "__main__":
    sys.exit(main())
