#!/usr/bin/env python3
"""Runs the built program on small work with each request for memory, read and write failing in turn:

    python3 bench/failing.py PROGRAM

A shared library stands before the C library's malloc, realloc, read and write (LD_PRELOAD; it is compiled here by cc).
For each of the commands below, every request N of a run is refused alone, and then with all later ones; every read and
every write fails (EIO); and every read or write of more than one byte moves one byte, alone and all of them. What has to
come is either the answer without a fault, or
    memory   status 1, nothing on out and `no memory` on err
    read     status 3, nothing on out and `cannot read ..` on err
    write    status 4, a first part of the text on out and `cannot write` on err; a line on err that can't be written
             changes no status
A row has the numbers that were tried and how many of them ended by each status. It is no part of the gate.
"""
import collections
import os
import subprocess
import sys
import tempfile

from mutate import BODIES, EXAMPLES, elf, reading

SHIM = r"""
#include <errno.h>
#include <stdio.h>
#include <stdlib.h>
#include <fcntl.h>
#include <sys/syscall.h>
#include <sys/types.h>
#include <unistd.h>
void *__libc_malloc(size_t);
void *__libc_realloc(void *, size_t);
enum { MEMORY, LATER, READ, WRITE, SHORT, KINDS };
static long seen[KINDS], at[KINDS];
static int due(int kind) {
    static int known;
    const char *text = known++ ? NULL : getenv("FAULT");
    int which; long number;
    if (text && sscanf(text, "%d %ld", &which, &number) == 2) at[which] = number;
    seen[kind]++;
    return at[kind] && (kind == LATER ? seen[kind] >= at[kind] : at[kind] == -1 || seen[kind] == at[kind]);
}
static int refused(void) { int one = due(MEMORY); return due(LATER) || one ? errno = ENOMEM : 0; }
void *malloc(size_t size) { return refused() ? NULL : __libc_malloc(size); }
void *realloc(void *old, size_t size) { return refused() ? NULL : __libc_realloc(old, size); }
static ssize_t move(int kind, long call, int fd, const void *bytes, size_t size) {
    if (due(kind)) { errno = EIO; return -1; }
    return syscall(call, fd, bytes, size > 1 && due(SHORT) ? 1 : size);
}
ssize_t read(int fd, void *bytes, size_t size) { return move(READ, SYS_read, fd, bytes, size); }
ssize_t write(int fd, const void *bytes, size_t size) { return move(WRITE, SYS_write, fd, bytes, size); }
ssize_t __write(int fd, const void *bytes, size_t size) { return write(fd, bytes, size); }
__attribute__((destructor)) static void tell(void) {
    char text[200];
    int size = snprintf(text, sizeof text, "%ld %ld %ld %ld %ld\n", seen[0], seen[1], seen[2], seen[3], seen[4]);
    int fd = syscall(SYS_open, "counts", O_WRONLY | O_CREAT | O_TRUNC, 0600);
    syscall(SYS_write, fd, text, size);
    syscall(SYS_close, fd);
}
"""
KINDS = ("memory", "later memory", "read", "write", "short")
COMMANDS = ("make first input", "run first input", "check first report", "replay first report", "make wide three", "check wide wide-report",
            "demo single 3", "demo triple 3", "demo triple 3 --conflicts 1", "make first none", "make input input", "check first input",
            "check wide report", "replay first changed", "make exits three", "make first input --steps 1", "make")
# Its report has 1.3 million bytes, which are written in two pieces. Of this one, writes and short moves alone are tried.
LONG = "make long sevens"
# Reads 16,384 bytes, and meets an EBREAK behind the last or at the first that is 0.
FROM_1_TO_255 = "000205b7 00004637 03f00893 00000073 00c586b3 0005c283 00028663 00158593 fed59ae3 00100073"
Answer = collections.namedtuple("Answer", "status out err counts")


def call(program, words, fault=""):
    if os.path.exists("counts"):
        os.remove("counts")
    kept = {"LD_PRELOAD": os.path.abspath("shim.so"), "FAULT": fault}
    run = subprocess.run([program, *words], env=kept, stdin=subprocess.DEVNULL, stdout=subprocess.PIPE, stderr=subprocess.PIPE)
    with open("counts") as file:
        return Answer(run.returncode, run.stdout, run.stderr, [int(number) for number in file.read().split()])


def is_right(kind, plain, answer):
    """Whether this answer may come under a fault, where the other came without one."""
    if answer[:3] == plain[:3]:
        return True
    if kind in ("memory", "later memory"):
        return answer[:3] == (1, b"", b"no memory\n")
    if kind == "read":
        return answer.status == 3 and answer.out == b"" and answer.err.startswith(b"cannot read ")
    if kind == "write" and plain.status == 0:
        return answer.status == 4 and plain.out.startswith(answer.out) and answer.err == b"cannot write\n"
    return kind == "write" and answer[:2] == plain[:2] and plain.err.startswith(answer.err)


def try_all(program, words):
    """Tries each fault on a command, and answers how many runs that took and how many answers were wrong."""
    plain, runs, wrong = call(program, words), 0, 0
    print("%s: status %d" % (" ".join(words), plain.status))
    for kind, last in enumerate(plain.counts):
        if words == LONG.split() and KINDS[kind] not in ("write", "short"):
            continue
        statuses = collections.Counter()
        for number in [-1] * (KINDS[kind] == "short" and last > 0) + list(range(1, last + 1)):
            answer = call(program, words, "%d %d" % (kind, number))
            statuses[answer.status] += 1
            if not is_right(KINDS[kind], plain, answer):
                wrong += 1
                print("    wrong: %s %d: %r" % (KINDS[kind], number, answer[:3]))
        runs += sum(statuses.values())
        print("    %-13s 1 to %-4d %s" % (KINDS[kind], last, ", ".join("status %d: %d" % pair for pair in sorted(statuses.items()))))
    return runs, wrong


def files(program):
    """The files that the commands name."""
    def example(name):
        with open(os.path.join(EXAMPLES, name), "rb") as file:
            return file.read()

    count, body = BODIES[0]
    held = {"first": example("crash"), "input": example("record.bin"), "three": b"\xff" * count,
            "wide": reading(count, [int(word, 16) for word in body.split()]), "exits": reading(3, [0x05D00893, 0x73]),
            "long": elf([int(word, 16) for word in FROM_1_TO_255.split()], 65536), "sevens": b"\7" * 16384}
    for name, text in held.items():
        with open(name, "wb") as file:
            file.write(text)
    for name, words in (("report", "make first input"), ("wide-report", "make wide three"), ("changed", "make first input")):
        text = call(program, words.split()).out
        with open(name, "wb") as file:
            file.write(text.replace(b"steps 1", b"steps 2") if name == "changed" else text)


def main():
    program = os.path.abspath(sys.argv[1])
    with tempfile.TemporaryDirectory() as room:
        os.chdir(room)
        with open("shim.c", "w") as file:
            file.write(SHIM)
        subprocess.run(["cc", "-O1", "-shared", "-fPIC", "-o", "shim.so", "shim.c"], check=True)
        files(program)
        done = [try_all(program, words.split()) for words in (*COMMANDS, LONG)]
        os.chdir("/")
    print("%d runs, %d wrong" % tuple(map(sum, zip(*done))))
    return 1 if any(wrong for _, wrong in done) else 0


if __name__ == "__main__":
    sys.exit(main())
