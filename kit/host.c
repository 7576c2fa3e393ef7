/*
 * What picolibc leaves to the machine: the start, the system calls, the three streams, the heap and the ends of a run.
 * Calls are those of docs/MACHINE.md, which are Linux's: a program that is linked with this runs under qemu-riscv32 too.
 */
#include <errno.h>
#include <stddef.h>
#include <stdio.h>
#include <stdlib.h>
#include <sys/types.h>

enum { CALL_READ = 63, CALL_WRITE = 64, CALL_EXIT = 93, CALL_BRK = 214 };

static int call(int number, int first, const void *second, int third)
{
    register int a0 asm("a0") = first;
    register const void *a1 asm("a1") = second;
    register int a2 asm("a2") = third;
    register int a7 asm("a7") = number;
    asm volatile("ecall" : "+r"(a0) : "r"(a1), "r"(a2), "r"(a7) : "memory");
    return a0;
}

/* A code below 128 ends the run; one of 128 or more is a crash, the trap `abort`. */
void _exit(int code)
{
    for (;;)
        call(CALL_EXIT, code, 0, 0);
}

/* As a shell tells of a program that a signal ended: 128 and the signal's number, here that of SIGABRT. */
void abort(void) { _exit(128 + 6); }

int getpid(void) { return 1; }

int kill(int process, int signal)
{
    (void)process;
    _exit(128 + signal);
}

static ssize_t counted(int answer)
{
    if (answer >= 0)
        return answer;
    errno = -answer;
    return -1;
}

ssize_t read(int descriptor, void *to, size_t count) { return counted(call(CALL_READ, descriptor, to, (int)count)); }

ssize_t write(int descriptor, const void *from, size_t count)
{
    return counted(call(CALL_WRITE, descriptor, from, (int)count));
}

/* malloc's memory, past the program's last segment. */
void *sbrk(ptrdiff_t size)
{
    int old = call(CALL_BRK, 0, 0, 0);
    if (size != 0 && call(CALL_BRK, old + (int)size, 0, 0) != old + (int)size) {
        errno = ENOMEM;
        return (void *)-1;
    }
    return (void *)old;
}

static int put_out(char c, FILE *stream)
{
    (void)stream;
    return write(1, &c, 1) == 1 ? (unsigned char)c : _FDEV_ERR;
}

static int put_err(char c, FILE *stream)
{
    (void)stream;
    return write(2, &c, 1) == 1 ? (unsigned char)c : _FDEV_ERR;
}

/* A byte a call: a run tells how many bytes were read at each call, so reading ahead would tell the length of the input. */
static int get_in(FILE *stream)
{
    unsigned char c;
    (void)stream;
    return read(0, &c, 1) == 1 ? c : _FDEV_EOF;
}

static FILE in = FDEV_SETUP_STREAM(0, get_in, 0, _FDEV_SETUP_READ);
static FILE out = FDEV_SETUP_STREAM(put_out, 0, 0, _FDEV_SETUP_WRITE);
static FILE err = FDEV_SETUP_STREAM(put_err, 0, 0, _FDEV_SETUP_WRITE);
FILE *const stdin = &in, *const stdout = &out, *const stderr = &err;

int main(int argc, char **argv);

void _start(void)
{
    static char name[] = "program";
    static char *words[] = {name, 0};
    asm volatile("la tp, __tls_base");
    exit(main(1, words));
}
