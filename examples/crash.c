/*
 * Reads a record: one byte for the length of a name, then the name. A length above the room for a
 * name fails an assertion, which crashes the program.
 */
#define ROOM 16

static unsigned char record[64];             /* .bss: no bytes in the file */
static unsigned char name[ROOM];
static const char greeting[] = "hello, ";    /* .rodata */
static volatile int room = ROOM;             /* .data */

/* A call: its number in a7, its arguments in a0, a1 and a2, its answer in a0. */
static int call(int number, int first, const void *address, int count)
{
    register int a0 asm("a0") = first;
    register const void *a1 asm("a1") = address;
    register int a2 asm("a2") = count;
    register int a7 asm("a7") = number;
    asm volatile("ecall" : "+r"(a0) : "r"(a1), "r"(a2), "r"(a7) : "memory");
    return a0;
}

/* The length of the name, or -1 where the record ends before the name does. */
static int keep_name(int count)
{
    int length = record[0];
    if (length >= count)
        return -1;
    if (length > room)
        asm volatile("ebreak");              /* the assertion: the name fits */
    for (int i = 0; i < length; i++)
        name[i] = record[1 + i];
    return length;
}

void _start(void)
{
    int count = call(63, 0, record, sizeof record);
    int length = count > 0 ? keep_name(count) : -1;
    if (length >= 0) {
        call(64, 1, greeting, sizeof greeting - 1);
        call(64, 1, name, length);
    }
    call(93, length < 0, 0, 0);
    for (;;)
        ;
}
