/*
 * Reads nested groups of words, such as `(pay (to Ada) (card 4929))`, into a tree of nodes from the C library's malloc,
 * whose memory comes from the call brk. A `)` too many leaves the outermost group, and the next word is hung on a null
 * pointer.
 */
#include <errno.h>
#include <stddef.h>
#include <stdlib.h>

struct node {
    char *word;
    struct node *parent, *child, *next;
};

static char text[256];

/* A call: its number in a7, its arguments in a0, a1 and a2, its answer in a0. */
static int call(int number, int first, const void *address, int count)
{
    register int a0 asm("a0") = first;
    register const void *a1 asm("a1") = address;
    register int a2 asm("a2") = count;
    register int a7 asm("a7") = number;
    asm volatile("ecall" : "+r"(a0) : "r"(a1), "r"(a2), "r"(a7) : "memory");
    return a0;
}

/* What malloc takes memory by. The break stays where it is when it can't be moved. */
void *sbrk(ptrdiff_t size)
{
    int old = call(214, 0, 0, 0);
    if (size != 0 && call(214, old + size, 0, 0) != old + size) {
        errno = ENOMEM;
        return (void *)-1;
    }
    return (void *)old;
}

/* malloc calls abort by name; a shell tells of one by the code 134. */
void abort(void)
{
    for (;;)
        call(93, 134, 0, 0);
}

static struct node *add(struct node *parent, char *word)
{
    struct node *node = malloc(sizeof *node);
    if (node == NULL)
        abort();
    node->word = word;
    node->parent = parent;
    node->child = NULL;
    node->next = parent->child;
    parent->child = node;
    return node;
}

static void parse(struct node *at, char *from)
{
    while (*from != 0 && *from != '\n') {
        if (*from == '(') {
            at = add(at, NULL);
            from++;
        } else if (*from == ')') {
            at = at->parent;
            from++;
        } else if (*from == ' ') {
            from++;
        } else {
            add(at, from);
            while (*from > ')')
                from++;
        }
    }
}

int main(void)
{
    static struct node root;
    int length = call(63, 0, text, sizeof text - 1);
    if (length <= 0)
        return 1;
    parse(&root, text);
    return 0;
}

void _start(void)
{
    call(93, main(), 0, 0);
    for (;;)
        ;
}
