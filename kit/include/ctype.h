/*
 * The tests of characters by comparisons, in the C locale. A C library looks them up in a table, and the address of the
 * look-up tells the byte. Here nothing is told but what the program does with the answer.
 */
#ifndef KIT_CTYPE_H
#define KIT_CTYPE_H

static inline int kit_between(int c, int least, int most) { return (unsigned)c - (unsigned)least <= (unsigned)(most - least); }

static inline int isdigit(int c) { return kit_between(c, '0', '9'); }
static inline int islower(int c) { return kit_between(c, 'a', 'z'); }
static inline int isupper(int c) { return kit_between(c, 'A', 'Z'); }
static inline int isalpha(int c) { return kit_between(c | 32, 'a', 'z'); }
static inline int isalnum(int c) { return isalpha(c) | isdigit(c); }
static inline int isxdigit(int c) { return isdigit(c) | kit_between(c | 32, 'a', 'f'); }
static inline int isblank(int c) { return (c == ' ') | (c == '\t'); }
static inline int isspace(int c) { return (c == ' ') | kit_between(c, '\t', '\r'); }
static inline int iscntrl(int c) { return kit_between(c, 0, 31) | (c == 127); }
static inline int isgraph(int c) { return kit_between(c, 33, 126); }
static inline int isprint(int c) { return kit_between(c, 32, 126); }
static inline int ispunct(int c) { return isgraph(c) & !isalnum(c); }
static inline int tolower(int c) { return c + 32 * isupper(c); }
static inline int toupper(int c) { return c - 32 * islower(c); }
static inline int isascii(int c) { return kit_between(c, 0, 127); }
static inline int toascii(int c) { return c & 127; }

#endif
