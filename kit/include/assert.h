/*
 * An assertion that stops where it stands: it fails by an EBREAK, so the trap's program counter is that of its own line,
 * and no message is formatted on the way. NDEBUG leaves it out, as the standard says.
 */
#undef assert
#ifdef NDEBUG
#define assert(condition) ((void)0)
#else
#define assert(condition) ((condition) ? (void)0 : __builtin_trap())
#endif
#if !defined(__cplusplus) && !defined(static_assert)
#define static_assert _Static_assert
#endif
