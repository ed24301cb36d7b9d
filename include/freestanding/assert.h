/* An assertion that fails stays where it is: there is nobody to tell. */
#undef assert
#ifdef NDEBUG
#define assert(condition) ((void)0)
#else
#define assert(condition)    \
    do {                     \
        while (!(condition)) \
            ;                \
    } while (0)
#endif
