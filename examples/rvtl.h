/* What a C program can ask of the machine. */

/* Puts a number out. */
static inline void put_out(unsigned number)
{
    register unsigned a0 __asm__("a0") = number;
    register unsigned a7 __asm__("a7") = 1;
    __asm__ volatile("ecall" : : "r"(a0), "r"(a7) : "memory");
}

/* An assertion: where it doesn't hold the hart stops (EBREAK, stop code 3), at the symbol assert_LINE_NUMBER. */
#define assert(holds)                                                                  \
    do {                                                                               \
        if (!(holds)) {                                                                \
            __asm__ volatile("assert_%0_%=: ebreak" : : "i"(__LINE__) : "memory");     \
            __builtin_unreachable();                                                   \
        }                                                                              \
    } while (0)
