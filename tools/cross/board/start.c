/* The start of a test program on an emulated board with a Cortex-M: the table of vectors, and a reset that leaves the rest to the
 * start of the C library, newlib with semihosting. A fault, such as an access that is not aligned on a Cortex-M0, ends the run
 * with status 1. */

#include <stdint.h>

extern void stack_top(void); /* an address, of board.ld; no function */
extern void _start(void);

static void reset(void) {
#ifdef __ARM_FP
    *(volatile uint32_t *)0xE000ED88 |= 0xFu << 20; /* CPACR: the floating-point unit is on */
#endif
    _start();
}

/* Semihosting call 0x18, with the reason "run-time error". */
static void fault(void) {
    register uint32_t call __asm__("r0") = 0x18;
    register uint32_t reason __asm__("r1") = 0x20023;
    __asm__ volatile("bkpt 0xAB" : : "r"(call), "r"(reason));
    for (;;) {
    }
}

__attribute__((section(".vectors"), used)) static void (*const vectors[16])(void) = {stack_top, reset, fault, fault, fault, fault, fault};
