/* The emulated Cortex-M33: its vectors, so that a program starts without a board's firmware, and what desk/core.h asks for. */
#include "core.h"

extern char __stack[];
extern void _start(void);

/* A fault ends the program with an error, by the emulator's semihosting. */
__attribute__((naked)) static void fault(void)
{
    __asm__("mov r0, #0x18\n\t"
            "ldr r1, =0x20023\n\t"
            "bkpt 0xab");
}

typedef void (*vector)(void);

__attribute__((section(".vectors"), used)) static const vector vectors[] = {
    (vector)(uintptr_t)__stack, _start, fault, fault, fault, fault, fault, fault,
};

/* SysTick: control, reload, current value, which is 24 bits and counts down. */
static volatile uint32_t *const systick = (volatile uint32_t *)0xe000e010;

uint32_t core_count(void)
{
    if ((systick[0] & 1) == 0) {
        systick[1] = 0xffffff;
        systick[2] = 0;
        systick[0] = 5;
    }
    return (0xffffff - systick[2]) << 8;
}

__attribute__((naked)) void core_call_on(__attribute__((unused)) void *top, __attribute__((unused)) void (*call)(void))
{
    __asm__("push {r4, lr}\n\t"
            "mov r4, sp\n\t"
            "mov sp, r0\n\t"
            "blx r1\n\t"
            "mov sp, r4\n\t"
            "pop {r4, pc}");
}
