/* The emulated 32-bit RISC-V core, with the instructions of a Hazard3: what desk/core.h asks for. picolibc starts its programs. */
#include "core.h"

uint32_t core_count(void)
{
    uint32_t count;
    __asm__ volatile(".option push\n\t"
                     ".option arch, +zicsr\n\t"
                     "csrr %0, minstret\n\t"
                     ".option pop"
                     : "=r"(count));
    return count;
}

__attribute__((naked)) void core_call_on(__attribute__((unused)) void *top, __attribute__((unused)) void (*call)(void))
{
    __asm__("addi sp, sp, -16\n\t"
            "sw ra, 0(sp)\n\t"
            "sw s0, 4(sp)\n\t"
            "mv s0, sp\n\t"
            "mv sp, a0\n\t"
            "jalr a1\n\t"
            "mv sp, s0\n\t"
            "lw ra, 0(sp)\n\t"
            "lw s0, 4(sp)\n\t"
            "addi sp, sp, 16\n\t"
            "ret");
}
