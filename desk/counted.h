/* How many instructions a call takes on an emulated core that counts them. */
#ifndef COUNTED_H
#define COUNTED_H

#include "core.h"

static void nothing(void) {}
static void many(void) { __asm__ volatile(".rept 20000\n\tnop\n\t.endr"); }

/* Never cloned for one call, so that every call is reached in the same way. */
__attribute__((noinline, noclone)) static uint32_t counted(void (*call)(void))
{
    uint32_t before = core_count();
    call();
    return core_count() - before;
}

/* The count goes on by a step that is the emulator's own, so it is held to that of 20,000 instructions, and rounded. */
static uint32_t instructions(void (*call)(void))
{
    uint32_t empty = counted(nothing), took = counted(call) - empty, measure = counted(many) - empty;
    return (uint32_t)(((uint64_t)took * 20000 + measure / 2) / measure);
}

#endif
