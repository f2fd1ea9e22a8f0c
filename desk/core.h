/* What the programs that count ask of a core. */
#ifndef CORE_H
#define CORE_H

#include <stdint.h>

/* A count that goes on by the same step with every instruction, where the emulator counts them. */
uint32_t core_count(void);

/* Makes a call on a stack of its own, which begins at `top` and grows downward. */
void core_call_on(void *top, void (*call)(void));

#endif
