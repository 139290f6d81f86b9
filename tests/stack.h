/* A stack of one's own, on which a call runs: HUB_STACK_BYTES below the caller's, and behind them 64 KiB that nobody may touch, so
   that a call that takes more ends the program by a fault. It is painted before, so that it can be told how much was written to.
   Whoever includes this defines _DEFAULT_SOURCE first, for MAP_ANONYMOUS. */
#ifndef STACK_H
#define STACK_H

#include "../include/hub.h"

#include <stddef.h>
#include <stdint.h>
#include <stdio.h>
#include <stdlib.h>
#include <string.h>
#include <sys/mman.h>

#define GUARD 65536u /* so much that no frame steps over it */
#define PAINT 0xD7u

static uint8_t *stack; /* HUB_STACK_BYTES, as many before them that may not be touched, and some behind for the caller's part */

static inline void make_stack(void) {
    void *p = mmap(NULL, HUB_STACK_BYTES + 2 * GUARD, PROT_READ | PROT_WRITE, MAP_PRIVATE | MAP_ANONYMOUS, -1, 0);
    if (p == MAP_FAILED || mprotect(p, GUARD, PROT_NONE) != 0) {
        printf("there is no memory for a stack\n");
        exit(2);
    }
    stack = (uint8_t *)p + GUARD;
}

/* Calls work(what) with the stack pointer at top; what it answers is passed over. The archive is x86-64 code, and so is this. */
static inline void call_on(uint8_t *top, void (*work)(void *), void *what) {
    __asm__ volatile("movq %%rsp, %%rbx\n\t"
                     "movq %[top], %%rsp\n\t"
                     "callq *%[work]\n\t"
                     "movq %%rbx, %%rsp"
                     : "+D"(what)
                     : [top] "r"(top), [work] "r"(work)
                     : "rax", "rbx", "rcx", "rdx", "rsi", "r8", "r9", "r10", "r11", "xmm0", "xmm1", "xmm2", "xmm3", "xmm4",
                       "xmm5", "xmm6", "xmm7", "xmm8", "xmm9", "xmm10", "xmm11", "xmm12", "xmm13", "xmm14", "xmm15", "memory",
                       "cc");
}

/* Runs one call on the painted stack, and answers how many of its bytes are painted no more. */
static inline size_t taken_by(void (*work)(void *), void *what) {
    size_t kept = 0;
    memset(stack, PAINT, HUB_STACK_BYTES);
    call_on(stack + HUB_STACK_BYTES, work, what);
    while (kept < HUB_STACK_BYTES && stack[kept] == PAINT) {
        kept++;
    }
    return HUB_STACK_BYTES - kept;
}

#endif
