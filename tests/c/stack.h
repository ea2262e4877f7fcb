/*
 * How much stack a call takes, for calls.c: it runs on a stack of its own, whose bytes are known before it, and those down to the last one
 * that changed are counted. For x86-64, and for a program without the sanitizers, whose memcpy and memset take stack of their own.
 */
#ifndef STACK_H
#define STACK_H

#include <ucontext.h>

#include "fv.h"
#include "ranges.h"

enum { OWN_STACK = 64 << 10, BELOW = 64 << 20, PAINT = 0x5A };

/* Where the last call found its return address. */
uint8_t *volatile entered;

/* A call by way of a jump, which notes the stack pointer and takes no stack. */
#define NOTED(call) \
    __typeof__(call) noted_##call; \
    __asm__(".text\nnoted_" #call ":\n\tmovq %rsp, entered(%rip)\n\tjmp " #call "\n")

NOTED(fv_open);
NOTED(fv_read);
NOTED(fv_write);
NOTED(fv_write_list);
NOTED(fv_erase);
NOTED(fv_search);
NOTED(fv_search_first);
NOTED(fv_append);
NOTED(fv_ext_entry);
NOTED(fv_accept_erase);
NOTED(fv_carry_erase);
NOTED(fv_read_opcode);
NOTED(fv_write_opcode);
NOTED(fv_validate_dependency);
NOTED(fv_evaluate_dependency);

static uint8_t *own_stack;
static ucontext_t on_own, on_usual;

/* That stack, above so many bytes that cannot be touched that no call steps over them, and another for the signal of one that touches them. */
static void make_own_stack(void)
{
    own_stack = memset(pages(BELOW, OWN_STACK), PAINT, OWN_STACK);
    stack_t other = {.ss_sp = pages(PAGE, OWN_STACK), .ss_size = OWN_STACK};
    if (sigaltstack(&other, NULL))
        stop("no stack for signals");
}

static void run_on_own_stack(void (*work)(void))
{
    if (getcontext(&on_own))
        stop("no context");
    on_own.uc_stack = (stack_t){.ss_sp = own_stack, .ss_size = OWN_STACK};
    on_own.uc_link = &on_usual;
    makecontext(&on_own, work, 0);
    if (swapcontext(&on_usual, &on_own))
        stop("no context");
}

/* Bytes that the last call took, its return address among them. */
static size_t stack_taken(void)
{
    uint8_t *deepest = own_stack;
    while (deepest < entered && *deepest == PAINT)
        deepest++;
    size_t taken = (size_t)(entered + sizeof(void *) - deepest);
    memset(own_stack, PAINT, OWN_STACK);
    return taken;
}

#endif
