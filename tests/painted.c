/* The painted stack; painted.h says what it is for. It is written for x86-64 and its System V calling convention, for
 * which the library is compiled on every machine: painted_call is given the arguments of a function that it does not
 * know, so it must leave all registers that may have one as they are, and the answer's too. r10, r11 and rax have none
 * before a call; r10, r11 and rcx have none after it. */
#include "painted.h"

size_t painted_depth;
void (*painted_function)(void);

/* Where the call in hand goes back to. */
void (*painted_return)(void);

_Static_assert(PAINTED_SIZE == 4096, "the size stands in painted_call too, as 4096 + 8");

/* The paint is a word that is no address and that no packet, table or length has. */
__asm__(
    "    .text\n"
    "    .globl painted_call\n"
    "    .type painted_call, @function\n"
    "painted_call:\n"
    "    popq painted_return(%rip)\n" /* the call below has its return address in the same place */
    "    movabsq $0x9D5B37E1C86AF42B, %r11\n"
    "    leaq -(4096 + 8)(%rsp), %r10\n"
    "    leaq -8(%rsp), %rax\n"
    "1:  movq %r11, (%r10)\n"
    "    addq $8, %r10\n"
    "    cmpq %rax, %r10\n"
    "    jne 1b\n"
    "    callq *painted_function(%rip)\n"
    "    movabsq $0x9D5B37E1C86AF42B, %r11\n"
    "    leaq -(4096 + 8)(%rsp), %r10\n"
    "    leaq -8(%rsp), %rcx\n"
    "2:  cmpq %r11, (%r10)\n"
    "    jne 3f\n"
    "    addq $8, %r10\n"
    "    cmpq %rcx, %r10\n"
    "    jne 2b\n"
    "3:  subq %r10, %rcx\n"
    "    movq %rcx, painted_depth(%rip)\n"
    "    jmpq *painted_return(%rip)\n"
    "    .size painted_call, . - painted_call\n");
