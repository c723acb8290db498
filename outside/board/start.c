/* What a Cortex-M board needs to run a program of this folder under QEMU: the vectors, and standard input and output as the files `in` and `out`
 * beside it, through semihosting. */
#include <stdint.h>
#include <stdio.h>
#include <stdlib.h>

extern void initialise_monitor_handles(void);
extern int main(void);
void _init(void);
void _fini(void);
void reset(void);
extern uint32_t stack_top[];

/* The C library wants them. */
void _init(void) {}
void _fini(void) {}

static void fault(void) {
    fprintf(stderr, "the processor has met a fault\n");
    _Exit(3);
}

/* The first thing is to switch the floating point unit on, where there is one: programs for hard float may use it everywhere. */
void reset(void) {
    *(volatile uint32_t *)0xe000ed88 |= 15u << 20;
    __asm__ volatile("dsb\n isb");
    initialise_monitor_handles();
    if (freopen("in", "rb", stdin) == NULL || freopen("out", "wb", stdout) == NULL) _Exit(2);
    exit(main());
}

__attribute__((section(".vectors"), used)) static void (*const vectors[16])(void) = {
    (void (*)(void))stack_top, reset, fault, fault, fault, fault, fault, fault, fault, fault, fault, fault, fault, fault, fault, fault};
