/* Drives a side through the calls of one row.
     drive count ROW SLOTS CALLS   so many calls, for callgrind, which collects between the marks; prints the records
     drive stack ROW SLOTS         one call; prints the bytes of stack that it reaches down
     drive copies ROW SLOTS        one call; prints how often the state was copied (linked with --wrap, -DCOPIES)
     drive size                    prints the bytes of the state
   A side that has no such call prints a dash. */
#include "bench.h"
#include <stdint.h>
#include <stdio.h>
#include <stdlib.h>
#include <string.h>
#include <sys/mman.h>
#include <valgrind/callgrind.h>

static enum { COUNT, STACK, COPIED } mode;

/* The stack below the marks is painted, and what is no longer painted was reached. Neither function may have a frame,
   since it would lie where the call's own frame comes to lie: `run` holds the row `empty` to 8 bytes, the return
   address. */
#define ROOM 65536
#define PAINT 0xA5
static unsigned char *edge;
static size_t depth;

__attribute__((noinline)) static void paint(void) {
    unsigned char *to;
    long left = ROOM, paint = PAINT;
    /* No register keeps the paint: the call might push it. */
    __asm__ volatile("mov %%rsp, %%rdi\n\tsub %1, %%rdi\n\trep stosb\n\txor %%eax, %%eax"
                     : "=&D"(to), "+c"(left), "+a"(paint)
                     :
                     : "memory", "cc");
    edge = to;
}
__attribute__((noinline)) static void look(void) {
    const volatile unsigned char *p = edge - ROOM;
    while (p < edge && *p == PAINT) p++;
    depth = ((size_t)(edge - p) + 8 + 7) / 8 * 8;
}

static int counting;
__attribute__((noinline)) static void toggle(void) {
    counting = !counting;
    CALLGRIND_TOGGLE_COLLECT;
}

void bench_on(void) {
    if (mode == STACK) paint();
    else toggle();
}
void bench_off(void) {
    if (mode == STACK) look();
    else toggle();
}

static unsigned copies;
#ifdef COPIES
/* Whole states only; a copy may leave out a few bytes that are written anew. */
static void note(size_t n) {
    if (counting && n >= side_state_size() * 9 / 10) copies++;
}
void *__real_memcpy(void *, const void *, size_t);
void *__wrap_memcpy(void *to, const void *from, size_t n) {
    note(n);
    return __real_memcpy(to, from, n);
}
void *__real_memmove(void *, const void *, size_t);
void *__wrap_memmove(void *to, const void *from, size_t n) {
    note(n);
    return __real_memmove(to, from, n);
}
#endif

static void map(uintptr_t at, size_t bytes) {
    void *p = mmap((void *)at, bytes, PROT_READ | PROT_WRITE, MAP_PRIVATE | MAP_ANONYMOUS | MAP_FIXED_NOREPLACE, -1, 0);
    if (p != (void *)at) {
        perror("memory at the chip's addresses");
        exit(2);
    }
}

__attribute__((noinline)) static int drive(int argc, char **argv) {
    if (argc == 2 && !strcmp(argv[1], "size")) {
        printf("%zu\n", side_state_size());
        return 0;
    }
    if (argc < 4) return 2;
    mode = !strcmp(argv[1], "stack") ? STACK : !strcmp(argv[1], "copies") ? COPIED : COUNT;
    int calls = mode == COUNT && argc > 4 ? atoi(argv[4]) : 1;
    /* for the Rust, which touches them: EP0's bytes, registers of the controller and the PHY, the start of flash */
    map(0x200A0000, 0x1000);
    map(0x50034000, 0x1000);
    map(0x5003C000, 0x1000);
    map(0x08000000, 0x1000);
    side_setup(atoi(argv[3]));
    for (int i = 0; i < calls; i++)
        if (side_run(argv[2])) {
            puts("-");
            return 0;
        }
    if (mode == STACK) printf("%zu\n", depth);
    else if (mode == COPIED) printf("%u\n", copies);
    else printf("%d\n", side_records());
    return 0;
}

/* A copy costs a little more or less by where it lies, and where the stack begins hangs on the environment: put it at
   the same place of a page every time. */
int main(int argc, char **argv) {
    volatile char *gap = __builtin_alloca((uintptr_t)__builtin_frame_address(0) % 4096 + 16);
    *gap = 0;
    return drive(argc, argv);
}
