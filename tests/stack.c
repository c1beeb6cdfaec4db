/*
 * stack FILE ..: each call on each file, in a thread that has the stack that jubaxendi.h states and a guard page below it, so that a call
 * which takes more ends the program. Each must answer, and leave a fifth of the stated stack, so that this is seen before a caller sees it.
 * What the C library takes of a thread's stack itself comes on top: it is what a thread that calls nothing has used. Stacks are
 * painted, and what is no longer as it was painted counts as used.
 */
#define _GNU_SOURCE
#include <inttypes.h>
#include <pthread.h>
#include <stdio.h>
#include <stdlib.h>
#include <string.h>
#include <sys/mman.h>
#include <unistd.h>

#include "jubaxendi.h"

static uint8_t file[32769], text[32768];
static size_t length;
static uint64_t members[16], table[7680], answer[8], refusal;

static void *nothing(void *none) { return none; }
static void *check(void *none) { refusal = jubaxendi_check(file, length, answer); return none; }
static void *impact(void *none) { refusal = jubaxendi_impact(file, length, 1, answer); return none; }
static void *total(void *none) { refusal = jubaxendi_total(file, length, answer); return none; }
static void *search(void *none) { refusal = jubaxendi_search(file, length, members, 16, answer); return none; }
static void *report(void *none) { refusal = jubaxendi_report(file, length, text, sizeof text, answer); return none; }
static void *segments(void *none) { refusal = jubaxendi_segments(file, length, table, 7680, answer); return none; }
static void *ceiling(void *none) { refusal = jubaxendi_ceiling(64, 16, answer); return none; }

static const struct { const char *name; void *(*run)(void *); size_t stack; } calls[] = {
    {"check", check, JUBAXENDI_STACK_CHECK},          {"impact", impact, JUBAXENDI_STACK_IMPACT},
    {"total", total, JUBAXENDI_STACK_TOTAL},          {"search", search, JUBAXENDI_STACK_SEARCH},
    {"report", report, JUBAXENDI_STACK_REPORT},       {"segments", segments, JUBAXENDI_STACK_SEGMENTS},
    {"ceiling", ceiling, JUBAXENDI_STACK_CEILING},
};

static void need(int held, const char *what) {
    if (!held) {
        printf(" %s\n", what);
        exit(1);
    }
}

/* Runs a function in a thread with a stack of a size, a multiple of 64; answers how much of it has been used. */
static size_t used(void *(*run)(void *), size_t size) {
    size_t page = (size_t)sysconf(_SC_PAGESIZE), whole = page + (size + page - 1) / page * page, left = 0;
    uint8_t *guard = mmap(NULL, whole, PROT_READ | PROT_WRITE, MAP_PRIVATE | MAP_ANONYMOUS, -1, 0), *stack = guard + page;
    need(guard != MAP_FAILED, "mmap failed");
    memset(stack, 0xa5, size);
    need(mprotect(guard, page, PROT_NONE) == 0, "mprotect failed");
    pthread_attr_t with;
    pthread_t thread;
    need(pthread_attr_init(&with) == 0 && pthread_attr_setstack(&with, stack, size) == 0, "no such stack");
    need(pthread_create(&thread, &with, run, NULL) == 0 && pthread_join(thread, NULL) == 0, "no thread");
    while (left < size && stack[left] == 0xa5)
        left++;
    munmap(guard, whole);
    return size - left;
}

int main(int count, char **names) {
    size_t own = (used(nothing, 1 << 20) + 63) / 64 * 64;
    for (int i = 1; i < count; i++) {
        FILE *opened = fopen(names[i], "rb");
        need(opened != NULL, names[i]);
        length = fread(file, 1, sizeof file, opened);
        fclose(opened);
        for (size_t k = 0; k < sizeof calls / sizeof *calls; k++) {
            printf("%s of %s:", calls[k].name, names[i]);
            fflush(stdout);
            size_t whole = used(calls[k].run, calls[k].stack + own), taken = whole > own ? whole - own : 0;
            printf(" %zu of %zu bytes", taken, calls[k].stack);
            need(refusal == 0, "taken, and the file is refused");
            need(taken <= calls[k].stack / 5 * 4, "taken, which leaves too little");
            printf("\n");
        }
    }
    return 0;
}
