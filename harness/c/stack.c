/* How much stack a call needs: the smallest thread on which it runs, found by trying smaller and smaller ones until one crashes.

     for name in session_file file_inquiries order_slices fills; do harness/run library $name; done
     cc -O2 -pthread -Iinclude harness/c/stack.c -Ltarget/staticlib -lsession_file -lfile_inquiries -lorder_slices -lfills -o target/stack
     target/stack [FILE...]

   It calls the price search and pro-rata on 16 records and the number of fills on 16 lots, asks of a session of its own (16 orders, just
   cleared) why an order with a unit of the residue got its lot, then clears another (16 orders, 24 fills, every kind of call) and each FILE.
   A thread's stack also holds what the C library keeps for the thread: the first line is a thread that does nothing. The numbers in
   include/ are from this program, with a margin. */
#define _GNU_SOURCE
#include "file_inquiries.h"
#include "fills.h"
#include "order_slices.h"
#include "session_file.h"
#include <pthread.h>
#include <stdio.h>
#include <stdlib.h>
#include <string.h>
#include <sys/mman.h>
#include <sys/wait.h>
#include <unistd.h>

enum { STEP = 4096, LARGEST = 1 << 20, GUARD = 1 << 20 };

/* One byte more than a file may have, so that a longer one is refused and not cut. */
static uint8_t file[SESSION_FILE_MAX_INPUT + 1], output[1 << 22];
static size_t file_len;

static void bytes(uint8_t value, size_t count) {
    memset(file + file_len, value, count);
    file_len += count;
}

static void number(uint64_t value, size_t width) {
    for (size_t i = 0; i < width; i++) file[file_len++] = (uint8_t)(value >> (8 * i));
}

static void mark(const char *letters) {
    file[file_len++] = (uint8_t)letters[0];
    file[file_len++] = (uint8_t)letters[1];
}

enum { ORDERS = 16, ISSUER = 99 };

/* A header, orders of so many buys and then sells of those quantities, their screens, and the clear. */
static void cleared_session(unsigned buys, unsigned (*qty)(unsigned)) {
    file_len = 0;
    mark("SH"), number(100, 8), number(50, 8), number(200, 8), number(1000, 8), number(2, 1), number(0, 1), bytes(ISSUER, 32);
    number(1, 1), number(9, 8), number(10, 8), number(1, 1), number(2500, 8);
    for (unsigned i = 0; i < ORDERS; i++)
        mark("OR"), bytes((uint8_t)(i + 1), 32), number(i >= buys, 1), number(60, 8), number(1, 1), number(10, 8), number(qty(i), 8);
    for (unsigned i = 0; i < ORDERS; i++)
        mark("SC"), number(120, 8), number(i, 1), number(i >= buys, 1), number(0, 1), number(1, 1), bytes((uint8_t)(i + 1), 16);
    mark("CL"), number(120, 8);
}

/* Fifteen buys of 2 share a sell of 29: a share of 1 each, and a unit to all but the last. */
static unsigned uneven(unsigned i) { return i == ORDERS - 1 ? 29 : 2; }

static void uneven_session(void) { cleared_session(ORDERS - 1, uneven); }

/* Eight buys of 3 against sells of 1, 3, 3, 3, 3, 3, 3, 5 make 15 fills; nine purchases of the issuer's make 24. */
static unsigned even(unsigned i) { return i == ORDERS / 2 ? 1 : i == ORDERS - 1 ? 5 : 3; }

static void full_session(void) {
    enum { PAIRED = 15, FILLS = 24 };
    cleared_session(ORDERS / 2, even);
    mark("AL"), number(120, 8), number(255, 1);
    for (unsigned i = PAIRED; i <= FILLS; i++) /* the last one is refused: no place is left */
        mark("RX"), number(120, 8), bytes(ISSUER, 32), number(i - PAIRED, 4), number(1, 8);
    mark("RC"), number(120, 8), bytes(ISSUER, 32);
    for (unsigned i = 0; i < PAIRED - 1; i++) mark("ST"), number(i, 4);
    mark("SK"), number(120, 8), number(PAIRED - 1, 4), number(6, 1);
    mark("FN"), number(120, 8);
    mark("EX"), number(300, 8);
}

/* What is measured: each answers NULL if the call went as it should. */
static void *nothing(void *unused) { return unused; }

static void *clearing(void *unused) {
    return clear_session_file(file, file_len, output, sizeof output) > 0 ? unused : file;
}

static void *clearing_own(void *unused) {
    static const char last[] = "end 5 1\n";
    int64_t length = clear_session_file(file, file_len, output, sizeof output);
    return length > 8 && memcmp(output + length - 8, last, 8) == 0 ? unused : file;
}

static void *asking(void *unused) {
    static const char line[] = "residue 13 2 14\n";
    int64_t length = why_in_session_file(file, file_len, 13, output, sizeof output);
    return length == sizeof line - 1 && memcmp(output, line, sizeof line - 1) == 0 ? unused : file;
}

static void *searching(void *unused) {
    struct order orders[ORDER_SLICES_MAX_ORDERS];
    for (uint64_t i = 0; i < ORDER_SLICES_MAX_ORDERS; i++) orders[i] = (struct order){i, 10 + i % 2, UINT64_MAX - i, i % 2 == 0};
    struct figures f = find_uniform_clear_price(orders, ORDER_SLICES_MAX_ORDERS, 9, 10);
    return f.refusal == 0 ? unused : file;
}

static void *sharing(void *unused) {
    struct bid bids[ORDER_SLICES_MAX_ORDERS];
    uint64_t lots[ORDER_SLICES_MAX_ORDERS];
    for (uint64_t i = 0; i < ORDER_SLICES_MAX_ORDERS; i++) bids[i] = (struct bid){i, UINT64_MAX - i};
    return allocate_pro_rata(UINT64_MAX, bids, ORDER_SLICES_MAX_ORDERS, lots, ORDER_SLICES_MAX_ORDERS) == 0 ? unused : file;
}

/* No two lots end together, so each is a fill. */
static void *counting(void *unused) {
    uint64_t lots[FILLS_MAX_ORDERS];
    uint8_t sides[FILLS_MAX_ORDERS];
    for (uint64_t i = 0; i < FILLS_MAX_ORDERS; i++) lots[i] = UINT64_MAX - i, sides[i] = i % 2;
    struct fill_count f = fill_count(lots, FILLS_MAX_ORDERS, sides, FILLS_MAX_ORDERS);
    return f.refusal == 0 && f.count == FILLS_MAX_ORDERS ? unused : file;
}

/* Whether the work gets done on a thread of that stack: 1, or 0 if it crashes. In a process of its own, with no memory below the stack. */
static int runs(void *(*work)(void *), size_t stack) {
    pid_t child = fork();
    if (child == 0) {
        uint8_t *area = mmap(NULL, GUARD + stack, PROT_READ | PROT_WRITE, MAP_PRIVATE | MAP_ANONYMOUS, -1, 0);
        pthread_attr_t attr;
        pthread_t thread;
        void *bad = NULL;
        if (area == MAP_FAILED || mprotect(area, GUARD, PROT_NONE) != 0) _exit(2);
        if (pthread_attr_init(&attr) != 0 || pthread_attr_setstack(&attr, area + GUARD, stack) != 0) _exit(2);
        if (pthread_create(&thread, &attr, work, NULL) != 0 || pthread_join(thread, &bad) != 0) _exit(2);
        _exit(bad == NULL ? 0 : 1);
    }
    int status = 0;
    if (child < 0 || waitpid(child, &status, 0) != child || (WIFEXITED(status) && WEXITSTATUS(status) != 0)) {
        fprintf(stderr, "stack: no thread, or another answer than expected\n");
        exit(1);
    }
    return WIFEXITED(status);
}

static void measure(const char *name, void *(*work)(void *)) {
    size_t least = (size_t)sysconf(_SC_THREAD_STACK_MIN), stack = LARGEST;
    least = (least + STEP - 1) / STEP * STEP;
    while (stack >= least && runs(work, stack)) stack -= STEP;
    printf("%-30s runs at %4zu KiB, ", name, (stack + STEP) / 1024);
    if (stack < least)
        printf("the least that a thread may have\n");
    else
        printf("crashes at %zu KiB\n", stack / 1024);
}

int main(int argc, char **argv) {
    measure("nothing", nothing);
    measure("find_uniform_clear_price", searching);
    measure("allocate_pro_rata", sharing);
    measure("fill_count", counting);
    uneven_session();
    measure("why_in_session_file", asking);
    full_session();
    measure("clear_session_file", clearing_own);
    for (int i = 1; i < argc; i++) {
        FILE *in = fopen(argv[i], "rb");
        if (in == NULL) return perror(argv[i]), 1;
        file_len = fread(file, 1, sizeof file, in);
        fclose(in);
        measure(argv[i], clearing);
    }
    return 0;
}
