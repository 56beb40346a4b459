/* All that a program needs where there is no system below it: start-up code, and the few functions of the C library that the programs here use. Of the
   library's own needs it is memcpy, memmove and memset; the rest is for the programs. A card's firmware has its own of each.

   Input and output go to whoever runs the program: an emulator or a debugger (semihosting, on Arm and RISC-V), or node (on WebAssembly). */
#include <stddef.h>
#include <stdint.h>
#include <stdio.h>
#include <stdlib.h>
#include <string.h>

int main(void);

/* The library's needs: whole words where they can be had. */

typedef uint32_t __attribute__((may_alias)) word;

void *memcpy(void *to, const void *from, size_t count) {
    size_t i = 0;
    if ((((uintptr_t)to | (uintptr_t)from) & 3) == 0)
        for (; i + 4 <= count; i += 4)
            *(word *)((uint8_t *)to + i) = *(const word *)((const uint8_t *)from + i);
    for (; i < count; i++)
        ((uint8_t *)to)[i] = ((const uint8_t *)from)[i];
    return to;
}

void *memmove(void *to, const void *from, size_t count) {
    if ((uintptr_t)to <= (uintptr_t)from)
        return memcpy(to, from, count);
    for (size_t i = count; i > 0; i--)
        ((uint8_t *)to)[i - 1] = ((const uint8_t *)from)[i - 1];
    return to;
}

void *memset(void *to, int byte, size_t count) {
    size_t i = 0;
    if (((uintptr_t)to & 3) == 0)
        for (; i + 4 <= count; i += 4)
            *(word *)((uint8_t *)to + i) = (uint8_t)byte * 0x01010101u;
    for (; i < count; i++)
        ((uint8_t *)to)[i] = (uint8_t)byte;
    return to;
}

/* Input, output and the end, on each processor. */

static size_t host_read(void *to, size_t room);
static void host_write(const void *from, size_t count);

#ifdef __wasm__

__attribute__((import_name("read"))) size_t imported_read(void *to, size_t room);
__attribute__((import_name("write"))) void imported_write(const void *from, size_t count);

static size_t host_read(void *to, size_t room) { return imported_read(to, room); }
static void host_write(const void *from, size_t count) { imported_write(from, count); }

__attribute__((export_name("start"))) int start(void) { return main(); }

#else

enum { OPEN = 1, WRITE = 5, READ = 6, EXIT = 0x20, MODE_READ = 1, MODE_APPEND = 9, ORDERLY = 0x20026 };

/* A request to the emulator or debugger, and its answer. */
static uint32_t ask(uint32_t request, const void *words) {
#ifdef __arm__
    register uint32_t number __asm__("r0") = request;
    register const void *block __asm__("r1") = words;
    __asm__ volatile("bkpt 0xab" : "+r"(number) : "r"(block) : "memory");
#else
    register uint32_t number __asm__("a0") = request;
    register const void *block __asm__("a1") = words;
    __asm__ volatile(".option push\n.option norvc\n.balign 16\nslli x0, x0, 0x1f\nebreak\nsrai x0, x0, 7\n.option pop"
                     : "+r"(number)
                     : "r"(block)
                     : "memory");
#endif
    return number;
}

static uint32_t opened(const char *name, uint32_t mode) {
    uint32_t length = 0;
    while (name[length] != '\0')
        length++;
    const uintptr_t words[] = {(uintptr_t)name, mode, length};
    return ask(OPEN, words);
}

static size_t host_read(void *to, size_t room) {
    static uint32_t file;
    if (file == 0)
        file = opened("/dev/stdin", MODE_READ);
    const uintptr_t words[] = {file, (uintptr_t)to, room};
    return room - ask(READ, words);
}

static void host_write(const void *from, size_t count) {
    static uint32_t file;
    if (file == 0)
        file = opened("/dev/stdout", MODE_APPEND);
    const uintptr_t words[] = {file, (uintptr_t)from, count};
    ask(WRITE, words);
}

/* What the linker script says of memory. */
extern uint8_t data_start[], data_end[], data_kept[], zero_start[], zero_end[], stack_top[];

/* The first code: values into memory, the rest of it zero, then the program. */
__attribute__((noreturn, used)) void started(void) {
    memcpy(data_start, data_kept, (size_t)(data_end - data_start));
    memset(zero_start, 0, (size_t)(zero_end - zero_start));
    const uintptr_t words[] = {ORDERLY, (uintptr_t)main()};
    for (;;)
        ask(EXIT, words);
}

#ifdef __arm__
/* Where a Cortex-M begins: its stack, and the first code. The faults stop it. */
static void stopped(void) {
    const uintptr_t words[] = {ORDERLY, 99};
    for (;;)
        ask(EXIT, words);
}
__attribute__((section(".first"), used)) static const void *const vectors[16] = {
    stack_top, (const void *)started, (const void *)stopped, (const void *)stopped, (const void *)stopped, (const void *)stopped, (const void *)stopped,
};
#else
/* Where a RISC-V begins: at the first byte of its memory. */
__asm__(".section .first, \"ax\"\n.globl _start\n_start:\n  la sp, stack_top\n  j started\n");
#endif

#endif

/* What the programs use. */

struct FILE {
    int unused;
};
static struct FILE input;
FILE *stdin = &input;

size_t fread(void *to, size_t size, size_t count, FILE *file) {
    (void)file;
    return host_read(to, size * count) / size;
}

/* The host says how many bytes came, and not why no more did. */
int ferror(FILE *file) {
    (void)file;
    return 0;
}

int memcmp(const void *one, const void *other, size_t count) {
    const uint8_t *a = one, *b = other;
    for (size_t i = 0; i < count; i++)
        if (a[i] != b[i])
            return a[i] < b[i] ? -1 : 1;
    return 0;
}

/* One block, which can grow; start-up leaves it as it is. */
__attribute__((section(".noinit"))) static union {
    uint64_t aligned;
    uint8_t bytes[1u << 20];
} heap;

void *realloc(void *old, size_t size) {
    (void)old;
    return size <= sizeof heap ? heap.bytes : NULL;
}

void free(void *old) { (void)old; }

/* %s, %u, %lu, and %d of numbers that are not negative. */
int printf(const char *format, ...) {
    __builtin_va_list values;
    char line[256];
    size_t length = 0;
    __builtin_va_start(values, format);
    for (const char *at = format; *at != '\0' && length < sizeof line - 24; at++) {
        if (*at != '%') {
            line[length++] = *at;
            continue;
        }
        at++;
        if (*at == 's') {
            for (const char *text = __builtin_va_arg(values, const char *); *text != '\0' && length < sizeof line - 24; text++)
                line[length++] = *text;
            continue;
        }
        unsigned long number;
        if (*at == 'l') {
            at++;
            number = __builtin_va_arg(values, unsigned long);
        } else {
            number = __builtin_va_arg(values, unsigned);
        }
        char digits[20];
        size_t count = 0;
        do {
            digits[count++] = (char)('0' + number % 10);
            number /= 10;
        } while (number > 0);
        while (count > 0)
            line[length++] = digits[--count];
    }
    __builtin_va_end(values);
    host_write(line, length);
    return (int)length;
}
