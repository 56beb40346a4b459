/* What the programs here use of the C library's memory and sorting. */
#ifndef STDLIB_H
#define STDLIB_H
#include <stddef.h>
void *malloc(size_t size);
void *realloc(void *old, size_t size);
void free(void *old);
void exit(int status);
unsigned long strtoul(const char *text, char **end, int base);
void qsort(void *first, size_t count, size_t size, int (*order)(const void *, const void *));
#endif
