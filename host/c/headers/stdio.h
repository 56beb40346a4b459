/* What the programs here use of the C library's input and output. */
#ifndef STDIO_H
#define STDIO_H
#include <stddef.h>
typedef struct FILE FILE;
extern FILE *stdin;
extern FILE *stdout;
extern FILE *stderr;
FILE *fopen(const char *path, const char *mode);
int fclose(FILE *file);
int fflush(FILE *file);
int fputs(const char *text, FILE *file);
int ferror(FILE *file);
size_t fread(void *to, size_t size, size_t count, FILE *file);
size_t fwrite(const void *from, size_t size, size_t count, FILE *file);
int printf(const char *format, ...);
int fprintf(FILE *file, const char *format, ...);
#endif
