/* bool of C99; in C++ it is a word of the language. */
#ifndef STDBOOL_H
#define STDBOOL_H
#ifndef __cplusplus
#define bool _Bool
#define true 1
#define false 0
#endif
#endif
