/* What a program with nothing below it has to tell something. */
#ifndef START_H
#define START_H
#include <stdint.h>
void print(const char *text);
void print_number(uint32_t value);
#endif
