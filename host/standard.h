/* The functions of the C library that the programs of this folder call, declared one by one, as C11 7.1.4
 * allows. <stdio.h> and <string.h> have them too; but these programs are for x86-64 on every machine, and on
 * Arm the headers of x86-64's C library are not there. A program of your own includes those headers instead. */
#ifndef STANDARD_H
#define STANDARD_H

/* A byte of standard input, or EOF at its end; EOF is not known here, but is negative (C11 7.21.1). */
int getchar(void);
int printf(const char *restrict format, ...);
int strcmp(const char *one, const char *other);

#endif
