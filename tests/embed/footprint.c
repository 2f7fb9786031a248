/*
 * Code of which is known what is to be found: a function that calls none and keeps 64 bytes, which by the x86-64 ABI lie below the
 * stack pointer; one that keeps 800 bytes and calls it; and a product of two numbers in vector registers.
 */
#include <stddef.h>

unsigned long leaf(unsigned long n);
unsigned long caller(unsigned long n);
double product(double a, double b);

unsigned long leaf(unsigned long n)
{
    volatile unsigned long kept[8];
    for (size_t i = 0; i < 8; i++)
        kept[i] = n * i;
    return kept[n % 8];
}

unsigned long caller(unsigned long n)
{
    volatile unsigned long kept[100];
    for (size_t i = 0; i < 100; i++)
        kept[i] = n * i;
    return kept[n % 100] + leaf(n);
}

double product(double a, double b)
{
    return a * b;
}
