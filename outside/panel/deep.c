/*
 * Functions for the program that bounds the stack from machine code. The first must be found: too deep, or not to be
 * bounded at all. Those at the end are good. Nothing calls them: outside/deep reads them compiled.
 */
#include <stddef.h>
#include <stdint.h>

enum { FRAME = 2100, BLOCK = 512 };

#define APART __attribute__((noinline))

uint32_t deep_frame(uint32_t n);
uint32_t deep_under(uint32_t n);
uint32_t deep_copy(const uint8_t *block);
uint32_t deep_self(uint32_t n);
uint32_t deep_even(uint32_t n);
uint32_t deep_odd(uint32_t n);
uint32_t deep_pointer(uint32_t (*called)(uint32_t), uint32_t n);
uint32_t deep_grows(size_t n);
uint32_t deep_missing(uint32_t n);
uint32_t good_leaf(uint32_t n);
uint32_t good_calls(uint32_t n);
uint32_t good_tail(uint32_t n);
uint32_t good_switch(uint32_t n, uint32_t m);
uint32_t in_no_archive(uint32_t n);

/* A frame of 2,100 bytes. */
APART uint32_t deep_frame(uint32_t n)
{
    volatile uint8_t room[FRAME];

    room[n % FRAME] = 1;
    return room[(n + 1) % FRAME];
}

/* The same, but in a function that it calls. */
uint32_t deep_under(uint32_t n)
{
    return deep_frame(n) + 1;
}

/* A private copy of a block, which is then added up. */
uint32_t deep_copy(const uint8_t *block)
{
    volatile uint8_t copy[BLOCK];
    uint32_t sum = 0;

    for (size_t i = 0; i < BLOCK; i++)
        copy[i] = block[i];
    for (size_t i = 0; i < BLOCK; i++)
        sum += copy[i];
    return sum;
}

/* Calls itself, and uses its own number afterwards, so that no loop can take its place. */
APART uint32_t deep_self(uint32_t n)
{
    volatile uint32_t kept = n;

    if (n == 0)
        return 0;
    return deep_self(n / 2) ^ kept;
}

/* Two that call each other. */
APART uint32_t deep_even(uint32_t n)
{
    volatile uint32_t kept = n;

    if (n == 0)
        return 1;
    return deep_odd(n - 1) ^ kept;
}

APART uint32_t deep_odd(uint32_t n)
{
    volatile uint32_t kept = n;

    if (n == 0)
        return 0;
    return deep_even(n - 1) ^ kept;
}

/* Calls what it is told to. */
uint32_t deep_pointer(uint32_t (*called)(uint32_t), uint32_t n)
{
    return called(n) + 1;
}

/* The stack grows with the argument. */
uint32_t deep_grows(size_t n)
{
    volatile uint8_t room[n + 1];

    room[n / 2] = 1;
    return room[n];
}

/* Calls what no archive has. */
uint32_t deep_missing(uint32_t n)
{
    return in_no_archive(n) + 1;
}

/* No stack but its return address. */
APART uint32_t good_leaf(uint32_t n)
{
    return n * 3 + 1;
}

APART uint32_t good_calls(uint32_t n)
{
    return good_leaf(n) ^ good_leaf(n + 1);
}

/* Jumps to the other in place of a call. */
uint32_t good_tail(uint32_t n)
{
    return good_calls(n * n);
}

/* A switch that becomes a jump through a table. */
uint32_t good_switch(uint32_t n, uint32_t m)
{
    switch (n) {
    case 0:
        return good_leaf(m);
    case 1:
        return m * m;
    case 2:
        return m / 3;
    case 3:
        return m ^ 317944;
    case 4:
        return good_leaf(m) + good_leaf(m + 2);
    case 5:
        return m << 5 | 1;
    case 6:
        return good_calls(m) - m;
    default:
        return 0;
    }
}
