/* What the programs over stored cases share: numbers and texts from standard input, outputs before and after a call
 * (tests/second/README.md). */
#ifndef STORED_H
#define STORED_H

#include <stdint.h>
#include <stdio.h>
#include <stdlib.h>

enum { MOST = 65536 };

static uint32_t number(int bytes)
{
    uint32_t n = 0;
    for (int i = 0; i < bytes; i++) {
        int c = getchar();
        if (c == EOF)
            exit(1);
        n |= (uint32_t)c << (8 * i);
    }
    return n;
}

/* A text of at most MOST bytes; its length. */
static uint32_t text(uint8_t *bytes)
{
    uint32_t size = number(2);
    if (fread(bytes, 1, size, stdin) != size)
        exit(1);
    return size;
}

static void fill(uint32_t *output, uint32_t count)
{
    for (uint32_t i = 0; i < count; i++)
        output[i] = 3000000000u + i;
}

static uint32_t added(uint32_t sum, uint32_t n)
{
    return (sum ^ n) * 16777619u;
}

static uint32_t checksum(const uint32_t *output, uint32_t count)
{
    uint32_t sum = 2166136261u;
    for (uint32_t i = 0; i < count; i++)
        sum = added(sum, output[i]);
    return sum;
}

static void fill_bytes(uint8_t *output, uint32_t count)
{
    for (uint32_t i = 0; i < count; i++)
        output[i] = (uint8_t)(151 + i);
}

static uint32_t checksum_of_bytes(const uint8_t *output, uint32_t count)
{
    uint32_t sum = 2166136261u;
    for (uint32_t i = 0; i < count; i++)
        sum = added(sum, output[i]);
    return sum;
}

#endif
