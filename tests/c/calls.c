/* Calls of the library, for scripts that make the cases (tools/library.py). Standard input is cases one after the other, each a letter,
 * which names the call, and the regions that the call is lent, in its own order. A region is two numbers of 32 bits, low byte first, the
 * length that the call is told and how many bytes follow, and these bytes; an argument that is a number stands in its place as a region,
 * too. For each case standard output gets the call's answer, 8 bytes, low first, and then the bytes of the regions as the call left them,
 * also those behind the length that it was told. */
#include "spc700.h"

/* Declared, not included: a compiler for x86-64 may come without the headers of a C library for it. */
long read(int from, void *to, size_t length);
long write(int to, const void *from, size_t length);

/* room for a file with tags behind it, and for the longest row and some numbers behind it */
#define ROOM (1 << 18)

struct region {
    uint32_t told, length;
    union {
        uint8_t bytes[ROOM];
        uint16_t numbers[ROOM / 2];
        uint32_t number;
    } as;
};

static struct region lent[6];

/* a region as two arguments, and as the number that it is */
#define LENT(i) lent[i].as.bytes, lent[i].told
#define ROW(i) lent[i].as.numbers, lent[i].told
#define NUMBER(i) lent[i].as.number

/* 0 where the input ends first */
static int get(void *to, size_t length)
{
    for (size_t done = 0; done < length;) {
        long got = read(0, (uint8_t *)to + done, length - done);
        if (got <= 0)
            return 0;
        done += got;
    }
    return 1;
}

static int put(const void *from, size_t length)
{
    for (size_t done = 0; done < length;) {
        long gone = write(1, (const uint8_t *)from + done, length - done);
        if (gone <= 0)
            return 0;
        done += gone;
    }
    return 1;
}

static int get_region(struct region *r)
{
    return get(&r->told, 4) && get(&r->length, 4) && r->told <= r->length && r->length <= ROOM && get(r->as.bytes, r->length);
}

static int put_region(const struct region *r) { return put(r->as.bytes, r->length); }

/* how many regions a call is lent; 0 for a letter that names none */
static int regions(char kind)
{
    switch (kind) {
    case 'k':
        return 1;
    case 'r':
    case 'f':
    case 's':
        return 2;
    case 'w':
    case 'b':
        return 3;
    case 'd':
    case 't':
        return 5;
    case 'n':
        return 6;
    default:
        return 0;
    }
}

static uint64_t call(char kind)
{
    switch (kind) {
    case 'r':
        return spc700_file_read(LENT(0), LENT(1));
    case 'w':
        return spc700_file_write(LENT(0), LENT(1), LENT(2));
    case 'f':
        return spc700_file_from_record(LENT(0), LENT(1));
    case 's':
        return spc700_record_from_file(LENT(0), LENT(1));
    case 'd':
        return spc700_differences(LENT(0), LENT(1), (uint8_t)NUMBER(2), LENT(3), ROW(4));
    case 'b':
        return spc700_blank(LENT(0), LENT(1), (uint8_t)NUMBER(2));
    case 'k':
        return spc700_wake(LENT(0));
    case 't':
        return spc700_step(LENT(0), (uint8_t)NUMBER(1), LENT(2), LENT(3), LENT(4));
    default:
        return spc700_run(LENT(0), (uint8_t)NUMBER(1), NUMBER(2), LENT(3), LENT(4), LENT(5));
    }
}

int main(void)
{
    char kind;
    while (get(&kind, 1)) {
        int count = regions(kind);
        if (count == 0)
            return 2;
        for (int i = 0; i < count; i++)
            if (!get_region(&lent[i]))
                return 2;
        uint64_t answer = call(kind);
        if (!put(&answer, 8))
            return 2;
        for (int i = 0; i < count; i++)
            if (!put_region(&lent[i]))
                return 2;
    }
    return 0;
}
