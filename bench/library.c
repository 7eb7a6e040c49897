/* A run by the static library: the program `run`'s input (the edition, four bytes of budget, low first, seven register bytes, the memory)
 * from standard input; the stop and the steps to standard output, as `run` prints them. bench/measure counts its instructions. */
#include <stdint.h>
#include "spc700.h"

/* Declared, not included: a compiler for x86-64 may come without the headers of a C library for it. */
int printf(const char *format, ...);
long read(int file, void *to, size_t length);

static struct {
    uint8_t edition;
    uint8_t budget[4];
    uint8_t record[SPC700_RECORD_MEMORY];
    uint8_t memory[SPC700_MEMORY];
} input;
/* the record's seven bytes, and awake behind them */
static uint8_t registers[SPC700_REGISTERS];
static uint8_t reads[SPC700_MAP], writes[SPC700_MAP];

/* Whether standard input held the whole input. */
static int received(void)
{
    size_t have = 0;
    while (have < sizeof input) {
        long got = read(0, (uint8_t *)&input + have, sizeof input - have);
        if (got <= 0)
            return 0;
        have += (size_t)got;
    }
    return 1;
}

int main(void)
{
    if (!received()) {
        printf("library: the input is shorter than %zu bytes\n", sizeof input);
        return 1;
    }
    uint32_t budget = 0;
    for (int i = 3; i >= 0; i--)
        budget = budget << 8 | input.budget[i];
    for (size_t i = 0; i < sizeof input.record; i++)
        registers[i] = input.record[i];
    uint64_t answer = spc700_run(registers, sizeof registers, input.edition, budget, input.memory, sizeof input.memory,
                                 reads, sizeof reads, writes, sizeof writes);
    if (spc700_refusal(answer)) {
        printf("library: refused %d\n", spc700_refusal(answer));
        return 1;
    }
    printf("stop %d\nsteps %u\n", spc700_stop(answer), spc700_number(answer));
    return 0;
}
