/* The static library as a C program sees it: steps, runs, wakes, counts and texts, every refusal of these calls, and that a refused call
 * changes nothing. (The calls on SPC files are tried by tests/files, the comparison by tests/differences, blanking by tests/blanking, and
 * runs in parts by tests/waking.) Prints a line for each check and a last line that counts them; exit status 0 only if all hold.
 * tests/exports compiles and runs it. */
#include "spc700.h"

/* Declared, not included: a compiler for x86-64 may come without the headers of a C library for it. */
int printf(const char *format, ...);
int snprintf(char *to, size_t room, const char *format, ...);

/* All that a call is lent. Each region has a byte more than it needs, so that too long a region can be lent, too. */
struct lent {
    uint8_t registers[SPC700_REGISTERS + 1];
    uint8_t memory[SPC700_MEMORY + 1];
    uint8_t reads[SPC700_MAP + 1];
    uint8_t writes[SPC700_MAP + 1];
};

/* The lengths that a call is told. */
struct lengths {
    size_t registers, memory, reads, writes;
};

static const struct lengths RIGHT = {SPC700_REGISTERS, SPC700_MEMORY, SPC700_MAP, SPC700_MAP};
static struct lent now, before;
static int checks, failures;

static void check(const char *what, int holds)
{
    checks++;
    failures += !holds;
    printf("exports: %s: %s\n", holds ? "ok" : "FAILED", what);
}

static int same(const void *a, const void *b, size_t length)
{
    const uint8_t *x = a, *y = b;
    for (size_t i = 0; i < length; i++)
        if (x[i] != y[i])
            return 0;
    return 1;
}

static void fill(void *to, uint8_t byte, size_t length)
{
    for (size_t i = 0; i < length; i++)
        ((uint8_t *)to)[i] = byte;
}

static int unchanged(void) { return same(&now, &before, sizeof now); }

static uint64_t answer(uint64_t refusal, uint64_t stop, uint64_t number) { return refusal << 40 | stop << 32 | number; }

/* A=7D X=Y=0 SP=EF PC=0200 PSW=01, awake, clear maps, and memory zero but for three bytes of code at 0200. */
static void start(uint8_t first, uint8_t second, uint8_t third)
{
    static const uint8_t registers[SPC700_REGISTERS] = {0x7D, 0, 0, 0xEF, 0x00, 0x02, 0x01};
    fill(&now, 0, sizeof now);
    for (size_t i = 0; i < sizeof registers; i++)
        now.registers[i] = registers[i];
    now.memory[0x200] = first;
    now.memory[0x201] = second;
    now.memory[0x202] = third;
    before = now;
}

/* The edition of every step and run. */
static uint8_t edition = SPC700_EDITION_CRATE;

static uint64_t step(struct lengths n)
{
    return spc700_step(now.registers, n.registers, edition, now.memory, n.memory, now.reads, n.reads, now.writes, n.writes);
}

static uint64_t run(struct lengths n, uint32_t budget)
{
    return spc700_run(now.registers, n.registers, edition, budget, now.memory, n.memory, now.reads, n.reads, now.writes, n.writes);
}

/* The row that a count is lent: a number more than it needs, as with the regions above. */
static uint32_t row[SPC700_COUNTS + 1];

/* Both maps as they are now, counted into the row. */
static uint64_t count(void)
{
    return spc700_counts(now.reads, SPC700_MAP, now.writes, SPC700_MAP, row, SPC700_COUNTS);
}

static int counts_are(uint32_t read_only, uint32_t stored_only, uint32_t both)
{
    return count() == 0 && row[0] == read_only && row[1] == stored_only && row[2] == both;
}

static int registers_are(uint8_t a, uint8_t pc_low, uint8_t psw, uint8_t state)
{
    const uint8_t expected[SPC700_REGISTERS] = {a, 0, 0, 0xEF, pc_low, 0x02, psw, state};
    return same(now.registers, expected, sizeof expected);
}

/* ADC A,#05 and SLEEP with a budget of 9, the session that the client's document prints; and other budgets. */
static void runs(void)
{
    start(0x88, 0x05, 0xEF);
    uint64_t got = run(RIGHT, 9);
    check("run: not refused", spc700_refusal(got) == 0);
    check("run: stop 1", spc700_stop(got) == SPC700_STOP_SLEEP);
    check("run: 2 steps", spc700_number(got) == 2);
    check("run: nothing else in the answer", got == answer(0, 1, 2));
    check("run: A=83 PC=0203 PSW=C8, slept, the others as they were", registers_are(0x83, 0x03, 0xC8, SPC700_SLEPT));
    check("run: 3 addresses read, 0200 to 0202, none written", counts_are(3, 0, 0) && now.reads[0x40] == 0x07);
    check("run: memory as it was", same(now.memory, before.memory, sizeof now.memory));

    start(0x88, 0x05, 0xEF);
    check("run: budget 1 is one step, stop 0", run(RIGHT, 1) == answer(0, 0, 1) && registers_are(0x83, 0x02, 0xC8, SPC700_AWAKE));
    check("run: the next call goes on", run(RIGHT, 1) == answer(0, 1, 1) && registers_are(0x83, 0x03, 0xC8, SPC700_SLEPT));

    start(0x88, 0x05, 0xEF);
    check("run: budget 0 does nothing", run(RIGHT, 0) == 0 && unchanged());

    start(0x2F, 0xFE, 0);
    check("run: a budget of more than 16 bits", run(RIGHT, 70000) == answer(0, 0, 70000));
}

static void steps(void)
{
    start(0x88, 0x05, 0xEF);
    check("step: 1 step, stop 0", step(RIGHT) == answer(0, 0, 1));
    check("step: A=83 PC=0202 PSW=C8, awake", registers_are(0x83, 0x02, 0xC8, SPC700_AWAKE));
    check("step: 2 addresses read", counts_are(2, 0, 0) && now.reads[0x40] == 0x03);
    check("step: SLEEP is stop 1", step(RIGHT) == answer(0, 1, 1) && registers_are(0x83, 0x03, 0xC8, SPC700_SLEPT));

    start(0xFF, 0, 0);
    check("step: STOP is stop 2", step(RIGHT) == answer(0, 2, 1) && registers_are(0x7D, 0x01, 0x01, SPC700_STOPPED));

    start(0xC4, 0x10, 0);
    check("step: MOV $10,A is one step", step(RIGHT) == answer(0, 0, 1) && registers_are(0x7D, 0x02, 0x01, SPC700_AWAKE));
    check("step: it stores A", now.memory[0x10] == 0x7D);
    check("step: it marks 0010 as written, and nothing else", counts_are(2, 1, 0) && now.writes[2] == 0x01);

    start(0xAB, 0x10, 0);
    check("step: INC $10 is one step", step(RIGHT) == answer(0, 0, 1));
    check("step: it reads 0010, and then stores there", counts_are(2, 0, 1) && now.writes[2] == 0x01);

    int others = 1;
    for (unsigned opcode = 0; opcode < 256; opcode++) {
        start((uint8_t)opcode, 0x10, 0x20);
        uint8_t state = opcode == 0xEF ? SPC700_SLEPT : opcode == 0xFF ? SPC700_STOPPED : SPC700_AWAKE;
        others &= step(RIGHT) == answer(0, state, 1) && now.registers[SPC700_STATE] == state;
    }
    check("step: of all opcodes, SLEEP and STOP alone change the state", others);
}

/* From here on nothing changes, whatever step or run is made: each answers this stop and 0 steps. */
static int rests(uint8_t stop)
{
    static const uint32_t budgets[] = {0, 1, 9, 4294967295};
    int holds = 1;
    before = now;
    for (edition = SPC700_EDITION_PART; edition >= SPC700_EDITION_CRATE; edition--) {
        holds &= step(RIGHT) == answer(0, stop, 0) && unchanged();
        for (size_t i = 0; i < sizeof budgets / sizeof budgets[0]; i++)
            holds &= run(RIGHT, budgets[i]) == answer(0, stop, 0) && unchanged();
    }
    edition = SPC700_EDITION_CRATE;
    return holds;
}

/* A wake answers 0, leaves the state awake, and changes nothing else. */
static int wakes(void)
{
    before = now;
    before.registers[SPC700_STATE] = SPC700_AWAKE;
    return spc700_wake(now.registers, SPC700_REGISTERS) == 0 && unchanged();
}

/* A wake that is told this length, of registers in this state, is refused with 6 and changes nothing. */
static int refuses_wake(size_t length, uint8_t state)
{
    start(0, 0, 0);
    before.registers[SPC700_STATE] = now.registers[SPC700_STATE] = state;
    return spc700_wake(now.registers, length) == answer(SPC700_WRONG_REGISTERS, 0, 0) && unchanged();
}

/* SLEEP or STOP, and then INC A: the record stays at rest behind the first, and goes on at the second once it is woken. */
static int goes_on_when_woken(uint8_t opcode, uint8_t stop)
{
    start(opcode, 0xBC, 0xFF);
    int holds = run(RIGHT, 9) == answer(0, stop, 1) && registers_are(0x7D, 0x01, 0x01, stop) && rests(stop) && wakes() && wakes();
    return holds && run(RIGHT, 1) == answer(0, 0, 1) && registers_are(0x7E, 0x02, 0x01, SPC700_AWAKE);
}

static void waking(void)
{
    check("rest: behind SLEEP until it is woken", goes_on_when_woken(0xEF, SPC700_STOP_SLEEP));
    check("rest: behind STOP until it is woken", goes_on_when_woken(0xFF, SPC700_STOP_STOP));

    int every = 1;
    for (unsigned i = 0; i < 256 * 3; i++) {
        start(0, 0, 0);
        fill(now.registers, (uint8_t)(i / 3), SPC700_STATE);
        now.registers[SPC700_STATE] = (uint8_t)(i % 3);
        every &= wakes();
    }
    check("wake: of every state, with every byte in all other registers", every);

    int lengths = 1, states = 1;
    for (size_t length = 0; length <= SPC700_REGISTERS + 1; length++)
        if (length != SPC700_REGISTERS)
            lengths &= refuses_wake(length, SPC700_SLEPT);
    for (unsigned state = 3; state < 256; state++) {
        states &= refuses_wake(SPC700_REGISTERS, (uint8_t)state);
        start(0xC4, 0x10, 0xEF);
        before.registers[SPC700_STATE] = now.registers[SPC700_STATE] = (uint8_t)state;
        states &= step(RIGHT) == answer(6, 0, 0) && run(RIGHT, 9) == answer(6, 0, 0) && run(RIGHT, 0) == answer(6, 0, 0) && unchanged();
    }
    check("wake: refused 6: every other length up to 9", lengths);
    check("refused 6: a wake, a step and a run with every byte that names no state", states);
}

/* MUL of every two bytes, held to C's own product: the library makes it by additions. */
static void products(void)
{
    start(0xCF, 0, 0);
    int holds = 1;
    for (unsigned pair = 0; pair < 65536; pair++) {
        uint8_t a = pair % 256, y = pair / 256;
        unsigned product = y * a;
        uint8_t high = product / 256, flags = high >= 0x80 ? 0x80 : high == 0 ? 0x02 : 0;
        const uint8_t given[] = {a, 0x5A, y, 0xEF, 0x00, 0x02, 0xFF ^ flags, SPC700_AWAKE};
        const uint8_t expected[] = {product % 256, 0x5A, high, 0xEF, 0x01, 0x02, 0x7D | flags, SPC700_AWAKE};
        for (size_t i = 0; i < sizeof given; i++)
            now.registers[i] = given[i];
        holds &= step(RIGHT) == answer(0, 0, 1) && same(now.registers, expected, sizeof expected);
    }
    check("step: MUL of every two bytes", holds);
}

/* A step and a run that are told these lengths are refused with this number, and change nothing. */
static void refuses(const char *what, struct lengths n, uint64_t refusal)
{
    start(0xC4, 0x10, 0xEF);
    check(what, step(n) == answer(refusal, 0, 0) && run(n, 9) == answer(refusal, 0, 0) && unchanged());
}

static void refusals(void)
{
    refuses("refused 6: no registers", (struct lengths){0, 65536, 8192, 8192}, SPC700_WRONG_REGISTERS);
    refuses("refused 6: 7 bytes of registers", (struct lengths){7, 65536, 8192, 8192}, SPC700_WRONG_REGISTERS);
    refuses("refused 6: 9 bytes of registers", (struct lengths){9, 65536, 8192, 8192}, SPC700_WRONG_REGISTERS);
    refuses("refused 1: no memory", (struct lengths){8, 0, 8192, 8192}, SPC700_WRONG_MEMORY);
    refuses("refused 1: 65,535 bytes of memory", (struct lengths){8, 65535, 8192, 8192}, SPC700_WRONG_MEMORY);
    refuses("refused 1: 65,537 bytes of memory", (struct lengths){8, 65537, 8192, 8192}, SPC700_WRONG_MEMORY);
    refuses("refused 2: 8,191 bytes of the read map", (struct lengths){8, 65536, 8191, 8192}, SPC700_WRONG_MAP);
    refuses("refused 2: 8,193 bytes of the read map", (struct lengths){8, 65536, 8193, 8192}, SPC700_WRONG_MAP);
    refuses("refused 2: 8,191 bytes of the written map", (struct lengths){8, 65536, 8192, 8191}, SPC700_WRONG_MAP);
    refuses("refused 2: 8,193 bytes of the written map", (struct lengths){8, 65536, 8192, 8193}, SPC700_WRONG_MAP);
    refuses("refused 6 before 1", (struct lengths){7, 65535, 8192, 8192}, SPC700_WRONG_REGISTERS);
    refuses("refused 6 before 2", (struct lengths){7, 65536, 8191, 8191}, SPC700_WRONG_REGISTERS);
    refuses("refused 1 before 2", (struct lengths){8, 65535, 8191, 8191}, SPC700_WRONG_MEMORY);
    refuses("refused 6 before 1 and 2", (struct lengths){9, 65537, 8193, 8193}, SPC700_WRONG_REGISTERS);
}

static int marked(const uint8_t *map, unsigned at) { return map[at / 8] >> at % 8 & 1; }

/* A step at 0300 by an opcode of [d+X] or [d]+Y, with the operand FF and X and Y of 0, in page 0 or 1: it takes the low byte of its pointer
 * from the last address of the page and the high one from `second`, and from no other address at which an edition could look. */
static int points(uint8_t opcode, unsigned page, unsigned second)
{
    const unsigned first = page + 0xFF, others[] = {page, page + 0x100}, target = 0x4056;
    start(0, 0, 0);
    now.registers[5] = 0x03;
    now.registers[6] = page ? 0x20 : 0;
    now.memory[0x300] = opcode;
    now.memory[0x301] = 0xFF;
    now.memory[others[0]] = now.memory[others[1]] = 0x90;
    now.memory[first] = target % 256;
    now.memory[second] = target / 256;
    const int stores = (opcode & 0xE0) == 0xC0;
    int holds = step(RIGHT) == answer(0, 0, 1) && marked(now.reads, first) && marked(stores ? now.writes : now.reads, target);
    for (int i = 0; i < 2; i++)
        holds &= marked(now.reads, others[i]) == (others[i] == second);
    return holds && (stores ? counts_are(4, 1, 0) : counts_are(5, 0, 0));
}

/* JMP [!12FF+X] at 0300: its second byte stands at 1300 whatever the edition. */
static int jumps(void)
{
    start(0, 0, 0);
    now.registers[5] = 0x03;
    now.memory[0x300] = 0x1F;
    now.memory[0x301] = 0xFF;
    now.memory[0x302] = 0x12;
    now.memory[0x12FF] = 0x34;
    now.memory[0x1200] = 0x90;
    now.memory[0x1300] = 0x56;
    return run(RIGHT, 1) == answer(0, 0, 1) && now.registers[4] == 0x34 && now.registers[5] == 0x56 && !marked(now.reads, 0x1200);
}

/* Every opcode of the two modes whose pointer begins at the end of a page, in both editions; numbers that name none. */
static void editions(void)
{
    int crates = 1, parts = 1;
    for (unsigned opcode = 0x07; opcode < 0x100; opcode += 0x10) {
        edition = SPC700_EDITION_CRATE;
        crates &= points((uint8_t)opcode, 0x000, 0x100) && points((uint8_t)opcode, 0x100, 0x200);
        edition = SPC700_EDITION_PART;
        parts &= points((uint8_t)opcode, 0x000, 0x000) && points((uint8_t)opcode, 0x100, 0x100);
    }
    check("edition 1: all pointers at 00FF go on at 0100, those at 01FF at 0200", crates);
    check("edition 2: all pointers at 00FF go on at 0000, those at 01FF at 0100", parts);
    check("edition 2: JMP [!12FF+X] goes on at 1300", jumps());
    edition = SPC700_EDITION_CRATE;
    check("edition 1: JMP [!12FF+X] goes on at 1300", jumps());

    edition = 0;
    refuses("refused 9: edition 0", RIGHT, SPC700_NO_EDITION);
    edition = 3;
    refuses("refused 9: edition 3", RIGHT, SPC700_NO_EDITION);
    edition = 255;
    refuses("refused 9: edition 255", RIGHT, SPC700_NO_EDITION);
    refuses("refused 6 before 9", (struct lengths){7, 65536, 8192, 8192}, SPC700_WRONG_REGISTERS);
    refuses("refused 9 before 1", (struct lengths){8, 65535, 8192, 8192}, SPC700_NO_EDITION);
    refuses("refused 9 before 2", (struct lengths){8, 65536, 8191, 8193}, SPC700_NO_EDITION);
    edition = SPC700_EDITION_PART;
    refuses("refused 1 in edition 2", (struct lengths){8, 65535, 8192, 8192}, SPC700_WRONG_MEMORY);
    edition = SPC700_EDITION_CRATE;
}

/* Every pair of bytes that the two maps can have at one place, 8,192 pairs to a call, held to a count bit by bit. */
static int counts_of_all_pairs(void)
{
    int holds = 1;
    for (unsigned call = 0; call < 8; call++) {
        uint32_t expected[SPC700_COUNTS] = {0, 0, 0};
        for (unsigned i = 0; i < SPC700_MAP; i++) {
            unsigned pair = call * SPC700_MAP + i;
            now.reads[i] = pair % 256;
            now.writes[i] = pair / 256;
            for (unsigned bit = 0; bit < 8; bit++) {
                int read = now.reads[i] >> bit & 1, stored = now.writes[i] >> bit & 1;
                expected[0] += read && !stored;
                expected[1] += stored && !read;
                expected[2] += read && stored;
            }
        }
        holds &= counts_are(expected[0], expected[1], expected[2]);
    }
    return holds;
}

/* A count that is told these lengths is refused with this number, and changes neither maps nor row. */
static void refuses_count(const char *what, size_t reads, size_t writes, size_t numbers, uint64_t refusal)
{
    static uint32_t given[SPC700_COUNTS + 1];
    start(0, 0, 0);
    fill(row, 0xA5, sizeof row);
    fill(given, 0xA5, sizeof given);
    uint64_t got = spc700_counts(now.reads, reads, now.writes, writes, row, numbers);
    check(what, got == answer(refusal, 0, 0) && unchanged() && same(row, given, sizeof row));
}

static void counts(void)
{
    start(0, 0, 0);
    fill(row, 0xA5, sizeof row);
    check("counts: clear maps have no mark", counts_are(0, 0, 0) && unchanged());
    check("counts: the number behind the row stays", row[3] == 0xA5A5A5A5);
    fill(now.reads, 0xFF, sizeof now.reads);
    check("counts: 65,536 read only", counts_are(65536, 0, 0));
    fill(now.writes, 0xFF, sizeof now.writes);
    check("counts: 65,536 both", counts_are(0, 0, 65536));
    fill(now.reads, 0, sizeof now.reads);
    check("counts: 65,536 stored only", counts_are(0, 65536, 0));
    check("counts: every pair of map bytes", counts_of_all_pairs());
    refuses_count("counts: refused 6: no numbers", 8192, 8192, 0, SPC700_WRONG_COUNTS);
    refuses_count("counts: refused 6: two numbers", 8192, 8192, 2, SPC700_WRONG_COUNTS);
    refuses_count("counts: refused 6: four numbers", 8192, 8192, 4, SPC700_WRONG_COUNTS);
    refuses_count("counts: refused 2: no read map", 0, 8192, 3, SPC700_WRONG_MAP);
    refuses_count("counts: refused 2: 8,191 bytes of the read map", 8191, 8192, 3, SPC700_WRONG_MAP);
    refuses_count("counts: refused 2: 8,193 bytes of the read map", 8193, 8192, 3, SPC700_WRONG_MAP);
    refuses_count("counts: refused 2: no written map", 8192, 0, 3, SPC700_WRONG_MAP);
    refuses_count("counts: refused 2: 8,191 bytes of the written map", 8192, 8191, 3, SPC700_WRONG_MAP);
    refuses_count("counts: refused 2: 8,193 bytes of the written map", 8192, 8193, 3, SPC700_WRONG_MAP);
    refuses_count("counts: refused 6 before 2", 8191, 8193, 2, SPC700_WRONG_COUNTS);
}

/* spc700_text on a buffer of 80 bytes of A5, told another length, answers so and leaves these first bytes and A5 behind them. */
static int says(const uint8_t *code, size_t length, size_t room, uint64_t expected, const char *said)
{
    uint8_t buffer[80];
    fill(buffer, 0xA5, sizeof buffer);
    int holds = spc700_text(code, length, buffer, room) == expected;
    size_t at = 0;
    for (; said[at]; at++)
        holds &= buffer[at] == (uint8_t)said[at];
    for (; at < sizeof buffer; at++)
        holds &= buffer[at] == 0xA5;
    return holds;
}

static void text(const char *what, const uint8_t *code, size_t length, size_t room, uint64_t expected, const char *said)
{
    check(what, says(code, length, room, expected, said));
}

static void texts(void)
{
    static const uint8_t code[] = {0xE8, 0x7F, 0xFF}, longer[] = {0x8F, 0x10, 0x20}, branch[] = {0x2E, 0x10, 0x05};
    text("text: an instruction, and nothing behind it", code, 2, 80, answer(0, 0, 11), "MOV A, #$7F");
    text("text: spare bytes are ignored", code, 3, 80, answer(0, 0, 11), "MOV A, #$7F");
    text("text: three bytes", longer, 3, 80, answer(0, 0, 13), "MOV $20, #$10");
    text("text: the direct page byte before the displacement", branch, 3, 80, answer(0, 0, 12), "CBNE $10, +5");
    text("text: refused 4: a branch without its displacement", branch, 2, 80, answer(SPC700_CUT, 0, 0), "");
    text("text: just room enough", code, 2, 11, answer(0, 0, 11), "MOV A, #$7F");
    text("text: refused 3: a byte too little room", code, 2, 10, answer(SPC700_NO_ROOM, 0, 0), "");
    text("text: refused 3: no room", code, 2, 0, answer(SPC700_NO_ROOM, 0, 0), "");
    text("text: refused 4: a byte too few", code, 1, 80, answer(SPC700_CUT, 0, 0), "");
    text("text: refused 4: no bytes", code, 0, 80, answer(SPC700_CUT, 0, 0), "");
    text("text: refused 4 before 3", code, 1, 0, answer(SPC700_CUT, 0, 0), "");
}

/* The first address of page 0 that is marked as read, 256 where none is. */
static unsigned read_in_page_0(void)
{
    for (unsigned at = 0; at < 256; at++)
        if (now.reads[at / 8] >> at % 8 & 1)
            return at;
    return 256;
}

/* A branch on a direct page cell at 0200: its text names the cell that a step reads, and how far the step then goes. `set` is a cell for
 * which the branch is taken, `format` is the text with the cell and the distance left open. */
static int as_the_step(const uint8_t *code, uint8_t set, const char *format)
{
    start(code[0], code[1], code[2]);
    fill(now.memory, set, 256);
    if (step(RIGHT) != answer(0, 0, 1))
        return 0;
    int distance = (now.registers[4] | now.registers[5] << 8) - 0x203;
    char expected[80];
    int length = snprintf(expected, sizeof expected, format, read_in_page_0(), distance);
    return count() == 0 && row[0] + row[2] == 4 && says(code, 3, 80, answer(0, 0, length), expected);
}

/* Every branch on a direct page cell, each operand byte at every value, the two never equal. */
static void branches(void)
{
    int compared = 1, counted = 1, tested = 1;
    for (unsigned i = 0; i < 256; i++) {
        uint8_t direct = i, displacement = 5 * i + 1;
        compared &= as_the_step((uint8_t[]){0x2E, direct, displacement}, 0, "CBNE $%02X, %+d");
        compared &= as_the_step((uint8_t[]){0xDE, direct, displacement}, 0, "CBNE $%02X, X, %+d");
        counted &= as_the_step((uint8_t[]){0x6E, direct, displacement}, 0, "DBNZ $%02X, %+d");
        for (unsigned bit = 0; bit < 8; bit++) {
            char format[] = "BB? $%02X, bit0, %+d";
            format[14] = '0' + bit;
            format[2] = 'S';
            tested &= as_the_step((uint8_t[]){bit << 5 | 0x03, direct, displacement}, 0xFF, format);
            format[2] = 'C';
            tested &= as_the_step((uint8_t[]){bit << 5 | 0x13, direct, displacement}, 0, format);
        }
    }
    check("text: CBNE as the step reads it", compared);
    check("text: DBNZ as the step reads it", counted);
    check("text: BBS and BBC as the step reads them", tested);
}

int main(void)
{
    runs();
    steps();
    waking();
    products();
    refusals();
    editions();
    counts();
    texts();
    branches();
    printf("exports: %d of %d checks hold\n", checks - failures, checks);
    return failures > 0;
}
