/* A second player without sound, over the library's step, for tests/play: it takes packets as the program `play` takes them and answers
 * each. It is written from what the devices do, and not from the crates: each step is given maps of its own, so that they tell all that it
 * reads and stores, and these are then put together with those of the steps before. So it is slow, and has no trick in common with the
 * crates.
 */
#include <stdint.h>
#include <stdio.h>
#include <string.h>

#include "spc700.h"

enum { MEMORY = 65536, MAP = 8192, ROW = 512, HEAD = 64 };

static struct {
    uint8_t head[HEAD], chip[ROW], memory[MEMORY], reads[MAP], writes[MAP], fetched[MAP], made[MAP];
} packet;
static uint8_t step_reads[MAP], step_writes[MAP];

static struct timer {
    int on, target, ticks, count;
} timers[3];
static uint8_t ports[4];
static uint32_t cycles;
static unsigned device_reads, device_stores, last_stores;
static int rom;

/* a digit for each opcode, a line for each high digit; C is 12 */
static const char *const COSTS[16] = {
    "2847343626545468", "4847455655652246", "2847343626545474", "4847455655652238", "2847343626445466", "4847455655452243",
    "2847343626445475", "4847455655552236", "2847343626545245", "48474556555522C5", "3847343626445244", "4847455655552234",
    "3847454725645249", "4847566745552283", "2847343624534340", "4847455634542260",
};

static int number_at(const uint8_t *bytes, int n)
{
    int value = 0;
    while (n-- > 0)
        value = value * 256 + bytes[n];
    return value;
}

static uint32_t long_at(const uint8_t *bytes) { return (uint32_t)number_at(bytes, 2) + 65536u * (uint32_t)number_at(bytes + 2, 2); }

static void put(uint8_t *bytes, uint32_t value, int n)
{
    for (int i = 0; i < n; i++, value >>= 8)
        bytes[i] = value & 255;
}

static int marked(const uint8_t *map, unsigned at) { return map[at / 8] >> at % 8 & 1; }

static int bit(unsigned value, int n) { return value >> n & 1; }

/* ---- the sound chip */

static void fetch(unsigned at, int n)
{
    for (; n > 0; n--, at++)
        if (!marked(packet.writes, at & 0xFFFF))
            packet.fetched[(at & 0xFFFF) / 8] |= (uint8_t)(1 << at % 8);
}

static void fetch_blocks(unsigned at)
{
    for (long n = 0; n < MEMORY; n++, at += 9) {
        fetch(at, 9);
        if (packet.memory[at & 0xFFFF] & 1)
            return;
    }
}

static unsigned word(unsigned at) { return packet.memory[at & 0xFFFF] + 256u * packet.memory[(at + 1) & 0xFFFF]; }

static void fetch_voices(unsigned voices)
{
    for (int voice = 0; voice < 8; voice++)
        if (bit(voices, voice)) {
            unsigned entry = packet.chip[0x5D] * 256u + packet.chip[16 * voice + 4] * 4u;
            fetch(entry, 4);
            fetch_blocks(word(entry));
            fetch_blocks(word(entry + 2));
        }
}

static void key_on(unsigned voices)
{
    for (int voice = 0; voice < 8; voice++)
        if (bit(voices, voice))
            packet.chip[256 + packet.chip[16 * voice + 4]] = 1;
    fetch_voices(voices);
}

/* ---- a step */

static void lay_out(void)
{
    uint8_t *memory = packet.memory;
    memory[0xF3] = packet.chip[memory[0xF2] & 127];
    memcpy(memory + 0xF4, ports, 4);
    for (int i = 0; i < 3; i++)
        memory[0xFD + i] = (uint8_t)timers[i].count;
}

/* A branch is taken where its step reads its displacement, the last of its bytes: so its own read map tells. */
static int is_passed_by(int opcode, unsigned pc)
{
    int length = opcode % 32 == 16 || opcode == 0xFE ? 2 : opcode % 16 == 3 || opcode == 0x2E || opcode == 0xDE || opcode == 0x6E ? 3 : 0;
    return length && !marked(step_reads, (pc + (unsigned)length - 1) & 0xFFFF);
}

static void tick(struct timer *t)
{
    if (!t->on)
        return;
    t->ticks = (t->ticks + 1) % 256;
    if (t->ticks == t->target) {
        t->ticks = 0;
        t->count = (t->count + 1) % 16;
    }
}

static void control(unsigned byte)
{
    for (int i = 0; i < 3; i++) {
        if (bit(byte, i) && !timers[i].on)
            timers[i].ticks = timers[i].count = 0;
        timers[i].on = bit(byte, i);
    }
    if (bit(byte, 4))
        ports[0] = ports[1] = 0;
    if (bit(byte, 5))
        ports[2] = ports[3] = 0;
}

static int of_devices(int i) { return i / 2 == 15; }

/* The marks of this step are put together with those of the steps before it; of the devices' addresses only the last step's count. */
static void keep_marks(void)
{
    for (int i = 0; i < MAP; i++) {
        if (of_devices(i))
            packet.reads[i] = packet.writes[i] = 0;
        packet.reads[i] |= (uint8_t)(step_reads[i] & ~packet.writes[i]);
        packet.writes[i] |= step_writes[i];
    }
}

static int read_rom(void)
{
    for (int i = MAP - 8; i < MAP; i++)
        if (step_reads[i])
            return 1;
    return 0;
}

static void devices_after(unsigned named)
{
    uint8_t *memory = packet.memory;
    unsigned read = step_reads[30] + 256u * step_reads[31], stored = step_writes[30] + 256u * step_writes[31];
    device_reads |= read;
    device_stores |= stored;
    last_stores = stored;
    if (bit(read, 3))
        packet.chip[128 + named] = 1;
    for (int i = 0; i < 3; i++)
        if (bit(read, 13 + i))
            timers[i].count = 0;
    if (bit(stored, 1))
        control(memory[0xF1]);
    for (int i = 0; i < 3; i++)
        if (bit(stored, 10 + i))
            timers[i].target = memory[0xFA + i];
    if (bit(stored, 3) && memory[0xF2] < 128) {
        packet.chip[memory[0xF2]] = memory[0xF3];
        if (memory[0xF2] == 0x4C)
            key_on(memory[0xF3]);
    }
}

static int step(void)
{
    uint8_t *registers = packet.head + 10;
    lay_out();
    unsigned pc = (unsigned)number_at(registers + 4, 2), named = packet.memory[0xF2] & 127u, rom_on = packet.memory[0xF1] >> 7;
    int opcode = packet.memory[pc];
    char digit = COSTS[opcode / 16][opcode % 16];
    memset(step_reads, 0, MAP);
    memset(step_writes, 0, MAP);
    uint64_t answer = spc700_step(registers, 8, packet.head[0], packet.memory, MEMORY, step_reads, MAP, step_writes, MAP);
    if (spc700_refusal(answer))
        return 0;
    uint32_t cost = (uint32_t)(digit == 'C' ? 12 : digit - '0') - (is_passed_by(opcode, pc) ? 2u : 0u);
    rom |= rom_on && read_rom();
    keep_marks();
    devices_after(named);
    for (uint32_t i = 0; i < cost; i++) {
        cycles++;
        if (cycles % 16 == 0)
            tick(&timers[2]);
        if (cycles % 128 == 0) {
            tick(&timers[0]);
            tick(&timers[1]);
        }
    }
    return 1;
}

/* ---- a packet */

static void begin(void)
{
    uint8_t *memory = packet.memory;
    for (int i = 0; i < 3; i++)
        timers[i] = (struct timer){bit(memory[0xF1], i), memory[0xFA + i], 0, memory[0xFD + i] % 16};
    memcpy(ports, memory + 0xF4, 4);
    cycles = 0;
    device_reads = device_stores = last_stores = 0;
    rom = 0;
    fetch_voices(255);
}

static void go_on(const uint8_t *at)
{
    cycles = long_at(at);
    device_reads = (unsigned)number_at(at + 4, 2);
    device_stores = (unsigned)number_at(at + 6, 2);
    last_stores = (unsigned)number_at(at + 8, 2);
    rom = at[10] != 0;
    for (int i = 0; i < 3; i++)
        timers[i] = (struct timer){at[11 + 4 * i] != 0, at[12 + 4 * i], at[13 + 4 * i], at[14 + 4 * i]};
    memcpy(ports, at + 23, 4);
}

static void lay_devices(uint8_t *at)
{
    put(at, cycles, 4);
    put(at + 4, device_reads, 2);
    put(at + 6, device_stores, 2);
    put(at + 8, last_stores, 2);
    at[10] = (uint8_t)rom;
    for (int i = 0; i < 3; i++) {
        uint8_t bytes[4] = {(uint8_t)timers[i].on, (uint8_t)timers[i].target, (uint8_t)timers[i].ticks, (uint8_t)timers[i].count};
        memcpy(at + 11 + 4 * i, bytes, 4);
    }
    memcpy(at + 23, ports, 4);
}

int main(void)
{
    while (fread(&packet, sizeof packet, 1, stdin) == 1) {
        uint8_t *head = packet.head;
        uint32_t budget = long_at(head + 1), until = long_at(head + 5), steps = 0;
        if (head[9] == 0)
            begin();
        else
            go_on(head + 23);
        while (steps < budget && cycles < until && head[17] == 0 && step())
            steps++;
        head[9] = 1;
        put(head + 18, steps, 4);
        lay_devices(head + 23);
        for (int i = 0; i < MAP; i++) {
            if (of_devices(i))
                packet.reads[i] = packet.writes[i] = 0;
            packet.made[i] = of_devices(i) ? 255 : packet.reads[i] | packet.fetched[i];
        }
        fwrite(&packet, sizeof packet, 1, stdout);
        fflush(stdout);
    }
    return 0;
}
