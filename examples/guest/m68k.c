#include "m68k.h"

/* Memory. An odd address, or one past the end, stops the processor. */

static bool is_there(Cpu *cpu, uint32_t *address, unsigned bytes) {
    *address &= cpu->mask;
    if (*address <= cpu->size - bytes && (bytes == 1 || *address % 2 == 0)) return true;
    cpu->fault = "bus error";
    return false;
}

uint32_t m68k_read(Cpu *cpu, uint32_t address, unsigned bytes) {
    uint32_t value = 0;
    if (is_there(cpu, &address, bytes))
        for (unsigned at = 0; at < bytes; at++) value = value << 8 | cpu->memory[address + at];
    return value;
}

void m68k_write(Cpu *cpu, uint32_t address, unsigned bytes, uint32_t value) {
    if (is_there(cpu, &address, bytes))
        for (unsigned at = bytes; at-- > 0; value >>= 8) cpu->memory[address + at] = (uint8_t)value;
}

void m68k_push(Cpu *cpu, unsigned bytes, uint32_t value) { m68k_write(cpu, cpu->a[7] -= bytes, bytes, value); }

uint32_t m68k_pop(Cpu *cpu, unsigned bytes) {
    uint32_t value = m68k_read(cpu, cpu->a[7], bytes);
    cpu->a[7] += bytes;
    return value;
}

static uint32_t fetch(Cpu *cpu, unsigned bytes) {
    uint32_t value = m68k_read(cpu, cpu->pc, bytes);
    cpu->pc += bytes;
    return value;
}

/* Numbers of one, two or four bytes. */

static uint32_t all_ones(unsigned bytes) { return bytes == 4 ? 0xFFFFFFFF : (1u << 8 * bytes) - 1; }
static uint32_t top_bit(unsigned bytes) { return 1u << (8 * bytes - 1); }
static uint32_t extended(uint32_t value, unsigned bytes) {
    value &= all_ones(bytes);
    return value & top_bit(bytes) ? value | ~all_ones(bytes) : value;
}

/* Effective addresses. */

typedef enum Kind { DATA, ADDRESS, MEMORY, IMMEDIATE } Kind;

typedef struct Place {
    Kind kind;
    unsigned number;  /* of the register */
    uint32_t address; /* or the immediate value */
} Place;

static uint32_t indexed(Cpu *cpu, uint32_t base) {
    uint32_t word = fetch(cpu, 2);
    uint32_t index = (word & 0x8000 ? cpu->a : cpu->d)[word >> 12 & 7];
    return base + extended(word, 1) + (word & 0x800 ? index : extended(index, 2));
}

static Place place(Cpu *cpu, unsigned mode, unsigned number, unsigned bytes) {
    Place p = {MEMORY, number, 0};
    uint32_t *a = &cpu->a[number];
    unsigned step = bytes == 1 && number == 7 ? 2 : bytes; /* the stack stays even */
    uint32_t here = cpu->pc;
    switch (mode) {
    case 0: p.kind = DATA; return p;
    case 1: p.kind = ADDRESS; return p;
    case 2: p.address = *a; return p;
    case 3: p.address = *a; *a += step; return p;
    case 4: p.address = *a -= step; return p;
    case 5: p.address = *a + extended(fetch(cpu, 2), 2); return p;
    case 6: p.address = indexed(cpu, *a); return p;
    }
    switch (number) {
    case 0: p.address = extended(fetch(cpu, 2), 2); return p;
    case 1: p.address = fetch(cpu, 4); return p;
    case 2: p.address = here + extended(fetch(cpu, 2), 2); return p;
    case 3: p.address = indexed(cpu, here); return p;
    case 4: p.kind = IMMEDIATE; p.address = fetch(cpu, bytes == 4 ? 4 : 2); return p;
    }
    cpu->fault = "no such addressing mode";
    return p;
}

static uint32_t get(Cpu *cpu, Place p, unsigned bytes) {
    switch (p.kind) {
    case DATA: return cpu->d[p.number] & all_ones(bytes);
    case ADDRESS: return cpu->a[p.number] & all_ones(bytes);
    case MEMORY: return m68k_read(cpu, p.address, bytes);
    default: return p.address & all_ones(bytes);
    }
}

static void put(Cpu *cpu, Place p, unsigned bytes, uint32_t value) {
    uint32_t ones = all_ones(bytes);
    switch (p.kind) {
    case DATA: cpu->d[p.number] = (cpu->d[p.number] & ~ones) | (value & ones); break;
    case ADDRESS: cpu->a[p.number] = extended(value, bytes); break;
    case MEMORY: m68k_write(cpu, p.address, bytes, value); break;
    default: cpu->fault = "an immediate value isn't written";
    }
}

/* Condition codes. */

static uint32_t tested(Cpu *cpu, uint32_t value, unsigned bytes) {
    cpu->n = (value & top_bit(bytes)) != 0;
    cpu->z = (value & all_ones(bytes)) == 0;
    cpu->v = cpu->c = false;
    return value;
}

static uint32_t sum(Cpu *cpu, uint32_t x, uint32_t y, unsigned bytes) {
    uint32_t r = tested(cpu, x + y, bytes);
    cpu->c = (r & all_ones(bytes)) < (x & all_ones(bytes));
    cpu->v = (~(x ^ y) & (x ^ r) & top_bit(bytes)) != 0;
    return r;
}

static uint32_t difference(Cpu *cpu, uint32_t x, uint32_t y, unsigned bytes) {
    uint32_t r = tested(cpu, x - y, bytes);
    cpu->c = (x & all_ones(bytes)) < (y & all_ones(bytes));
    cpu->v = ((x ^ y) & (x ^ r) & top_bit(bytes)) != 0;
    return r;
}

static bool holds(Cpu *cpu, unsigned condition) {
    bool yes = true;
    switch (condition >> 1) {
    case 0: break;
    case 1: yes = !cpu->c && !cpu->z; break;
    case 2: yes = !cpu->c; break;
    case 3: yes = !cpu->z; break;
    case 4: yes = !cpu->v; break;
    case 5: yes = !cpu->n; break;
    case 6: yes = cpu->n == cpu->v; break;
    case 7: yes = !cpu->z && cpu->n == cpu->v; break;
    }
    return yes != (condition & 1);
}

/* Instructions, by the first four bits of their word. */

static unsigned size_in(uint16_t word) { return 1u << (word >> 6 & 3); }
static Place operand(Cpu *cpu, uint16_t word, unsigned bytes) { return place(cpu, word >> 3 & 7, word & 7, bytes); }
static unsigned upper(uint16_t word) { return word >> 9 & 7; }

static void bit(Cpu *cpu, uint16_t word, uint32_t number) {
    unsigned bytes = (word >> 3 & 7) == 0 ? 4 : 1;
    Place p = operand(cpu, word, bytes);
    uint32_t value = get(cpu, p, bytes), one = 1u << number % (8 * bytes);
    cpu->z = !(value & one);
    switch (word >> 6 & 3) {
    case 1: put(cpu, p, bytes, value ^ one); break;
    case 2: put(cpu, p, bytes, value & ~one); break;
    case 3: put(cpu, p, bytes, value | one); break;
    }
}

static void immediate(Cpu *cpu, uint16_t word) {
    if (word & 0x100) { bit(cpu, word, cpu->d[upper(word)]); return; }
    if (upper(word) == 4) { bit(cpu, word, fetch(cpu, 2)); return; }
    unsigned bytes = size_in(word);
    if (bytes == 8) { cpu->fault = "no such instruction"; return; }
    uint32_t y = fetch(cpu, bytes == 4 ? 4 : 2);
    Place p = operand(cpu, word, bytes);
    uint32_t x = get(cpu, p, bytes);
    switch (upper(word)) {
    case 0: put(cpu, p, bytes, tested(cpu, x | y, bytes)); break;
    case 1: put(cpu, p, bytes, tested(cpu, x & y, bytes)); break;
    case 2: put(cpu, p, bytes, difference(cpu, x, y, bytes)); break;
    case 3: put(cpu, p, bytes, sum(cpu, x, y, bytes)); break;
    case 5: put(cpu, p, bytes, tested(cpu, x ^ y, bytes)); break;
    case 6: difference(cpu, x, y, bytes); break;
    default: cpu->fault = "no such instruction";
    }
}

static void move(Cpu *cpu, uint16_t word) {
    static const unsigned sizes[] = {0, 1, 4, 2};
    unsigned bytes = sizes[word >> 12], mode = word >> 6 & 7;
    uint32_t value = get(cpu, operand(cpu, word, bytes), bytes);
    put(cpu, place(cpu, mode, upper(word), bytes), bytes, value);
    if (mode != 1) tested(cpu, value, bytes);
}

static void jump(Cpu *cpu, uint16_t word) {
    Place p = operand(cpu, word, 4);
    if (!(word & 0x40)) m68k_push(cpu, 4, cpu->pc);
    cpu->pc = p.address;
}

static void link_frame(Cpu *cpu, uint16_t word) {
    uint32_t *a = &cpu->a[word & 7];
    if (word & 8) { cpu->a[7] = *a; *a = m68k_pop(cpu, 4); return; }
    uint32_t by = extended(fetch(cpu, 2), 2);
    m68k_push(cpu, 4, *a);
    *a = cpu->a[7];
    cpu->a[7] += by;
}

static void miscellaneous(Cpu *cpu, uint16_t word) {
    unsigned bytes = size_in(word);
    if (word == 0x4E71) return;
    if (word == 0x4E75) { cpu->pc = m68k_pop(cpu, 4); return; }
    if ((word & 0xFFF0) == 0x4E50) { link_frame(cpu, word); return; }
    if ((word & 0xFF80) == 0x4E80) { jump(cpu, word); return; }
    if ((word & 0xF1C0) == 0x41C0) { cpu->a[upper(word)] = operand(cpu, word, 4).address; return; }
    if ((word & 0xFFF8) == 0x4840) { uint32_t *d = &cpu->d[word & 7]; *d = tested(cpu, *d << 16 | *d >> 16, 4); return; }
    if ((word & 0xFFC0) == 0x4840) { m68k_push(cpu, 4, operand(cpu, word, 4).address); return; }
    if ((word & 0xFFF8) == 0x4880) { put(cpu, operand(cpu, word, 2), 2, tested(cpu, extended(cpu->d[word & 7], 1), 2)); return; }
    if ((word & 0xFFF8) == 0x48C0) { cpu->d[word & 7] = tested(cpu, extended(cpu->d[word & 7], 2), 4); return; }
    if (bytes == 8) { cpu->fault = "no such instruction"; return; }
    if ((word & 0xFF00) == 0x4200) { put(cpu, operand(cpu, word, bytes), bytes, tested(cpu, 0, bytes)); return; }
    if ((word & 0xFF00) == 0x4A00) { tested(cpu, get(cpu, operand(cpu, word, bytes), bytes), bytes); return; }
    if ((word & 0xFF00) == 0x4400) {
        Place p = operand(cpu, word, bytes);
        put(cpu, p, bytes, difference(cpu, 0, get(cpu, p, bytes), bytes));
        return;
    }
    cpu->fault = "no such instruction";
}

static void quick(Cpu *cpu, uint16_t word) {
    if ((word & 0xF8) == 0xC8) { /* DBcc */
        uint32_t to = cpu->pc + extended(m68k_read(cpu, cpu->pc, 2), 2);
        Place counter = {DATA, word & 7u, 0};
        cpu->pc += 2;
        if (holds(cpu, word >> 8 & 15)) return;
        uint32_t left = get(cpu, counter, 2) - 1;
        put(cpu, counter, 2, left);
        if ((left & 0xFFFF) != 0xFFFF) cpu->pc = to;
        return;
    }
    if ((word & 0xC0) == 0xC0) { put(cpu, operand(cpu, word, 1), 1, holds(cpu, word >> 8 & 15) ? 0xFF : 0); return; }
    uint32_t by = upper(word) ? upper(word) : 8;
    unsigned bytes = size_in(word);
    Place p = operand(cpu, word, bytes);
    if (p.kind == ADDRESS) { cpu->a[p.number] += word & 0x100 ? 0 - by : by; return; }
    uint32_t value = get(cpu, p, bytes);
    put(cpu, p, bytes, word & 0x100 ? difference(cpu, value, by, bytes) : sum(cpu, value, by, bytes));
}

static void branch(Cpu *cpu, uint16_t word) {
    uint32_t from = cpu->pc, by = word & 0xFF ? extended(word, 1) : extended(fetch(cpu, 2), 2);
    unsigned condition = word >> 8 & 15;
    if (condition == 1) m68k_push(cpu, 4, cpu->pc);
    if (condition == 1 || holds(cpu, condition)) cpu->pc = from + by;
}

/* OR, SUB, CMP and EOR, AND, ADD: of a register and a place. */
static uint32_t joined(Cpu *cpu, unsigned line, uint32_t x, uint32_t y, unsigned bytes) {
    switch (line) {
    case 0x8: return tested(cpu, x | y, bytes);
    case 0x9: return difference(cpu, x, y, bytes);
    case 0xB: return tested(cpu, x ^ y, bytes);
    case 0xC: return tested(cpu, x & y, bytes);
    default: return sum(cpu, x, y, bytes);
    }
}

static void arithmetic(Cpu *cpu, uint16_t word) {
    unsigned line = word >> 12;
    uint32_t *a = &cpu->a[upper(word)];
    Place d = {DATA, upper(word), 0};
    if ((word & 0xC0) == 0xC0) { /* an address register */
        unsigned bytes = word & 0x100 ? 4 : 2;
        uint32_t value = extended(get(cpu, operand(cpu, word, bytes), bytes), bytes);
        if (line == 0x9) *a -= value;
        else if (line == 0xD) *a += value;
        else if (line == 0xB) difference(cpu, *a, value, 4);
        else cpu->fault = "no such instruction";
        return;
    }
    unsigned bytes = size_in(word);
    Place p = operand(cpu, word, bytes);
    uint32_t x = get(cpu, d, bytes), y = get(cpu, p, bytes);
    if (word & 0x100) put(cpu, p, bytes, joined(cpu, line, y, x, bytes));
    else if (line == 0xB) difference(cpu, x, y, bytes);
    else put(cpu, d, bytes, joined(cpu, line, x, y, bytes));
}

static void shift(Cpu *cpu, uint16_t word) {
    unsigned bytes = size_in(word), count = word & 0x20 ? cpu->d[upper(word)] % 64 : upper(word) ? upper(word) : 8;
    Place d = {DATA, word & 7u, 0};
    bool left = word & 0x100, arithmetic_shift = (word >> 3 & 3) == 0;
    if (bytes == 8 || (word >> 3 & 3) > 1) { cpu->fault = "no such instruction"; return; }
    uint32_t value = get(cpu, d, bytes);
    bool out = false;
    for (; count > 0; count--) {
        out = value & (left ? top_bit(bytes) : 1);
        value = left ? value << 1 : (value & all_ones(bytes)) >> 1 | (arithmetic_shift ? value & top_bit(bytes) : 0);
    }
    put(cpu, d, bytes, tested(cpu, value, bytes));
    cpu->c = out;
}

static void step(Cpu *cpu) {
    uint16_t word = (uint16_t)fetch(cpu, 2);
    switch (word >> 12) {
    case 0x0: immediate(cpu, word); break;
    case 0x1: case 0x2: case 0x3: move(cpu, word); break;
    case 0x4: miscellaneous(cpu, word); break;
    case 0x5: quick(cpu, word); break;
    case 0x6: branch(cpu, word); break;
    case 0x7: cpu->d[upper(word)] = tested(cpu, extended(word, 1), 4); break;
    case 0xA: cpu->trap(cpu, word); break;
    case 0xE: shift(cpu, word); break;
    case 0xF: cpu->fault = "no such instruction"; break;
    default: arithmetic(cpu, word);
    }
}

void m68k_call(Cpu *cpu, uint32_t address) {
    uint32_t back = cpu->pc;
    m68k_push(cpu, 4, M68K_RETURN);
    cpu->pc = address;
    while (!cpu->fault && cpu->pc != M68K_RETURN) step(cpu);
    if (!cpu->fault) cpu->pc = back;
}
