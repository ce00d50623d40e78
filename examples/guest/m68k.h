/* A part of a 68000: what programs need that work with handles. The guest's memory is an array of bytes that the processor
 * reads and writes itself; the host sees only its traps. */
#ifndef M68K_H
#define M68K_H

#include <stdbool.h>
#include <stddef.h>
#include <stdint.h>

typedef struct Cpu Cpu;

/* What the host does at an A-line trap. */
typedef void Trap(Cpu *cpu, uint16_t word);

struct Cpu {
    uint32_t d[8], a[8], pc;
    bool n, z, v, c;
    uint32_t mask;     /* the address lines: $00FFFFFF, or all 32 */
    uint8_t *memory;
    uint32_t size;
    Trap *trap;
    void *host;
    const char *fault; /* why the processor stopped, or NULL */
};

/* Where a subroutine that the host calls returns to. */
enum { M68K_RETURN = 0xFFFFFE };

uint32_t m68k_read(Cpu *cpu, uint32_t address, unsigned bytes);
void m68k_write(Cpu *cpu, uint32_t address, unsigned bytes, uint32_t value);
void m68k_push(Cpu *cpu, unsigned bytes, uint32_t value);
uint32_t m68k_pop(Cpu *cpu, unsigned bytes);

/* Runs a subroutine of the guest up to its RTS, or until the processor stops. */
void m68k_call(Cpu *cpu, uint32_t address);

#endif
