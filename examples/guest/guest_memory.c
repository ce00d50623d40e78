/* An emulator in small. The guest is a 68000 with its own memory, in which its heap zone lies. It follows master pointers,
 * writes bytes through them and sets lock bits itself; only its traps come to the host, which makes the call of the Memory
 * Manager that they are for. While the guest runs the zone sleeps, and the library touches none of the guest's bytes. */
#include "m68k.h"

#include "guest.h"
#include "macheap_fork.h"
#include "macheap_traps.h"
#include "resman.h"

#include <inttypes.h>
#include <stdio.h>
#include <stdlib.h>
#include <string.h>

/* where things are in the guest's memory */
enum { MMU_32_BIT = 0xCB2, CODE = 0x8000, STACK = 0xF0000, ZONE = 0x100000 };

/* the trap by which the guest's programs show a number */
enum { SHOW = 0xAFFF };

typedef struct Machine {
    Cpu cpu;
    MhAsleep zone;      /* the zone, while the guest runs */
    MhMemory bytes;     /* the guest's memory that it is in */
    MrFiles files;
    uint32_t grow_zone; /* the guest's grow-zone procedure, or 0 */
    bool growing;       /* whether it runs: its own traps don't ask it */
} Machine;

/* What a call gives: a handle for A0, or a number for D0. */
typedef struct Given { uint32_t a0, d0; } Given;

/* Makes the call of a trap whose operands are in registers; the high byte of a 24-bit address says nothing. */
static MhErr memory_call(MrFiles *files, MhZone *zone, const Cpu *cpu, const MhTrap *row, Given *given) {
    uint32_t handle = cpu->a[0] & cpu->mask, d0 = cpu->d[0];
    switch (row->word) {
    case MH_TRAP_NEW_HANDLE: return mh_new_handle(zone, d0, &given->a0);
    case MH_TRAP_DISPOSE_HANDLE: return mr_dispose_handle(files, zone, handle); /* it may be a resource's */
    case MH_TRAP_SET_HANDLE_SIZE: return mh_set_handle_size(zone, handle, d0);
    case MH_TRAP_GET_HANDLE_SIZE: return mh_get_handle_size(zone, handle, &given->d0);
    case MH_TRAP_H_LOCK: return mh_hlock(zone, handle);
    case MH_TRAP_H_UNLOCK: return mh_hunlock(zone, handle);
    case MH_TRAP_EMPTY_HANDLE: return mh_empty_handle(zone, handle);
    case MH_TRAP_H_PURGE: return mh_hpurge(zone, handle);
    case MH_TRAP_COMPACT_MEM: return mh_compact_mem(zone, d0, &given->d0);
    case MH_TRAP_RECOVER_HANDLE: return mh_recover_handle(zone, handle, &given->a0);
    }
    return MH_PARAM_ERR;
}

/* How many bytes the zone's last call asked the grow-zone procedure for at its end; 0 if it didn't ask. */
static uint32_t bytes_asked(MhZone *zone) {
    uint32_t count = 0;
    MhAsk ask;
    ask.needed = 0;
    mh_asked(zone, &count);
    if (count > 0) mh_ask(zone, count - 1, &ask);
    return ask.needed;
}

/* Runs the guest's grow-zone procedure, FUNCTION (cbNeeded: Size): LongInt. Its own traps find the zone asleep, and wake it. */
static uint32_t grow_zone(Machine *machine, uint32_t needed) {
    Cpu *cpu = &machine->cpu;
    Cpu before = *cpu;
    m68k_push(cpu, 4, 0);
    m68k_push(cpu, 4, needed);
    machine->growing = true;
    m68k_call(cpu, machine->grow_zone);
    machine->growing = false;
    uint32_t released = m68k_pop(cpu, 4);
    const char *fault = cpu->fault;
    *cpu = before;
    cpu->fault = fault;
    return fault ? 0 : released;
}

/* Makes the call of a trap whose operands a Pascal program pushed one after the other. */
static MhErr resource_call(MrFiles *files, MhZone *zone, Cpu *cpu, const MhTrap *row) {
    uint32_t handle = 0, kind;
    int16_t id;
    MhErr code;
    switch (row->word) {
    case MH_TRAP_GET_RESOURCE:
        id = (int16_t)m68k_pop(cpu, 2);
        kind = m68k_pop(cpu, 4);
        code = mr_get_resource(files, zone, kind, id, &handle);
        m68k_write(cpu, cpu->a[7], 4, handle); /* where the program left room for the result */
        return code;
    case MH_TRAP_ADD_RESOURCE:
        m68k_pop(cpu, 4); /* its name: the programs here give none */
        id = (int16_t)m68k_pop(cpu, 2);
        kind = m68k_pop(cpu, 4);
        return mr_add_resource(files, zone, m68k_pop(cpu, 4) & cpu->mask, kind, id, (const uint8_t *)"", 0);
    case MH_TRAP_RELEASE_RESOURCE: return mr_release_resource(files, zone, m68k_pop(cpu, 4) & cpu->mask);
    case MH_TRAP_CHANGED_RESOURCE: return mr_changed_resource(files, zone, m68k_pop(cpu, 4) & cpu->mask);
    case MH_TRAP_UPDATE_RES_FILE: return mr_update_res_file(files, zone, m68k_pop(cpu, 2));
    }
    return MH_PARAM_ERR;
}

static MhErr call(Machine *machine, MhZone *zone, const MhTrap *row, Given *given) {
    if (row->on_stack) return resource_call(&machine->files, zone, &machine->cpu, row);
    return memory_call(&machine->files, zone, &machine->cpu, row, given);
}

/* The zone wakes in the guest's bytes, the call is made, and it sleeps again. A call that finds no room is made again until the
 * grow-zone procedure answers 0: each answer but the last says that it released something. */
static MhErr made(Machine *machine, const MhTrap *row, Given *given) {
    Cpu *cpu = &machine->cpu;
    uint32_t operands = cpu->a[7];
    for (;;) {
        MhZone zone = MH_NO_ZONE;
        if (mh_wake(&zone, &machine->zone, &machine->bytes) != MH_NO_ERR) { cpu->fault = "the zone is damaged"; return MH_DAMAGED; }
        MhErr code = call(machine, &zone, row, given);
        uint32_t needed = code == MH_MEM_FULL_ERR ? bytes_asked(&zone) : 0, after = cpu->a[7];
        mh_sleep(&zone, &machine->zone, &machine->bytes);
        if (needed == 0 || machine->grow_zone == 0 || machine->growing) return code;
        cpu->a[7] = operands; /* the procedure leaves them where they are */
        if (grow_zone(machine, needed) == 0) {
            cpu->a[7] = after;
            return code;
        }
    }
}

/* Makes a trap's call, and leaves its code, and its results in registers, where the program looks for them. A code of the host's
 * own isn't for the guest, which stops. */
static void answer(Machine *machine, const MhTrap *row) {
    Cpu *cpu = &machine->cpu;
    Given given = {0, 0};
    MhErr code = made(machine, row, &given);
    if (code <= MH_NOT_THERE) { cpu->fault = "the host made a mistake"; return; }
    m68k_write(cpu, row->on_stack ? MH_LOW_RES_ERR : MH_LOW_MEM_ERR, 2, (uint32_t)(int32_t)code);
    if (row->on_stack) return;
    if (row->results[0].place == MH_A0) cpu->a[0] = given.a0;
    cpu->d[0] = code == MH_NO_ERR ? given.d0 : (uint32_t)(int32_t)code;
}

static void show(Cpu *cpu) {
    for (uint32_t at = cpu->a[0], byte; (byte = m68k_read(cpu, at, 1)) != 0; at++) putchar((int)byte);
    printf(": %" PRId32 "\n", (int32_t)cpu->d[1]);
}

static void trap(Cpu *cpu, uint16_t word) {
    Machine *machine = (Machine *)cpu->host;
    const MhTrap *row = mh_find_trap(word);
    if (word == SHOW) show(cpu);
    else if (!row) cpu->fault = "an unknown trap";
    else if (row->word == MH_TRAP_SET_GROW_ZONE) { machine->grow_zone = cpu->a[0] & cpu->mask; cpu->d[0] = 0; }
    else answer(machine, row);
}

/* Shows the data of the first resource in file 1, as the guest left it. */
static void show_file(MrFiles *files) {
    uint8_t fork[512], data[16] = {0};
    size_t length = 0;
    MfRow row;
    if (mr_fork_size(files, 1, &length) != MH_NO_ERR || length > sizeof fork || mr_fork(files, 1, fork, length) != MH_NO_ERR) return;
    if (mf_row(fork, length, 0, &row) != MF_NO_ERR || row.data_length >= sizeof data) return;
    if (mf_data(fork, length, 0, data, row.data_length) == MF_NO_ERR) printf("in the file: %s\n", (const char *)data);
}

/* Opens file 1, which is empty. */
static bool opens_file(Machine *machine) {
    MhZone zone = MH_NO_ZONE;
    uint32_t file = 0;
    if (mr_begin(&machine->files) != MH_NO_ERR || mh_wake(&zone, &machine->zone, &machine->bytes) != MH_NO_ERR) return false;
    MhErr code = mr_open(&machine->files, &zone, (const uint8_t *)"", 0, &file);
    return mh_sleep(&zone, &machine->zone, &machine->bytes) == MH_NO_ERR && code == MH_NO_ERR;
}

/* Runs a program of the guest over a new zone. */
static bool run(const char *name, unsigned program, uint32_t mode, uint32_t limit) {
    uint32_t size = ZONE + limit;
    uint8_t *memory = (uint8_t *)calloc(1, size);
    Machine machine;
    Cpu *cpu = &machine.cpu;
    if (!memory) return false;
    printf("%s, %" PRIu32 " bits, %" PRIu32 " KB\n", name, mode, limit / 1024);
    memset(&machine, 0, sizeof machine);
    MhMemory bytes = {memory + ZONE, limit, true};
    machine.bytes = bytes;
    cpu->mask = mode == 24 ? 0xFFFFFF : 0xFFFFFFFF;
    cpu->memory = memory;
    cpu->size = size;
    cpu->trap = trap;
    cpu->host = &machine;
    cpu->a[7] = STACK;
    memcpy(memory + CODE, guest, sizeof guest);
    memory[MMU_32_BIT] = mode == 32;
    bool made = mh_make_zone_at(&machine.zone, &machine.bytes, ZONE, limit, limit, mode) == MH_NO_ERR && opens_file(&machine);
    if (made) {
        m68k_call(cpu, m68k_read(cpu, CODE + 4 * program, 4));
        if (cpu->fault) printf("stopped at $%06" PRIX32 ": %s\n", cpu->pc, cpu->fault);
        show_file(&machine.files);
    }
    mr_end(&machine.files);
    mh_end_asleep(&machine.zone);
    free(memory);
    return made;
}

int main(void) {
    bool all = true;
    for (uint32_t mode = 24; mode <= 32; mode += 8) {
        all &= run("pointers", 0, mode, 0x10000);
        all &= run("purged", 1, mode, 0x10000);
        all &= run("growing", 2, mode, 0x6000);
        all &= run("list", 3, mode, 0x10000);
        all &= run("resources", 4, mode, 0x10000);
        all &= run("overrun", 5, mode, 0x10000);
        all &= run("patient", 6, mode, 0x10000);
    }
    all &= run("list", 3, 24, 0x800000);
    all &= run("list", 3, 32, 0x2000000);
    return !all;
}
