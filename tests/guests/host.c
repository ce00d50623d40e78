/* Runs a program of the guest on a 68000 by Unicorn, over a zone in the guest's memory: host GUEST.bin PROGRAM MODE LIMIT. What it shows goes to
 * the standard output, and how often something happened to the error output. The zone sleeps while the guest runs. */
#include "macheap_traps.h"
#include "resman.h"

#include <stdio.h>
#include <stdlib.h>
#include <string.h>
#include <unicorn/unicorn.h>

/* where things are in the guest's memory, which has 16 MB */
enum { MEMORY = 0x1000000, CODE = 0x8000, RETURN = 0x7F00, STACK = 0xF0000, ZONE = 0x100000, MMU_32_BIT = 0xCB2 };
/* the traps of the host's own */
enum { SHOW = 0xAFFF, HAPPENED = 0xAFFE, REOPEN = 0xAFFD };

static uint8_t memory[MEMORY];
static uc_engine *cpu;
static MhAsleep asleep = MH_NO_ASLEEP;
static MhMemory bytes;
static MrFiles files = MR_NO_FILES;
static uint32_t mask, grow_zone;
static bool growing, trapped;

static void fail(const char *why) {
    fprintf(stderr, "host: %s\n", why);
    exit(1);
}
static void must(MhErr code, const char *why) {
    if (code != MH_NO_ERR) fail(why);
}

static uint32_t reg(int which) {
    uint32_t value = 0;
    uc_reg_read(cpu, which, &value);
    return value;
}
static void set_reg(int which, uint32_t value) { uc_reg_write(cpu, which, &value); }
static uint32_t data(int n) { return reg(UC_M68K_REG_D0 + n); }
static uint32_t address(int n) { return reg(UC_M68K_REG_A0 + n) & mask; }

static uint32_t read_bytes(uint32_t at, int count) {
    uint32_t value = 0;
    for (int n = 0; n < count; n++) value = value << 8 | memory[(at + (uint32_t)n) & (MEMORY - 1)];
    return value;
}
static void write_bytes(uint32_t at, int count, uint32_t value) {
    for (int n = count - 1; n >= 0; n--, value >>= 8) memory[(at + (uint32_t)n) & (MEMORY - 1)] = (uint8_t)value;
}
static uint32_t pop(int count) {
    uint32_t top = reg(UC_M68K_REG_A7);
    set_reg(UC_M68K_REG_A7, top + (uint32_t)count);
    return read_bytes(top, count);
}
static void push(int count, uint32_t value) {
    uint32_t top = reg(UC_M68K_REG_A7) - (uint32_t)count;
    set_reg(UC_M68K_REG_A7, top);
    write_bytes(top, count, value);
}

static void trap(uint16_t word);

static void on_trap(uc_engine *engine, uint32_t number, void *nothing) {
    (void)number, (void)nothing;
    trapped = true;
    uc_emu_stop(engine);
}

/* Runs a subroutine of the guest up to its RTS. */
static void call(uint32_t at) {
    push(4, RETURN);
    for (uint32_t pc = at; pc != RETURN;) {
        trapped = false;
        uc_err error = uc_emu_start(cpu, pc, RETURN, 0, 0);
        pc = reg(UC_M68K_REG_PC);
        if (!trapped) {
            if (pc != RETURN) fail(uc_strerror(error));
            return;
        }
        uint16_t word = (uint16_t)read_bytes(pc, 2);
        if (word >> 12 != 0xA) fail("an exception that is no trap");
        trap(word);
        pc += 2;
    }
}

/* A call whose operands are in registers; its number goes to D0, its handle to A0. */
static MhErr memory_call(MhZone *zone, const MhTrap *row, uint32_t *number, uint32_t *handle) {
    uint32_t a0 = address(0), a1 = address(1), d0 = data(0);
    switch (row->word) {
    case MH_TRAP_NEW_HANDLE: return mh_new_handle(zone, d0, handle);
    case MH_TRAP_DISPOSE_HANDLE: return mr_dispose_handle(&files, zone, a0);
    case MH_TRAP_SET_HANDLE_SIZE: return mh_set_handle_size(zone, a0, d0);
    case MH_TRAP_GET_HANDLE_SIZE: return mh_get_handle_size(zone, a0, number);
    case MH_TRAP_REALLOC_HANDLE: return mh_reallocate_handle(zone, a0, d0);
    case MH_TRAP_H_LOCK: return mh_hlock(zone, a0);
    case MH_TRAP_H_UNLOCK: return mh_hunlock(zone, a0);
    case MH_TRAP_EMPTY_HANDLE: return mh_empty_handle(zone, a0);
    case MH_TRAP_H_PURGE: return mh_hpurge(zone, a0);
    case MH_TRAP_H_NO_PURGE: return mh_hno_purge(zone, a0);
    case MH_TRAP_MOVE_H_HI: return mh_move_hhi(zone, a0);
    case MH_TRAP_COMPACT_MEM: return mh_compact_mem(zone, d0, number);
    case MH_TRAP_HAND_TO_HAND: return mh_hand_to_hand(zone, a0, handle);
    case MH_TRAP_HAND_AND_HAND: return mh_hand_and_hand(zone, a0, a1);
    case MH_TRAP_PTR_AND_HAND: return mh_append(zone, a1, memory + a0, d0);
    }
    fail("a trap of which the host makes no call");
    return MH_PARAM_ERR;
}

/* A call whose operands are on the stack, the last on top. */
static MhErr resource_call(MhZone *zone, const MhTrap *row) {
    uint32_t handle = 0, number = 0, kind;
    int16_t id;
    MhErr code;
    switch (row->word) {
    case MH_TRAP_GET_RESOURCE:
        id = (int16_t)pop(2);
        kind = pop(4);
        code = mr_get_resource(&files, zone, kind, id, &handle);
        write_bytes(reg(UC_M68K_REG_A7), 4, handle);
        return code;
    case MH_TRAP_COUNT1_RESOURCES:
        code = mr_count1_resources(&files, zone, pop(4), &number);
        write_bytes(reg(UC_M68K_REG_A7), 2, number);
        return code;
    case MH_TRAP_ADD_RESOURCE:
        pop(4);
        id = (int16_t)pop(2);
        kind = pop(4);
        return mr_add_resource(&files, zone, pop(4) & mask, kind, id, (const uint8_t *)"", 0);
    case MH_TRAP_RELEASE_RESOURCE: return mr_release_resource(&files, zone, pop(4) & mask);
    case MH_TRAP_CHANGED_RESOURCE: return mr_changed_resource(&files, zone, pop(4) & mask);
    case MH_TRAP_RMVE_RESOURCE: return mr_rmve_resource(&files, zone, pop(4) & mask);
    case MH_TRAP_WRITE_RESOURCE: return mr_write_resource(&files, zone, pop(4) & mask);
    case MH_TRAP_DETACH_RESOURCE: return mr_detach_resource(&files, zone, pop(4) & mask);
    case MH_TRAP_USE_RES_FILE: return mr_use_res_file(&files, zone, pop(2));
    case MH_TRAP_UPDATE_RES_FILE: return mr_update_res_file(&files, zone, pop(2));
    }
    fail("a trap of which the host makes no call");
    return MH_PARAM_ERR;
}

/* The bytes that the zone's last call asked the grow-zone procedure for; 0 if it didn't ask. */
static uint32_t bytes_asked(MhZone *zone) {
    uint32_t count = 0;
    MhAsk ask = {0, 0, 0, 0};
    mh_asked(zone, &count);
    if (count > 0) mh_ask(zone, count - 1, &ask);
    return ask.needed;
}

/* Puts the zone to sleep, and drops what was translated of the code in the bytes that were written. */
static void sleep_again(MhZone *zone) {
    MhWritten ranges[16];
    size_t count = 0;
    must(mh_sleep_wrote(zone, &asleep, &bytes, ranges, 16, &count), "the zone doesn't sleep");
    for (size_t n = 0; n < count; n++) uc_ctl_remove_cache(cpu, (uint64_t)ZONE + ranges[n].from, (uint64_t)ZONE + ranges[n].from + ranges[n].count);
}

/* Runs the guest's grow-zone procedure, and gives what it released. */
static uint32_t released(uint32_t needed) {
    uint32_t before[16];
    for (int n = 0; n < 16; n++) before[n] = reg(n < 8 ? UC_M68K_REG_D0 + n : UC_M68K_REG_A0 + n - 8);
    push(4, 0);
    push(4, needed);
    growing = true;
    call(grow_zone);
    growing = false;
    uint32_t given = pop(4);
    for (int n = 0; n < 16; n++) set_reg(n < 8 ? UC_M68K_REG_D0 + n : UC_M68K_REG_A0 + n - 8, before[n]);
    return given;
}

/* Makes a call; one that finds no room is made again until the grow-zone procedure gives 0. */
static void make(const MhTrap *row) {
    uint32_t operands = reg(UC_M68K_REG_A7);
    for (;;) {
        MhZone zone = MH_NO_ZONE;
        uint32_t number = 0, handle = address(0);
        must(mh_wake(&zone, &asleep, &bytes), "the zone is damaged");
        MhErr code = row->on_stack ? resource_call(&zone, row) : memory_call(&zone, row, &number, &handle);
        uint32_t needed = code == MH_MEM_FULL_ERR ? bytes_asked(&zone) : 0, after = reg(UC_M68K_REG_A7);
        sleep_again(&zone);
        if (needed && grow_zone && !growing) {
            set_reg(UC_M68K_REG_A7, operands);
            if (released(needed) != 0) continue;
            set_reg(UC_M68K_REG_A7, after);
        }
        if (code <= MH_NOT_THERE) fail("a code that isn't for a guest");
        write_bytes(row->on_stack ? MH_LOW_RES_ERR : MH_LOW_MEM_ERR, 2, (uint32_t)(int32_t)code);
        if (row->on_stack) return;
        if (row->results[0].place == MH_A0) set_reg(UC_M68K_REG_A0, handle);
        set_reg(UC_M68K_REG_D0, code == MH_NO_ERR ? number : (uint32_t)(int32_t)code);
        return;
    }
}

/* Opens both files on what was written to them. */
static void open_files(void) {
    MhZone zone = MH_NO_ZONE;
    uint8_t *forks[2];
    size_t lengths[2] = {0, 0};
    uint32_t file = 0;
    must(mh_wake(&zone, &asleep, &bytes), "the zone is damaged");
    for (uint32_t n = 0; n < 2; n++) {
        if (files.live) mr_fork_size(&files, n + 1, &lengths[n]);
        forks[n] = malloc(lengths[n] + 1);
        if (files.live && lengths[n]) must(mr_fork(&files, n + 1, forks[n], lengths[n]), "a file has no fork");
    }
    if (files.live) must(mr_end(&files), "the files don't end");
    must(mr_begin(&files), "the files don't begin");
    for (uint32_t n = 0; n < 2; n++) {
        must(mr_open(&files, &zone, forks[n], lengths[n], &file), "a file doesn't open");
        free(forks[n]);
    }
    sleep_again(&zone);
}

static void trap(uint16_t word) {
    const MhTrap *row = mh_find_trap(word);
    if (word == SHOW) putchar((int)(data(0) & 255));
    else if (word == HAPPENED) fprintf(stderr, "%u\n", (unsigned)data(0));
    else if (word == REOPEN) open_files();
    else if (!row) fail("an unknown trap");
    else if (row->word == MH_TRAP_SET_GROW_ZONE) grow_zone = address(0), set_reg(UC_M68K_REG_D0, 0);
    else make(row);
}

int main(int count, char **words) {
    if (count != 5) return 2;
    uint32_t program = (uint32_t)atoi(words[2]), mode = (uint32_t)atoi(words[3]), limit = (uint32_t)strtoul(words[4], NULL, 0);
    FILE *code = fopen(words[1], "rb");
    if (!code || fread(memory + CODE, 1, STACK / 2, code) == 0) fail("no program");
    fclose(code);
    mask = mode == 24 ? 0xFFFFFF : 0xFFFFFFFF;
    memory[MMU_32_BIT] = mode == 32;
    bytes = (MhMemory){memory + ZONE, limit, true};
    if (uc_open(UC_ARCH_M68K, UC_MODE_BIG_ENDIAN, &cpu) != UC_ERR_OK) fail("no processor");
    uc_ctl_set_cpu_model(cpu, UC_CPU_M68K_M68000);
    /* a 68000 has 24 address lines: each byte is there under every high byte that flags can make */
    for (uint64_t flags = 0; flags < (mode == 24 ? 8 : 1); flags++)
        if (uc_mem_map_ptr(cpu, flags << 29, MEMORY, UC_PROT_ALL, memory) != UC_ERR_OK) fail("no memory");
    uc_hook hook;
    uc_hook_add(cpu, &hook, UC_HOOK_INTR, (void *)on_trap, NULL, 1, 0);
    must(mh_make_zone_at(&asleep, &bytes, ZONE, limit, limit, mode), "no zone");
    open_files();
    set_reg(UC_M68K_REG_A7, STACK);
    push(4, program);
    call(CODE);
    must(mr_end(&files), "the files don't end");
    must(mh_end_asleep(&asleep), "no zone sleeps");
    return 0;
}
