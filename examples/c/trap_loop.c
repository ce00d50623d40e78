/* An emulator's loop in small: a program's traps of the Memory Manager go to the library, with their operands and results
 * in the registers A0 and D0, as on the Macintosh. A block of the program is its screen: a display draws there itself. */
#include "macheap.h"
#include "macheap_traps.h"

#include <inttypes.h>
#include <stdio.h>

typedef struct Machine {
    MhZone zone;
    uint32_t a0, d0;
} Machine;

/* Makes the call of a trap. D0 has the result then, or else the code. */
static void trap(Machine *m, uint16_t word) {
    MhErr code = MH_PARAM_ERR;
    uint32_t number = 0;
    const MhTrap *row = mh_find_trap(word); /* whatever flags the word has */
    switch (row ? row->word : 0) {
    case MH_TRAP_NEW_PTR: code = mh_new_ptr(&m->zone, m->d0, &m->a0); break;
    case MH_TRAP_DISPOSE_PTR: code = mh_dispose_ptr(&m->zone, m->a0); break;
    case MH_TRAP_NEW_HANDLE: code = mh_new_handle(&m->zone, m->d0, &m->a0); break;
    case MH_TRAP_DISPOSE_HANDLE: code = mh_dispose_handle(&m->zone, m->a0); break;
    case MH_TRAP_SET_HANDLE_SIZE: code = mh_set_handle_size(&m->zone, m->a0, m->d0); break;
    case MH_TRAP_GET_HANDLE_SIZE: code = mh_get_handle_size(&m->zone, m->a0, &number); break;
    case MH_TRAP_H_LOCK: code = mh_hlock(&m->zone, m->a0); break;
    case MH_TRAP_H_UNLOCK: code = mh_hunlock(&m->zone, m->a0); break;
    case MH_TRAP_FREE_MEM: code = mh_free_mem(&m->zone, &number); break;
    }
    m->d0 = code == MH_NO_ERR ? number : (uint32_t)(int32_t)code;
    printf("$%04X: A0 $%08" PRIX32 ", D0 %" PRId32 "\n", word, m->a0, (int32_t)m->d0);
}

/* Draws into a row of pixels; it knows nothing of a zone. */
static void draw(uint8_t *pixels, size_t count) {
    for (size_t at = 0; at < count; at++) pixels[at] = (uint8_t)(at % 8 == 0 ? '#' : '.');
}

/* The block that A0 names is the display's while it draws, and the program's again after it. */
static MhErr show(Machine *m) {
    MhWindow window = {NULL, 0};
    MhErr code = mh_lend(&m->zone, m->a0);
    if (code != MH_NO_ERR) return code;
    if ((code = mh_window(&m->zone, m->a0, &window)) == MH_NO_ERR) draw(window.start, window.length);
    MhErr back = mh_return(&m->zone, m->a0);
    return code != MH_NO_ERR ? code : back;
}

int main(void) {
    /* a trap, and what the program put into D0 before it */
    static const struct { uint16_t word; uint32_t d0; } program[] = {
        {MH_TRAP_NEW_HANDLE, 100}, {MH_TRAP_H_LOCK, 0}, {MH_TRAP_GET_HANDLE_SIZE, 0},
        {MH_TRAP_SET_HANDLE_SIZE, 8388609}, {MH_TRAP_H_UNLOCK, 0}, {MH_TRAP_SET_HANDLE_SIZE, 300},
        {MH_TRAP_FREE_MEM, 0}, {MH_TRAP_DISPOSE_HANDLE, 0}, {MH_TRAP_DISPOSE_HANDLE, 0},
    };
    Machine machine = {MH_NO_ZONE, 0, 0};
    if (mh_make_zone(&machine.zone, 0x100000, 65536, 65536, 24) != MH_NO_ERR) return 1;
    for (size_t at = 0; at < sizeof program / sizeof program[0]; at++) {
        machine.d0 = program[at].d0;
        trap(&machine, program[at].word);
    }
    uint8_t row[17] = {0};
    machine.d0 = 16;
    trap(&machine, MH_TRAP_NEW_PTR);
    if (show(&machine) != MH_NO_ERR || mh_peek(&machine.zone, machine.a0, 0, row, 16) != MH_NO_ERR) return 1;
    printf("screen: %s\n", (const char *)row);
    return mh_end_zone(&machine.zone) != MH_NO_ERR;
}
