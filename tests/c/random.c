/* Makes random calls on a zone, and writes them as a script to the first file and what C gets as replies to the second: macheap
 * prints the same replies for that script. Its words: the files, a seed, and how many calls. With an odd seed no block is lent, and
 * after each call the words of the zone's header are compared with a walk over its blocks. With a seed that leaves 3 when divided by 4
 * the zone is in memory of a guest, who writes bytes and flags there itself while the zone sleeps, and once in 1,000 calls damages it:
 * for macheap its writes are Poke and HSetState. */
#include "macheap.h"

#include <inttypes.h>
#include <stdio.h>
#include <stdlib.h>
#include <string.h>

enum { KEPT = 48, LENT = 8, BYTES = 8, BASE = 0x100000, SIZE = 4096, LIMIT = 8192 };

static MhZone zone = MH_NO_ZONE;
static uint8_t ram[LIMIT]; /* of the guest */
static MhAsleep asleep = MH_NO_ASLEEP;
static MhMemory memory = {ram, LIMIT, true};
static FILE *script, *replies;
static uint64_t state;
static uint32_t kept[KEPT]; /* handles and pointers, some of which are dead */
static uint32_t lent[LENT]; /* some that were lent */
static int line;

static uint32_t below(uint32_t limit) {
    state = state * 6364136223846793005u + 1442695040888963407u;
    return (uint32_t)(state >> 33) % limit;
}

/* A block, mostly one that was given. */
static uint32_t block(void) { return below(40) ? kept[below(KEPT)] : below(0x2000) + 0xFF000; }

/* A block, mostly one that was lent. */
static uint32_t lent_block(void) { return below(8) ? lent[below(LENT)] : block(); }

static uint32_t size(void) { return below(60) ? below(below(4) ? 60 : 900) : 8388600 + below(16); }

/* The reply of a call with a number, which comes after `sign`. */
static void told(const char *name, MhErr code, const char *sign, uint32_t number) {
    fprintf(replies, "%d %s", line, name);
    if (code == MH_NO_ERR && sign) fprintf(replies, *sign ? " $%08" PRIX32 : " %" PRIu32, number);
    fprintf(replies, " %d\n", code);
}

typedef MhErr OneOperand(MhZone *, uint32_t);
typedef MhErr TwoOperands(MhZone *, uint32_t, uint32_t);
typedef MhErr Looks(MhZone *, uint32_t, uint32_t *);
typedef MhErr LooksAround(MhZone *, uint32_t *);

static void one_operand(void) {
    static const struct { const char *name; OneOperand *call; } calls[] = {
        {"DisposeHandle", mh_dispose_handle}, {"DisposePtr", mh_dispose_ptr}, {"EmptyHandle", mh_empty_handle},
        {"HLock", mh_hlock}, {"HUnlock", mh_hunlock}, {"HPurge", mh_hpurge}, {"HNoPurge", mh_hno_purge},
        {"HSetRBit", mh_hset_rbit}, {"HClrRBit", mh_hclr_rbit}, {"MoveHHi", mh_move_hhi}, {"HLockHi", mh_hlock_hi},
        {"HUnlock", mh_hunlock},
        {"DisposeHandle", mh_dispose_handle}, {"DisposePtr", mh_dispose_ptr},
    };
    uint32_t which = below(sizeof calls / sizeof calls[0]), x = block();
    fprintf(script, "%s %" PRIu32 "\n", calls[which].name, x);
    told(calls[which].name, calls[which].call(&zone, x), NULL, 0);
}

/* A block is lent or comes back. */
static void lends(void) {
    bool back = !below(4);
    uint32_t x = back ? lent_block() : block();
    fprintf(script, "%s %" PRIu32 "\n", back ? "Return" : "Lend", x);
    MhErr code = (back ? mh_return : mh_lend)(&zone, x);
    told(back ? "Return" : "Lend", code, NULL, 0);
    if (code == MH_NO_ERR && !back) lent[below(LENT)] = x;
}

static void two_operands(void) {
    static const struct { const char *name; TwoOperands *call; bool is_size; } calls[] = {
        {"SetHandleSize", mh_set_handle_size, true}, {"SetPtrSize", mh_set_ptr_size, true},
        {"ReallocateHandle", mh_reallocate_handle, true}, {"HSetState", mh_hset_state, true}, {"HandAndHand", mh_hand_and_hand, false},
    };
    uint32_t which = below(sizeof calls / sizeof calls[0]), x = block(), y = calls[which].is_size ? size() : block();
    fprintf(script, "%s %" PRIu32 " %" PRIu32 "\n", calls[which].name, x, y);
    told(calls[which].name, calls[which].call(&zone, x, y), NULL, 0);
}

static void looks(void) {
    static const struct { const char *name; Looks *call; const char *sign; } calls[] = {
        {"GetHandleSize", mh_get_handle_size, ""}, {"GetPtrSize", mh_get_ptr_size, ""}, {"HGetState", mh_hget_state, ""},
        {"Deref", mh_deref, "$"}, {"CompactMem", mh_compact_mem, ""},
    };
    uint32_t which = below(sizeof calls / sizeof calls[0]), x = block(), number = 0;
    fprintf(script, "%s %" PRIu32 "\n", calls[which].name, x);
    MhErr code = calls[which].call(&zone, x, &number);
    told(calls[which].name, code, calls[which].sign, number);
}

static void looks_around(void) {
    static const struct { const char *name; LooksAround *call; } calls[] = {{"FreeMem", mh_free_mem}, {"MaxBlock", mh_max_block}};
    uint32_t which = below(2), number = 0;
    fprintf(script, "%s\n", calls[which].name);
    MhErr code = calls[which].call(&zone, &number);
    told(calls[which].name, code, "", number);
}

/* A block that was kept goes, if it can. */
static MhErr goes(const char *name, OneOperand *call, uint32_t x) {
    fprintf(script, "%s %" PRIu32 "\n", name, x);
    MhErr code = call(&zone, x);
    told(name, code, NULL, 0);
    return code;
}

/* A block that comes: its number is kept, in a place from which another goes before. */
static void comes(void) {
    uint32_t place = below(KEPT);
    if (kept[place]) {
        MhErr gone = goes("DisposeHandle", mh_dispose_handle, kept[place]);
        if (gone == MH_MEM_WZ_ERR) line++, gone = goes("DisposePtr", mh_dispose_ptr, kept[place]);
        if (gone != MH_MEM_LOCKED_ERR) kept[place] = 0;
        return;
    }
    static const struct { const char *name; Looks *call; } calls[] = {
        {"NewHandle", mh_new_handle}, {"NewHandle", mh_new_handle}, {"NewPtr", mh_new_ptr}, {"HandToHand", mh_hand_to_hand},
    };
    uint32_t which = below(4), operand = which == 3 ? block() : size(), number = 0;
    fprintf(script, "%s %" PRIu32 "\n", calls[which].name, operand);
    MhErr code = calls[which].call(&zone, operand, &number);
    told(calls[which].name, code, "$", number);
    if (code == MH_NO_ERR) kept[place] = number;
}

/* The window on bytes of a lent block, or the code of its refusal. */
static MhErr reached(MhZone *it, uint32_t x, uint32_t at, size_t count, uint8_t **bytes) {
    MhWindow window = {NULL, 0};
    MhErr code = mh_window(it, x, &window);
    if (code != MH_NO_ERR) return code;
    if (at > window.length || count > window.length - at) return MH_PARAM_ERR;
    *bytes = window.start + at;
    return MH_NO_ERR;
}

/* mh_lent_poke and mh_lent_peek through a window, by C itself. */
static MhErr window_poke(MhZone *it, uint32_t x, uint32_t at, const uint8_t *bytes, size_t count) {
    uint8_t *there = NULL;
    MhErr code = reached(it, x, at, count, &there);
    if (code == MH_NO_ERR) memcpy(there, bytes, count);
    return code;
}
static MhErr window_peek(MhZone *it, uint32_t x, uint32_t at, uint8_t *bytes, size_t count) {
    uint8_t *there = NULL;
    MhErr code = reached(it, x, at, count, &there);
    if (code == MH_NO_ERR) memcpy(bytes, there, count);
    return code;
}

/* Bytes go in and come out, of a block or of one that is lent, half of these through a window. Each begins with a byte over $7E, so that it is shown in digits. */
static void bytes(void) {
    bool is_lent = !below(3);
    uint32_t x = is_lent ? lent_block() : block(), at = below(6), count = 1 + below(BYTES);
    uint8_t some[BYTES] = {0};
    if (below(2)) {
        const char *name = is_lent ? "LentPoke" : "Poke";
        fprintf(script, "%s %" PRIu32 " %" PRIu32 " $\"", name, x, at);
        for (uint32_t n = 0; n < count; n++) fprintf(script, "%02X", some[n] = (uint8_t)(0x80 + below(128)));
        fprintf(script, "\"\n");
        told(name, (!is_lent ? mh_poke : below(2) ? mh_lent_poke : window_poke)(&zone, x, at, some, count), NULL, 0);
        return;
    }
    const char *name = is_lent ? "LentPeek" : "Peek";
    fprintf(script, "%s %" PRIu32 " %" PRIu32 " %" PRIu32 "\n", name, x, at, count);
    MhErr code = (!is_lent ? mh_peek : below(2) ? mh_lent_peek : window_peek)(&zone, x, at, some, count);
    fprintf(replies, "%d %s", line, name);
    if (code == MH_NO_ERR) {
        fprintf(replies, " $\"");
        for (uint32_t n = 0; n < count; n++) fprintf(replies, "%02X", some[n]);
        fprintf(replies, "\"");
    }
    fprintf(replies, " %d\n", code);
}

static uint32_t word_at(const uint8_t *bytes, uint32_t at) {
    return (uint32_t)bytes[at] << 24 | (uint32_t)bytes[at + 1] << 16 | (uint32_t)bytes[at + 2] << 8 | bytes[at + 3];
}

/* A byte of bkLim, hFstFree, zcbFree or allocPtr is another one: the zone sleeps on until it is right again. */
static bool is_damaged(void) {
    static const uint8_t own[] = {0, 1, 2, 3, 8, 9, 10, 11, 12, 13, 14, 15, 48, 49, 50, 51};
    uint32_t at = own[below(sizeof own)];
    uint8_t by = (uint8_t)(1 + below(255));
    ram[at] ^= by;
    bool told_so = mh_wake(&zone, &asleep, &memory) == MH_DAMAGED;
    ram[at] ^= by;
    return told_so;
}

/* The guest's turn, while the zone sleeps: it writes bytes of a handle's block through the master pointer, or the flags in that. */
static bool guest(void) {
    uint32_t handle = kept[below(KEPT)], length = 0;
    bool full = mh_get_handle_size(&zone, handle, &length) == MH_NO_ERR && length > 0;
    if (mh_sleep(&zone, &asleep, &memory) != MH_NO_ERR) return false;
    if (below(1000) == 0 && !is_damaged()) return false;
    if (full) {
        uint8_t *master = ram + (handle - BASE);
        uint8_t *contents = ram + ((word_at(master, 0) & 0xFFFFFF) - BASE);
        line++;
        if (below(2)) {
            uint32_t at = below(length), count = 1 + below(length - at < BYTES ? length - at : BYTES);
            fprintf(script, "Poke %" PRIu32 " %" PRIu32 " $\"", handle, at);
            for (uint32_t n = 0; n < count; n++) fprintf(script, "%02X", contents[at + n] = (uint8_t)(0x80 + below(128)));
            fprintf(script, "\"\n");
            told("Poke", MH_NO_ERR, NULL, 0);
        } else {
            uint32_t flags = 32 * below(8);
            fprintf(script, "HSetState %" PRIu32 " %" PRIu32 "\n", handle, flags);
            told("HSetState", MH_NO_ERR, NULL, 0);
            *master = (uint8_t)flags;
        }
    }
    return mh_wake(&zone, &asleep, &memory) == MH_NO_ERR;
}

/* Whether bkLim, zcbFree and allocPtr are the end of the zone, the sum of its free blocks, and the lowest of these, or 0. */
static bool is_walked(void) {
    enum { HEADER = 52 };
    static uint8_t bytes[LIMIT];
    size_t size = 0;
    if (mh_image_size(&zone, &size) != MH_NO_ERR || size > LIMIT || mh_image(&zone, bytes, size) != MH_NO_ERR) return false;
    uint32_t at = HEADER, sum = 0, lowest = 0;
    while (at < size) {
        uint32_t length = word_at(bytes, at) & 0xFFFFFF;
        if (length < 12 || length > size - at) return false;
        if (bytes[at] >> 6 == 0) {
            sum += length;
            if (lowest == 0) lowest = BASE + at;
        }
        at += length;
    }
    return word_at(bytes, 0) == BASE + size && word_at(bytes, 12) == sum && word_at(bytes, 48) == lowest;
}

int main(int count, char **words) {
    if (count != 5 || !(script = fopen(words[1], "w")) || !(replies = fopen(words[2], "w"))) return 2;
    state = strtoull(words[3], NULL, 10);
    int calls = atoi(words[4]);
    bool is_guests = state % 4 == 3;
    if (is_guests ? mh_make_zone_at(&asleep, &memory, BASE, SIZE, LIMIT, 24) || mh_wake(&zone, &asleep, &memory)
                  : mh_make_zone(&zone, BASE, SIZE, LIMIT, 24)) return 1;
    static void (*const kinds[])(void) = {one_operand, one_operand, one_operand, two_operands, looks, looks_around, lends, comes, comes, comes, bytes, bytes};
    bool walks = state % 2 == 1;
    for (line = 1; line <= calls; line++) {
        void (*kind)(void) = kinds[below(sizeof kinds / sizeof kinds[0])];
        (walks && kind == lends ? comes : kind)();
        if (walks && !is_walked()) return fprintf(stderr, "line %d: a word of the zone's header is another than the walk's\n", line), 3;
        if (is_guests && !guest()) return fprintf(stderr, "line %d: the zone doesn't wake\n", line), 3;
    }
    return mh_end_zone(&zone) != MH_NO_ERR || fclose(script) || fclose(replies);
}
