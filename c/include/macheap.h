/* The classic Macintosh Memory Manager over one heap zone, for programs in C and C++. Whose bytes are which, and when:
 *
 *     calls    mh_make_zone      mh_lend    mh_return    mh_end_zone
 *     zone     |------------- the library's -------------|
 *     block                      |- yours --|
 *
 *     calls    mh_make_zone_at   mh_wake            mh_sleep   mh_end_asleep
 *     zone     |----- yours -----|- the library's --|- yours --|
 *     block    one that is lent is yours all the time, until mh_return
 *
 * Yours are the bytes that you, or a guest that you run, read and write; but not while a call on their zone runs.
 *
 * Each function is one call, and returns an OSErr: 0 (noErr) or a negative code. Codes of -1000 and below are the
 * host's own: no Macintosh has them, so none is for a guest. A call that is refused writes nothing through its pointers
 * (but mh_check and mh_look, whose fault comes with MH_DAMAGED). What each does, to the byte, is what the project's
 * contracts say of the call of that name: crates/macheap_c/specs, and docs/THEOREM.md.
 *
 * What the caller promises, and nothing tests:
 *  - An MhZone begins as MH_NO_ZONE, and then only these functions write it. It may be moved, but a copy of one with a
 *    zone is never passed to them.
 *  - A pointer is not null, is aligned, and leads to what its type says, to be read, or where it isn't const, written.
 *    Those of one call don't overlap. This holds where a count is 0, too.
 *  - Bytes of a window (mh_window) are read and written only while their block is lent, not beyond its length, and not
 *    while a call on their zone runs, by another thread, say. No pointer into a window is passed to a call on its zone.
 *  - One call at a time on one zone, and none from a signal handler. Between two calls a zone may go from one thread to
 *    another, where the program puts the calls in order, by a lock, say. Two zones are independent.
 *  - malloc, realloc and free of the program are those of one C library, and each thread that makes calls may call
 *    them.
 *  - The ranges of mh_wake_written have every byte that was written since the zone fell asleep.
 *
 * What is tested, and refused with a code and no change: any call before mh_make_zone, after mh_end_zone or while the
 * zone sleeps, and so mh_end_zone twice (MH_NOT_THERE); mh_make_zone on a zone that is there (MH_IN_USE); any number as
 * a handle, a pointer, a size, an offset or an address, live or not, but not as a range of mh_wake_written. A zone that
 * is forgotten keeps its memory: end it. All memory of the host is taken by the call that makes a zone, but for a copy
 * of the bytes that mh_wake and mh_check make where a guest set flags in an empty handle's master pointer.
 *
 * MACHEAP_VERSION is the version of all three headers. While it begins with 0, the next one may change what is here: a
 * program is then built anew.
 */
#ifndef MACHEAP_H
#define MACHEAP_H

#include <stdbool.h>
#include <stddef.h>
#include <stdint.h>

#define MACHEAP_VERSION "0.1.0"

#ifdef __cplusplus
extern "C" {
#endif

typedef int16_t MhErr;

enum {
    MH_NO_ERR = 0,
    MH_PARAM_ERR = -50,       /* an operand is out of its range */
    MH_MEM_FULL_ERR = -108,   /* the zone has no room; of a call that makes a zone: the host has no memory */
    MH_NIL_HANDLE_ERR = -109, /* the handle is 0 or empty */
    MH_MEM_WZ_ERR = -111,     /* the number names no block of the zone */
    MH_MEM_PUR_ERR = -112,    /* the block is locked, and can't be purged */
    MH_MEM_BC_ERR = -115,     /* no handle's contents begin there */
    MH_DAMAGED = -116,        /* the bytes haven't the zone's structure, or are those of no zone (memSCErr) */
    MH_MEM_LOCKED_ERR = -117, /* the block is locked, or lent; of mh_wake: a lent handle isn't locked any more */
    /* The host's own. resman.h has more. */
    MH_NOT_THERE = -1000,   /* there is no zone awake, or none that sleeps, or no files, or the bytes are gone */
    MH_WOULD_PURGE = -1002, /* the call would purge, and is held (mh_hold_purges) */
    MH_IN_USE = -1005,      /* there is one already: a zone, files, or bytes of the host; or sixteen answers wait */
    MH_BAD_NUMBER = -1006,  /* a base, a size, a limit, a mode, a kind or a count that the call doesn't take */
    MH_NONE_SUCH = -1007    /* there is none: no ask or file with this number, no handle; or the call wasn't held */
};

/* A zone, or none. Its fields are the library's. */
typedef struct MhZone {
    bool live;
    void *held;
} MhZone;

#define MH_NO_ZONE {false, NULL}

/* Makes a zone that begins at the address `base`, a multiple of 4, has `size` bytes and may grow to `limit` bytes, both
 * even: the last two bytes of one that is no multiple of 4 aren't used. size is 512 at least, limit 1048576 at most and
 * size or at least 16 more, base $1000 at least, base + limit $1000000 at most. `mode` is 24 or 32: blocks with headers
 * of 8 or of 12 bytes. Else it is MH_BAD_NUMBER; MH_IN_USE where a zone is there. */
MhErr mh_make_zone(MhZone *zone, uint32_t base, uint32_t size, uint32_t limit, uint32_t mode);
/* The same for a large zone. Only two bounds are other ones: limit 1073741824 at most, and base + limit $1000000 at
 * most in mode 24, whose headers and master pointers have no more bits, and below 2^32 in mode 32. The host gives 1.3
 * times the limit's bytes, with the index, and 1.1 times the limit is written at once: a zone whose limit is 64 MB has
 * 71 MB resident from the start. */
MhErr mh_make_zone_large(MhZone *zone, uint32_t base, uint32_t size, uint32_t limit, uint32_t mode);
/* Ends a zone. It is MH_NO_ZONE then, and may be made again. */
MhErr mh_end_zone(MhZone *zone);

/* Blocks that come and go. A handle is the address of a master pointer, a pointer that of its block's contents; both
 * are numbers of the zone's own addresses, and no pointers of C. New bytes are zero. */
MhErr mh_new_handle(MhZone *zone, uint32_t size, uint32_t *handle);
MhErr mh_new_empty_handle(MhZone *zone, uint32_t *handle);
MhErr mh_new_ptr(MhZone *zone, uint32_t size, uint32_t *pointer);
MhErr mh_dispose_handle(MhZone *zone, uint32_t handle);
MhErr mh_dispose_ptr(MhZone *zone, uint32_t pointer);
MhErr mh_empty_handle(MhZone *zone, uint32_t handle);

/* Their sizes, in bytes of contents. A size that a call is given is 8388608 at most. */
MhErr mh_set_handle_size(MhZone *zone, uint32_t handle, uint32_t size);
MhErr mh_get_handle_size(MhZone *zone, uint32_t handle, uint32_t *number);
MhErr mh_set_ptr_size(MhZone *zone, uint32_t pointer, uint32_t size);
MhErr mh_get_ptr_size(MhZone *zone, uint32_t pointer, uint32_t *number);
MhErr mh_reallocate_handle(MhZone *zone, uint32_t handle, uint32_t size);

/* Their flags. A state is MH_LOCK, MH_PURGE and MH_RESOURCE, added. */
enum { MH_LOCK = 128, MH_PURGE = 64, MH_RESOURCE = 32 };
MhErr mh_hlock(MhZone *zone, uint32_t handle);
MhErr mh_hunlock(MhZone *zone, uint32_t handle);
MhErr mh_hpurge(MhZone *zone, uint32_t handle);
MhErr mh_hno_purge(MhZone *zone, uint32_t handle);
MhErr mh_hset_rbit(MhZone *zone, uint32_t handle);
MhErr mh_hclr_rbit(MhZone *zone, uint32_t handle);
MhErr mh_hget_state(MhZone *zone, uint32_t handle, uint32_t *number);
MhErr mh_hset_state(MhZone *zone, uint32_t handle, uint32_t state);

/* Where they are. mh_deref gives what the handle's master pointer says: where the contents begin. */
MhErr mh_deref(MhZone *zone, uint32_t handle, uint32_t *address);
MhErr mh_move_hhi(MhZone *zone, uint32_t handle);
MhErr mh_hlock_hi(MhZone *zone, uint32_t handle);
MhErr mh_recover_handle(MhZone *zone, uint32_t address, uint32_t *handle);

/* Room. mh_compact_mem gives the largest free block then, mh_max_mem that and the bytes by which the zone may still
 * grow, mh_purge_space the bytes that purging would free in all and in one block, mh_max_block those that moving would
 * bring together, mh_free_mem all free ones. */
MhErr mh_reserve_mem(MhZone *zone, uint32_t size);
MhErr mh_more_masters(MhZone *zone);
MhErr mh_compact_mem(MhZone *zone, uint32_t size, uint32_t *number);
MhErr mh_purge_mem(MhZone *zone, uint32_t size);
MhErr mh_max_mem(MhZone *zone, uint32_t *largest, uint32_t *growth);
MhErr mh_purge_space(MhZone *zone, uint32_t *total, uint32_t *contiguous);
MhErr mh_max_block(MhZone *zone, uint32_t *number);
MhErr mh_free_mem(MhZone *zone, uint32_t *number);
MhErr mh_max_appl_zone(MhZone *zone);

/* Bytes from block to block. mh_hand_and_hand appends the first handle's bytes to the second's. mh_block_move copies
 * `count` bytes of `from`, from `start` on, over those of `to` from `offset` on; blocks are a handle's or a
 * pointer's. */
MhErr mh_hand_to_hand(MhZone *zone, uint32_t handle, uint32_t *new_handle);
MhErr mh_ptr_to_hand(MhZone *zone, uint32_t pointer, uint32_t count, uint32_t *handle);
MhErr mh_ptr_to_xhand(MhZone *zone, uint32_t pointer, uint32_t handle, uint32_t count);
MhErr mh_ptr_and_hand(MhZone *zone, uint32_t pointer, uint32_t handle, uint32_t count);
MhErr mh_hand_and_hand(MhZone *zone, uint32_t one, uint32_t other);
MhErr mh_block_move(MhZone *zone, uint32_t from, uint32_t start, uint32_t to, uint32_t offset, uint32_t count);

/* Bytes from outside the zone into a block: `count` bytes of C, 8388608 at most, or paramErr once the handle has been
 * tested. These calls do with them what PtrToHand, PtrToXHand and PtrAndHand do with those of a pointer:
 * mh_new_handle_of makes a new handle whose block has them, mh_set_handle_to gives a handle these in place of its own,
 * and mh_append adds them to its own. They don't lie in the zone, nor in the MhMemory that it is awake in: of a block,
 * copy them out with mh_peek first. */
MhErr mh_new_handle_of(MhZone *zone, const uint8_t *bytes, size_t count, uint32_t *handle);
MhErr mh_set_handle_to(MhZone *zone, uint32_t handle, const uint8_t *bytes, size_t count);
MhErr mh_append(MhZone *zone, uint32_t handle, const uint8_t *bytes, size_t count);

/* Bytes out of a block and into it, from an offset on. The block is a handle's or a pointer's. paramErr where it has
 * fewer bytes. */
MhErr mh_peek(MhZone *zone, uint32_t block, uint32_t offset, uint8_t *bytes, size_t count);
MhErr mh_poke(MhZone *zone, uint32_t block, uint32_t offset, const uint8_t *bytes, size_t count);

/* Loans. mh_lend lends a pointer's block, or that of a locked handle: then its bytes are C's, until mh_return. The
 * block stays where it is, and each call that would read, write, free, resize or unlock it is memLockedErr. C
 * reads and writes the bytes by copies, or itself through a window: mh_window gives the address of the first of them
 * and how many there are. The window is C's until mh_return of the block or mh_end_zone, whatever other calls are made,
 * and while the zone sleeps, too: where it wakes in another place, ask mh_window again. mh_lent_peek and mh_lent_poke
 * reach the same bytes. paramErr for an unlocked handle, for a ninth loan, and of the other four calls for a block that
 * isn't lent. mh_end_zone takes back what is lent. */
MhErr mh_lend(MhZone *zone, uint32_t block);
MhErr mh_lent_peek(MhZone *zone, uint32_t block, uint32_t offset, uint8_t *bytes, size_t count);
MhErr mh_lent_poke(MhZone *zone, uint32_t block, uint32_t offset, const uint8_t *bytes, size_t count);
MhErr mh_return(MhZone *zone, uint32_t block);
typedef struct MhWindow {
    uint8_t *start;
    size_t length;
} MhWindow;
MhErr mh_window(MhZone *zone, uint32_t block, MhWindow *window);

/* The walk over the zone's blocks, lowest first: from mh_first_block on, the next header is at address + size, and
 * after the last block the code is memWZErr. */
enum { MH_FREE = 0, MH_MASTER = 1, MH_PTR = 2, MH_REL = 3 };
typedef struct MhBlock {
    uint32_t address; /* of its header */
    uint32_t size;    /* in all, header included */
    uint32_t kind;    /* MH_FREE, MH_MASTER, MH_PTR (nonrelocatable) or MH_REL (relocatable) */
    uint32_t owner;   /* its pointer or its handle, or 0 */
    uint32_t length;  /* of its contents; 256 of a master block, whose 64 master pointers they are */
    uint32_t flags;   /* of its handle */
} MhBlock;
MhErr mh_first_block(MhZone *zone, uint32_t *at);
MhErr mh_block(MhZone *zone, uint32_t at, MhBlock *block);
/* The block that has the byte at an address, in its header or after it; memWZErr where none has. Its header is the
 * first 8 bytes of a block, and 12 in mode 32, and its contents begin after them. */
MhErr mh_holder(MhZone *zone, uint32_t at, MhBlock *block);

/* The bytes of the zone, from its start to the end of its last block: its header, and its blocks with their headers,
 * master pointers and contents. mh_image_size says how many there are, and mh_image copies just so many; MH_BAD_NUMBER
 * where count is another number. memLockedErr while a block is lent. */
MhErr mh_image_size(MhZone *zone, size_t *size);
MhErr mh_image(MhZone *zone, uint8_t *bytes, size_t count);
/* Makes a zone of such bytes, whoever wrote them: mh_image and mh_make_zone_of are a save state. Keep the bytes, and
 * the base, the limit and the mode that the zone was made with; its size is how many bytes there are. Loans are
 * returned first; queued answers, and what was asked, aren't kept. The zone is made exactly if the bytes are those of a
 * sound zone of these sizes, byte for byte as docs/DIFFERENCES.md has them ("The zone's bytes"): its header has its
 * end, its free bytes, its first free master pointer and its lowest free block, and any bytes in the guest's fields,
 * which are kept; its blocks fill it, none is larger than its contents need, and no two free ones are neighbours; a
 * handle's block and its master pointer lead to each other; free master pointers follow one another. Else it is
 * MH_DAMAGED. MH_BAD_NUMBER where count isn't size, and for sizes that mh_make_zone_at doesn't take; MH_IN_USE where a
 * zone is there; memFullErr where the host has no memory. */
MhErr mh_make_zone_of(MhZone *zone, uint32_t base, uint32_t size, uint32_t limit, uint32_t mode, const uint8_t *bytes,
                      size_t count);

/* The grow-zone procedure. Three words:
 *  - A call asks where it finds no room: it needs so many bytes. No code of C runs then.
 *  - An answer is what the procedure does about it. It has up to eight calls that release blocks, and a value: 0 says
 *    that nothing more can be released, and the running call fails; after any other it tries once more. You queue
 *    answers before the call, and each time that it asks, 16 times at most, it takes the one that has waited longest.
 *    Where none waits it fails. Sixteen may wait: MH_IN_USE for the next; MH_BAD_NUMBER for a kind that there isn't.
 *  - Carried out are those of the answer's calls that were made, in their order, each with its own code. Those on a
 *    block of the running call are skipped.
 *
 * A guest's own procedure runs between calls, and nothing is queued for it: the call asks once and is memFullErr.
 * Then the procedure runs, and the call is made again, as often as the procedure gives a value that isn't 0. */
enum { MH_NO_CALL = 0, MH_DISPOSE_HANDLE = 1, MH_DISPOSE_PTR = 2, MH_EMPTY_HANDLE = 3 };
typedef struct MhRelease {
    uint32_t kind; /* MH_NO_CALL, MH_DISPOSE_HANDLE, MH_DISPOSE_PTR or MH_EMPTY_HANDLE */
    uint32_t operand;
} MhRelease;
typedef struct MhAnswer {
    uint32_t value;
    MhRelease calls[8];
} MhAnswer;
MhErr mh_queue_answer(MhZone *zone, const MhAnswer *answer);

/* What the zone's last call asked. mh_asked counts how often it did, and mh_ask shows one time, from 0 on: what it
 * needed, and the answer that it took. mh_carried shows one call of that answer that was carried out, from 0 on.
 * MH_NONE_SUCH where there are not so many. Each call of the Memory Manager above, and mh_queue_answer, forgets what
 * was asked before it; the walk doesn't. */
typedef struct MhAsk {
    uint32_t needed;   /* bytes, header included */
    uint32_t answered; /* 1, or 0 where no answer waited: the two below are 0 then */
    uint32_t value;    /* of the answer */
    uint32_t carried;  /* how many of its calls were carried out */
} MhAsk;
typedef struct MhCarried {
    uint32_t kind;
    uint32_t operand;
    MhErr code;
} MhCarried;
MhErr mh_asked(MhZone *zone, uint32_t *count);
MhErr mh_ask(MhZone *zone, uint32_t index, MhAsk *ask);
MhErr mh_carried(MhZone *zone, uint32_t index, uint32_t place, MhCarried *carried);

/* Purging. A call of the Memory Manager that finds no room purges: it empties handles that are purgeable and unlocked,
 * one after another. mh_purged shows those that the zone's last call emptied so, in order: the first of them, as many
 * as there is room for and 1,024 at most, and in `count` how many they were in all.
 *
 * A guest may have a purge-warning procedure, and a host may have to write a changed resource before it is purged. So
 * while mh_hold_purges holds them (`on` isn't 0), a call that would purge is held: it is MH_WOULD_PURGE, gives no
 * results, and has done only what it does before it purges. Where it found no room the zone has grown to its limit, and
 * where it lacked a master pointer it has made a master block. mh_would_purge gives the handle that it would purge
 * first (MH_NONE_SUCH where the last call wasn't held). Now run the procedure, or write the resource; empty the handle
 * (mh_empty_handle), or make it unpurgeable; and make the call again, until it isn't held. If each handle was emptied,
 * it ends as one call does that isn't held, and leaves the same zone.
 *
 * The last call is that of one of the functions above, but mh_peek and those of loans. What a call purges after it took
 * an answer (mh_queue_answer) is neither held nor shown. Nor is what the calls of resman.h purge: before one that loads
 * a resource, make room by mh_more_masters, if need be, and mh_reserve_mem of its size. */
MhErr mh_hold_purges(MhZone *zone, uint32_t on);
MhErr mh_would_purge(MhZone *zone, uint32_t *handle);
MhErr mh_purged(MhZone *zone, uint32_t *handles, size_t room, uint32_t *count);

/* A zone in memory of the host: the RAM of an emulator, whose guest writes there as it likes. The zone sleeps while the
 * guest runs, and wakes in these bytes for calls:
 *
 *     MhZone zone = MH_NO_ZONE;
 *     MhAsleep asleep = MH_NO_ASLEEP;
 *     MhMemory memory = {ram + BASE, LIMIT, true};
 *     mh_make_zone_at(&asleep, &memory, BASE, SIZE, LIMIT, 24);
 *     ..                                    the guest runs
 *     mh_wake(&zone, &asleep, &memory);
 *     mh_new_handle(&zone, 100, &handle);   any calls
 *     mh_sleep(&zone, &asleep, &memory);
 *     ..                                    the guest runs, and reads ram[handle ..]
 *
 * An MhMemory says where these bytes are, and whose. Where `here` is true they are yours: `start` is the first of
 * `length` bytes. You fill it in so. Where `here` is false `start` is null and `length` 0: a zone is awake in them, and
 * they are the library's until mh_sleep fills it in again; you neither read nor write them, but by windows. While the
 * zone sleeps the library has no pointer into them, and reads and writes none of them. At each mh_wake they may be in
 * another place. No MhMemory is filled in with bytes that another zone is awake in, nor with a null `start`.
 *
 * For any bytes whatever, mh_wake returns, and nothing outside them is touched. Where they have the zone's structure it
 * is awake in them just as they are: with their contents, and in mode 24 with the lock, purge and resource bits that
 * they have in the master pointers of handles with a block. The structure is all else that the zone says of itself:
 * bkLim, hFstFree, zcbFree and allocPtr in its header, the headers of its blocks, and where master pointers lead. Where
 * one of these bytes isn't as the library left it, or as it was attached, the answer is MH_DAMAGED, and all stays: no
 * byte has changed, and the zone sleeps on. It wakes once the bytes are right again: mh_check says which byte is wrong,
 * and mh_repair writes the structure anew.
 *
 * In mode 24 a guest can also set these bits in the master pointer of an empty handle, which is nil but for them. They
 * say nothing there and are no damage: when the zone wakes the pointer is 0 again, and the handle's next block has no
 * flag set. They stay while the zone sleeps on. mh_attach takes no such bytes: the zone that slept wakes in them first.
 *
 * The other fields of the header are the guest's: purgePtr (4 bytes from offset 4 on), and gzProc to sparePtr (32 from
 * 16 on). They are kept as the guest left them, whatever the calls do. In a new zone moreMast is 64, and the rest zero.
 * No call heeds them: a master block has 64 master pointers whatever moreMast says.
 *
 * A block that is lent stays lent while the zone sleeps: its bytes are C's and the guest's then, and it is lent again
 * when the zone wakes, with the bytes that it has. In mode 24 a guest can clear the lock bit of a lent handle. Then the
 * answer is memLockedErr, and all stays as for MH_DAMAGED: the zone wakes once the bit is set again, by the host or by
 * mh_repair.
 *
 * A zone asleep is a few words in an MhAsleep, and beside its bytes as much memory of the host as an MhZone has. */
typedef struct MhAsleep {
    MhZone zone;
} MhAsleep;
typedef struct MhMemory {
    uint8_t *start; /* null where the library has the bytes */
    size_t length;  /* below 2^63 */
    bool here;      /* whether they are yours */
} MhMemory;

#define MH_NO_ASLEEP {MH_NO_ZONE}

/* Makes a zone that sleeps, of the sizes that mh_make_zone_large takes and that are multiples of 4, and writes its
 * structure into the bytes, as many as its limit; no other of them changes. MH_BAD_NUMBER where they are more or fewer,
 * and for sizes that there aren't; MH_NOT_THERE where they are gone; MH_IN_USE where a zone sleeps there. */
MhErr mh_make_zone_at(MhAsleep *asleep, MhMemory *memory, uint32_t base, uint32_t size, uint32_t limit, uint32_t mode);
/* Makes a zone that sleeps of the bytes as they are, whoever wrote them: of memory that was saved, or of a zone that
 * this library made in another program. No byte changes. `size` is how large the zone is now, since it may have grown:
 * mh_image_size says it of a zone awake, and so do the first four bytes, which have its end, less base. The zone is
 * made exactly if the bytes are, up to its size, those of a sound zone of these sizes, as for mh_make_zone_of; else the
 * code is MH_DAMAGED. For any bytes whatever it returns, and nothing outside them is touched. Other codes come as from
 * mh_make_zone_at.
 *
 * A state to be saved has all loans returned, isn't taken while the guest's grow-zone procedure runs, and mh_check
 * finds no fault in it. Once memory of another moment is loaded, the zone that slept over it is ended (mh_end_asleep),
 * and the bytes are attached: mh_repair would write the structure that this zone knows over what was loaded. */
MhErr mh_attach(MhAsleep *asleep, MhMemory *memory, uint32_t base, uint32_t size, uint32_t limit, uint32_t mode);
/* Wakes it, with what is lent. MH_IN_USE where `zone` is there, MH_NOT_THERE where none sleeps and where the bytes are
 * gone, MH_BAD_NUMBER where they aren't as many as its limit. MH_DAMAGED where they haven't the zone's structure,
 * memLockedErr where they have, and a handle that is lent isn't locked. memFullErr where an empty handle's master
 * pointer has flags, and the host has no memory to copy the bytes while they are cleared. */
MhErr mh_wake(MhZone *zone, MhAsleep *asleep, MhMemory *memory);
/* Wakes it as mh_wake does, with the same codes, and compares only what was written: the zone's header, and the
 * headers of blocks and the master pointers of blocks that have a byte in a range. `written` has `count` ranges, each
 * of so many bytes from an offset from the zone's start on. They may overlap and reach beyond the zone, and more bytes
 * may be in them than were written. No ranges at all say that nothing was written. Bytes that were copied to another
 * place as they were count as not written. The guest's fields of the zone's header may be written without a range.
 *
 * WHO CALLS IT PROMISES THAT SINCE THE ZONE FELL ASLEEP, OR WAS MADE, ATTACHED OR REPAIRED IN ITS SLEEP, NO BYTE WAS
 * WRITTEN BUT IN THESE RANGES: by the guest, by the host, or by a device. WHERE A BYTE WAS WRITTEN ELSEWHERE THE
 * LIBRARY'S BEHAVIOUR IS UNDEFINED: it may write outside the zone. A host that can't be sure calls mh_wake. After a
 * refusal the zone has slept on: the next ranges have what was written before it, too. */
typedef struct MhWritten {
    uint32_t from; /* an offset from the zone's start */
    uint32_t count;
} MhWritten;
MhErr mh_wake_written(MhZone *zone, MhAsleep *asleep, MhMemory *memory, const MhWritten *written, size_t count);
/* Puts it to sleep. MH_IN_USE where another zone sleeps in `asleep`, and where `memory` has bytes; MH_NOT_THERE where
 * no zone is awake, and for one that isn't in bytes of the host. What is lent stays lent, and queued answers, and what
 * was asked, stay. */
MhErr mh_sleep(MhZone *zone, MhAsleep *asleep, MhMemory *memory);
/* Puts it to sleep as mh_sleep does, and says which bytes were written since it woke: the first `*written` of `ranges`,
 * the lowest first. No byte outside them differs from what it was at mh_wake, be it in the zone's header or in a lent
 * block. They are 16 at most, since writes near each other are one range; where `count`, which says for how many there
 * is room, is less than there are, one range has all bytes. MH_BAD_NUMBER where it is 0. `ranges` and `written` stay
 * where the call is refused. */
MhErr mh_sleep_wrote(MhZone *zone, MhAsleep *asleep, MhMemory *memory, MhWritten *ranges, size_t count, size_t *written);
/* Looks for damage, and changes no byte. If the bytes have the zone's structure the answer is 0. Else it is MH_DAMAGED,
 * and the fault is the first byte that is wrong: some bytes with the structure agree with these up to it, and none with
 * it. Flags in an empty handle's master pointer are no damage; memFullErr where there are such, and the host has no
 * memory for a copy without them. `part` is what the byte is in. MH_NOT_THERE where none sleeps, and where the bytes
 * are gone; MH_BAD_NUMBER where they aren't as many as its limit. After mh_repair and mh_wake, mh_holder of base +
 * offset finds the block. */
enum { MH_ZONE_HEADER = 1, MH_BLOCK_HEADER = 2, MH_MASTER_POINTER = 3 };
typedef struct MhFault {
    uint32_t offset; /* from the zone's start */
    uint32_t part;   /* MH_ZONE_HEADER, MH_BLOCK_HEADER or MH_MASTER_POINTER */
} MhFault;
MhErr mh_check(MhAsleep *asleep, MhMemory *memory, MhFault *fault);
/* Writes the structure again. In mode 24 the lock, purge and resource bits of a handle with a block stay as they are in
 * its master pointer where its low three bytes are right; else, and where it is lent, they are those that it had when
 * the zone fell asleep or was attached. An empty handle's master pointer is 0 again: bits there say nothing. No other
 * byte changes, so contents, and the guest's fields of the zone's header, are as the guest left them, and the zone
 * wakes. MH_NOT_THERE and MH_BAD_NUMBER as for mh_check. */
MhErr mh_repair(MhAsleep *asleep, MhMemory *memory);
/* Ends it, and what is lent is C's no more. The bytes are as they are. (mh_end_zone of a zone that is awake in bytes of
 * the host ends it, too, and these are never given back: put it to sleep first.) */
MhErr mh_end_asleep(MhAsleep *asleep);

/* A look at a zone that anyone made, as Inside Macintosh: Memory draws one ("Heap Zones" and "Block Headers" in chapter
 * 2): for a debugger beside another emulator. It makes nothing, and only reads. `bytes` is memory from the zone's start
 * on, which is at the address `base`: `length` bytes, as many as the zone has or more. `mode` is 24 or 32, else
 * it is MH_BAD_NUMBER. The blocks come as mh_block shows them, lowest first, `room` of them at most; `count` is how
 * many there are.
 *
 * Where something is wrong the code is MH_DAMAGED. The blocks are then those up to it, and `wrong` says what it is: of
 * which kind, the address of what is wrong, the number that is found there, and the one that would be right, or the
 * nearest that would. First comes what is wrong with the zone's header, then with its blocks, then with the list of
 * free master pointers. All that a Macintosh leaves open is right: any number of master pointers in a block, slack,
 * order of free master pointers, the fields of the header but bkLim and hFstFree, and a trailer or none. A master block
 * is MH_PTR, but in a zone of this library, which marks it. docs/DIFFERENCES.md says what isn't certain ("Zones of
 * others"). */
enum {
    MH_SHORT_ZONE = 1,   /* there are fewer bytes than the 52 of a zone's header */
    MH_LOW_LIMIT = 2,    /* bkLim is before the first block */
    MH_HIGH_LIMIT = 3,   /* bkLim is after the last of the bytes */
    MH_CUT_HEADER = 4,   /* so many bytes are left, too few for a block's header */
    MH_OVERLAPS = 5,     /* a block overlaps the next: its size is less than its header and its size correction */
    MH_LEAVES_ZONE = 6,  /* a block's size leads out of the zone */
    MH_ODD_SIZE = 7,     /* a block's size is odd */
    MH_BAD_TAG = 8,      /* bits 7 and 6 of a block's tag are 3, which is no kind of block */
    MH_BAD_ZONE = 9,     /* a nonrelocatable block says that it is in another zone */
    MH_BAD_HANDLE = 10,  /* a relocatable block's master pointer isn't in the zone, by its offset from the start */
    MH_BAD_MASTER = 11,  /* a relocatable block's master pointer leads elsewhere */
    MH_BAD_FREE = 12,    /* a free master pointer isn't in the zone */
    MH_ENDLESS_FREE = 13 /* the list of free master pointers has no end: so many are found, as many as fit at all */
};
typedef struct MhWrong {
    uint32_t problem; /* MH_SHORT_ZONE to MH_ENDLESS_FREE */
    uint32_t place;   /* its address */
    uint32_t found;
    uint32_t wanted;
} MhWrong;
MhErr mh_look(const uint8_t *bytes, size_t length, uint32_t base, uint32_t mode, MhBlock *blocks, size_t room,
              size_t *count, MhWrong *wrong);

#ifdef __cplusplus
}
#endif
#endif
