/* Programs of the guest: each does with its heap what programs of the Macintosh did, and shows what it finds. What one shows doesn't hang on
 * where blocks lie, whether they were purged, nor what the heap asked for; so it is the same over malloc. */
#include "toolbox.h"

enum { MOST = 2000, DATA = 0x44415441, CODE = 0x434F4445 };

/* arithmetic that a 68000 has no instruction for */
#if ON_68000
uint32_t __mulsi3(uint32_t one, uint32_t other) {
    uint32_t product = 0;
    for (; other != 0; other >>= 1, one <<= 1)
        if (other & 1) product += one;
    return product;
}
uint32_t __udivsi3(uint32_t dividend, uint32_t divisor);
uint32_t __umodsi3(uint32_t dividend, uint32_t divisor) {
    uint32_t rest = 0;
    for (int bit = 31; bit >= 0; bit--) {
        rest = rest << 1 | (dividend >> bit & 1);
        if (rest >= divisor) rest -= divisor;
    }
    return rest;
}
uint32_t __udivsi3(uint32_t dividend, uint32_t divisor) {
    uint32_t rest = 0, quotient = 0;
    for (int bit = 31; bit >= 0; bit--) {
        rest = rest << 1 | (dividend >> bit & 1);
        quotient <<= 1;
        if (rest >= divisor) rest -= divisor, quotient |= 1;
    }
    return quotient;
}
int32_t __modsi3(int32_t dividend, int32_t divisor) { return (int32_t)((uint32_t)dividend % (uint32_t)divisor); } /* of numbers from 0 on */
void *memcpy(void *to, const void *from, unsigned long count) {
    for (unsigned long n = 0; n < count; n++) ((uint8_t *)to)[n] = ((const uint8_t *)from)[n];
    return to;
}
void *memset(void *to, int byte, unsigned long count) {
    for (unsigned long n = 0; n < count; n++) ((uint8_t *)to)[n] = (uint8_t)byte;
    return to;
}
#endif

static uint32_t seed;
static Handle handles[MOST];
static int32_t sizes[MOST];

/* A number below a bound. */
static uint32_t any(uint32_t bound) {
    seed = seed * 1103515245u + 12345u;
    return (seed >> 8) % bound;
}

static void show(const char *text) {
    while (*text) show_char(*text++);
}

static void show_number(const char *name, uint32_t number) {
    char digits[12];
    int count = 0;
    show(name);
    show_char(' ');
    do digits[count++] = (char)('0' + number % 10), number /= 10;
    while (number != 0);
    while (count > 0) show_char(digits[--count]);
    show_char('\n');
}

static uint32_t hash_of(const uint8_t *bytes, int32_t count) {
    uint32_t hash = 2166136261u;
    for (int32_t n = 0; n < count; n++) hash = (hash ^ bytes[n]) * 16777619u;
    return hash;
}

static void fill(Handle handle, int32_t count, uint32_t key) {
    Ptr bytes = bytes_of(handle);
    for (int32_t n = 0; n < count; n++) bytes[n] = (uint8_t)(key + (uint32_t)n * 7);
}

/* How many bytes of a block aren't those of its key. */
static uint32_t wrong_in(Handle handle, int32_t count, uint32_t key) {
    Ptr bytes = bytes_of(handle);
    uint32_t wrong = 0;
    for (int32_t n = 0; n < count; n++) wrong += bytes[n] != (uint8_t)(key + (uint32_t)n * 7);
    return wrong;
}

/* Words are sorted, each in a handle of its own, while blocks grow and shrink and so move. */
static void sorting(void) {
    enum { WORDS = 300 };
    uint32_t hash = 0;
    for (int n = 0; n < WORDS; n++) {
        int32_t length = 1 + (int32_t)any(40);
        handles[n] = NewHandle(length + 1);
        Ptr word = bytes_of(handles[n]);
        for (int32_t at = 0; at < length; at++) word[at] = (uint8_t)('a' + any(26));
        word[length] = 0;
    }
    for (int gap = WORDS / 2; gap > 0; gap /= 2)
        for (int n = gap; n < WORDS; n++)
            for (int at = n - gap; at >= 0; at -= gap) {
                const uint8_t *one = bytes_of(handles[at]), *other = bytes_of(handles[at + gap]);
                while (*one && *one == *other) one++, other++;
                if (*one <= *other) break;
                Handle swapped = handles[at];
                handles[at] = handles[at + gap];
                handles[at + gap] = swapped;
                Handle moved = handles[any(WORDS)];
                int32_t size = GetHandleSize(moved);
                SetHandleSize(moved, size + 64);
                SetHandleSize(moved, size);
            }
    for (int n = 0; n < WORDS; n++) {
        hash = hash * 31 + hash_of(bytes_of(handles[n]), GetHandleSize(handles[n]));
        if (n % 60 == 0) show((const char *)bytes_of(handles[n])), show_char('\n');
    }
    show_number("sorted", hash);
}

/* A text with a gap at the place where it is edited. */
static void editing(void) {
    int32_t before = 0, gap = 16, length = 16;
    Handle text = NewHandle(length);
    for (int n = 0; n < 3000; n++) {
        int32_t to = (int32_t)any((uint32_t)(length - gap) + 1);
        Ptr bytes = bytes_of(text);
        for (; before > to; before--) bytes[before + gap - 1] = bytes[before - 1];
        for (; before < to; before++) bytes[before] = bytes[before + gap];
        if (any(3) == 0 && before > 0) before--, gap++;
        else bytes[before++] = (uint8_t)(' ' + any(95)), gap--;
        if (gap > 0) continue;
        handles[n % 64] = NewHandle(24);
        SetHandleSize(text, length + 32);
        bytes = bytes_of(text);
        for (int32_t at = length; at > before; at--) bytes[at + 31] = bytes[at - 1];
        gap = 32, length += 32;
    }
    Ptr bytes = bytes_of(text);
    show_number("letters", (uint32_t)(length - gap));
    show_number("text", hash_of(bytes, before) ^ hash_of(bytes + before + gap, length - before - gap));
}

/* A block is locked by its bit in the master pointer, as programs did, and stays where it is until the bit is cleared. */
static void locking(void) {
    uint32_t stayed = 0, wrong = 0;
    for (int n = 0; n < 200; n++) handles[n] = NewHandle(sizes[n] = 10 + (int32_t)any(90)), fill(handles[n], sizes[n], (uint32_t)n);
    for (int round = 0; round < 20; round++) {
        int kept = (int)any(200);
#if ON_68000
        if (!*(volatile uint8_t *)0xCB2) *(uint8_t *)handles[kept] |= 0x80;
        else HLock(handles[kept]);
#else
        HLock(handles[kept]);
#endif
        Ptr place = bytes_of(handles[kept]);
        for (int n = 0; n < 200; n += 1 + (int)any(9)) {
            if (n == kept) continue;
            SetHandleSize(handles[n], sizes[n] = 10 + (int32_t)any(90));
            fill(handles[n], sizes[n], (uint32_t)n);
        }
        CompactMem(1000000);
        stayed += bytes_of(handles[kept]) == place;
#if ON_68000
        if (!*(volatile uint8_t *)0xCB2) *(uint8_t *)handles[kept] &= 0x7F;
        else HUnlock(handles[kept]);
#else
        HUnlock(handles[kept]);
#endif
    }
    for (int n = 0; n < 200; n++) wrong += wrong_in(handles[n], sizes[n], (uint32_t)n);
    show_number("stayed", stayed);
    show_number("wrong", wrong);
}

/* A cache of blocks that may be purged, and are made again where they were. */
static void caching(void) {
    enum { BLOCKS = 60, SIZE = 1000 };
    uint32_t sum = 0, purged = 0;
    for (int n = 0; n < BLOCKS; n++) {
        handles[n] = NewHandle(SIZE);
        fill(handles[n], SIZE, (uint32_t)n);
        HPurge(handles[n]);
    }
    for (int n = 0; n < 2000; n++) {
        uint32_t which = any(BLOCKS);
        if (bytes_of(handles[which]) == 0) {
            purged++;
            if (ReallocateHandle(handles[which], SIZE) != 0) show("no room\n");
            fill(handles[which], SIZE, which);
        }
        HNoPurge(handles[which]);
        Handle more = NewHandle(100 + (int32_t)any(500));
        sum += bytes_of(handles[which])[any(SIZE)];
        DisposeHandle(more);
        HPurge(handles[which]);
    }
    show_number("sum", sum);
    happened((int32_t)purged);
}

/* A grow-zone procedure gives up 800 bytes of a reserve at a time. */
static int reserve;
static int32_t asked;
int32_t release_some(int32_t needed) {
    (void)needed;
    asked++;
    if (reserve == 0) return 0;
    DisposeHandle(handles[--reserve]);
    return 800;
}
#if ON_68000
__asm__("guest_grow_zone:\n\tmove.l 4(%sp),-(%sp)\n\tjsr release_some\n\taddq.l #4,%sp\n\tmove.l %d0,8(%sp)\n\tmove.l (%sp)+,(%sp)\n\trts");
#endif
static void growing(void) {
    uint32_t wrong = 0;
    for (reserve = 0; reserve < 70; reserve++)
        if (!(handles[reserve] = NewHandle(800))) break;
    SetGrowZone(1);
    Handle large = NewHandle(40000);
    if (!large) show("no room\n");
    else {
        fill(large, 40000, 3);
        for (int n = 0; n < 5; n++) {
            Handle more = NewHandle(500);
            if (!more) show("no room for more\n");
            else fill(more, 500, 9), wrong += wrong_in(more, 500, 9);
        }
        wrong += wrong_in(large, 40000, 3);
    }
    SetGrowZone(0);
    show_number("wrong", wrong);
    happened(asked);
}

/* A tree of records, each in a handle that has the handles of two others. */
typedef struct Node { uint32_t key; Handle left, right; } Node;
static Handle root;
static Node *node(Handle handle) { return (Node *)bytes_of(handle); }
static void insert(uint32_t key) {
    Handle made = NewHandle(sizeof(Node));
    Node *it = node(made);
    it->key = key, it->left = it->right = 0;
    if (!root) { root = made; return; }
    for (Handle at = root;;) {
        Handle *next = key < node(at)->key ? &node(at)->left : &node(at)->right;
        if (!*next) { *next = made; return; }
        at = *next;
    }
}
static void remove_least(void) {
    Handle above = 0, at = root;
    while (node(at)->left) above = at, at = node(at)->left;
    if (above) node(above)->left = node(at)->right;
    else root = node(at)->right;
    DisposeHandle(at);
}
static uint32_t walk(Handle at, uint32_t hash) {
    if (!at) return hash;
    hash = walk(node(at)->left, hash);
    hash = hash * 31 + node(at)->key;
    return walk(node(at)->right, hash);
}
static void records(void) {
    for (int n = 0; n < 600; n++) {
        insert(any(100000));
        if (n % 3 == 2) remove_least();
        if (n % 50 == 0) CompactMem(1000000);
    }
    show_number("keys", walk(root, 0));
}

/* Resources in two files, changed, written, released, and read again. */
static void resources(void) {
    uint32_t hash = 0;
    for (int16_t file = 1; file <= 2; file++) {
        UseResFile(file);
        for (int16_t id = 128; id < 148; id++) {
            int32_t size = 10 + (int32_t)any(200);
            Handle made = NewHandle(size);
            fill(made, size, (uint32_t)(file * 100 + id));
            AddResource(made, DATA, id);
        }
        UpdateResFile(file);
    }
    for (int n = 0; n < 100; n++) {
        UseResFile((int16_t)(1 + any(2)));
        Handle it = GetResource(DATA, (int16_t)(128 + any(20)));
        int32_t size = GetHandleSize(it);
        switch (any(4)) {
        case 0: SetHandleSize(it, size + 8), fill(it, size + 8, (uint32_t)n), ChangedResource(it), WriteResource(it); break;
        case 1: fill(it, size, (uint32_t)n), ChangedResource(it), UpdateResFile(1), UpdateResFile(2); break;
        case 2: UpdateResFile(1), UpdateResFile(2), ReleaseResource(it); break;
        default: CompactMem(1000000);
        }
    }
    reopen();
    for (int16_t file = 1; file <= 2; file++) {
        UseResFile(file);
        show_number("resources", (uint32_t)Count1Resources(DATA));
        for (int16_t id = 128; id < 148; id++) {
            Handle it = GetResource(DATA, id);
            hash = hash * 31 + hash_of(bytes_of(it), GetHandleSize(it));
            if (id % 5 == 0) RmveResource(it);
        }
        UpdateResFile(file);
        show_number("fewer", (uint32_t)Count1Resources(DATA));
    }
    show_number("contents", hash);
}

/* A segment of code is a resource: it is loaded, locked, called, unlocked, moved and called again. */
#if ON_68000
extern const uint8_t segment[], segment_end[];
__asm__("segment:\n\tmove.l 4(%sp),%d0\n\tlsl.l #3,%d0\n\tsub.l 4(%sp),%d0\n\taddi.l #5,%d0\n\trts\nsegment_end:");
#else
static const uint8_t segment[14];
static const uint8_t *const segment_end = segment + 14;
static uint32_t in_segment(uint32_t number) { return number * 7 + 5; }
#endif
static void segments(void) {
    int32_t size = (int32_t)(segment_end - segment);
    uint32_t number = 1;
    UseResFile(1);
    Handle made = NewHandle(size);
    for (int32_t n = 0; n < size; n++) bytes_of(made)[n] = segment[n];
    AddResource(made, CODE, 1);
    UpdateResFile(1);
    for (int n = 0; n < 40; n++) {
        Handle below = NewHandle(16 + (int32_t)any(400)), code = GetResource(CODE, 1);
        MoveHHi(code);
        HLock(code);
#if ON_68000
        number = ((uint32_t(*)(uint32_t))bytes_of(code))(number);
#else
        number = in_segment(number);
#endif
        HUnlock(code);
        if (n % 2) ReleaseResource(code);
        DisposeHandle(below);
        handles[n] = NewHandle(20 + (int32_t)any(200));
        fill(handles[n], 20, 0xFF);
        CompactMem(1000000);
    }
    show_number("number", number);
}

/* Texts that are put together, and copies of them. */
static void joining(void) {
    uint32_t hash = 0;
    for (int n = 0; n < 40; n++) handles[n] = NewHandle(0);
    for (int n = 0; n < 1500; n++) {
        uint32_t one = any(40), other = any(40);
        uint8_t word[8];
        for (int at = 0; at < 8; at++) word[at] = (uint8_t)('A' + any(26));
        if (n % 50 == 0) {
            Handle copy = handles[one];
            HandToHand(&copy);
            DisposeHandle(handles[one]);
            handles[one] = copy;
        }
        if (n % 30 == 0 && GetHandleSize(handles[other]) < 400) HandAndHand(handles[one], handles[other]);
        else PtrAndHand(word, handles[one], 1 + (int32_t)any(8));
    }
    for (int n = 0; n < 40; n++) hash = hash * 31 + hash_of(bytes_of(handles[n]), GetHandleSize(handles[n]));
    show_number("joined", hash);
}

/* Many handles that come, go and change their sizes. */
static void many(void) {
    uint32_t wrong = 0, live = 0, total = 0;
    for (int n = 0; n < MOST; n++) handles[n] = 0;
    for (int n = 0; n < 6000; n++) {
        uint32_t at = any(MOST);
        if (!handles[at]) handles[at] = NewHandle(sizes[at] = (int32_t)any(200)), fill(handles[at], sizes[at], at);
        else if (any(3) == 0) wrong += wrong_in(handles[at], sizes[at], at), DisposeHandle(handles[at]), handles[at] = 0;
        else {
            wrong += wrong_in(handles[at], sizes[at], at);
            SetHandleSize(handles[at], sizes[at] = (int32_t)any(300));
            fill(handles[at], sizes[at], at);
        }
    }
    for (uint32_t n = 0; n < MOST; n++)
        if (handles[n]) live++, total += (uint32_t)GetHandleSize(handles[n]), wrong += wrong_in(handles[n], sizes[n], n);
    show_number("live", live);
    show_number("bytes", total);
    show_number("wrong", wrong);
}

#if ON_68000
__attribute__((section(".first")))
#endif
void
run(int32_t program) {
    seed = 1984;
    switch (program) {
    case 0: sorting(); break;
    case 1: editing(); break;
    case 2: locking(); break;
    case 3: caching(); break;
    case 4: growing(); break;
    case 5: records(); break;
    case 6: resources(); break;
    case 7: segments(); break;
    case 8: joining(); break;
    default: many();
    }
}
