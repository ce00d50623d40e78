/* The calls of a Macintosh that the guest's programs make: traps on a 68000, and functions over malloc elsewhere. */
#ifndef TOOLBOX_H
#define TOOLBOX_H

#include <stdint.h>

typedef uint8_t *Ptr;
typedef Ptr *Handle;
typedef int16_t OSErr;

/* Whether programs see what a Macintosh does with their blocks: they move, and purgeable ones go. */
#ifdef __m68k__
#define ON_68000 1
#else
#define ON_68000 0
#endif

#if ON_68000

#define CLOBBERS "d1", "d2", "a1", "memory", "cc"

/* A trap that takes a handle in A0, and gives its code, or a number, in D0. */
#define OF_HANDLE(name, word) \
    static inline int32_t name(Handle handle) { \
        register Handle a0 __asm__("a0") = handle; \
        register int32_t d0 __asm__("d0"); \
        __asm__ volatile(".short " #word : "=d"(d0), "+a"(a0) : : CLOBBERS); \
        return d0; \
    }
OF_HANDLE(DisposeHandle, 0xA023)
OF_HANDLE(GetHandleSize, 0xA025)
OF_HANDLE(HLock, 0xA029)
OF_HANDLE(HUnlock, 0xA02A)
OF_HANDLE(EmptyHandle, 0xA02B)
OF_HANDLE(HPurge, 0xA049)
OF_HANDLE(HNoPurge, 0xA04A)
OF_HANDLE(MoveHHi, 0xA064)

/* A trap that takes a handle in A0 and a size in D0, and gives its code in D0. */
#define OF_SIZE(name, word) \
    static inline OSErr name(Handle handle, int32_t size) { \
        register Handle a0 __asm__("a0") = handle; \
        register int32_t d0 __asm__("d0") = size; \
        __asm__ volatile(".short " #word : "+d"(d0), "+a"(a0) : : CLOBBERS); \
        return (OSErr)d0; \
    }
OF_SIZE(SetHandleSize, 0xA024)
OF_SIZE(ReallocateHandle, 0xA027)

static inline Handle NewHandle(int32_t size) {
    register int32_t d0 __asm__("d0") = size;
    register Handle a0 __asm__("a0");
    __asm__ volatile(".short 0xA122" : "+d"(d0), "=a"(a0) : : CLOBBERS);
    return d0 == 0 ? a0 : 0;
}

static inline int32_t CompactMem(int32_t size) {
    register int32_t d0 __asm__("d0") = size;
    __asm__ volatile(".short 0xA04C" : "+d"(d0) : : "a0", CLOBBERS);
    return d0;
}

static inline OSErr HandToHand(Handle *handle) {
    register Handle a0 __asm__("a0") = *handle;
    register int32_t d0 __asm__("d0");
    __asm__ volatile(".short 0xA9E1" : "=d"(d0), "+a"(a0) : : CLOBBERS);
    *handle = a0;
    return (OSErr)d0;
}

static inline OSErr PtrAndHand(const void *bytes, Handle handle, int32_t count) {
    register const void *a0 __asm__("a0") = bytes;
    register Handle a1 __asm__("a1") = handle;
    register int32_t d0 __asm__("d0") = count;
    __asm__ volatile(".short 0xA9EF" : "+d"(d0), "+a"(a0), "+a"(a1) : : "d1", "d2", "memory", "cc");
    return (OSErr)d0;
}

static inline OSErr HandAndHand(Handle one, Handle other) {
    register Handle a0 __asm__("a0") = one;
    register Handle a1 __asm__("a1") = other;
    register int32_t d0 __asm__("d0");
    __asm__ volatile(".short 0xA9E4" : "=d"(d0), "+a"(a0), "+a"(a1) : : "d1", "d2", "memory", "cc");
    return (OSErr)d0;
}

/* The procedure takes what is needed from the stack, and leaves what it released above it, as Pascal's functions do. */
void guest_grow_zone(void);
static inline void SetGrowZone(int on) {
    register void *a0 __asm__("a0") = on ? (void *)guest_grow_zone : 0;
    register int32_t d0 __asm__("d0");
    __asm__ volatile(".short 0xA04B" : "=d"(d0), "+a"(a0) : : CLOBBERS);
}

/* Resources: the operands are on the stack. */
static inline Handle GetResource(uint32_t kind, int16_t id) {
    Handle handle;
    __asm__ volatile("subq.l #4,%%sp\n\tmove.l %1,-(%%sp)\n\tmove.w %2,-(%%sp)\n\t.short 0xA9A0\n\tmove.l (%%sp)+,%0" : "=d"(handle) : "d"(kind), "d"(id) : "d0", "a0", CLOBBERS);
    return handle;
}
static inline void AddResource(Handle handle, uint32_t kind, int16_t id) {
    __asm__ volatile("move.l %0,-(%%sp)\n\tmove.l %1,-(%%sp)\n\tmove.w %2,-(%%sp)\n\tclr.l -(%%sp)\n\t.short 0xA9AB" : : "d"(handle), "d"(kind), "d"(id) : "d0", "a0", CLOBBERS);
}
#define OF_RESOURCE(name, word) \
    static inline void name(Handle handle) { __asm__ volatile("move.l %0,-(%%sp)\n\t.short " #word : : "d"(handle) : "d0", "a0", CLOBBERS); }
OF_RESOURCE(ReleaseResource, 0xA9A3)
OF_RESOURCE(ChangedResource, 0xA9AA)
OF_RESOURCE(RmveResource, 0xA9AD)
OF_RESOURCE(WriteResource, 0xA9B0)
OF_RESOURCE(DetachResource, 0xA992)
#define OF_FILE(name, word) \
    static inline void name(int16_t file) { __asm__ volatile("move.w %0,-(%%sp)\n\t.short " #word : : "d"(file) : "d0", "a0", CLOBBERS); }
OF_FILE(UseResFile, 0xA998)
OF_FILE(UpdateResFile, 0xA999)
static inline int16_t Count1Resources(uint32_t kind) {
    int16_t count;
    __asm__ volatile("clr.w -(%%sp)\n\tmove.l %1,-(%%sp)\n\t.short 0xA80D\n\tmove.w (%%sp)+,%0" : "=d"(count) : "d"(kind) : "d0", "a0", CLOBBERS);
    return count;
}

/* The host's own traps: a character is shown; how often something happened, which the host alone shows; and both resource files are
 * closed, and opened anew on what was written to them. */
static inline void show_char(char letter) {
    register int32_t d0 __asm__("d0") = letter;
    __asm__ volatile(".short 0xAFFF" : "+d"(d0) : : "memory", "cc");
}
static inline void happened(int32_t count) {
    register int32_t d0 __asm__("d0") = count;
    __asm__ volatile(".short 0xAFFE" : "+d"(d0) : : "memory", "cc");
}
static inline void reopen(void) { __asm__ volatile(".short 0xAFFD" : : : "d0", "a0", CLOBBERS); }

#else

int32_t DisposeHandle(Handle handle);
int32_t GetHandleSize(Handle handle);
int32_t HLock(Handle handle);
int32_t HUnlock(Handle handle);
int32_t EmptyHandle(Handle handle);
int32_t HPurge(Handle handle);
int32_t HNoPurge(Handle handle);
int32_t MoveHHi(Handle handle);
OSErr SetHandleSize(Handle handle, int32_t size);
OSErr ReallocateHandle(Handle handle, int32_t size);
Handle NewHandle(int32_t size);
int32_t CompactMem(int32_t size);
OSErr HandToHand(Handle *handle);
OSErr PtrAndHand(const void *bytes, Handle handle, int32_t count);
OSErr HandAndHand(Handle one, Handle other);
void SetGrowZone(int on);
Handle GetResource(uint32_t kind, int16_t id);
void AddResource(Handle handle, uint32_t kind, int16_t id);
void ReleaseResource(Handle handle);
void ChangedResource(Handle handle);
void RmveResource(Handle handle);
void WriteResource(Handle handle);
void DetachResource(Handle handle);
void UseResFile(int16_t file);
void UpdateResFile(int16_t file);
int16_t Count1Resources(uint32_t kind);
void show_char(char letter);
void happened(int32_t count);
void reopen(void);

#endif

/* The bytes of a handle's block: a master pointer has flags in its high byte where addresses have 24 bits. */
static inline Ptr bytes_of(Handle handle) {
#if ON_68000
    return *(volatile uint8_t *)0xCB2 ? *handle : (Ptr)((uint32_t)*handle & 0xFFFFFF);
#else
    return *handle;
#endif
}

#endif
