/* The calls of toolbox.h over malloc: blocks stay where they are, nothing is purged, and there is always room. Runs a program: native N. */
#include "toolbox.h"

#include <stdio.h>
#include <stdlib.h>
#include <string.h>

void run(int32_t program);

/* A block with its size; the handle is the address of its first field. */
typedef struct Block { uint8_t *bytes; int32_t size; } Block;

static Block *block_of(Handle handle) { return (Block *)(void *)handle; }

Handle NewHandle(int32_t size) {
    Block *block = malloc(sizeof *block);
    block->bytes = calloc(1, (size_t)size + 1);
    block->size = size;
    return &block->bytes;
}
int32_t DisposeHandle(Handle handle) {
    free(*handle);
    free(block_of(handle));
    return 0;
}
int32_t GetHandleSize(Handle handle) { return block_of(handle)->size; }
OSErr SetHandleSize(Handle handle, int32_t size) {
    *handle = realloc(*handle, (size_t)size + 1);
    block_of(handle)->size = size;
    return 0;
}
OSErr ReallocateHandle(Handle handle, int32_t size) { return SetHandleSize(handle, size); }
int32_t HLock(Handle handle) { return (void)handle, 0; }
int32_t HUnlock(Handle handle) { return (void)handle, 0; }
int32_t HPurge(Handle handle) { return (void)handle, 0; }
int32_t HNoPurge(Handle handle) { return (void)handle, 0; }
int32_t MoveHHi(Handle handle) { return (void)handle, 0; }
int32_t EmptyHandle(Handle handle) {
    free(*handle);
    *handle = NULL;
    block_of(handle)->size = 0;
    return 0;
}
int32_t CompactMem(int32_t size) { return size; }
OSErr PtrAndHand(const void *bytes, Handle handle, int32_t count) {
    int32_t before = GetHandleSize(handle);
    SetHandleSize(handle, before + count);
    memcpy(*handle + before, bytes, (size_t)count);
    return 0;
}
OSErr HandAndHand(Handle one, Handle other) {
    int32_t count = GetHandleSize(one), before = GetHandleSize(other);
    SetHandleSize(other, before + count);
    memmove(*other + before, *one, (size_t)count);
    return 0;
}
OSErr HandToHand(Handle *handle) {
    Handle copy = NewHandle(GetHandleSize(*handle));
    memcpy(*copy, **handle, (size_t)GetHandleSize(*handle));
    *handle = copy;
    return 0;
}
void SetGrowZone(int on) { (void)on; }

/* Two resource files. A row has what was written for it, and its handle, if it is loaded. */
typedef struct Row { uint32_t kind; int16_t id; Handle handle; uint8_t *written; int32_t count; int changed; } Row;
static Row rows[2][64];
static int counts[2], current;

static Row *row_of(Handle handle) {
    for (int file = 0; file < 2; file++)
        for (int n = 0; n < counts[file]; n++)
            if (rows[file][n].handle == handle) return &rows[file][n];
    abort();
}
static void write_row(Row *row) {
    if (!row->changed) return;
    row->written = realloc(row->written, (size_t)GetHandleSize(row->handle) + 1);
    memcpy(row->written, *row->handle, (size_t)(row->count = GetHandleSize(row->handle)));
    row->changed = 0;
}
/* In the current file, and else in the one that was opened before it. */
Handle GetResource(uint32_t kind, int16_t id) {
    for (int file = current; file >= 0; file--)
        for (int n = 0; n < counts[file]; n++) {
            Row *row = &rows[file][n];
            if (row->kind != kind || row->id != id) continue;
            if (!row->handle) {
                row->handle = NewHandle(row->count);
                memcpy(*row->handle, row->written, (size_t)row->count);
            }
            return row->handle;
        }
    return NULL;
}
void AddResource(Handle handle, uint32_t kind, int16_t id) { rows[current][counts[current]++] = (Row){kind, id, handle, NULL, 0, 1}; }
void ReleaseResource(Handle handle) {
    row_of(handle)->handle = NULL;
    DisposeHandle(handle);
}
void DetachResource(Handle handle) { row_of(handle)->handle = NULL; }
void ChangedResource(Handle handle) { row_of(handle)->changed = 1; }
void WriteResource(Handle handle) { write_row(row_of(handle)); }
void RmveResource(Handle handle) {
    Row *row = row_of(handle), *last = &rows[current][--counts[current]];
    memmove(row, row + 1, (size_t)(last - row) * sizeof *row);
}
void UseResFile(int16_t file) { current = file - 1; }
void UpdateResFile(int16_t file) {
    for (int n = 0; n < counts[file - 1]; n++) write_row(&rows[file - 1][n]);
}
int16_t Count1Resources(uint32_t kind) {
    int count = 0;
    for (int n = 0; n < counts[current]; n++) count += rows[current][n].kind == kind;
    return (int16_t)count;
}
void reopen(void) {
    for (int file = 0; file < 2; file++)
        for (int n = 0; n < counts[file]; n++) rows[file][n].handle = NULL;
}

void show_char(char letter) { putchar(letter); }
void happened(int32_t count) { (void)count; }

int main(int count, char **words) {
    if (count != 2) return 2;
    run(atoi(words[1]));
    return 0;
}
