/* The classic Macintosh Resource Manager over a heap zone and resource forks in memory, for programs in C and C++.
 *
 * Each function is one call, made over the files and the zone that are given with it, and answers with an OSErr, as
 * those of macheap.h do. A call that is refused writes nothing through its pointers. What each does, to the byte, is
 * what the project's contracts say of the call of that name: crates/held_files/specs, and docs/THEOREM.md. A call
 * that loads a resource makes its block in the zone, and takes answers of the grow-zone procedure that are queued
 * there (mh_queue_answer).
 *
 * What the caller promises beside what macheap.h says, and nothing tests:
 *  - An MrFiles begins as MR_NO_FILES, and then only these functions write it. It may be moved, but a copy is never
 *    passed.
 *  - One call at a time on one MrFiles, which may go from thread to thread as a zone may.
 *
 * Files know handles as numbers. So that these stay those of their resources, a program does this; else a call may
 * take another block for a resource's, and harms nothing of the host:
 *  - The zones that it gives calls on files don't overlap, from where each begins to where it may grow. Before one of
 *    them ends, no resource has a handle in it (mr_first_loaded), or the files end.
 *  - A zone made of saved bytes goes with the files that mr_load makes, of bytes that mr_save copied with those. Files
 *    that are opened anew know none of its handles, and load each resource that they get once more: what was loaded
 *    is released, or detached, before the bytes are saved.
 *  - It disposes of handles by mr_dispose_handle, and after each call of macheap.h that asked (mh_asked) it calls
 *    mr_forget. A call of this header needs none after it: it has forgotten what its answers disposed of, and may
 *    have got that number for a new handle.
 *
 * What is tested: calls before mr_begin or after mr_end, or on a zone that isn't there (MH_NOT_THERE); any number as a
 * handle or a file. Files that are forgotten keep their memory: end them. Unlike those of macheap.h, these calls may
 * take memory of the host: memFullErr says that there is none, and nothing has changed then, or of a call that loads,
 * that the zone has no room.
 */
#ifndef RESMAN_H
#define RESMAN_H

#include "macheap.h"

#ifdef __cplusplus
extern "C" {
#endif

enum {
    MR_DSK_FUL_ERR = -34,          /* no fork can hold what is to be written */
    MR_IO_ERR = -36,               /* the host has no memory for a longer fork. The file is closed */
    MR_EOF_ERR = -39,              /* the fork ends too early */
    MR_TMFO_ERR = -42,             /* 255 files are open */
    MR_RESOURCE_IN_MEMORY = -188,  /* bytes were read or written, and the resource is in memory: a warning */
    MR_INPUT_OUT_OF_BOUNDS = -190, /* the resource doesn't have all these bytes in its fork, or ends before them there */
    MR_RES_NOT_FOUND = -192,       /* no such resource */
    MR_RES_F_NOT_FOUND = -193,     /* no such resource file is open */
    MR_ADD_RES_FAILED = -194,
    MR_RMV_RES_FAILED = -196,
    MR_RES_ATTR_ERR = -198, /* the resource's attributes forbid the call */
    MR_MAP_READ_ERR = -199, /* the resource map is damaged */
    /* The host's own, as those of macheap.h from MH_NOT_THERE on. */
    MR_TOO_BIG = -1001,   /* the fork is bigger than mr_open takes */
    MR_BAD_STATE = -1003, /* files that can't be saved, or no saved files of this zone */
    MR_OTHER_ZONE = -1004 /* the call has to be made over another zone (mr_other_zone) */
};

/* Resource files, or none. Its fields are the library's. */
typedef struct MrFiles {
    bool live;
    void *held;
} MrFiles;

#define MR_NO_FILES {false, NULL}

/* Begins files of which none is open. MH_IN_USE where they have begun. mr_end ends them; what isn't written stays
 * unwritten. */
MhErr mr_begin(MrFiles *files);
MhErr mr_end(MrFiles *files);

/* Opens a file on a copy of this fork, and makes it the current one: OpenResFile. No bytes are a file without
 * resources; others that are no fork are eofErr or mapReadErr. It is MR_TOO_BIG where the fork has more than 4194304
 * bytes, or more than 8192 resources, or these with 4 bytes each for their length have more than 4194304, and it isn't
 * damaged in what is looked at before that. Its number is `file`, the first from 1 to 255 of which no file is open: 255
 * files at most are open at a time, or it is tmfoErr. */
MhErr mr_open(MrFiles *files, MhZone *zone, const uint8_t *fork, size_t length, uint32_t *file);
/* How many bytes the fork of a file has now, and a copy of them, for the host to write: after an update they are the
 * new fork's. After mr_close_res_file they are there until the number is used again. MH_NONE_SUCH where `file`
 * isn't 1 to 255, MH_BAD_NUMBER where `length` is another one. */
MhErr mr_fork_size(MrFiles *files, uint32_t file, size_t *length);
MhErr mr_fork(MrFiles *files, uint32_t file, uint8_t *fork, size_t length);

/* Save states, with mh_image or the guest's memory: all that the files are, as bytes. mr_save_size says how many there
 * are, and mr_save copies just so many; MH_BAD_NUMBER where `count` is another number. mr_load makes files of them
 * where none have begun (MH_IN_USE), over the same zone or one that has its handles, as one made of its bytes: each
 * call does then what it would have done without the pause, once mr_set_system_zone is called as before. Forks, those
 * of closed files too, the files' numbers and order, the current file, what mr_set_res_load set, and what each resource
 * is, with its handle and whether it was changed, are as they were. Call mr_forget before, if the zone's last call
 * asked. It is MR_BAD_STATE where files can't be saved, since a handle of a resource that is in this zone isn't live,
 * or two resources have one handle, or the names of a file have more bytes than a fork can say; and where no mr_save
 * over this zone copies these bytes, whoever wrote them. Nothing has changed then, nor where the host has no memory
 * (memFullErr). The bytes are this library's own; the 13th is their version. */
MhErr mr_save_size(MrFiles *files, MhZone *zone, size_t *size);
MhErr mr_save(MrFiles *files, MhZone *zone, uint8_t *bytes, size_t count);
MhErr mr_load(MrFiles *files, MhZone *zone, const uint8_t *bytes, size_t count);

/* Resources. `kind` is a resource type as a number, its first letter in the highest byte: 0x54455854 for 'TEXT'.
 * mr_get_resource looks in the current file and then in those opened before it; those whose names have a 1 look in
 * the current file alone. mr_get_ind_resource looks in all open files, whichever is the current one: an index from 1 on
 * counts those of the file that was opened last, then those of the one opened before it, and so on. */
MhErr mr_get_resource(MrFiles *files, MhZone *zone, uint32_t kind, int16_t id, uint32_t *handle);
MhErr mr_get1_resource(MrFiles *files, MhZone *zone, uint32_t kind, int16_t id, uint32_t *handle);
MhErr mr_get1_ind_resource(MrFiles *files, MhZone *zone, uint32_t kind, uint32_t index, uint32_t *handle);
MhErr mr_get_ind_resource(MrFiles *files, MhZone *zone, uint32_t kind, uint32_t index, uint32_t *handle);
MhErr mr_load_resource(MrFiles *files, MhZone *zone, uint32_t handle);
MhErr mr_set_res_load(MrFiles *files, MhZone *zone, uint32_t load);
MhErr mr_release_resource(MrFiles *files, MhZone *zone, uint32_t handle);
MhErr mr_detach_resource(MrFiles *files, MhZone *zone, uint32_t handle);
/* The first resource of a type with a name, of so many bytes of MacRoman, in the order of that search. Case is ignored,
 * of a to z and of the letters with capitals in the first Macintosh's characters: $8A and $80 are the same. Diacritical
 * marks count, and $87 and $E7 aren't the same. No bytes are the name of a resource whose name is there and empty. */
MhErr mr_get_named_resource(MrFiles *files, MhZone *zone, uint32_t kind, const uint8_t *name, size_t length,
                            uint32_t *handle);
MhErr mr_get1_named_resource(MrFiles *files, MhZone *zone, uint32_t kind, const uint8_t *name, size_t length,
                             uint32_t *handle);

/* ReadPartialResource: reads so many bytes that a resource has in its fork now, from an offset on, whatever the block
 * of its handle has: one that was added and isn't written yet has none. Nothing is loaded, and the zone stays. It is
 * resourceInMemory where the bytes were read and the handle has a block, and inputOutOfBounds where the resource
 * doesn't have them all in its fork. Where none were read `bytes` stays; after ioErr it may have any. */
MhErr mr_read_partial_resource(MrFiles *files, MhZone *zone, uint32_t handle, uint32_t offset, uint8_t *bytes,
                               size_t count);
/* SetResourceSize and WritePartialResource: other bytes that a resource has in its fork, which is written at once:
 * mr_fork returns the new one. The first sets how many bytes it has there, of which those after its old end are zeros.
 * The second writes `bytes` over those from an offset on, and past its end if they go there: it is inputOutOfBounds
 * where the offset is above its size there, which mr_size_resource returns. The block of the handle stays, and so do
 * the resource's attributes and all of the zone: a resource that is marked as changed is written from its block at the
 * next update. resourceInMemory says, of the second only, that the bytes were written and the handle has a block. Other
 * resources have in the new fork the bytes that they had there, and the attributes, ids and names that they have now,
 * as after mr_write_resource. Where no fork can hold them all it is dskFulErr; where the host has no memory it is
 * memFullErr, and nothing has changed; or ioErr, in the write, and then the file is closed. */
MhErr mr_set_resource_size(MrFiles *files, MhZone *zone, uint32_t handle, uint32_t size);
MhErr mr_write_partial_resource(MrFiles *files, MhZone *zone, uint32_t handle, uint32_t offset, const uint8_t *bytes,
                                size_t count);

/* What the files say. */
MhErr mr_get_res_attrs(MrFiles *files, MhZone *zone, uint32_t handle, uint32_t *number);
MhErr mr_size_resource(MrFiles *files, MhZone *zone, uint32_t handle, uint32_t *number);
MhErr mr_home_res_file(MrFiles *files, MhZone *zone, uint32_t handle, uint32_t *number);
MhErr mr_unique1_id(MrFiles *files, MhZone *zone, uint32_t kind, uint32_t *number);
MhErr mr_count1_types(MrFiles *files, MhZone *zone, uint32_t *number);
MhErr mr_count1_resources(MrFiles *files, MhZone *zone, uint32_t kind, uint32_t *number);
MhErr mr_cur_res_file(MrFiles *files, MhZone *zone, uint32_t *number);
MhErr mr_use_res_file(MrFiles *files, MhZone *zone, uint32_t file);
MhErr mr_get1_ind_type(MrFiles *files, MhZone *zone, uint32_t index, uint32_t *kind);
/* As mr_unique1_id, mr_count1_types, mr_count1_resources and mr_get1_ind_type, of all open files together, whichever is
 * the current one: a type that several have counts once, and types of the file that was opened last come first, then
 * those that only earlier files have. The id is the least from 128 on that no resource of the type has in any of them.
 * It is addResFailed where none up to 32,767 is left. */
MhErr mr_unique_id(MrFiles *files, MhZone *zone, uint32_t kind, uint32_t *number);
MhErr mr_count_types(MrFiles *files, MhZone *zone, uint32_t *number);
MhErr mr_count_resources(MrFiles *files, MhZone *zone, uint32_t kind, uint32_t *number);
MhErr mr_get_ind_type(MrFiles *files, MhZone *zone, uint32_t index, uint32_t *kind);
/* What a resource is called. The bytes of its name are written to `name`, which has 255 at least, or it is
 * MH_BAD_NUMBER. */
typedef struct MrInfo {
    uint32_t kind;
    int16_t id;
    uint32_t name_length; /* 0 where it has none */
} MrInfo;
MhErr mr_get_res_info(MrFiles *files, MhZone *zone, uint32_t handle, MrInfo *info, uint8_t *name, size_t room);

/* Changes. Attributes are one byte. mr_add_resource makes a handle's block a resource of the current file, without a
 * name where `length` is 0. mr_set_res_info gives a resource another id, and another name, unless `length` is 0; the
 * next update of its file writes both. It is paramErr where `length` is above 255. */
MhErr mr_changed_resource(MrFiles *files, MhZone *zone, uint32_t handle);
MhErr mr_set_res_attrs(MrFiles *files, MhZone *zone, uint32_t handle, uint32_t attributes);
MhErr mr_add_resource(MrFiles *files, MhZone *zone, uint32_t handle, uint32_t kind, int16_t id, const uint8_t *name,
                      size_t length);
MhErr mr_set_res_info(MrFiles *files, uint32_t handle, int16_t id, const uint8_t *name, size_t length);
MhErr mr_rmve_resource(MrFiles *files, MhZone *zone, uint32_t handle);
MhErr mr_write_resource(MrFiles *files, MhZone *zone, uint32_t handle);
MhErr mr_update_res_file(MrFiles *files, MhZone *zone, uint32_t file);
MhErr mr_close_res_file(MrFiles *files, MhZone *zone, uint32_t file);

/* Several zones, as the system's and an application's. A resource is in the zone that has its handle, and each call is
 * given the current zone, or of one that takes a handle, the handle's. The call is MR_OTHER_ZONE, and nothing has
 * changed, where it gets or loads a resource that is in another zone, writes it, reads or writes its bytes in the fork,
 * or releases, detaches or removes it. mr_other_zone returns an address in the right zone: the resource's handle. Make
 * the call again over that zone. mr_update_res_file is MR_OTHER_ZONE where a changed resource of the file is in another
 * zone, and mr_close_res_file where any is: mr_other_zone returns the first one's handle. Write it by mr_write_resource
 * over its zone, and before the file is closed give it up by mr_release_resource; and so on with each.
 * mr_set_system_zone says which address the system zone has: from then on a resource with resSysHeap (64) that has no
 * handle yet is got over that zone alone. With 0, as at first, it is got as all others are. mr_first_loaded returns the
 * first handle that a resource has in a zone, and MH_NONE_SUCH where there is none: before a zone ends, dispose of
 * each. mr_save needs one zone alone; mr_save_size over another one is MR_BAD_STATE where a handle that is there isn't
 * live. */
MhErr mr_other_zone(MrFiles *files, uint32_t *address);
MhErr mr_set_system_zone(MrFiles *files, uint32_t address);
MhErr mr_first_loaded(MrFiles *files, MhZone *zone, uint32_t *handle);

/* Handles that go. mr_dispose_handle is mh_dispose_handle, and no resource has the handle then. After mr_forget no
 * resource has a handle that an answer of the grow-zone procedure disposed of in the zone's last call. */
MhErr mr_dispose_handle(MrFiles *files, MhZone *zone, uint32_t handle);
MhErr mr_forget(MrFiles *files, MhZone *zone);

#ifdef __cplusplus
}
#endif

#endif
