/* The resource forks of the classic Macintosh, for programs in C and C++: the bytes of a fork are read, a fork is
 * written for resources, and nothing is kept. Each function that reads is given all bytes of a fork, and reads them
 * anew. Each answers with an OSErr: 0 (noErr) or a negative code, after which nothing was written. A fork is too big
 * with more than 4194304 bytes, or more than 8192 resources, or where these with 4 bytes each for their length have
 * more than 4194304; if it is damaged, too, its first fault decides, in the order of docs/FORMAT.md. What each says of
 * the bytes is what the project's contracts say: crates/fork_c/specs, and docs/FORMAT.md.
 *
 * What the caller promises, and nothing tests: a pointer is not null, is aligned, and leads to what its type and the
 * number after it say, to be read, or where it isn't const, written; those of one call don't overlap. This holds where
 * the number is 0, too. A bool is 0 or 1. Any bytes at all may be given as a fork, and any rows, names and data.
 * malloc, realloc and free of the program are those of one C library.
 */
#ifndef MACHEAP_FORK_H
#define MACHEAP_FORK_H

#include <stdbool.h>
#include <stddef.h>
#include <stdint.h>

#define MACHEAP_VERSION "0.1.0"

#ifdef __cplusplus
extern "C" {
#endif

typedef int16_t MfErr;

enum {
    MF_NO_ERR = 0,
    MF_DSK_FUL_ERR = -34,   /* the table is too big for a fork */
    MF_EOF_ERR = -39,       /* the bytes end within the header: there are fewer than 16 */
    MF_PARAM_ERR = -50,     /* there are more bytes than that, or fewer; or what is to be written is no table */
    MF_MEM_FULL_ERR = -108, /* the host has no memory */
    MF_RES_NOT_FOUND = -192,
    MF_MAP_READ_ERR = -199, /* the bytes are no fork */
    MF_TOO_BIG = -1001      /* no code of a Macintosh: the fork is bigger than these functions read */
};

/* A resource. Attributes: 64 system heap, 32 purgeable, 16 locked, 8 protected, 4 preload, 2 changed, added. */
typedef struct MfRow {
    uint8_t kind[4];
    int16_t id;
    uint8_t attributes;
    bool has_name;
    size_t name_length;
    size_t data_length;
} MfRow;

/* How many resources the fork has, and one of them, from 0 on in the order of its map. */
MfErr mf_count(const uint8_t *fork, size_t fork_length, size_t *count);
MfErr mf_row(const uint8_t *fork, size_t fork_length, size_t index, MfRow *row);

/* The bytes of its name and of its data: just as many as its row says. */
MfErr mf_name(const uint8_t *fork, size_t fork_length, size_t index, uint8_t *name, size_t name_length);
MfErr mf_data(const uint8_t *fork, size_t fork_length, size_t index, uint8_t *data, size_t data_length);

/* All resources at once, in one reading. mf_sizes says how many rows there are, and how many bytes all names and all
 * data have; mf_rows gives the rows, as mf_row shows them, the bytes of all names, one after the other, and those of
 * all data: just so many of each, or it is paramErr. So the data of a resource begin where the lengths of those before
 * it end. mf_write takes the same three. */
typedef struct MfSizes {
    size_t rows;
    size_t names;
    size_t data;
} MfSizes;
MfErr mf_sizes(const uint8_t *fork, size_t fork_length, MfSizes *sizes);
MfErr mf_rows(const uint8_t *fork, size_t fork_length, MfRow *rows, size_t count, uint8_t *names, size_t names_length,
              uint8_t *data,
              size_t data_length);

/* What a fork has beside its resources: 112 bytes for the system and 128 for the application, and the attributes of its
 * map. */
typedef struct MfExtra {
    uint8_t bytes[240];
    uint16_t map_attributes;
} MfExtra;
MfErr mf_extra(const uint8_t *fork, size_t fork_length, MfExtra *extra);

/* A fork is written for rows, as mf_row shows them, with the bytes of all their names, one after the other, and those
 * of their data. mf_written_length says how many bytes it has, and mf_write writes just so many. What is written is
 * read again as these rows. paramErr where the names or the data are fewer bytes than the rows say, or more; where a
 * name has more than 255, or where a row without one has some; where rows of one type aren't next to each other; and of
 * mf_write where fork_length is another number. dskFulErr where the fork would have more than 4194304 bytes, or one of
 * its lists more than its two bytes of offset can say. */
MfErr mf_written_length(const MfRow *rows, size_t count, const uint8_t *names, size_t names_length,
                        const uint8_t *data, size_t data_length,
                        const MfExtra *extra, size_t *length);
MfErr mf_write(const MfRow *rows, size_t count, const uint8_t *names, size_t names_length, const uint8_t *data,
               size_t data_length,
               const MfExtra *extra, uint8_t *fork, size_t fork_length);

#ifdef __cplusplus
}
#endif
#endif
