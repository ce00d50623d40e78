/* Lists the resource fork that a file holds as `resfork ls --raw` does, with all bytes of each resource read as well, and writes the fork of
 * what was read, to the second file where one is named: the code of that is the last line. Then the fork is refused cut short, row by row
 * after the last, and into too little room, and tables that aren't written are refused. */
#include "macheap_fork.h"

#include <inttypes.h>
#include <stdio.h>
#include <stdlib.h>
#include <string.h>

enum { MOST = 4194304, MOST_ROWS = 8193 };

static uint8_t fork[MOST], bytes[MOST + 1], data[MOST], names[MOST_ROWS * 255];
static MfRow rows[MOST_ROWS];
static MfExtra extra;

/* It must be so, or the program ends. */
static void must(int line, int holds) {
    if (holds) return;
    printf("line %d: it isn't so\n", line);
    exit(1);
}
#define MUST(holds) must(__LINE__, holds)

/* A byte as text: itself with a backslash before a quote and a backslash, or digits. */
static void shown(char quote, uint8_t byte) {
    if (byte < 0x20 || byte > 0x7E) {
        printf("\\x%02X", byte);
    } else {
        if (byte == quote || byte == '\\') putchar('\\');
        putchar(byte);
    }
}

/* A name, in quotes. */
static void quoted(const uint8_t *name, size_t length) {
    putchar('"');
    for (size_t n = 0; n < length; n++) shown('"', name[n]);
    putchar('"');
}

/* A type as a column: blanks at its end fill it up, but not the first one. */
static void column(const uint8_t *kind) {
    size_t bare = 4;
    while (bare > 1 && kind[bare - 1] == ' ') bare--;
    for (size_t n = 0; n < 4; n++) {
        if (n >= bare) putchar(' ');
        else if (kind[n] == ' ') printf("\\x20");
        else shown('\'', kind[n]);
    }
}

static void attributes(uint8_t set) {
    static const char *bits[] = {"bit7", "sysHeap", "purgeable", "locked", "protected", "preload", "changed", "bit0"};
    const char *before = "";
    if (!set) putchar('-');
    for (int bit = 0; bit < 8; bit++) {
        if (!(set & 0x80 >> bit)) continue;
        printf("%s%s", before, bits[bit]);
        before = ",";
    }
}

/* How many bytes the names of rows have, and their data. */
static size_t names_of(size_t count) {
    size_t all = 0;
    for (size_t n = 0; n < count; n++) all += rows[n].name_length;
    return all;
}

static size_t data_of(size_t count) {
    size_t all = 0;
    for (size_t n = 0; n < count; n++) all += rows[n].data_length;
    return all;
}

/* Reads a resource, and lists it. Its name and its data go after those of the resources before it. */
static void list(size_t length, size_t n) {
    MfRow *row = &rows[n];
    size_t name_at = names_of(n), data_at = data_of(n);
    MUST(mf_row(fork, length, n, row) == MF_NO_ERR && row->data_length <= MOST - data_at);
    MUST(mf_data(fork, length, n, data + data_at, row->data_length) == MF_NO_ERR);
    MUST(mf_data(fork, length, n, bytes, row->data_length + 1) == MF_PARAM_ERR);
    column(row->kind);
    printf(" %6" PRId16 " %8zu ", row->id, row->data_length);
    attributes(row->attributes);
    MUST(row->name_length <= (row->has_name ? 255 : 0));
    if (row->has_name) {
        MUST(mf_name(fork, length, n, names + name_at, row->name_length) == MF_NO_ERR);
        putchar(' ');
        quoted(names + name_at, row->name_length);
    }
    putchar('\n');
}

/* All resources at once are those that were read one by one; into other room than theirs nothing is written. */
static void whole(size_t length, size_t count) {
    static MfRow all[MOST_ROWS + 1];
    static uint8_t all_names[MOST_ROWS * 255 + 1], all_data[MOST + 1];
    MfSizes sizes;
    MUST(mf_sizes(fork, length, &sizes) == MF_NO_ERR && sizes.rows == count);
    MUST(sizes.names == names_of(count) && sizes.data == data_of(count));
    memset(all, 0xEE, sizeof all);
    memset(all_names, 0xEE, sizeof all_names);
    memset(all_data, 0xEE, sizeof all_data);
    MUST(mf_rows(fork, length, all, count + 1, all_names, sizes.names, all_data, sizes.data) == MF_PARAM_ERR);
    MUST(mf_rows(fork, length, all, count, all_names, sizes.names + 1, all_data, sizes.data) == MF_PARAM_ERR);
    MUST(mf_rows(fork, length, all, count, all_names, sizes.names, all_data, sizes.data + 1) == MF_PARAM_ERR);
    MUST(all[0].attributes == 0xEE && all_names[0] == 0xEE && all_data[0] == 0xEE);
    MUST(mf_rows(fork, length, all, count, all_names, sizes.names, all_data, sizes.data) == MF_NO_ERR);
    for (size_t n = 0; n < count; n++) {
        MUST(!memcmp(all[n].kind, rows[n].kind, 4) && all[n].id == rows[n].id && all[n].attributes == rows[n].attributes);
        MUST(all[n].has_name == rows[n].has_name && all[n].name_length == rows[n].name_length && all[n].data_length == rows[n].data_length);
    }
    MUST(!memcmp(all_names, names, sizes.names) && !memcmp(all_data, data, sizes.data));
    MUST(all_names[sizes.names] == 0xEE && all_data[sizes.data] == 0xEE);
}

static MfErr length_of(size_t count, size_t *length) {
    return mf_written_length(rows, count, names, names_of(count), data, data_of(count), &extra, length);
}

/* Writes the fork of the rows that were read to a file: where it is read, the same rows are in it. */
static MfErr write(size_t count, const char *name) {
    size_t length = 77, found = 0, names_length = names_of(count), data_length = data_of(count);
    MfErr code = length_of(count, &length);
    if (code != MF_NO_ERR) {
        MUST(length == 77);
        MUST(mf_write(rows, count, names, names_length, data, data_length, &extra, bytes, 0) == code);
        return code;
    }
    MUST(length <= MOST);
    memset(bytes, 0xEE, sizeof bytes);
    MUST(mf_write(rows, count, names, names_length, data, data_length, &extra, bytes, length - 1) == MF_PARAM_ERR);
    MUST(mf_write(rows, count, names, names_length, data, data_length, &extra, bytes, length + 1) == MF_PARAM_ERR);
    MUST(bytes[0] == 0xEE);
    MUST(mf_write(rows, count, names, names_length, data, data_length, &extra, bytes, length) == MF_NO_ERR);
    MUST(bytes[length] == 0xEE);
    MUST(mf_count(bytes, length, &found) == MF_NO_ERR && found == count);
    MfExtra beside;
    MUST(mf_extra(bytes, length, &beside) == MF_NO_ERR && beside.map_attributes == extra.map_attributes);
    MUST(!memcmp(beside.bytes, extra.bytes, sizeof extra.bytes));
    for (size_t n = 0; n < count; n++) {
        MfRow row;
        MUST(mf_row(bytes, length, n, &row) == MF_NO_ERR && !memcmp(row.kind, rows[n].kind, 4) && row.id == rows[n].id);
        MUST(row.attributes == rows[n].attributes && row.has_name == rows[n].has_name);
        MUST(row.name_length == rows[n].name_length && row.data_length == rows[n].data_length);
    }
    FILE *file = name ? fopen(name, "wb") : NULL;
    MUST(!name || (file && fwrite(bytes, 1, length, file) == length && !fclose(file)));
    return MF_NO_ERR;
}

static void row(size_t n, const char *kind, bool has_name, size_t name_length, size_t data_length) {
    rows[n] = (MfRow){.id = (int16_t)n, .has_name = has_name, .name_length = name_length, .data_length = data_length};
    memcpy(rows[n].kind, kind, 4);
}

/* What rows, names and data aren't a table, and what tables are too big. A call that is refused writes nothing. */
static void refused(void) {
    size_t length = 77;
    row(0, "TEXT", true, 2, 3);
    row(1, "STR ", false, 0, 0);
    row(2, "TEXT", false, 0, 0);
    MUST(length_of(3, &length) == MF_PARAM_ERR);
    MUST(mf_written_length(rows, 2, names, 1, data, 3, &extra, &length) == MF_PARAM_ERR);
    MUST(mf_written_length(rows, 2, names, 3, data, 3, &extra, &length) == MF_PARAM_ERR);
    MUST(mf_written_length(rows, 2, names, 2, data, 2, &extra, &length) == MF_PARAM_ERR);
    MUST(mf_written_length(rows, 2, names, 2, data, 4, &extra, &length) == MF_PARAM_ERR);
    rows[0].name_length = 256;
    MUST(length_of(2, &length) == MF_PARAM_ERR);
    rows[0].name_length = SIZE_MAX;
    MUST(mf_written_length(rows, 2, names, 2, data, 3, &extra, &length) == MF_PARAM_ERR);
    rows[0].name_length = 1;
    rows[0].has_name = false;
    MUST(length_of(2, &length) == MF_PARAM_ERR);
    MUST(length == 77);
    rows[0].has_name = true;
    rows[0].name_length = 255;
    MUST(length_of(2, &length) == MF_NO_ERR && length == 256 + 4 + 3 + 4 + 28 + 2 + 16 + 24 + 256);
    MUST(length_of(0, &length) == MF_NO_ERR && length == 256 + 30);
    for (size_t n = 0; n < MOST_ROWS; n++) row(n, "TEXT", false, 0, 0);
    MUST(length_of(5458, &length) == MF_NO_ERR && length == 256 + 4 * 5458 + 28 + 2 + 8 + 12 * 5458);
    MUST(length_of(5459, &length) == MF_DSK_FUL_ERR);
    MUST(length_of(MOST_ROWS, &length) == MF_DSK_FUL_ERR);
    row(0, "TEXT", false, 0, MOST - 256 - 4 - 50);
    MUST(length_of(1, &length) == MF_NO_ERR && length == MOST);
    rows[0].data_length++;
    length = 77;
    MUST(length_of(1, &length) == MF_DSK_FUL_ERR && length == 77);
}

int main(int count, char **word) {
    FILE *file = count == 2 || count == 3 ? fopen(word[1], "rb") : NULL;
    if (!file) return 2;
    size_t length = fread(fork, 1, sizeof fork, file), resources = 0;
    MUST(mf_count(fork, length, &resources) == MF_NO_ERR && resources < MOST_ROWS);
    for (size_t n = 0; n < resources; n++) list(length, n);
    whole(length, resources);
    MUST(mf_extra(fork, length, &extra) == MF_NO_ERR);
    MfErr code = write(resources, count == 3 ? word[2] : NULL);
    if (count == 3) printf("%d\n", code);
    MfRow none;
    MUST(mf_row(fork, length, resources, &none) == MF_RES_NOT_FOUND);
    MUST(mf_name(fork, length, resources, bytes, 0) == MF_RES_NOT_FOUND);
    for (size_t cut = 0; cut < length && count == 2; cut++) {
        size_t found = 77;
        MUST(mf_count(fork, cut, &found) == (cut < 16 ? MF_EOF_ERR : MF_MAP_READ_ERR) && found == 77);
        MUST(mf_rows(fork, cut, rows, resources, names, names_of(resources), data, data_of(resources)) == (cut < 16 ? MF_EOF_ERR : MF_MAP_READ_ERR));
    }
    refused();
    return 0;
}
