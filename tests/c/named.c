/* Resources by their names, and other names for them: in forks that are made here, and in those of the files that its words name, whose
 * maps it reads by itself. It compares what C gets with what is expected, prints a line for each that differs, and ends with status 1
 * then. */
#include "checks.h"
#include "macheap_fork.h"
#include "resman.h"

#include <string.h>

enum { BASE = 0x100000, SIZE = 0x100000, MOST = 0x80000, TEXT = 0x54455854, STR = 0x53545220 };

static MhZone zone = MH_NO_ZONE;
static MrFiles files = MR_NO_FILES;
static uint8_t fork[MOST];

typedef MhErr Named(MrFiles *, MhZone *, uint32_t, const uint8_t *, size_t, uint32_t *);

/* The id of the resource that a call gets by a name, and where it gets none, the code less 100,000. Its bytes are in the zone. */
static int64_t id_of(Named *call, uint32_t kind, const char *name, size_t length) {
    uint32_t handle = 0, size = 0, whole = 0;
    MrInfo info = {0, 0, 0};
    uint8_t own[255];
    MhErr code = call(&files, &zone, kind, (const uint8_t *)name, length, &handle);
    if (code != MH_NO_ERR) return code - 100000;
    IS(mr_get_res_info(&files, &zone, handle, &info, own, sizeof own), MH_NO_ERR);
    IS(info.kind, kind);
    IS(info.name_length, length);
    IS(mr_size_resource(&files, &zone, handle, &size), MH_NO_ERR);
    IS(mh_get_handle_size(&zone, handle, &whole), MH_NO_ERR);
    IS(whole, size);
    return info.id;
}
#define ANY(kind, name) id_of(mr_get_named_resource, kind, name, sizeof name - 1)
#define HERE(kind, name) id_of(mr_get1_named_resource, kind, name, sizeof name - 1)
#define CODE(code) (code - 100000)

typedef struct Given {
    const char *kind;
    int16_t id;
    const char *name; /* NULL: none */
} Given;

/* Opens a file with these resources, each of 3 bytes. */
static void opened(const Given *given, size_t count, uint32_t number) {
    static const MfExtra extra;
    static const uint8_t data[30] = {1, 2, 3};
    MfRow rows[10];
    uint8_t names[300];
    size_t names_length = 0, length = 0;
    for (size_t n = 0; n < count; n++) {
        size_t long_name = given[n].name ? strlen(given[n].name) : 0;
        MfRow row = {{0}, given[n].id, 0, given[n].name != NULL, long_name, 3};
        memcpy(row.kind, given[n].kind, 4);
        if (long_name) memcpy(names + names_length, given[n].name, long_name);
        names_length += long_name;
        rows[n] = row;
    }
    uint32_t file = 0;
    IS(mf_written_length(rows, count, names, names_length, data, 3 * count, &extra, &length), MF_NO_ERR);
    IS(mf_write(rows, count, names, names_length, data, 3 * count, &extra, fork, length), MF_NO_ERR);
    IS(mr_open(&files, &zone, fork, length, &file), MH_NO_ERR);
    IS(file, number);
}

/* What the book says: the current file and those before it; the first of a type; case apart from a to z and the letters with marks
 * that the first Macintosh had, as $8A and $80, but not the marks themselves, nor $87 and $E7, whose case came later. */
static void by_hand(void) {
    static const Given one[] = {
        {"TEXT", 130, NULL}, {"TEXT", 128, "Read Me"}, {"TEXT", 129, "read me"}, {"TEXT", 131, "Read M"},
        {"STR ", 5, "B\x8Ar"}, {"STR ", 6, "Bar"}, {"STR ", 8, "\x87 la"}, {"STR ", 9, "[a]"},
    };
    static const Given two[] = {{"STR ", 7, "READ ME"}, {"STR ", 200, "\x86" "ber"}, {"TEXT", 201, "other"}};
    uint32_t handle = 0, size = 0;
    char none[256];
    memset(none, 'a', sizeof none);
    IS(ANY(TEXT, "Read Me"), CODE(MR_RES_F_NOT_FOUND));
    opened(one, 8, 1);
    opened(two, 3, 2);
    IS(ANY(TEXT, "READ ME"), 128);
    IS(HERE(TEXT, "READ ME"), CODE(MR_RES_NOT_FOUND));
    IS(HERE(STR, "read me"), 7);
    IS(ANY(STR, "B\x80R"), 5);
    IS(ANY(STR, "bAR"), 6);
    IS(ANY(STR, "\x9F" "BER"), 200);
    IS(ANY(STR, "uber"), CODE(MR_RES_NOT_FOUND));
    IS(ANY(STR, "\x87 LA"), 8);
    IS(ANY(STR, "\xE7 la"), CODE(MR_RES_NOT_FOUND));
    IS(ANY(STR, "{A}"), CODE(MR_RES_NOT_FOUND));
    IS(ANY(STR, "[A]"), 9);
    IS(ANY(TEXT, "Read M"), 131);
    IS(ANY(TEXT, "Read Me "), CODE(MR_RES_NOT_FOUND));
    IS(ANY(TEXT, ""), CODE(MR_RES_NOT_FOUND));
    IS(id_of(mr_get_named_resource, TEXT, none, sizeof none), CODE(MR_RES_NOT_FOUND));
    IS(mr_use_res_file(&files, &zone, 1), MH_NO_ERR);
    IS(HERE(TEXT, "reAD mE"), 128);
    IS(ANY(STR, "read me"), CODE(MR_RES_NOT_FOUND));
    /* the first is gone: the next of the name is found */
    IS(mr_get_resource(&files, &zone, TEXT, 128, &handle), MH_NO_ERR);
    IS(mr_rmve_resource(&files, &zone, handle), MH_NO_ERR);
    IS(ANY(TEXT, "Read Me"), 129);
    /* without a load the handle is empty */
    IS(mr_set_res_load(&files, &zone, 0), MH_NO_ERR);
    IS(mr_get1_named_resource(&files, &zone, TEXT, (const uint8_t *)"Read M", 6, &handle), MH_NO_ERR);
    IS(mr_release_resource(&files, &zone, handle), MH_NO_ERR);
    IS(mr_get1_named_resource(&files, &zone, TEXT, (const uint8_t *)"Read M", 6, &handle), MH_NO_ERR);
    IS(mh_get_handle_size(&zone, handle, &size), MH_NIL_HANDLE_ERR);
    IS(mr_set_res_load(&files, &zone, 1), MH_NO_ERR);
    IS(mr_close_res_file(&files, &zone, 2), MH_NO_ERR);
    IS(mr_close_res_file(&files, &zone, 1), MH_NO_ERR);
}

/* What a resource is called: its id, and its name, of no bytes where it has none. */
static void called(int line, uint32_t handle, int16_t id, const char *name) {
    MrInfo info = {0, 0, 0};
    uint8_t own[255];
    same(line, "the code of mr_get_res_info", mr_get_res_info(&files, &zone, handle, &info, own, sizeof own), MH_NO_ERR);
    same(line, "the id", info.id, id);
    same(line, "the length of the name", info.name_length, (int64_t)strlen(name));
    same(line, "the name's bytes", memcmp(own, name, strlen(name)), 0);
}
#define CALLED(handle, id, name) called(__LINE__, handle, id, name)

static MhErr set_info(uint32_t handle, int16_t id, const char *name, size_t length) {
    return mr_set_res_info(&files, handle, id, (const uint8_t *)name, length);
}

/* SetResInfo: another id and another name, which the file has after its next update. A name of no bytes leaves the old one. */
static void other_names(void) {
    static const Given one[] = {{"TEXT", 128, "first"}, {"TEXT", 129, NULL}};
    char longest[256];
    uint8_t few[254];
    MrInfo info = {0, 0, 0};
    uint32_t first = 0, second = 0, file = 0;
    size_t length = 0;
    memset(longest, 'n', sizeof longest);
    IS(set_info(BASE, 5, "a", 1), MR_RES_F_NOT_FOUND);
    opened(one, 2, 1);
    IS(mr_get1_resource(&files, &zone, TEXT, 128, &first), MH_NO_ERR);
    IS(mr_get1_resource(&files, &zone, TEXT, 129, &second), MH_NO_ERR);
    IS(set_info(BASE + 2, 5, "a", 1), MR_RES_NOT_FOUND);
    IS(set_info(first, -7, "other", 5), MH_NO_ERR);
    CALLED(first, -7, "other");
    CALLED(second, 129, "");
    IS(mr_get_res_info(&files, &zone, first, &info, few, sizeof few), MH_BAD_NUMBER);
    IS(info.id, 0);
    IS(HERE(TEXT, "OTHER"), -7);
    IS(HERE(TEXT, "first"), CODE(MR_RES_NOT_FOUND));
    IS(mr_get1_resource(&files, &zone, TEXT, -7, &file), MH_NO_ERR);
    IS(file, first);
    IS(mr_get1_resource(&files, &zone, TEXT, 128, &file), MR_RES_NOT_FOUND);
    IS(set_info(first, 300, "", 0), MH_NO_ERR);
    CALLED(first, 300, "other");
    IS(set_info(second, 129, longest, 256), MH_PARAM_ERR);
    IS(set_info(second, 129, longest, 255), MH_NO_ERR);
    IS(id_of(mr_get1_named_resource, TEXT, longest, 255), 129);
    IS(mr_set_res_attrs(&files, &zone, first, 8), MH_NO_ERR);
    IS(set_info(first, 1, "b", 1), MR_RES_ATTR_ERR);
    CALLED(first, 300, "other");
    IS(mr_set_res_attrs(&files, &zone, first, 0), MH_NO_ERR);
    /* the file reads back so */
    IS(mr_close_res_file(&files, &zone, 1), MH_NO_ERR);
    IS(mr_fork_size(&files, 1, &length), MH_NO_ERR);
    IS(mr_fork(&files, 1, fork, length + 1), MH_BAD_NUMBER);
    IS(mr_fork(&files, 0, fork, length), MH_NONE_SUCH);
    IS(mr_fork(&files, 1, fork, length), MH_NO_ERR);
    IS(mr_fork_size(&files, 256, &length), MH_NONE_SUCH);
    IS(mr_open(&files, &zone, fork, length, &file), MH_NO_ERR);
    IS(HERE(TEXT, "other"), 300);
    IS(id_of(mr_get1_named_resource, TEXT, longest, 255), 129);
    IS(HERE(TEXT, "first"), CODE(MR_RES_NOT_FOUND));
    IS(mr_close_res_file(&files, &zone, file), MH_NO_ERR);
}

static uint32_t number(const uint8_t *bytes, int count) {
    uint32_t value = 0;
    for (int n = 0; n < count; n++) value = value << 8 | bytes[n];
    return value;
}

/* Whether two names of a map are the same, but for the case of ASCII letters. */
static bool alike(const uint8_t *one, const uint8_t *other) {
    for (int n = 0; n <= *one; n++) {
        uint8_t bit = (one[n] | 32) >= 'a' && (one[n] | 32) <= 'z' && n ? 32 : 0;
        if ((one[n] | bit) != (other[n] | bit)) return false;
    }
    return true;
}

/* ASCII letters in another case. */
static void other_case(char *other, const uint8_t *name, size_t length) {
    for (size_t n = 0; n < length; n++) {
        int is_letter = (name[n] | 32) >= 'a' && (name[n] | 32) <= 'z';
        other[n] = (char)(is_letter ? name[n] ^ 32 : name[n]);
    }
}

/* Each name of a fork, as its map has it (Inside Macintosh: More Macintosh Toolbox, chapter 1, "Resource File Format"): the first of
 * its type is got. */
static void of_file(const char *path) {
    FILE *file = fopen(path, "rb");
    if (!file) exit(2);
    size_t length = fread(fork, 1, MOST, file);
    fclose(file);
    uint32_t opened_as = 0;
    IS(mr_open(&files, &zone, fork, length, &opened_as), MH_NO_ERR);
    const uint8_t *map = fork + number(fork + 4, 4), *types = map + number(map + 24, 2), *names = map + number(map + 26, 2);
    int tried = 0;
    for (uint32_t t = 0; t <= number(types, 2) && number(types, 2) != 0xFFFF; t++) {
        const uint8_t *type = types + 2 + 8 * t, *rows = types + number(type + 6, 2);
        for (uint32_t r = 0; r <= number(type + 4, 2); r++) {
            const uint8_t *row = rows + 12 * r, *name = names + number(row + 2, 2);
            if (number(row + 2, 2) == 0xFFFF) continue;
            uint32_t first = r;
            for (uint32_t before = r; before-- > 0;) {
                const uint8_t *earlier = names + number(rows + 12 * before + 2, 2);
                if (number(rows + 12 * before + 2, 2) != 0xFFFF && alike(name, earlier)) first = before;
            }
            char other[255];
            other_case(other, name + 1, *name);
            IS(id_of(mr_get1_named_resource, number(type, 4), other, *name), (int16_t)number(rows + 12 * first, 2));
            tried++;
        }
    }
    printf("%s: %d names\n", path, tried);
    IS(mr_close_res_file(&files, &zone, opened_as), MH_NO_ERR);
}

int main(int count, char **words) {
    uint32_t handle = 0;
    IS(mr_get_named_resource(&files, &zone, TEXT, (const uint8_t *)"a", 1, &handle), MH_NOT_THERE);
    IS(mh_make_zone(&zone, BASE, SIZE, SIZE, 32), MH_NO_ERR);
    IS(mr_get1_named_resource(&files, &zone, TEXT, (const uint8_t *)"a", 1, &handle), MH_NOT_THERE);
    IS(set_info(BASE, 1, "a", 1), MH_NOT_THERE);
    IS(mr_begin(&files), MH_NO_ERR);
    by_hand();
    other_names();
    for (int n = 1; n < count; n++) of_file(words[n]);
    IS(mr_end(&files), MH_NO_ERR);
    IS(mh_end_zone(&zone), MH_NO_ERR);
    return faults > 0;
}
