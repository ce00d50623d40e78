/* Makes random calls on a zone and two resource files, and writes them as a script to the first file and what C
 * gets as replies to the second: macheap prints the same replies for that script, over the two forks that are written
 * to the fifth and the sixth, and leaves in them what this program writes beside them, with .new added. Its words:
 * the files, a seed, how many calls, and the forks. */
#include "macheap_fork.h"
#include "resman.h"

#include <inttypes.h>
#include <stdio.h>
#include <stdlib.h>
#include <string.h>

enum { KEPT = 24, MOST = 65536, FORKS = 2, BASE = 0x100000 };

static MhZone zone = MH_NO_ZONE;
static MrFiles files = MR_NO_FILES;
static FILE *script, *replies;
static uint64_t state;
static uint32_t kept[KEPT]; /* handles, some of which are dead */
static bool is_open[FORKS + 1];
static uint8_t fork[MOST];
static int line;

static uint32_t below(uint32_t limit) {
    state = state * 6364136223846793005u + 1442695040888963407u;
    return (uint32_t)(state >> 33) % limit;
}

/* A handle, mostly one that was given. */
static uint32_t handle(void) { return below(40) ? kept[below(KEPT)] : BASE + below(0x2000); }

static const char *kinds[] = {"TEXT", "STR ", "ICON", "xyz "};

static uint32_t number_of(const char *kind) {
    uint32_t number = 0;
    for (int n = 0; n < 4; n++) number = number << 8 | (uint8_t)kind[n];
    return number;
}

static void keep(MhErr code, uint32_t one) {
    if (code == MH_NO_ERR) kept[below(KEPT)] = one;
}

/* The reply of a call with a number, which comes after `sign`, and the answers that it took. */
static void told(const char *name, MhErr code, const char *sign, uint32_t number) {
    fprintf(replies, "%d %s", line, name);
    if (code == MH_NO_ERR && sign) fprintf(replies, *sign ? " $%08" PRIX32 : " %" PRIu32, number);
    fprintf(replies, " %d\n", code);
    uint32_t asked = 0;
    MhAsk ask = {0, 0, 0, 0};
    mh_asked(&zone, &asked);
    for (uint32_t n = 0; n < asked; n++) {
        if (mh_ask(&zone, n, &ask) != MH_NO_ERR || !ask.answered) continue;
        fprintf(replies, "  gz %" PRIu32 " %" PRIu32 "\n", ask.needed, ask.value);
    }
}

typedef MhErr OneHandle(MrFiles *, MhZone *, uint32_t);
typedef MhErr Looks(MrFiles *, MhZone *, uint32_t, uint32_t *);

static void one_handle(void) {
    static const struct { const char *name; OneHandle *call; } calls[] = {
        {"LoadResource", mr_load_resource}, {"ReleaseResource", mr_release_resource},
        {"DetachResource", mr_detach_resource}, {"ChangedResource", mr_changed_resource},
        {"ChangedResource", mr_changed_resource}, {"RemoveResource", mr_rmve_resource},
        {"WriteResource", mr_write_resource}, {"DisposeHandle", mr_dispose_handle},
    };
    uint32_t which = below(sizeof calls / sizeof calls[0]), x = handle();
    fprintf(script, "%s %" PRIu32 "\n", calls[which].name, x);
    told(calls[which].name, calls[which].call(&files, &zone, x), NULL, 0);
}

static void looks(void) {
    static const struct { const char *name; Looks *call; } calls[] = {
        {"GetResAttrs", mr_get_res_attrs}, {"SizeResource", mr_size_resource}, {"HomeResFile", mr_home_res_file},
    };
    uint32_t which = below(sizeof calls / sizeof calls[0]), x = handle(), number = 0;
    fprintf(script, "%s %" PRIu32 "\n", calls[which].name, x);
    MhErr code = calls[which].call(&files, &zone, x, &number);
    told(calls[which].name, code, "", number);
}

/* The reply of a call that gives a resource type, and what comes after it. */
static void told_kind(const char *name, MhErr code, const char *before, uint32_t kind, const char *after) {
    fprintf(replies, "%d %s", line, name);
    int a = (int)(kind >> 24), b = (int)(kind >> 16 & 255), c = (int)(kind >> 8 & 255), d = (int)(kind & 255);
    if (code == MH_NO_ERR) fprintf(replies, "%s '%c%c%c%c'%s", before, a, b, c, d, after);
    fprintf(replies, " %d\n", code);
}

/* What a resource is called, or what an index is. */
static void names(void) {
    uint32_t index = below(6), x = handle(), kind = 0;
    if (below(3) == 0) {
        fprintf(script, "GetIndType %" PRIu32 "\n", index);
        MhErr code = mr_get1_ind_type(&files, &zone, index, &kind);
        told_kind("GetIndType", code, "", kind, "");
        return;
    }
    MrInfo info = {0, 0, 0};
    char name[256] = "", before[16], after[264];
    fprintf(script, "GetResInfo %" PRIu32 "\n", x);
    MhErr code = mr_get_res_info(&files, &zone, x, &info, (uint8_t *)name, 255);
    snprintf(before, sizeof before, " %d", info.id);
    snprintf(after, sizeof after, info.name_length ? " \"%s\"" : " none%s", name);
    told_kind("GetResInfo", code, before, info.kind, after);
}

static void of_kind(void) {
    static const struct { const char *name; Looks *call; } calls[] = {
        {"UniqueID", mr_unique1_id}, {"CountResources", mr_count1_resources},
    };
    uint32_t which = below(sizeof calls / sizeof calls[0]), number = 0;
    const char *kind = kinds[below(4)];
    fprintf(script, "%s '%s'\n", calls[which].name, kind);
    MhErr code = calls[which].call(&files, &zone, number_of(kind), &number);
    told(calls[which].name, code, "", number);
}

static void getting(void) {
    uint32_t which = below(3), number = 0;
    const char *kind = kinds[below(4)];
    const char *name = which == 0 ? "GetResource" : which == 1 ? "Get1Resource" : "GetIndResource";
    int16_t id = (int16_t)(126 + below(8));
    fprintf(script, "%s '%s' %d\n", name, kind, which == 2 ? id - 126 : id);
    MhErr code = which == 0 ? mr_get_resource(&files, &zone, number_of(kind), id, &number)
        : which == 1 ? mr_get1_resource(&files, &zone, number_of(kind), id, &number)
        : mr_get1_ind_resource(&files, &zone, number_of(kind), (uint32_t)(id - 126), &number);
    told(name, code, "$", number);
    keep(code, number);
}

static void adds(void) {
    const char *kind = kinds[below(4)], *name = below(2) ? "" : "ab";
    int16_t id = (int16_t)(126 + below(10));
    uint32_t x = handle();
    fprintf(script, "AddResource %" PRIu32 " '%s' %d", x, kind, id);
    fprintf(script, *name ? " \"%s\"\n" : "%s\n", name);
    MhErr code = mr_add_resource(&files, &zone, x, number_of(kind), id, (const uint8_t *)name, strlen(name));
    told("AddResource", code, NULL, 0);
}

/* How the files are and which is current. */
static void around(void) {
    uint32_t number = 0, n = below(3), x = handle();
    MhErr code;
    switch (below(6)) {
    case 0:
        fprintf(script, "CurResFile\n");
        code = mr_cur_res_file(&files, &zone, &number);
        told("CurResFile", code, "", number);
        break;
    case 1:
        fprintf(script, "CountTypes\n");
        code = mr_count1_types(&files, &zone, &number);
        told("CountTypes", code, "", number);
        break;
    case 2:
        fprintf(script, "SetResLoad %" PRIu32 "\n", n);
        told("SetResLoad", mr_set_res_load(&files, &zone, n), NULL, 0);
        break;
    case 3:
        fprintf(script, "SetResAttrs %" PRIu32 " %" PRIu32 "\n", x, number = below(260));
        told("SetResAttrs", mr_set_res_attrs(&files, &zone, x, number), NULL, 0);
        break;
    default:
        fprintf(script, "UseResFile %" PRIu32 "\n", n);
        told("UseResFile", mr_use_res_file(&files, &zone, n), NULL, 0);
    }
}

/* The fork of a file, as the host would write it. */
static size_t fork_of(uint32_t file) {
    size_t length = 0;
    if (mr_fork_size(&files, file, &length) != MH_NO_ERR || length > MOST) exit(1);
    if (mr_fork(&files, file, fork, length) != MH_NO_ERR) exit(1);
    return length;
}

/* A file is written, or closed; the first that is closed is opened. */
static void writes(void) {
    uint32_t number = 0, file = 1 + below(FORKS), n = is_open[1] ? 2 : 1;
    if (!is_open[n] && below(2)) {
        fprintf(script, "OpenResFile %" PRIu32 "\n", n);
        MhErr code = mr_open(&files, &zone, fork, fork_of(n), &number);
        told("OpenResFile", code, "", number);
        is_open[n] = code == MH_NO_ERR;
        return;
    }
    if (below(4)) {
        fprintf(script, "UpdateResFile %" PRIu32 "\n", file);
        told("UpdateResFile", mr_update_res_file(&files, &zone, file), NULL, 0);
        return;
    }
    fprintf(script, "CloseResFile %" PRIu32 "\n", file);
    MhErr code = mr_close_res_file(&files, &zone, file);
    told("CloseResFile", code, NULL, 0);
    if (code == MH_NO_ERR) is_open[file] = false;
}

/* A call of the Memory Manager; files hear of handles that answers dispose of. */
static void memory(void) {
    uint32_t x = handle(), n = below(300), number = 0;
    uint8_t byte = (uint8_t)(0x80 + below(128));
    MhErr code;
    switch (below(7)) {
    case 0:
        fprintf(script, "NewHandle %" PRIu32 "\n", n);
        code = mh_new_handle(&zone, n, &number);
        told("NewHandle", code, "$", number);
        keep(code, number);
        break;
    case 1:
        fprintf(script, "SetHandleSize %" PRIu32 " %" PRIu32 "\n", x, n);
        told("SetHandleSize", mh_set_handle_size(&zone, x, n), NULL, 0);
        break;
    case 2:
        fprintf(script, "HPurge %" PRIu32 "\n", x);
        told("HPurge", mh_hpurge(&zone, x), NULL, 0);
        break;
    case 3:
        fprintf(script, "EmptyHandle %" PRIu32 "\n", x);
        told("EmptyHandle", mh_empty_handle(&zone, x), NULL, 0);
        break;
    case 4: {
        static const MhAnswer none;
        MhAnswer answer = none;
        answer.value = below(2);
        answer.calls[0].kind = 1;
        answer.calls[0].operand = x;
        if (mh_queue_answer(&zone, &answer) == MH_NO_ERR) {
            fprintf(script, "gz %" PRIu32 " DisposeHandle %" PRIu32 "\n", answer.value, x);
            break;
        }
        fprintf(script, "FreeMem\n");
        code = mh_free_mem(&zone, &number);
        told("FreeMem", code, "", number);
        break;
    }
    default:
        fprintf(script, "Poke %" PRIu32 " 0 $\"%02X\"\n", x, byte);
        told("Poke", mh_poke(&zone, x, 0, &byte, 1), NULL, 0);
    }
    mr_forget(&files, &zone);
}

/* A fork of two resources of each of two types, in a file of the host. */
static void made(const char *path, const char *one, const char *other) {
    static const uint8_t data[400] = {1, 2, 3, 4, 5};
    static const MfExtra extra;
    MfRow rows[4];
    size_t length = 0;
    for (int n = 0; n < 4; n++) {
        static const uint8_t attributes[] = {0, 32, 8, 0}, lengths[] = {100, 140, 100, 20};
        MfRow row = {{0}, (int16_t)(128 + n % 2), attributes[n], false, 0, lengths[n]};
        memcpy(row.kind, n < 2 ? one : other, 4);
        rows[n] = row;
    }
    size_t sum = rows[0].data_length + rows[1].data_length + rows[2].data_length + rows[3].data_length;
    if (mf_written_length(rows, 4, data, 0, data, sum, &extra, &length) != MF_NO_ERR || length > MOST) exit(1);
    if (mf_write(rows, 4, data, 0, data, sum, &extra, fork, length) != MF_NO_ERR) exit(1);
    FILE *file = fopen(path, "wb");
    if (!file || fwrite(fork, 1, length, file) != length || fclose(file)) exit(1);
}

/* The bytes that a file of the host has. */
static size_t read_fork(const char *path) {
    FILE *file = fopen(path, "rb");
    if (!file) exit(1);
    size_t length = fread(fork, 1, MOST, file);
    fclose(file);
    return length;
}

/* A file as it was left, beside the fork that it was opened on. */
static void left(const char *path, uint32_t number) {
    char beside[4096];
    size_t length = fork_of(number), rows = 0;
    if (mf_count(fork, length, &rows) != MF_NO_ERR) exit(1);
    snprintf(beside, sizeof beside, "%s.new", path);
    FILE *file = fopen(beside, "wb");
    if (!file || fwrite(fork, 1, length, file) != length || fclose(file)) exit(1);
}

int main(int count, char **words) {
    if (count != 7 || !(script = fopen(words[1], "w")) || !(replies = fopen(words[2], "w"))) return 2;
    state = strtoull(words[3], NULL, 10);
    int calls = atoi(words[4]);
    uint32_t file = 0;
    made(words[5], "TEXT", "STR ");
    made(words[6], "STR ", "ICON");
    if (mr_count1_types(&files, &zone, &file) != MH_NOT_THERE || mr_end(&files) != MH_NOT_THERE) return 1;
    if (mh_make_zone(&zone, BASE, 2048, 4096, 24) != MH_NO_ERR) return 1;
    if (mr_count1_types(&files, &zone, &file) != MH_NOT_THERE) return 1;
    if (mr_begin(&files) != MH_NO_ERR || mr_begin(&files) != MH_IN_USE) return 1;
    for (uint32_t n = 1; n <= FORKS; n++) {
        if (mr_open(&files, &zone, fork, read_fork(words[4 + n]), &file) != MH_NO_ERR || file != n) return 1;
        is_open[n] = true;
    }
    line = 1;
    fprintf(script, "OpenResFile 2\n");
    fprintf(replies, "1 OpenResFile 2 0\n");
    while (line++ < calls) {
        uint32_t which = below(14);
        if (which < 4) getting();
        else if (which < 6) one_handle();
        else if (which < 7) looks();
        else if (which < 8) (below(2) ? of_kind : names)();
        else if (which < 9) adds();
        else if (which < 10) around();
        else if (which < 11) writes();
        else memory();
    }
    left(words[5], 1);
    left(words[6], 2);
    if (mr_end(&files) != MH_NO_ERR || mh_end_zone(&zone) != MH_NO_ERR) return 1;
    return fclose(script) || fclose(replies);
}
