/* A zone and resource files that go from thread to thread: four threads take turns at 20,000 calls, under a lock. One thread alone makes the
 * same calls on another zone and other files. Both have to get the same answers, and to leave the same bytes. */
#include "checks.h"
#include "resman.h"

#include <pthread.h>
#include <string.h>

enum { BASE = 0x100000, SIZE = 0x4000, LIMIT = 0x8000, THREADS = 4, CALLS = 20000, KEPT = 32, LONG = 700, TEXT = 0x54455854 };

typedef struct Work {
    MhZone zone;
    MrFiles files;
    uint32_t file;
    uint32_t handles[KEPT];
    uint64_t told; /* a sum of all that C got */
    int calls, made;
} Work;

static void tell(Work *work, int64_t answer) { work->told = work->told * 31 + (uint64_t)answer; }

/* The code of a call. */
static void code(Work *work, MhErr answer) {
    tell(work, answer);
    work->made += answer == MH_NO_ERR;
}

static void begin(Work *work) {
    static const uint8_t none;
    *work = (Work){MH_NO_ZONE, MR_NO_FILES, 0, {0}, 0, 0, 0};
    seed = 1;
    IS(mh_make_zone(&work->zone, BASE, SIZE, LIMIT, 24), MH_NO_ERR);
    IS(mr_begin(&work->files), MH_NO_ERR);
    IS(mr_open(&work->files, &work->zone, &none, 0, &work->file), MH_NO_ERR);
}

/* One call, as the numbers that come next say. */
static void make_call(Work *work) {
    uint8_t bytes[LONG];
    uint32_t *handle = &work->handles[below(KEPT)];
    uint32_t size = below(LONG), answer = 0;
    memset(bytes, (int)below(256), sizeof bytes);
    switch (below(6)) {
    case 0: code(work, mh_new_handle_of(&work->zone, bytes, size, handle)); break;
    case 1: code(work, mh_set_handle_size(&work->zone, *handle, size)); break;
    case 2: code(work, mr_dispose_handle(&work->files, &work->zone, *handle)); break;
    case 3: code(work, mr_add_resource(&work->files, &work->zone, *handle, TEXT, (int16_t)below(40), bytes, below(30))); break;
    case 4: code(work, mr_get_resource(&work->files, &work->zone, TEXT, (int16_t)below(40), handle)); break;
    default: code(work, mh_get_handle_size(&work->zone, *handle, &answer));
    }
    tell(work, answer);
    tell(work, *handle);
    work->calls++;
}

static void end(Work *work) {
    static uint8_t bytes[2 * LIMIT];
    size_t size = 0;
    IS(mh_image_size(&work->zone, &size), MH_NO_ERR);
    IS(mh_image(&work->zone, bytes, size), MH_NO_ERR);
    for (size_t i = 0; i < size; i++) tell(work, bytes[i]);
    IS(mr_update_res_file(&work->files, &work->zone, work->file), MH_NO_ERR);
    IS(mr_fork_size(&work->files, work->file, &size), MH_NO_ERR);
    IS(size <= sizeof bytes, true);
    IS(mr_fork(&work->files, work->file, bytes, size), MH_NO_ERR);
    for (size_t i = 0; i < size; i++) tell(work, bytes[i]);
    IS(work->made > CALLS / 4, true);
    IS(mr_end(&work->files), MH_NO_ERR);
    IS(mh_end_zone(&work->zone), MH_NO_ERR);
}

static Work shared;
static pthread_mutex_t lock = PTHREAD_MUTEX_INITIALIZER;
static pthread_cond_t turned = PTHREAD_COND_INITIALIZER;

/* The turns of one of the threads. */
static void *take_turns(void *number) {
    int own = *(int *)number;
    for (int turn = own; turn < CALLS; turn += THREADS) {
        pthread_mutex_lock(&lock);
        while (shared.calls != turn) pthread_cond_wait(&turned, &lock);
        make_call(&shared);
        pthread_cond_broadcast(&turned);
        pthread_mutex_unlock(&lock);
    }
    return NULL;
}

int main(void) {
    static Work alone;
    static pthread_t threads[THREADS];
    static int numbers[THREADS];
    begin(&alone);
    while (alone.calls < CALLS) make_call(&alone);
    end(&alone);
    begin(&shared);
    for (int i = 0; i < THREADS; i++) {
        numbers[i] = i;
        IS(pthread_create(&threads[i], NULL, take_turns, &numbers[i]), 0);
    }
    for (int i = 0; i < THREADS; i++) IS(pthread_join(threads[i], NULL), 0);
    end(&shared);
    IS(shared.told == alone.told, true);
    return faults != 0;
}
