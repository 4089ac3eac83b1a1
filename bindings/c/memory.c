/*
 * Makes the same calls again and again, and refuses another allocation each time, until none is left
 * to refuse. The call that it is in must answer 99, change nothing that can be asked of the node,
 * and succeed when it is made again. Prints how many allocations there were.
 * scripts/build-library runs it.
 */
#define _GNU_SOURCE
#include "zomtagi.h"

#include <stdio.h>
#include <stdlib.h>
#include <string.h>

void *__libc_malloc(size_t size);
void *__libc_realloc(void *old, size_t size);

/* How many allocations succeed before one is refused; -1: all do. */
static long left = -1;

static int is_refused(void)
{
    return left >= 0 && left-- == 0;
}

void *malloc(size_t size)
{
    return is_refused() ? NULL : __libc_malloc(size);
}

void *realloc(void *old, size_t size)
{
    return is_refused() ? NULL : __libc_realloc(old, size);
}

#define APP (const uint8_t *)"app", 3
#define FLAGS (const uint8_t *)"flags", 5
#define COLOUR APP, FLAGS, (const uint8_t *)"colour", 6
#define SHAPE APP, FLAGS, (const uint8_t *)"shape", 5
#define RED (const uint8_t *)"a red that fills more than 16 bytes", 35
#define ROOM buffer, sizeof buffer, &len

static uint8_t buffer[8192], file[8192], frame[4096];
static size_t len, file_len, frame_len, gate;
static uint64_t context;
static zomtagi_slot *slot, *other;
static zomtagi_plan *plan;

/* What can be asked of a node. */
struct told {
    uint8_t root[32], shown[4096], neighbours[8];
    size_t shown_len, neighbours_len;
    zomtagi_node_info info;
};

static void ask(struct told *told)
{
    memset(told, 0, sizeof *told);
    if (zomtagi_about(slot, &told->info) == ZOMTAGI_OK) {
        zomtagi_root(slot, told->root, sizeof told->root, &len);
        zomtagi_peek(slot, COLOUR, told->shown, sizeof told->shown, &told->shown_len);
        zomtagi_neighbours(slot, told->neighbours, sizeof told->neighbours, &told->neighbours_len);
    }
}

static void fail(const char *call, const char *why)
{
    left = -1;
    printf("%s %s\n", call, why);
    exit(1);
}

/* Makes a call, with what the call before left to refuse, and again if memory was refused. */
#define DO(call)                                                                                   \
    do {                                                                                           \
        struct told before, after;                                                                 \
        long armed = left;                                                                         \
        uint16_t number;                                                                           \
        left = -1;                                                                                 \
        ask(&before);                                                                              \
        left = armed;                                                                              \
        number = (call);                                                                           \
        armed = left;                                                                              \
        left = -1;                                                                                 \
        if (number == ZOMTAGI_MEMORY) {                                                            \
            ask(&after);                                                                           \
            if (memcmp(&before, &after, sizeof before)) {                                          \
                fail(#call, "was refused memory, and changed the node");                           \
            }                                                                                      \
            number = (call);                                                                       \
        }                                                                                          \
        if (number != ZOMTAGI_OK) {                                                                \
            fail(#call, zomtagi_refusal_name(number));                                             \
        }                                                                                          \
        left = armed;                                                                              \
    } while (0)

/* Has what the last step stores stored, takes its reply, and keeps the last of its frames. */
static void drain(void)
{
    zomtagi_node_info info;
    zomtagi_about(slot, &info);
    if (info.gate != 0 && zomtagi_record(slot, &gate, buffer, 0, &len) != ZOMTAGI_NOTHING) {
        DO(zomtagi_record(slot, &gate, ROOM));
        memcpy(file + gate, buffer, len);
        file_len = gate + len;
        DO(zomtagi_stored(slot, 1));
    }
    DO(zomtagi_reply(slot, ROOM));
    while (zomtagi_frame(slot, frame, 0, &len) != ZOMTAGI_NOTHING) {
        DO(zomtagi_frame(slot, frame, sizeof frame, &frame_len));
        DO(zomtagi_sent(slot));
    }
}

#define STEP(call)                                                                                 \
    do {                                                                                           \
        DO(call);                                                                                  \
        drain();                                                                                   \
    } while (0)

/* Node 1, which writes; its last frame is for node 3. */
static void write_elsewhere(void)
{
    zomtagi_slot *here = slot;
    slot = other;
    DO(zomtagi_new(slot, 1, 1));
    STEP(zomtagi_join(slot, 3, 7));
    slot = here;
    STEP(zomtagi_take(slot, frame, frame_len, 7));
    slot = other;
    STEP(zomtagi_write(slot, COLOUR, RED, 1, 0));
    slot = here;
}

static void talk(void)
{
    STEP(zomtagi_take(slot, frame, frame_len, 7));
    STEP(zomtagi_exchange(slot, 1));
    STEP(zomtagi_hello(slot, 2));
    STEP(zomtagi_join(slot, 2, 7));
    STEP(zomtagi_tick(slot, 7));
    STEP(zomtagi_peer_down(slot, 2, 7));
    STEP(zomtagi_leave(slot));
}

/* Takes what a call of a driver gave, all of whose steps are made, and no more is refused. */
static void drain_all(void)
{
    long armed = left;
    left = -1;
    while (zomtagi_frame(slot, ROOM) == ZOMTAGI_OK) {
        DO(zomtagi_sent(slot));
    }
    left = armed;
}

/* Has the node do what is next. A task that memory refuses stays next, and those before it are done. */
static void drive(uint64_t now)
{
    uint64_t at;
    uint16_t number;
    DO(zomtagi_plan_wake(slot, plan, &at));
    if (at > now) {
        fail("zomtagi_plan_wake", "tells a time too late");
    }
    number = zomtagi_drive_time(slot, plan, now, 7);
    drain_all();
    if (number == ZOMTAGI_MEMORY) {
        DO(zomtagi_plan_wake(slot, plan, &at));
        if (at > now) {
            fail("zomtagi_drive_time", "was refused memory, and forgot a task");
        }
        number = zomtagi_drive_time(slot, plan, now, 7);
        drain_all();
    }
    if (number != ZOMTAGI_OK) {
        fail("zomtagi_drive_time", zomtagi_refusal_name(number));
    }
}

static void be_driven(void)
{
    uint8_t came[sizeof frame];
    size_t came_len = frame_len;
    memcpy(came, frame, sizeof frame);
    DO(zomtagi_plan_begin(plan, 0, 1000, 60000));
    DO(zomtagi_plan_add(slot, plan, 0, 1));
    DO(zomtagi_plan_add(slot, plan, 0, 2));
    drive(0);
    drive(1000);
    STEP(zomtagi_drive_frame(slot, plan, 1500, came, came_len, 7));
    STEP(zomtagi_drive_failure(slot, plan, 1500, 2, 7));
    DO(zomtagi_plan_remove(plan, 2));
    zomtagi_plan_end(plan);
    memcpy(frame, came, sizeof frame);
    frame_len = came_len;
}

static void write_here(void)
{
    STEP(zomtagi_watch(slot, APP, FLAGS, 4));
    STEP(zomtagi_write_over(slot, COLOUR, RED, 2));
    STEP(zomtagi_read(slot, COLOUR));
    DO(zomtagi_keep_context(slot, &context));
    STEP(zomtagi_write(slot, COLOUR, RED, 3, context));
    DO(zomtagi_forget_context(slot, context));
    STEP(zomtagi_delete(slot, COLOUR, 4, 0));
    STEP(zomtagi_changes(slot, 1));
}

static void write_at_once(void)
{
    DO(zomtagi_begin_batch(slot));
    DO(zomtagi_write_over(slot, COLOUR, RED, 5));
    DO(zomtagi_delete_over(slot, SHAPE, 6));
    DO(zomtagi_keep(slot, COLOUR));
    STEP(zomtagi_end_batch(slot));
}

static void look(void)
{
    const uint8_t keys[32] = {7};
    size_t sealed;
    DO(zomtagi_prefixes(slot, ROOM));
    DO(zomtagi_list(slot, APP, FLAGS, ROOM));
    DO(zomtagi_peek(slot, COLOUR, ROOM));
    DO(zomtagi_check_frame(frame, frame_len, &len));
    memcpy(buffer, frame, frame_len);
    DO(zomtagi_seal(keys, sizeof keys, frame, frame_len, ROOM));
    memcpy(buffer + frame_len, buffer, sealed = len);
    memcpy(buffer, frame, frame_len);
    DO(zomtagi_open(keys, sizeof keys, buffer, frame_len + sealed, &len));
    DO(zomtagi_check_file(file, file_len, 3, &len));
    DO(zomtagi_clean_copy(file, file_len, 3, ROOM));
}

/* A life of node 3, and the beginning of the next. */
static void live(void)
{
    uint8_t front[16];
    DO(zomtagi_empty_file(3, front, sizeof front, &file_len));
    memcpy(file, front, file_len);
    DO(zomtagi_serve(slot, file, file_len, 3));
    DO(zomtagi_record(slot, &gate, ROOM));
    memcpy(file + gate, buffer, len);
    DO(zomtagi_stored(slot, 1));
    write_elsewhere();
    be_driven();
    talk();
    write_here();
    write_at_once();
    look();
    zomtagi_free(slot);
    DO(zomtagi_serve(slot, file, file_len, 3));
    zomtagi_free(slot);
    zomtagi_free(other);
}

int main(void)
{
    long count = -1;
    slot = zomtagi_slot_new();
    other = zomtagi_slot_new();
    plan = zomtagi_plan_new();
    if (slot == NULL || other == NULL || plan == NULL) {
        return 1;
    }
    do {
        left = ++count;
        live();
    } while (left < 0);
    left = -1;
    zomtagi_slot_drop(slot);
    zomtagi_slot_drop(other);
    zomtagi_plan_drop(plan);
    printf("%ld allocations\n", count);
    return 0;
}
