/*
 * Calls each export that takes bytes or a buffer with a length of 0, and prints what came. With an
 * argument the pointer is NULL, without one it isn't: both must print the same.
 * scripts/build-library compares them.
 */
#include "zomtagi.h"

#include <stdio.h>

#define A (const uint8_t *)"a", 1
#define NONE in, 0
#define ROOM out, 0, &len

/* What stands for no bytes, and for a buffer without room. */
static uint8_t byte;
static const uint8_t *in = &byte;
static uint8_t *out = &byte;

static zomtagi_slot *slot;
static size_t len, at;

static void said(const char *call, uint16_t number)
{
    printf("%s: %d %s, len %zu, at %zu\n", call, number, zomtagi_refusal_name(number), len, at);
    len = at = 0;
}

/* Has what the last step stores stored, and its frames sent. */
static void drain(void)
{
    uint8_t bytes[4096];
    size_t count, gate;
    if (zomtagi_record(slot, &gate, bytes, sizeof bytes, &count) == ZOMTAGI_OK) {
        zomtagi_stored(slot, 1);
    }
    while (zomtagi_frame(slot, bytes, sizeof bytes, &count) == ZOMTAGI_OK) {
        zomtagi_sent(slot);
    }
}

static void name_nothing(void)
{
    said("read", zomtagi_read(slot, NONE, NONE, NONE));
    said("keep", zomtagi_keep(slot, A, NONE, A));
    said("write", zomtagi_write(slot, A, A, NONE, A, 0, 0));
    said("delete", zomtagi_delete(slot, NONE, A, A, 0, 0));
    said("write_over", zomtagi_write_over(slot, A, NONE, A, A, 0));
    said("delete_over", zomtagi_delete_over(slot, A, A, NONE, 0));
    said("watch", zomtagi_watch(slot, A, NONE, 4));
    said("list", zomtagi_list(slot, NONE, A, ROOM));
    said("peek", zomtagi_peek(slot, A, A, NONE, ROOM));
    said("take", zomtagi_take(slot, NONE, 0));
}

static void hand_out_nothing(void)
{
    said("write of no bytes", zomtagi_write(slot, A, A, A, NONE, 5, 0));
    said("record", zomtagi_record(slot, &at, ROOM));
    drain();
    said("read", zomtagi_read(slot, A, A, A));
    said("reply", zomtagi_reply(slot, ROOM));
    said("hello", zomtagi_hello(slot, 1));
    said("frame", zomtagi_frame(slot, ROOM));
    drain();
    said("prefixes", zomtagi_prefixes(slot, ROOM));
    said("list", zomtagi_list(slot, A, A, ROOM));
    said("list of none", zomtagi_list(slot, A, (const uint8_t *)"b", 1, ROOM));
    said("peek", zomtagi_peek(slot, A, A, A, ROOM));
    said("neighbours", zomtagi_neighbours(slot, ROOM));
    said("root", zomtagi_root(slot, ROOM));
}

static void look_at_nothing(const uint8_t *file, size_t count)
{
    const uint8_t keys[32] = {0};
    uint8_t seal[16];
    said("serve", zomtagi_serve(slot, NONE, 0));
    said("empty_file", zomtagi_empty_file(0, ROOM));
    said("check_file", zomtagi_check_file(NONE, 0, &at));
    said("check_frame", zomtagi_check_frame(NONE, &at));
    said("clean_copy", zomtagi_clean_copy(NONE, 0, ROOM));
    said("clean_copy of a file", zomtagi_clean_copy(file, count, 0, ROOM));
    said("seal without keys", zomtagi_seal(NONE, A, seal, sizeof seal, &len));
    said("seal of nothing", zomtagi_seal(keys, sizeof keys, NONE, seal, sizeof seal, &len));
    said("open of its seal", zomtagi_open(keys, sizeof keys, seal, sizeof seal, &len));
    said("seal", zomtagi_seal(keys, sizeof keys, A, ROOM));
    said("open without keys", zomtagi_open(NONE, A, &len));
    said("open of nothing", zomtagi_open(keys, sizeof keys, NONE, &len));
}

int main(int count, char **words)
{
    uint8_t file[16];
    size_t file_len;
    (void)words;
    if (count > 1) {
        in = out = NULL;
    }
    slot = zomtagi_slot_new();
    if (slot == NULL) {
        return 1;
    }
    zomtagi_empty_file(0, file, sizeof file, &file_len);
    zomtagi_serve(slot, file, file_len, 0);
    drain();
    name_nothing();
    hand_out_nothing();
    look_at_nothing(file, file_len);
    zomtagi_slot_drop(slot);
    return 0;
}
