/*
 * Two nodes in one process: node 1 has a file, and joins through node 0; node 0 writes, frames are
 * carried, and node 1 is read. README.md beside this file has the line that builds it.
 */
#include "zomtagi.h"

#include <fcntl.h>
#include <stdbool.h>
#include <stdio.h>
#include <stdlib.h>
#include <string.h>
#include <unistd.h>

#define BYTES(text) (const uint8_t *)(text), strlen(text)
#define COLOUR BYTES("app"), BYTES("flags"), BYTES("colour")

/* What an export hands out is at the front of a buffer, which grows if it is too short. */
static uint8_t *buffer;
static size_t size = 16, len;

/* A node, and the file that is kept for it, -1 for none. */
struct member {
    zomtagi_slot *slot;
    int file;
};

static void must(const char *what, bool done)
{
    if (!done) {
        fprintf(stderr, "example: %s\n", what);
        exit(1);
    }
}

static void accepted(const char *call, uint16_t number)
{
    if (number != ZOMTAGI_OK) {
        fprintf(stderr, "example: %s was refused with %d %s\n", call, number, zomtagi_refusal_name(number));
        exit(1);
    }
}

/* Makes the buffer this large. */
static void make_room(size_t wanted)
{
    uint8_t *grown = realloc(buffer, wanted);
    must("there is no memory", grown != NULL);
    buffer = grown;
    size = wanted;
}

/* Whether the buffer was too short, and has grown: then the call is made again. */
static bool has_grown(uint16_t number)
{
    if (number == ZOMTAGI_SHORT_BUFFER) {
        make_room(len);
    }
    return number == ZOMTAGI_SHORT_BUFFER;
}

/* A word of a xorshift generator. */
static uint64_t word(void)
{
    static uint64_t state = 88172645463325252;
    state ^= state << 13;
    state ^= state >> 7;
    state ^= state << 17;
    return state;
}

/* Writes at an offset. */
static bool write_at(int file, size_t offset, const uint8_t *bytes, size_t count)
{
    while (count > 0) {
        ssize_t wrote = pwrite(file, bytes, count, (off_t)offset);
        if (wrote <= 0) {
            return false;
        }
        bytes += wrote;
        offset += (size_t)wrote;
        count -= (size_t)wrote;
    }
    return true;
}

/* Appends the record in the buffer: first what follows the gate, then the gate. */
static bool append(int file, size_t gate)
{
    return write_at(file, gate + 1, buffer + 1, len - 1) && fdatasync(file) == 0
        && write_at(file, gate, buffer, 1) && fdatasync(file) == 0;
}

/* Stores what the last step stores. */
static void store(struct member *member)
{
    size_t gate;
    uint16_t number;
    do {
        number = zomtagi_record(member->slot, &gate, buffer, size, &len);
    } while (has_grown(number));
    if (number == ZOMTAGI_NOTHING) {
        return;
    }
    accepted("zomtagi_record", number);
    bool is_stored = append(member->file, gate);
    accepted("zomtagi_stored", zomtagi_stored(member->slot, is_stored));
    must("the record was not stored, so the node is stopped", is_stored);
}

/* Stores what the last step stores, and carries its frames, and those that answer them. */
static void carry(struct member *members, int from)
{
    zomtagi_slot *slot = members[from].slot;
    store(&members[from]);
    for (;;) {
        uint16_t number;
        do {
            number = zomtagi_frame(slot, buffer, size, &len);
        } while (has_grown(number));
        if (number == ZOMTAGI_NOTHING) {
            return;
        }
        accepted("zomtagi_frame", number);
        int to = buffer[6] << 8 | buffer[7];
        accepted("zomtagi_sent", zomtagi_sent(slot));
        accepted("zomtagi_take", zomtagi_take(members[to].slot, buffer, len, word()));
        carry(members, to);
    }
}

/* Serves a node from a new file. */
static void serve_new(struct member *member, uint16_t node)
{
    char path[] = "/tmp/zomtagi-XXXXXX";
    member->file = mkstemp(path);
    must("no file was made", member->file >= 0 && unlink(path) == 0);
    accepted("zomtagi_empty_file", zomtagi_empty_file(node, buffer, size, &len));
    must("the file was not written",
         write_at(member->file, 0, buffer, len) && fdatasync(member->file) == 0);
    accepted("zomtagi_serve", zomtagi_serve(member->slot, buffer, len, node));
    store(member);
}

/* Reads a file into the buffer, and returns its length. */
static size_t read_file(int file)
{
    off_t end = lseek(file, 0, SEEK_END);
    must("the file has no length", end > 0);
    make_room((size_t)end);
    must("the file was not read", pread(file, buffer, size, 0) == end);
    return (size_t)end;
}

/* Serves a node from its file again, in its next life. */
static void serve_again(struct member *member, uint16_t node)
{
    size_t end = read_file(member->file);
    accepted("zomtagi_serve", zomtagi_serve(member->slot, buffer, end, node));
    store(member);
}

/* Prints where the file would be damaged if this byte of it were another one. */
static void print_damage(struct member *member, uint16_t node, size_t place)
{
    size_t end = read_file(member->file), at = 0;
    buffer[place] ^= 1;
    uint16_t number = zomtagi_check_file(buffer, end, node, &at);
    printf("with another byte %zu: %d %s at %zu\n", place, number, zomtagi_refusal_name(number), at);
}

static uint64_t number_at(const uint8_t *bytes)
{
    uint64_t number = 0;
    for (int place = 0; place < 8; place++) {
        number = number << 8 | bytes[place];
    }
    return number;
}

/* Prints a node's neighbours, and how many keys it holds. */
static void print_about(struct member *member)
{
    zomtagi_node_info info;
    accepted("zomtagi_about", zomtagi_about(member->slot, &info));
    accepted("zomtagi_neighbours", zomtagi_neighbours(member->slot, buffer, size, &len));
    printf("node %d has %zu keys, %zu neighbours\n", info.number, info.keys, len / 2);
}

/* Reads a node under the key, and prints the siblings. */
static void print_read(struct member *member)
{
    zomtagi_node_info info;
    accepted("zomtagi_about", zomtagi_about(member->slot, &info));
    accepted("zomtagi_read", zomtagi_read(member->slot, COLOUR));
    uint16_t number;
    do {
        number = zomtagi_reply(member->slot, buffer, size, &len);
    } while (has_grown(number));
    accepted("zomtagi_reply", number);
    printf("node %d, life %u:", info.number, (unsigned)info.life);
    const uint8_t *bytes = buffer + 9;
    for (uint64_t left = number_at(buffer + 1); left > 0; left--) {
        bool has_body = bytes[8] == 1;
        bytes += 9;
        if (has_body) {
            uint64_t body_len = number_at(bytes);
            printf(" %.*s", (int)body_len, (const char *)bytes + 8);
            bytes += 8 + body_len;
        } else {
            printf(" (deleted)");
        }
    }
    printf("\n");
}

int main(void)
{
    struct member members[2] = {{zomtagi_slot_new(), -1}, {zomtagi_slot_new(), -1}};
    zomtagi_slot *zero = members[0].slot, *one = members[1].slot;
    must("there is no memory", zero != NULL && one != NULL);
    make_room(size);
    accepted("zomtagi_new", zomtagi_new(zero, 0, 1));
    serve_new(&members[1], 1);

    accepted("zomtagi_hello", zomtagi_hello(one, 0));
    carry(members, 1);
    accepted("zomtagi_join", zomtagi_join(one, 0, word()));
    carry(members, 1);

    accepted("zomtagi_write_over", zomtagi_write_over(zero, COLOUR, BYTES("red"), 0));
    carry(members, 0);
    print_about(&members[1]);
    print_read(&members[1]);

    /* A write that has read nothing stands beside; one that has read both replaces both. */
    accepted("zomtagi_write", zomtagi_write(one, COLOUR, BYTES("blue"), 0, 0));
    carry(members, 1);
    print_read(&members[0]);
    uint64_t context = 0;
    accepted("zomtagi_keep_context", zomtagi_keep_context(zero, &context));
    accepted("zomtagi_write", zomtagi_write(zero, COLOUR, BYTES("green"), 0, context));
    carry(members, 0);
    accepted("zomtagi_forget_context", zomtagi_forget_context(zero, context));
    print_read(&members[1]);

    /* What node 1 wrote or kept is in its file. */
    accepted("zomtagi_keep", zomtagi_keep(one, COLOUR));
    carry(members, 1);
    zomtagi_free(one);
    uint16_t number = zomtagi_tick(one, word());
    printf("after zomtagi_free: %d %s\n", number, zomtagi_refusal_name(number));
    must("an empty slot answers 80", number == ZOMTAGI_NO_NODE);
    serve_again(&members[1], 1);
    print_read(&members[1]);
    print_damage(&members[1], 1, 60);

    zomtagi_slot_drop(one);
    zomtagi_slot_drop(zero);
    close(members[1].file);
    free(buffer);
    return 0;
}
