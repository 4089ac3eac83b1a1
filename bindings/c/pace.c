/*
 * How many steps a node makes in a second through the exports: the work and the lines of
 * `bench node steps` (crates/bench), beside which scripts/bindings-pace runs it.
 */
#include "zomtagi.h"

#include <stdio.h>
#include <stdlib.h>
#include <string.h>
#include <time.h>

/* How many steps a sample has, and how many samples there are; the median counts. */
enum { CALLS = 2000, SAMPLES = 11, MOST_KEYS = 8192, NAME = 9, BODY = 100, MOST_FRAME = 65536 };

#define PREFIX (const uint8_t *)"bench", 5, (const uint8_t *)"p", 1

static char names[MOST_KEYS][NAME + 1];
static uint8_t value[BODY], reply[MOST_FRAME], *frames[CALLS];
static size_t lens[CALLS];
static zomtagi_slot *writer, *reader;

static void must(const char *what, int done)
{
    if (!done) {
        fprintf(stderr, "pace: %s\n", what);
        exit(1);
    }
}

static void accepted(const char *call, uint16_t number)
{
    if (number != ZOMTAGI_OK) {
        fprintf(stderr, "pace: %s was refused with %d %s\n", call, number, zomtagi_refusal_name(number));
        exit(1);
    }
}

/* A place that looks random, the same in each run. */
static int place_of(int count)
{
    static uint64_t state = 1;
    state = state * 6364136223846793005u + 1442695040888963407u;
    return (int)((state >> 33) % (uint64_t)count);
}

static uint64_t nanos_now(void)
{
    struct timespec now;
    clock_gettime(CLOCK_MONOTONIC, &now);
    return (uint64_t)now.tv_sec * 1000000000 + (uint64_t)now.tv_nsec;
}

/* Hands the reply out, as a program does after each step that it asks for. */
static void ask_reply(zomtagi_slot *slot)
{
    size_t len;
    accepted("zomtagi_reply", zomtagi_reply(slot, reply, sizeof reply, &len));
}

/* Hands the next frame out, if there is one, into the buffer, and returns its length, 0 for none. */
static size_t next_frame(zomtagi_slot *slot, uint8_t *buffer)
{
    size_t len;
    uint16_t number = zomtagi_frame(slot, buffer, MOST_FRAME, &len);
    if (number == ZOMTAGI_NOTHING) {
        return 0;
    }
    accepted("zomtagi_frame", number);
    accepted("zomtagi_sent", zomtagi_sent(slot));
    return len;
}

static void write_over(zomtagi_slot *slot, int place)
{
    const uint8_t *name = (const uint8_t *)names[place];
    accepted("zomtagi_write_over", zomtagi_write_over(slot, PREFIX, name, NAME, value, BODY, 0));
    ask_reply(slot);
}

static zomtagi_slot *new_node(uint16_t number)
{
    zomtagi_slot *slot = zomtagi_slot_new();
    must("there is no memory", slot != NULL);
    accepted("zomtagi_new", zomtagi_new(slot, number, 1));
    return slot;
}

/* The nanoseconds of writes at a node that knows nobody, and so sends nothing. */
static uint64_t of_writes(int count)
{
    uint64_t start = nanos_now();
    for (int call = 0; call < CALLS; call++) {
        write_over(writer, place_of(count));
        must("a lone node sends a frame", next_frame(writer, frames[0]) == 0);
    }
    return nanos_now() - start;
}

/* The nanoseconds in which the frames of writes are taken, each of which brings something new. */
static uint64_t of_gossips(int count)
{
    for (int call = 0; call < CALLS; call++) {
        write_over(writer, place_of(count));
        lens[call] = next_frame(writer, frames[call]);
        must("a write sends no frame", lens[call] != 0);
    }
    uint64_t start = nanos_now();
    for (int call = 0; call < CALLS; call++) {
        accepted("zomtagi_take", zomtagi_take(reader, frames[call], lens[call], start));
        ask_reply(reader);
        must("a frame brings nothing new", reply[0] == 4);
        must("a frame is passed on", next_frame(reader, frames[call]) == 0);
    }
    return nanos_now() - start;
}

static int by_size(const void *one, const void *other)
{
    uint64_t a = *(const uint64_t *)one, b = *(const uint64_t *)other;
    return (a > b) - (a < b);
}

/* Prints how many steps are made in a second, by the median of the samples. */
static void print_rate(const char *name, int count, uint64_t sample(int))
{
    uint64_t samples[SAMPLES];
    for (int at = 0; at < SAMPLES; at++) {
        samples[at] = sample(count);
    }
    qsort(samples, SAMPLES, sizeof *samples, by_size);
    unsigned long long rate = CALLS * 1000000000ull / samples[SAMPLES / 2];
    printf("%s_%d_keys_1_prefix %llu ops/s\n", name, count, rate);
}

/* Hands the writer's or the reader's next frame to the other one. */
static void carry(zomtagi_slot *from, zomtagi_slot *to)
{
    size_t len = next_frame(from, frames[0]);
    must("no frame is sent", len != 0);
    accepted("zomtagi_take", zomtagi_take(to, frames[0], len, 1));
}

/* Lets a node that knows nobody hold the value under each key. */
static void fill_lone(int count)
{
    for (int place = 0; place < count; place++) {
        write_over(writer, place);
    }
}

/* Lets two neighbours hold it, by writes of the first. */
static void fill_both(int count)
{
    accepted("zomtagi_join", zomtagi_join(reader, 0, 1));
    carry(reader, writer);
    for (int place = 0; place < count; place++) {
        write_over(writer, place);
        carry(writer, reader);
    }
}

/* Makes new nodes, fills them, and prints the line. */
static void measure(const char *name, int count, void fill(int), uint64_t sample(int))
{
    writer = new_node(0);
    reader = new_node(1);
    fill(count);
    print_rate(name, count, sample);
    zomtagi_slot_drop(writer);
    zomtagi_slot_drop(reader);
}

int main(void)
{
    memset(value, 'a', BODY);
    for (int call = 0; call < CALLS; call++) {
        frames[call] = malloc(MOST_FRAME);
        must("there is no memory", frames[call] != NULL);
    }
    for (int count = 100; count <= MOST_KEYS; count += MOST_KEYS - 100) {
        for (int place = 0; place < count; place++) {
            snprintf(names[place], sizeof names[place], "key-%05d", place);
        }
        measure("step_put_over", count, fill_lone, of_writes);
        measure("step_fresh_gossip", count, fill_both, of_gossips);
    }
    return 0;
}
