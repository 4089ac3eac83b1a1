/*
 * take_cost FILE FRAME: serves node 1 from the bytes of FILE, in memory, hands it the bytes of FRAME,
 * and prints the processor seconds of that one call and the number that it returned. For
 * scripts/dear-inputs, which builds it with libnode_export.a.
 */
#include "zomtagi.h"

#include <stdio.h>
#include <stdlib.h>
#include <time.h>

static uint8_t buffer[64];

static uint8_t *read_all(const char *path, size_t *count)
{
    FILE *file = fopen(path, "rb");
    if (file == NULL || fseek(file, 0, SEEK_END) != 0) {
        perror(path);
        exit(2);
    }
    *count = (size_t)ftell(file);
    rewind(file);
    uint8_t *bytes = malloc(*count + 1);
    if (bytes == NULL || fread(bytes, 1, *count, file) != *count) {
        fprintf(stderr, "take_cost: %s was not read\n", path);
        exit(2);
    }
    fclose(file);
    return bytes;
}

int main(int count, char **words)
{
    if (count != 3) {
        fprintf(stderr, "usage: take_cost FILE FRAME\n");
        return 2;
    }
    size_t file_len, frame_len, gate, len;
    uint8_t *file = read_all(words[1], &file_len), *frame = read_all(words[2], &frame_len);
    zomtagi_slot *slot = zomtagi_slot_new();
    if (slot == NULL) {
        fprintf(stderr, "take_cost: there is no memory\n");
        return 2;
    }
    uint16_t served = zomtagi_serve(slot, file, file_len, 1);
    if (served != ZOMTAGI_OK
        || zomtagi_record(slot, &gate, buffer, sizeof buffer, &len) != ZOMTAGI_OK
        || zomtagi_stored(slot, 1) != ZOMTAGI_OK) {
        fprintf(stderr, "take_cost: not served: %d\n", served);
        return 2;
    }
    clock_t began = clock();
    uint16_t taken = zomtagi_take(slot, frame, frame_len, 1);
    printf("%.3f %d\n", (double)(clock() - began) / CLOCKS_PER_SEC, taken);
    zomtagi_slot_drop(slot);
    free(frame);
    free(file);
    return 0;
}
