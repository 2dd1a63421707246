// Numbers from 0 on for different keys, in the order in which the keys come, and a value for each.
// It ends the program where memory is refused.
#include <err.h>
#include <stdint.h>
#include <stdlib.h>
#include <string.h>

struct numbers {
    size_t size;      // of a value
    void *values;     // by number
    uint64_t *keys;   // by number
    uint32_t *slots;  // a number and 1, or 0; a power of two of them, of which half may be used
    uint32_t count, room;
};

static void *grown(void *memory, size_t size) {
    void *larger = realloc(memory, size);
    if (!larger) errx(EXIT_FAILURE, "too little memory");
    return larger;
}

static void *zeros(size_t count, size_t size) {
    void *new = calloc(count, size);
    if (!new) errx(EXIT_FAILURE, "too little memory");
    return new;
}

static uint32_t slot_of(const struct numbers *numbers, uint64_t key) {
    uint64_t mixed = (key ^ key >> 32) * UINT64_C(0x9e3779b97f4a7c15);
    uint32_t slot = (uint32_t)(mixed >> 32) & (numbers->room - 1);
    while (numbers->slots[slot] && numbers->keys[numbers->slots[slot] - 1] != key)
        slot = (slot + 1) & (numbers->room - 1);
    return slot;
}

static void make_room(struct numbers *numbers) {
    if (numbers->room == UINT32_C(1) << 31) errx(EXIT_FAILURE, "too many different addresses");
    numbers->room = numbers->room ? 2 * numbers->room : 1024;
    numbers->keys = grown(numbers->keys, numbers->room / 2 * sizeof *numbers->keys);
    numbers->values = grown(numbers->values, numbers->room / 2 * numbers->size);
    free(numbers->slots);
    numbers->slots = zeros(numbers->room, sizeof *numbers->slots);
    for (uint32_t number = 0; number < numbers->count; number++)
        numbers->slots[slot_of(numbers, numbers->keys[number])] = number + 1;
}

// The number of a key. The value of a new one is zero.
static uint32_t number_of(struct numbers *numbers, uint64_t key) {
    uint32_t slot = numbers->room ? slot_of(numbers, key) : 0;
    if (numbers->room && numbers->slots[slot]) return numbers->slots[slot] - 1;
    if (numbers->count >= numbers->room / 2) {
        make_room(numbers);
        slot = slot_of(numbers, key);
    }
    memset((char *)numbers->values + numbers->count * numbers->size, 0, numbers->size);
    numbers->keys[numbers->count] = key;
    return (numbers->slots[slot] = ++numbers->count) - 1;
}

static void *value_of(struct numbers *numbers, uint64_t key) {
    uint32_t number = number_of(numbers, key);  // which may move the values
    return (char *)numbers->values + number * numbers->size;
}
