/* Prints the word J of `word_of_the_second_address_block` (crates/argon_tests/src/vectors.rt) as the reference implementation
 * makes it, which Debian's libargon2-dev has as a library:
 *
 *     gcc -O1 -o bin/address_block tests/library/address_block.c -static -largon2 -lpthread
 *     bin/address_block 2 1 3 200             pass, lane, slice and the column's index in its segment
 *
 * The parameters are those of the vector: Argon2i of version 0x13, three passes, two lanes and 1,610 KiB. The library's
 * `fill_segment` makes the segment on a stack of its own. It leaves there its input block, which is Z with the counter of
 * the last address block, and that address block, which is looked for as G(0, G(0, Z)). G comes from the library, too: in
 * Argon2d with one lane and three columns a segment, the third block is G of the first two.
 */
#include <argon2.h>
#include <pthread.h>
#include <stdint.h>
#include <stdio.h>
#include <stdlib.h>
#include <string.h>

/* As core.h of the library has them. */
typedef struct { uint64_t v[128]; } block;
typedef struct {
    block *memory;
    uint32_t version, passes, memory_blocks, segment_length, lane_length, lanes, threads, type, print_internals;
    argon2_context *context_ptr;
} instance;
typedef struct { uint32_t pass, lane; uint8_t slice; uint32_t index; } position;
void fill_segment(const instance *of, position at);

static char stack[1 << 20] __attribute__((aligned(4096)));
static instance argon2i = {0, 0x13, 3, 1608, 201, 804, 2, 1, Argon2_i, 0, 0};
static position at;

static void *make_segment(void *none) { return fill_segment(&argon2i, at), none; }

static block g(block x, block y) {
    static block memory[12];
    instance argon2d = {memory, 0x13, 1, 12, 3, 12, 1, 1, Argon2_d, 0, 0};
    memory[0] = x, memory[1] = y;
    fill_segment(&argon2d, (position){0, 0, 0, 0});
    return memory[2];
}

int main(int count, char **words) {
    if (count != 5) return 2;
    int index = atoi(words[4]), inputs = 0, addresses = 0;
    at = (position){atoi(words[1]), atoi(words[2]), atoi(words[3]), 0};
    argon2i.memory = calloc(1608, sizeof(block));
    argon2i.segment_length = index + 1; /* the last column that is made, so that its address block is the last one */
    pthread_attr_t own;
    pthread_t thread;
    if (pthread_attr_init(&own) || pthread_attr_setstack(&own, stack, sizeof(stack))) return 2;
    if (pthread_create(&thread, &own, make_segment, 0) || pthread_join(thread, 0)) return 2;
    block zero = {{0}}, input = {{at.pass, at.lane, at.slice, 1608, 3, 1, index / 128 + 1}};
    block address = g(zero, g(zero, input));
    for (char *from = stack; from < stack + sizeof(stack) - sizeof(block); from += 8) {
        inputs += memcmp(from, &input, sizeof(block)) == 0;
        addresses += memcmp(from, &address, sizeof(block)) == 0;
    }
    printf("on the stack Z stands %d times, and G(0, G(0, Z)) %d times\n", inputs, addresses);
    if (!inputs || !addresses) return 1;
    printf("J 0x%016llX\n", (unsigned long long)address.v[index % 128]);
}
