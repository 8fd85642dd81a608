/*
 * The heap of the programs and of libpikhsen: the C library's. But a block of 2 MiB or more begins at a huge page, and
 * until it is freed Linux is asked to use such pages for it, and to leave it out of core files. Where it does neither,
 * all else is the same.
 *
 * What the proofs take for granted of the three functions (the toolchain's libc/src/heap.rt):
 *
 *  - rattle_alloc: size is below 2^63, and align divides 16. With `ok` the answer is a new block: size bytes from an
 *    address that is not null and divisible by align, of which no part is in any other block, and whose values may be
 *    any. Without `ok`, which may be at any time, it has some address that is not null, at which nobody reads or writes.
 *  - rattle_realloc: size and align are as above, old is a block of that align, and kept is no more than either block
 *    has. With `ok` the answer is such a block, whose first kept bytes are those of old, which is no block any more.
 *    Without `ok` old is as it was.
 *  - rattle_dealloc: from then on the block is none.
 *
 * They change no memory of others, call nothing of the program's but its malloc and free, and return. malloc answers
 * null where there is no memory, and else, of a multiple of 16 bytes, an address that 16 divides.
 */
void *malloc(unsigned long size), free(void *block), *memcpy(void *to, const void *from, unsigned long size);
int madvise(void *block, unsigned long size, int advice);

enum { PAGE = 4096, HUGE_PAGE = 2 << 20, MADV_HUGEPAGE = 14, MADV_DONTDUMP = 16, MADV_DODUMP };

struct tried {
    _Bool ok;
    void *block;
};

/*
 * Stands before each block at a multiple of 2 MiB: where that of malloc begins that it lies in, and its bytes. Zeros are
 * put over it at the end, so that all that free gets of a matrix or a table is zeros.
 */
struct large {
    void *start;
    unsigned long size;
};

static char nothing;

static struct tried tried(void *block) {
    return (struct tried){.ok = block != 0, .block = block ? block : &nothing};
}

static unsigned long rounded_up(unsigned long size, unsigned long unit) {
    return (size + unit - 1) / unit * unit;
}

struct tried rattle_alloc(unsigned long size, unsigned long align) {
    (void)align;
    size = rounded_up(size ? size : 1, 16);
    if (size < HUGE_PAGE) {
        void *block = malloc(size);
        if (!block || (unsigned long)block % HUGE_PAGE != 0)
            return tried(block);
        free(block);
    }
    size = rounded_up(size, PAGE);
    void *start = malloc(size + HUGE_PAGE);
    if (!start)
        return tried(start);
    struct large *block = (void *)(((unsigned long)start / HUGE_PAGE + 1) * HUGE_PAGE);
    block[-1] = (struct large){.start = start, .size = size};
    madvise(block, size, MADV_HUGEPAGE);
    madvise(block, size, MADV_DONTDUMP);
    return tried(block);
}

void rattle_dealloc(void *block) {
    if ((unsigned long)block % HUGE_PAGE == 0) {
        volatile struct large *it = (struct large *)block - 1; /* else nothing would be written */
        madvise(block, it->size, MADV_DODUMP);
        block = it->start;
        it->start = 0, it->size = 0;
    }
    free(block);
}

struct tried rattle_realloc(void *old, unsigned long kept, unsigned long size, unsigned long align) {
    struct tried new = rattle_alloc(size, align);
    if (new.ok) {
        memcpy(new.block, old, kept);
        rattle_dealloc(old);
    }
    return new;
}
