/*
 * Where REFUSE is defined, this stands in the place of the C library's heap: it refuses requests, and all of 0 bytes;
 * counts blocks that are not freed, and bytes that are asked for; and looks at what is freed. Blocks come with zeros.
 */
#include <malloc.h>
#include <stdlib.h>
#include <string.h>

/* Where it is not negative, so many further requests are granted. */
static long granted = -1;
/* How many blocks are not freed, and how many bytes were asked for since it was 0 last: 0 where nothing counts them. */
static long live = 0;
static __attribute__((unused)) size_t asked = 0;

#ifndef REFUSE
enum { IS_COUNTED = 0 };
#else
enum { IS_COUNTED = 1 };
static size_t least = 1;    /* blocks of fewer bytes are not counted as asked for, and not looked at */
static size_t not_zero = 0; /* how many bytes other than 0 were freed */

extern void *__libc_malloc(size_t), *__libc_memalign(size_t, size_t), __libc_free(void *);

/* Counts a request; whether it is refused. */
static int refuses(size_t size)
{
	asked += size < least ? 0 : size;
	if (granted > 0)
		--granted;
	else if (granted == 0)
		return 1;
	return size == 0;
}

static void *counted(void *block)
{
	live += block != NULL;
	return block ? memset(block, 0, malloc_usable_size(block)) : NULL;
}

void *malloc(size_t size)
{
	return refuses(size) ? NULL : counted(__libc_malloc(size));
}

void *calloc(size_t count, size_t size)
{
	return malloc(count * size);
}

void *aligned_alloc(size_t alignment, size_t size)
{
	return refuses(size) ? NULL : counted(__libc_memalign(alignment, size));
}

void free(void *block)
{
	const size_t size = block ? malloc_usable_size(block) : 0;
	size_t at;

	for (at = 0; at < size && size >= least; ++at)
		not_zero += ((unsigned char *)block)[at] != 0;
	live -= block != NULL;
	__libc_free(block);
}

void *realloc(void *block, size_t size)
{
	const size_t before = block ? malloc_usable_size(block) : 0;
	void *moved = malloc(size);

	if (block == NULL || moved == NULL)
		return moved;
	memcpy(moved, block, before < size ? before : size);
	free(block);
	return moved;
}
#endif
