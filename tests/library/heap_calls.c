/*
 * Calls the functions of packaging/heap.c as the compiled code of programs and library does, for tests/library/heap.py.
 * The linker puts malloc, free and madvise below in the place of others' (--wrap). Says the first condition that does
 * not hold. With "other" it runs over any heap: it does not call aligned_alloc, and asks for no more than there is. With
 * "core" it ends by SIGABRT, with a large block full of L, and a small one of S.
 */
#include <errno.h>
#include <stdint.h>
#include <stdio.h>
#include <sys/mman.h>

#include "refusing.h"

struct tried {
	_Bool ok;
	void *block;
};
struct tried rattle_alloc(size_t size, size_t align);
struct tried rattle_realloc(void *old, size_t kept, size_t size, size_t align);
void rattle_dealloc(void *block);

#define HUGE_PAGE ((size_t)2 << 20)
static const size_t sizes[] = {0, 1, 17, 4096, HUGE_PAGE - 1, HUGE_PAGE + 4097};
enum { SIZES = sizeof sizes / sizeof sizes[0] };

static int is_advice_refused, is_at_huge_page;

#define HOLDS(condition) ((condition) ? (void)0 : (puts(#condition), exit(1)))

/* What malloc gave and is not freed: from where, of how many bytes, and what was asked of Linux for them. */
static struct given {
	char *start;
	size_t size, huge, kept_out;
} given[4], *last;

static struct given *given_at(const char *at)
{
	size_t each;

	for (each = 0; each < 4; ++each)
		if (given[each].start != NULL && at >= given[each].start && at < given[each].start + given[each].size)
			return &given[each];
	return NULL;
}

void *__real_malloc(size_t size);
void __real_free(void *block);
int __real_madvise(void *block, size_t size, int advice);

void *__wrap_malloc(size_t size)
{
	void *block = is_at_huge_page && size < HUGE_PAGE ? aligned_alloc(HUGE_PAGE, size) : __real_malloc(size);

	HOLDS(size != 0 && size % 16 == 0);
	for (last = given; block != NULL && last->start != NULL;)
		++last;
	if (block != NULL)
		*last = (struct given){block, size, 0, 0};
	return block;
}

void __wrap_free(void *block)
{
	struct given *it = given_at(block);

	HOLDS(it != NULL && it->start == block);
	HOLDS(it != NULL && it->kept_out == 0);
	if (it != NULL)
		it->start = NULL;
	__real_free(block);
}

int __wrap_madvise(void *block, size_t size, int advice)
{
	struct given *it = given_at(block);

	HOLDS((uintptr_t)block % HUGE_PAGE == 0 && size % 4096 == 0);
	HOLDS(it != NULL && (char *)block + size <= it->start + it->size);
	HOLDS(advice == MADV_HUGEPAGE || advice == MADV_DONTDUMP || (advice == MADV_DODUMP && it->kept_out == size));
	*(advice == MADV_HUGEPAGE ? &it->huge : &it->kept_out) = advice == MADV_DODUMP ? 0 : size;
	errno = EINVAL;
	return is_advice_refused ? -1 : __real_madvise(block, size, advice);
}

static int is_filled(const struct tried *it, size_t size, unsigned char byte)
{
	const unsigned char *bytes = it->block;

	return size == 0 || (bytes[0] == byte && memcmp(bytes, bytes + 1, size - 1) == 0);
}

/* Whether it is a block of so many bytes, and the large one is as a large one should be. */
static int is_given(const struct tried *it, size_t size)
{
	const struct given *from = it->ok ? given_at(it->block) : NULL;

	if (from == NULL || (char *)it->block + size > from->start + from->size || (uintptr_t)it->block % 16 != 0)
		return 0;
	if (size < HUGE_PAGE)
		return 1;
	return (uintptr_t)it->block % HUGE_PAGE == 0 && from->huge >= size && from->kept_out >= size;
}

/* A new block of this size, full of this byte. */
static struct tried filled(size_t size, unsigned char byte)
{
	struct tried made = rattle_alloc(size, 16);

	HOLDS(is_given(&made, size));
	HOLDS(last->huge <= size + 4096 && (last->huge == 0 || is_at_huge_page || size > HUGE_PAGE - 16));
	memset(made.block, byte, size);
	return made;
}

/* Two blocks of each size stand apart, and each becomes one of each size, with the bytes that fit into both. */
static void are_given(void)
{
	struct tried one, other, moved;
	size_t from, to, kept;

	for (from = 0; from < SIZES; ++from)
		for (to = 0; to < SIZES; ++to) {
			one = filled(sizes[from], 1);
			other = filled(sizes[to], 2);
			kept = sizes[from] < sizes[to] ? sizes[from] : sizes[to];
			moved = rattle_realloc(one.block, kept, sizes[to], 16);
			HOLDS(is_given(&moved, sizes[to]));
			HOLDS(is_filled(&moved, kept, 1));
			memset(moved.block, 3, sizes[to]);
			HOLDS(is_filled(&other, sizes[to], 2));
			HOLDS(live == 2 * IS_COUNTED);
			rattle_dealloc(other.block);
			HOLDS(is_filled(&moved, sizes[to], 3));
			rattle_dealloc(moved.block);
			HOLDS(live == 0);
		}
}

/* Where memory is refused, after so many requests, or is too large, the answer says so, and what was there stays. */
static void are_refused(size_t size, long requests)
{
	struct tried one = filled(4096, 1), none;

	granted = requests;
	none = rattle_alloc(size, 16);
	HOLDS(!none.ok && none.block != NULL);
	granted = requests;
	none = rattle_realloc(one.block, size < 4096 ? size : 4096, size, 16);
	HOLDS(!none.ok && none.block != NULL);
	HOLDS(is_filled(&one, 4096, 1));
	granted = -1;
	rattle_dealloc(one.block);
	HOLDS(live == 0);
}

int main(int count, char **words)
{
	struct tried other;
	size_t at;

	if (count == 2 && strcmp(words[1], "core") == 0) {
		filled(HUGE_PAGE, 'L');
		filled(4096, 'S');
		abort();
	}
	(void)other;
	for (is_at_huge_page = 0; is_at_huge_page < 1 + (count == 1); ++is_at_huge_page)
		are_given();
	is_at_huge_page = 0;
	is_advice_refused = 1;
	rattle_dealloc(filled(HUGE_PAGE, 1).block);
	if (count == 1)
		are_refused(((size_t)1 << 63) - 1, -1);
	for (at = 0; IS_COUNTED && at < SIZES; ++at)
		are_refused(sizes[at], 0);
#ifdef REFUSE
	other = filled(HUGE_PAGE, 0); /* what stands before it is gone with it */
	not_zero = 0;
	rattle_dealloc(other.block);
	HOLDS(not_zero == 0);
#endif
	return 0;
}
