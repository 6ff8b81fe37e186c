// Refuses one allocation of the program that it is preloaded into: that of the number in REFUSE, counted from 1, and
// from when the file that REFUSE_FROM names is there, if that is set. It makes the file that REFUSED names when it does.
#include <errno.h>
#include <fcntl.h>
#include <stddef.h>
#include <stdlib.h>
#include <unistd.h>

extern void *__libc_malloc(size_t size);
extern void *__libc_calloc(size_t count, size_t size);
extern void *__libc_realloc(void *place, size_t size);

// Several threads may ask at once: just one of them meets the number. The first to ask stands alone, before `main`.
static int is_refused(void)
{
	static int has_begun;
	static long left;
	if (!has_begun) {
		const char *number = getenv("REFUSE");
		left = number ? atol(number) : 0;
		has_begun = 1;
	}
	static const char *from;
	if (!from)
		from = getenv("REFUSE_FROM") ? getenv("REFUSE_FROM") : "";
	if (*from && access(from, F_OK) != 0)
		return 0;
	if (__atomic_load_n(&left, __ATOMIC_SEQ_CST) <= 0 || __atomic_fetch_sub(&left, 1, __ATOMIC_SEQ_CST) != 1)
		return 0;
	const char *mark = getenv("REFUSED");
	if (mark)
		open(mark, O_CREAT | O_WRONLY, 0600);
	errno = ENOMEM;
	return 1;
}

void *malloc(size_t size)
{
	return is_refused() ? NULL : __libc_malloc(size);
}

void *calloc(size_t count, size_t size)
{
	return is_refused() ? NULL : __libc_calloc(count, size);
}

void *realloc(void *place, size_t size)
{
	return is_refused() ? NULL : __libc_realloc(place, size);
}
