// Refuses one thread of the program that it is preloaded into: that of the number in REFUSE, counted from 1.
// It makes the file that REFUSED names when it does.
#define _GNU_SOURCE
#include <dlfcn.h>
#include <errno.h>
#include <fcntl.h>
#include <pthread.h>
#include <stdlib.h>

int pthread_create(pthread_t *thread, const pthread_attr_t *attributes, void *(*body)(void *), void *word)
{
	static long asked;
	static int (*create)(pthread_t *, const pthread_attr_t *, void *(*)(void *), void *);
	const char *number = getenv("REFUSE");
	const char *mark = getenv("REFUSED");
	if (number && __atomic_add_fetch(&asked, 1, __ATOMIC_SEQ_CST) == atol(number)) {
		if (mark)
			open(mark, O_CREAT | O_WRONLY, 0600);
		return EAGAIN;
	}
	if (!create)
		create = (int (*)(pthread_t *, const pthread_attr_t *, void *(*)(void *), void *))dlsym(RTLD_NEXT, "pthread_create");
	return create(thread, attributes, body, word);
}
