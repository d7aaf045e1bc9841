/* Loaded before the C library: of a program's allocations, reads or writes, fails the one whose number REFUSE says, as in
 * `malloc 3`, `read 1` or `write 2`, counted from 1. Where REFUSED names a file, the counts of all three are written into it as
 * the program ends. Reads bring 64 bytes at most, and writes take 64 at most, so that there are many of each. */
#define _GNU_SOURCE
#include <dlfcn.h>
#include <errno.h>
#include <fcntl.h>
#include <stdio.h>
#include <stdlib.h>
#include <string.h>
#include <unistd.h>

enum call { ALLOCATION, READ, WRITE, CALLS };

static const char *const names[CALLS] = {"malloc", "read", "write"};
static unsigned long counts[CALLS];
static unsigned long refused[CALLS];
static int is_ready;

static void *(*next_malloc)(size_t);
static void *(*next_realloc)(void *, size_t);
static ssize_t (*next_read)(int, void *, size_t);
static ssize_t (*next_write)(int, const void *, size_t);

static void find_next(void)
{
	next_malloc = dlsym(RTLD_NEXT, "malloc");
	next_realloc = dlsym(RTLD_NEXT, "realloc");
	next_read = dlsym(RTLD_NEXT, "read");
	next_write = dlsym(RTLD_NEXT, "write");
}

__attribute__((constructor)) static void begin(void)
{
	const char *asked = getenv("REFUSE");
	char name[8];
	unsigned long number;

	find_next();
	if (asked && sscanf(asked, "%7s %lu", name, &number) == 2)
		for (int call = 0; call < CALLS; call++)
			if (!strcmp(name, names[call]))
				refused[call] = number;
	memset(counts, 0, sizeof(counts));
	is_ready = 1;
}

__attribute__((destructor)) static void end(void)
{
	const char *path = getenv("REFUSED");
	FILE *file;

	is_ready = 0;
	file = path ? fopen(path, "w") : NULL;
	if (file) {
		fprintf(file, "%lu %lu %lu\n", counts[ALLOCATION], counts[READ], counts[WRITE]);
		fclose(file);
	}
}

static int is_refused(enum call call)
{
	return is_ready && ++counts[call] == refused[call];
}

void *malloc(size_t size)
{
	if (!next_malloc)
		find_next();
	if (is_refused(ALLOCATION)) {
		errno = ENOMEM;
		return NULL;
	}
	return next_malloc(size);
}

void *realloc(void *block, size_t size)
{
	if (!next_realloc)
		find_next();
	if (is_refused(ALLOCATION)) {
		errno = ENOMEM;
		return NULL;
	}
	return next_realloc(block, size);
}

static size_t piece(size_t size)
{
	return is_ready && size > 64 ? 64 : size;
}

ssize_t read(int from, void *bytes, size_t size)
{
	if (is_refused(READ)) {
		errno = EIO;
		return -1;
	}
	return next_read(from, bytes, piece(size));
}

ssize_t write(int to, const void *bytes, size_t size)
{
	if (to != STDERR_FILENO && is_refused(WRITE)) {
		errno = EIO;
		return -1;
	}
	return next_write(to, bytes, to == STDERR_FILENO ? size : piece(size));
}
