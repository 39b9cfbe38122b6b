/*
 * Stands between a program and the C library, to see what the program does where the machine refuses it something.
 *
 * REFUSE names a kind of request and a number from 1, and the request of that number is refused:
 *
 *     memory:N  the Nth request for memory gets none
 *     read:N    the Nth read fails
 *     write:N   the Nth write fails
 *     part:N    the Nth read or write of more than one byte moves one byte
 *     thread:N  the Nth thread is not started
 *
 * With N.. in place of N, all requests of the kind from the Nth on are refused. A number of 0 refuses nothing. At the end
 * the number of requests of the kind is put into the file that REFUSE_COUNT names, if there is one.
 */
#define _GNU_SOURCE
#include <dlfcn.h>
#include <errno.h>
#include <fcntl.h>
#include <limits.h>
#include <pthread.h>
#include <stdatomic.h>
#include <stdio.h>
#include <stdlib.h>
#include <string.h>
#include <sys/syscall.h>
#include <unistd.h>

void *__libc_malloc(size_t size);
void *__libc_calloc(size_t count, size_t size);
void *__libc_realloc(void *at, size_t size);

enum kind { NOTHING, MEMORY, READ, WRITE, PART, THREAD };

typedef int start(pthread_t *, const pthread_attr_t *, void *(*)(void *), void *);

static enum kind counted;
static unsigned long first, last;
static atomic_ulong requests;

/* Whether a request of this kind is to be refused. */
static int is_refused(enum kind kind)
{
    if (kind != counted)
        return 0;
    unsigned long number = atomic_fetch_add(&requests, 1) + 1;
    return first <= number && number <= last;
}

static void *no_memory(void)
{
    errno = ENOMEM;
    return NULL;
}

void *malloc(size_t size)
{
    return is_refused(MEMORY) ? no_memory() : __libc_malloc(size);
}

void *calloc(size_t count, size_t size)
{
    return is_refused(MEMORY) ? no_memory() : __libc_calloc(count, size);
}

void *realloc(void *at, size_t size)
{
    return is_refused(MEMORY) ? no_memory() : __libc_realloc(at, size);
}

static ssize_t failed(int error)
{
    errno = error;
    return -1;
}

ssize_t read(int file, void *into, size_t size)
{
    if (is_refused(READ))
        return failed(EIO);
    if (size > 1 && is_refused(PART))
        size = 1;
    return syscall(SYS_read, file, into, size);
}

ssize_t write(int file, const void *piece, size_t size)
{
    if (is_refused(WRITE))
        return failed(ENOSPC);
    if (size > 1 && is_refused(PART))
        size = 1;
    return syscall(SYS_write, file, piece, size);
}

ssize_t __write(int file, const void *piece, size_t size)
{
    return write(file, piece, size);
}

int pthread_create(pthread_t *thread, const pthread_attr_t *how, void *(*run)(void *), void *on)
{
    if (is_refused(THREAD))
        return EAGAIN;
    return ((start *)dlsym(RTLD_NEXT, "pthread_create"))(thread, how, run, on);
}

__attribute__((constructor)) static void begin(void)
{
    static const char *const names[] = { "", "memory:", "read:", "write:", "part:", "thread:" };
    const char *wanted = getenv("REFUSE");
    if (!wanted)
        return;
    for (enum kind kind = MEMORY; kind <= THREAD; kind++)
        if (!strncmp(wanted, names[kind], strlen(names[kind])))
            counted = kind;
    char *rest;
    first = strtoul(wanted + strlen(names[counted]), &rest, 10);
    last = strcmp(rest, "..") ? first : ULONG_MAX;
}

__attribute__((destructor)) static void end(void)
{
    const char *name = getenv("REFUSE_COUNT");
    int file = name ? open(name, O_WRONLY | O_CREAT | O_TRUNC | O_CLOEXEC, 0644) : -1;
    if (file >= 0) {
        dprintf(file, "%lu\n", requests);
        close(file);
    }
}

/* A program that starts threads ends by this call, which runs no destructor. */
void _exit(int status)
{
    end();
    for (;;)
        syscall(SYS_exit_group, status);
}
