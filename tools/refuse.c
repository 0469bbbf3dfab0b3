/* Refuses one request for memory of a program into which it is loaded (LD_PRELOAD), by number: REFUSED=5 is
   the fifth, and 0 is none. Into the descriptor REFUSED_TO it writes a line "refused" where it refused it, and
   at the end how many requests there were. PROCESSORS=64 says that the program may run on so many. tools/hostile
   compiles and uses it, over the C library of GNU. */
#include <errno.h>
#include <stdio.h>
#include <stdlib.h>
#include <string.h>
#include <sys/syscall.h>
#include <unistd.h>

extern void *__libc_malloc(size_t size);
extern void *__libc_realloc(void *block, size_t size);

static long requests;
static long refused;

static void tell(const char *line)
{
    const char *to = getenv("REFUSED_TO");
    if (to && write(atoi(to), line, strlen(line)) < 0)
        errno = 0;
}

__attribute__((constructor)) static void begin(void)
{
    const char *number = getenv("REFUSED");
    refused = number ? atol(number) : 0;
    requests = 0;
}

__attribute__((destructor)) static void end(void)
{
    char line[32];
    snprintf(line, sizeof line, "%ld\n", requests);
    tell(line);
}

/* A program may end without its destructors. */
void _exit(int status)
{
    end();
    syscall(SYS_exit_group, status);
    __builtin_unreachable();
}

static int is_refused(void)
{
    if (__atomic_add_fetch(&requests, 1, __ATOMIC_RELAXED) != refused)
        return 0;
    tell("refused\n");
    errno = ENOMEM;
    return 1;
}

int sched_getaffinity(pid_t process, size_t size, void *mask)
{
    const char *number = getenv("PROCESSORS");
    unsigned char *bytes = mask;
    memset(mask, 0, size);
    if (!number)
        return syscall(SYS_sched_getaffinity, process, size, mask) < 0 ? -1 : 0;
    for (size_t i = 0; i < 8 * size && i < (size_t)atol(number); i++)
        bytes[i / 8] |= 1 << i % 8;
    return 0;
}

void *malloc(size_t size)
{
    return is_refused() ? NULL : __libc_malloc(size);
}

void *realloc(void *block, size_t size)
{
    return is_refused() ? NULL : __libc_realloc(block, size);
}
