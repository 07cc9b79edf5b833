/* A malloc that refuses one request of the program itself, by its number from 1 in the variable REFUSED: `bench/refused.py` preloads it.
   Requests of libraries don't count. The file COUNTED, of 8 bytes, has the number of requests so far. */
#define _GNU_SOURCE
#include <dlfcn.h>
#include <fcntl.h>
#include <link.h>
#include <stdatomic.h>
#include <stdlib.h>
#include <sys/mman.h>
#include <unistd.h>

static void *(*next_malloc)(size_t);
static void *(*next_realloc)(void *, size_t);
static unsigned long refused;
static atomic_ulong *count;
static char *from, *to;

static int find_program(struct dl_phdr_info *info, size_t size, void *none)
{
    (void)size, (void)none;
    for (int i = 0; i < info->dlpi_phnum; i++)
        if (info->dlpi_phdr[i].p_type == PT_LOAD && (info->dlpi_phdr[i].p_flags & PF_X)) {
            from = (char *)info->dlpi_addr + info->dlpi_phdr[i].p_vaddr;
            to = from + info->dlpi_phdr[i].p_memsz;
        }
    return 1; /* the program is the first of all */
}

__attribute__((constructor)) static void begin(void)
{
    const char *number = getenv("REFUSED");
    next_malloc = dlsym(RTLD_NEXT, "malloc");
    next_realloc = dlsym(RTLD_NEXT, "realloc");
    dl_iterate_phdr(find_program, NULL);
    refused = number ? strtoul(number, NULL, 10) : 0;
    int file = open(getenv("COUNTED"), O_RDWR);
    count = mmap(NULL, sizeof *count, PROT_READ | PROT_WRITE, MAP_SHARED, file, 0);
    if (file < 0 || count == MAP_FAILED)
        _exit(99);
    close(file);
}

static int is_refused(void *caller)
{
    char *at = caller;
    return from && at >= from && at < to && atomic_fetch_add(count, 1) + 1 == refused;
}

void *malloc(size_t size)
{
    if (is_refused(__builtin_return_address(0)))
        return NULL;
    return next_malloc ? next_malloc(size) : NULL;
}

void *realloc(void *old, size_t size)
{
    if (is_refused(__builtin_return_address(0)))
        return NULL;
    return next_realloc(old, size);
}
