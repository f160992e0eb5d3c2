// Put before a program by LD_PRELOAD, it refuses the program's request for memory with the number REFUSE, counted from 1: its
// call of malloc or realloc answers that there is none. Requests that the C library makes for itself aren't counted. Where one was
// refused, a byte is written to the descriptor REFUSED.
#define _GNU_SOURCE
#include <errno.h>
#include <link.h>
#include <stdatomic.h>
#include <stdlib.h>
#include <unistd.h>

void *__libc_malloc(size_t);
void *__libc_realloc(void *, size_t);

static atomic_ulong requests;
static unsigned long refused;
static int report;
static const void *first, *past;

static int look(struct dl_phdr_info *object, size_t size, void *data)
{
    // The first object is the program itself.
    for (int k = 0; k < object->dlpi_phnum; k++) {
        const ElfW(Phdr) *part = &object->dlpi_phdr[k];
        if (part->p_type == PT_LOAD && part->p_flags & PF_X) {
            first = (const char *)object->dlpi_addr + part->p_vaddr;
            past = (const char *)first + part->p_memsz;
        }
    }
    return 1;
}

__attribute__((constructor)) static void begin(void)
{
    const char *number = getenv("REFUSE"), *descriptor = getenv("REFUSED");
    report = descriptor ? atoi(descriptor) : -1;
    refused = number ? strtoul(number, 0, 10) : 0;
    dl_iterate_phdr(look, 0);
}

static int refuses(const void *caller)
{
    if (caller < first || caller >= past || atomic_fetch_add(&requests, 1) + 1 != refused)
        return 0;
    if (write(report, "r", 1) != 1)
        abort();
    errno = ENOMEM;
    return 1;
}

void *malloc(size_t size)
{
    return refuses(__builtin_return_address(0)) ? 0 : __libc_malloc(size);
}

void *realloc(void *old, size_t size)
{
    return refuses(__builtin_return_address(0)) ? 0 : __libc_realloc(old, size);
}
