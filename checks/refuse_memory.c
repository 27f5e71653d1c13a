/* Refuses one request for memory of a program that it is loaded before (LD_PRELOAD). REFUSED_REQUEST is the number of the request, from 1, and
 * REQUESTS_FILE the descriptor of a file that has the numbers of two kinds of requests after each: those that the program made, and those
 * that others made after the program began. A request is the program's if it returns to the code of the program's own file; those of the
 * dynamic loader and of the C library return to theirs, and are never refused. */
#define _GNU_SOURCE
#include <dlfcn.h>
#include <errno.h>
#include <link.h>
#include <stdint.h>
#include <stdlib.h>
#include <unistd.h>

static uintptr_t code_start, code_end;
static uint64_t refused, counts[2];
static int file;

static int find_code(struct dl_phdr_info *object, size_t size, void *unused) {
    (void)size, (void)unused;
    for (int i = 0; i < object->dlpi_phnum; i++) {
        const ElfW(Phdr) *part = &object->dlpi_phdr[i];
        if (part->p_type != PT_LOAD || !(part->p_flags & PF_X)) continue;
        code_start = object->dlpi_addr + part->p_vaddr;
        code_end = code_start + part->p_memsz;
    }
    return 1; /* The first object is the program itself. */
}

__attribute__((constructor)) static void begin(void) {
    refused = strtoull(getenv("REFUSED_REQUEST"), NULL, 10);
    file = atoi(getenv("REQUESTS_FILE"));
    dl_iterate_phdr(find_code, NULL);
}

static int is_refused(void *caller) {
    if (!code_end) return 0;
    int is_other = (uintptr_t)caller < code_start || (uintptr_t)caller >= code_end;
    counts[is_other]++;
    if (pwrite(file, counts, sizeof counts, 0) != sizeof counts) abort();
    if (is_other || counts[0] != refused) return 0;
    errno = ENOMEM;
    return 1;
}

#define NEXT(name) ((__typeof__(&name))dlsym(RTLD_NEXT, #name))
#define IS_REFUSED is_refused(__builtin_return_address(0))

void *malloc(size_t size) { return IS_REFUSED ? NULL : NEXT(malloc)(size); }
void *calloc(size_t count, size_t size) { return IS_REFUSED ? NULL : NEXT(calloc)(count, size); }
void *realloc(void *memory, size_t size) { return IS_REFUSED ? NULL : NEXT(realloc)(memory, size); }
void *aligned_alloc(size_t alignment, size_t size) { return IS_REFUSED ? NULL : NEXT(aligned_alloc)(alignment, size); }

int posix_memalign(void **memory, size_t alignment, size_t size) {
    return IS_REFUSED ? ENOMEM : NEXT(posix_memalign)(memory, alignment, size);
}
