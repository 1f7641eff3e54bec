// Loaded before the C library. It counts the allocations of the program, and refuses those that the orders name, which
// stand in a file that a script writes while the program runs. What libraries take for themselves passes.
#define _GNU_SOURCE
#include <errno.h>
#include <fcntl.h>
#include <link.h>
#include <stdatomic.h>
#include <stdint.h>
#include <stdlib.h>
#include <sys/mman.h>

void *__libc_malloc(size_t size);
void *__libc_realloc(void *block, size_t size);

// The first and the last allocation that is refused, counted from 1, and each multiple of a number; and how many were
// asked for and refused.
struct orders {
    _Atomic uint64_t first, last, each, asked, refused;
};

static struct orders none, *orders = &none;
// Where the program's own code stands.
static uintptr_t front, end;

static int find_code(struct dl_phdr_info *info, size_t size, void *data) {
    (void)size, (void)data;
    for (int place = 0; place < info->dlpi_phnum; place++) {
        const ElfW(Phdr) *part = &info->dlpi_phdr[place];
        if (part->p_type == PT_LOAD && part->p_flags & PF_X) {
            front = info->dlpi_addr + part->p_vaddr;
            end = front + part->p_memsz;
        }
    }
    // The program itself comes first, and nothing behind it is looked at.
    return 1;
}

__attribute__((constructor)) static void take_orders(void) {
    const char *path = getenv("REFUSING");
    int file = path ? open(path, O_RDWR | O_CLOEXEC) : -1;
    void *shared = mmap(NULL, sizeof *orders, PROT_READ | PROT_WRITE, MAP_SHARED, file, 0);
    if (shared == MAP_FAILED) abort();
    dl_iterate_phdr(find_code, NULL);
    orders = shared;
}

static int is_refused(void *caller) {
    uintptr_t place = (uintptr_t)caller;
    if (place < front || place >= end) return 0;
    uint64_t number = atomic_fetch_add(&orders->asked, 1) + 1, each = orders->each;
    int is_named = orders->first <= number && number <= orders->last;
    if (!is_named && (each == 0 || number % each != 0)) return 0;
    atomic_fetch_add(&orders->refused, 1);
    errno = ENOMEM;
    return 1;
}

void *malloc(size_t size) {
    return is_refused(__builtin_return_address(0)) ? NULL : __libc_malloc(size);
}

void *realloc(void *block, size_t size) {
    return is_refused(__builtin_return_address(0)) ? NULL : __libc_realloc(block, size);
}
