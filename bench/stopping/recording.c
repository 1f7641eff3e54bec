// Loaded before the C library. It writes into a file which calls the program makes on the files of a folder and which
// bytes it sends over sockets, each behind the one before; and it has those calls fail that the orders name.
#define _GNU_SOURCE
#include <errno.h>
#include <fcntl.h>
#include <stdarg.h>
#include <stdatomic.h>
#include <stdint.h>
#include <stdio.h>
#include <stdlib.h>
#include <string.h>
#include <sys/mman.h>
#include <sys/socket.h>
#include <sys/syscall.h>
#include <sys/uio.h>
#include <unistd.h>

enum { MADE, WRITTEN, SYNCED, FOLDER_SYNCED, SENT };
// What a descriptor is of; a number of a file is one less than what stands here.
enum { MOST = 1024, NONE = 0, FOLDER = 1 << 30 };

// The first and the last call that fails, counted from 1, and how many were made, failed, and failed as reads of files.
struct calls {
    _Atomic uint64_t first, last, made, failed, reads;
};

// Those on files, which are openings, reads, writes and syncs, and those on connections.
struct orders {
    struct calls disk, link;
};

static struct orders nobody, *orders = &nobody;
static int record = -1;
static const char *folder = "";
static int files[MOST];

struct __attribute__((packed)) call {
    uint8_t what;
    uint32_t file;
    uint64_t at, length;
};

static void note(int what, int file, uint64_t at, const void *bytes, uint64_t length) {
    struct call call = {what, file, at, length};
    struct iovec parts[] = {{&call, sizeof call}, {(void *)bytes, length}};
    if (record >= 0 && writev(record, parts, 2) != (ssize_t)(sizeof call + length)) abort();
}

__attribute__((constructor)) static void begin(void) {
    const char *path = getenv("RECORD"), *told = getenv("ORDERS"), *name = getenv("FOLDER");
    if (!path || !told || !name) abort();
    folder = name;
    record = open(path, O_WRONLY | O_APPEND | O_CREAT | O_CLOEXEC, 0600);
    int file = open(told, O_RDWR | O_CLOEXEC);
    void *shared = mmap(NULL, sizeof *orders, PROT_READ | PROT_WRITE, MAP_SHARED, file, 0);
    if (record < 0 || shared == MAP_FAILED) abort();
    orders = shared;
}

static int file_of(int descriptor) {
    return 0 <= descriptor && descriptor < MOST ? files[descriptor] : NONE;
}

static int fails(struct calls *calls, int fault) {
    uint64_t number = atomic_fetch_add(&calls->made, 1) + 1;
    if (number < calls->first || number > calls->last) return 0;
    atomic_fetch_add(&calls->failed, 1);
    errno = fault;
    return 1;
}

int open(const char *path, int flags, ...) {
    va_list rest;
    va_start(rest, flags);
    int mode = flags & (O_CREAT | __O_TMPFILE) ? va_arg(rest, int) : 0;
    va_end(rest);
    size_t length = strlen(folder);
    unsigned number = 0;
    int is_file = strncmp(path, folder, length) == 0 && sscanf(path + length, "/rdj-%4u", &number) == 1;
    if (is_file && fails(&orders->disk, EIO)) return -1;
    int is_new = is_file && access(path, F_OK) != 0;
    int descriptor = syscall(SYS_openat, AT_FDCWD, path, flags, mode);
    if (0 <= descriptor && descriptor < MOST)
        files[descriptor] = is_file ? (int)number + 1 : strcmp(path, folder) == 0 ? FOLDER : NONE;
    if (descriptor >= 0 && is_new) note(MADE, number, 0, NULL, 0);
    return descriptor;
}

int close(int descriptor) {
    if (0 <= descriptor && descriptor < MOST) files[descriptor] = NONE;
    return syscall(SYS_close, descriptor);
}

ssize_t pwrite(int descriptor, const void *bytes, size_t length, off_t at) {
    int file = file_of(descriptor);
    if (file != NONE && fails(&orders->disk, EIO)) return -1;
    ssize_t written = syscall(SYS_pwrite64, descriptor, bytes, length, at);
    if (file != NONE && written > 0) note(WRITTEN, file - 1, at, bytes, written);
    return written;
}

ssize_t pread(int descriptor, void *bytes, size_t length, off_t at) {
    if (file_of(descriptor) != NONE && fails(&orders->disk, EIO)) {
        atomic_fetch_add(&orders->disk.reads, 1);
        return -1;
    }
    return syscall(SYS_pread64, descriptor, bytes, length, at);
}

static int sync_by(long call, int descriptor) {
    int file = file_of(descriptor);
    if (file != NONE && fails(&orders->disk, EIO)) return -1;
    int synced = syscall(call, descriptor);
    if (file != NONE && synced == 0) note(file == FOLDER ? FOLDER_SYNCED : SYNCED, file - 1, 0, NULL, 0);
    return synced;
}

int fsync(int descriptor) { return sync_by(SYS_fsync, descriptor); }
int fdatasync(int descriptor) { return sync_by(SYS_fdatasync, descriptor); }

int ftruncate(int descriptor, off_t length) {
    // No file of a folder is made shorter or longer but by writes.
    if (file_of(descriptor) != NONE) abort();
    return syscall(SYS_ftruncate, descriptor, length);
}

ssize_t send(int descriptor, const void *bytes, size_t length, int flags) {
    if (fails(&orders->link, ECONNRESET)) return -1;
    note(SENT, descriptor, 0, bytes, length);
    return syscall(SYS_sendto, descriptor, bytes, length, flags, NULL, 0);
}

ssize_t recv(int descriptor, void *bytes, size_t length, int flags) {
    if (fails(&orders->link, ECONNRESET)) return -1;
    return syscall(SYS_recvfrom, descriptor, bytes, length, flags, NULL, NULL);
}

int connect(int descriptor, const struct sockaddr *address, socklen_t length) {
    if (fails(&orders->link, ECONNREFUSED)) return -1;
    return syscall(SYS_connect, descriptor, address, length);
}
