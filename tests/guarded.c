/* One memory is mapped twice, to write and to lend. */
#define _GNU_SOURCE
#include "guarded.h"

#include <signal.h>
#include <stdio.h>
#include <stdlib.h>
#include <sys/mman.h>
#include <unistd.h>

enum { GUARD = 1 << 16 };

static void *mapped(void *at, size_t size, int protection, int flags, int file) {
    void *memory = mmap(at, size, protection, flags, file, 0);
    if (memory == MAP_FAILED) {
        perror("guarded: mmap");
        exit(2);
    }
    return memory;
}

guarded guarded_memory(size_t room, bool read_only) {
    const int file = memfd_create("slice", 0), protection = read_only ? PROT_READ : PROT_READ | PROT_WRITE;
    if (file < 0 || ftruncate(file, (off_t)room) != 0) {
        perror("guarded: memfd_create");
        exit(2);
    }
    uint8_t *own = mapped(NULL, room, PROT_READ | PROT_WRITE, MAP_SHARED, file);
    uint8_t *around = mapped(NULL, GUARD + room + GUARD, PROT_NONE, MAP_PRIVATE | MAP_ANONYMOUS, -1);
    uint8_t *lent = mapped(around + GUARD, room, protection, MAP_SHARED | MAP_FIXED, file);
    close(file);
    return (guarded){own, lent, room};
}

void on_touch(void (*tell)(int signal)) {
    signal(SIGSEGV, tell);
    signal(SIGBUS, tell);
}
