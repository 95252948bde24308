/* Memory to lend to a call, between pages that cannot be touched. */
#ifndef GUARDED_H
#define GUARDED_H

#include <stdbool.h>
#include <stddef.h>
#include <stdint.h>

typedef struct {
    uint8_t *own;  /* as the test sees it: it can be written */
    uint8_t *lent; /* the same memory as a call sees it, with a page on either side that cannot be read */
    size_t room;   /* bytes */
} guarded;

/* So many bytes, a multiple of 65,536. A call may not write them where they are read-only. Ends the program where there is no
 * memory. */
guarded guarded_memory(size_t room, bool read_only);

/* Calls `tell` where a page is touched that may not be; it does not return. */
void on_touch(void (*tell)(int signal));

#endif
