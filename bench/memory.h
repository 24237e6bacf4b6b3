// The calls of include/nightvelvet.h once more under another prefix: plain_read and so on. CALLS(prefix) declares them.
#ifndef MEMORY_H
#define MEMORY_H

#include "../include/nightvelvet.h"

#define CALLS(prefix) \
    __typeof__(nv_format) prefix##format; \
    __typeof__(nv_read) prefix##read; \
    __typeof__(nv_write) prefix##write; \
    __typeof__(nv_turn) prefix##turn; \
    __typeof__(nv_recover) prefix##recover; \
    __typeof__(nv_dirty_pages) prefix##dirty_pages;

#endif
