/* kaolinsilk_host.h - what the library calls. SPDX-License-Identifier: MIT OR Apache-2.0
 *
 * The library calls three functions of its host, and the C library's memcpy, memmove, memset and
 * memcmp. heap.c, which is in libkaolinsilk.a, has the three over malloc. A program that defines
 * them itself is linked with its own ones, if it is linked with libkaolinsilk.a: by
 * -l:libkaolinsilk.a, since -lkaolinsilk takes libkaolinsilk.so, which has them inside. Such a
 * program uses KS_HOST_IS_MINE once, and does not link where its calls would not be called.
 *
 * All three are one allocator's. A block is aligned to 16 bytes. The library takes none of more,
 * asks for no block of 0 bytes, and calls the three from the thread that made the call, and from
 * no other.
 */
#ifndef KAOLINSILK_HOST_H
#define KAOLINSILK_HOST_H
#include <stddef.h>

/* Where a block lies; is_there is 0 where there is no memory for it, else 1. */
struct rattle_block {
  size_t is_there;
  void *at;
};

struct rattle_block rattle_alloc(size_t bytes, size_t alignment);
void rattle_dealloc(void *at);
/* The block may move; its first `kept` bytes stay. Where it can't, it is as it was. */
struct rattle_block rattle_realloc(void *at, size_t kept, size_t bytes, size_t alignment);

/* libkaolinsilk.a alone has this. */
extern const char link_it_with_libkaolinsilk_a;
#define KS_HOST_IS_MINE (void)*(const volatile char *)&link_it_with_libkaolinsilk_a

#endif
