/* The three calls that the library makes of its host, by the C library. malloc's blocks are
 * aligned to 16 bytes. SPDX-License-Identifier: MIT OR Apache-2.0 */
#include "kaolinsilk_host.h"
#include <stdlib.h>

static struct rattle_block block(void *at) {
  return (struct rattle_block){at != NULL, at};
}

struct rattle_block rattle_alloc(size_t bytes, size_t alignment) {
  (void)alignment;
  return block(malloc(bytes));
}

void rattle_dealloc(void *at) {
  free(at);
}

struct rattle_block rattle_realloc(void *at, size_t kept, size_t bytes, size_t alignment) {
  (void)kept, (void)alignment;
  return block(realloc(at, bytes));
}
