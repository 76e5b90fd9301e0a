// The allocator of the page: the three calls that the core makes of C, over the module's own
// memory, and room for what the page passes. Blocks have a power of two of bytes, at least 32, and
// begin with a header of 16; freed blocks of a size are kept in a list and given out again.
typedef unsigned long size;
_Static_assert(sizeof(size) == 8 && sizeof(void *) == 8, "wasm64");

enum { HEADER = 16, LEAST_KIND = 5, MOST_KIND = 40, PAGE_KIND = 16, MOST_PAGES_AHEAD = 16 };

struct header {
  size kind;  // the block has 2^kind bytes
  struct header *next;
};

// What a call of the core's allocator answers: whether there is room, and where.
struct taken {
  size ok;
  void *at;
};

extern unsigned char __heap_base;
static struct header *freed[MOST_KIND + 1];
static size top;  // the first byte that was never given out
static size end;  // the end of the memory

static int grow_by(size pages) {
  if (__builtin_wasm_memory_grow(0, pages) == (size)-1) return 0;
  end += pages << PAGE_KIND;
  return 1;
}

// Whether there are so many bytes behind the top.
static int have(size bytes) {
  if (!top) {
    top = ((size)&__heap_base + HEADER - 1) & -(size)HEADER;
    end = __builtin_wasm_memory_size(0) << PAGE_KIND;
  }
  if (end - top >= bytes) return 1;
  size pages = (bytes - (end - top) + (1ul << PAGE_KIND) - 1) >> PAGE_KIND;
  if (pages < MOST_PAGES_AHEAD && grow_by(MOST_PAGES_AHEAD)) return 1;
  return grow_by(pages);
}

static struct header *take(size kind) {
  struct header *block = freed[kind];
  if (block) {
    freed[kind] = block->next;
    return block;
  }
  if (!have(1ul << kind)) return 0;
  block = (struct header *)top;
  block->kind = kind;
  top += 1ul << kind;
  return block;
}

static size room_of(const struct header *block) { return (1ul << block->kind) - HEADER; }
static struct header *block_of(void *at) { return (struct header *)at - 1; }

static void *room(size bytes) {
  if (bytes > (1ul << MOST_KIND) - HEADER) return 0;
  size kind = LEAST_KIND;
  while ((1ul << kind) - HEADER < bytes) kind++;
  struct header *block = take(kind);
  return block ? block + 1 : 0;
}

static void give_back(void *at) {
  struct header *block = block_of(at);
  block->next = freed[block->kind];
  freed[block->kind] = block;
}

struct taken rattle_alloc(size bytes, size alignment) {
  (void)alignment;  // the core asks for 16 at most
  void *at = room(bytes);
  return (struct taken){at != 0, at};
}

void rattle_dealloc(void *at) { give_back(at); }

struct taken rattle_realloc(void *at, size kept, size bytes, size alignment) {
  (void)alignment;
  if (bytes <= room_of(block_of(at))) return (struct taken){1, at};
  void *moved = room(bytes);
  if (!moved) return (struct taken){0, 0};
  __builtin_memcpy(moved, at, kept);
  give_back(at);
  return (struct taken){1, moved};
}

void *page_room(size bytes) { return room(bytes); }
void page_free(void *at) { give_back(at); }

// What the compiler calls by itself; on WebAssembly the first three are instructions.
void *memcpy(void *to, const void *from, size n) { return __builtin_memcpy(to, from, n); }
void *memmove(void *to, const void *from, size n) { return __builtin_memmove(to, from, n); }
void *memset(void *to, int byte, size n) { return __builtin_memset(to, byte, n); }

int memcmp(const void *some, const void *others, size n) {
  const unsigned char *a = some, *b = others;
  for (size i = 0; i < n; i++)
    if (a[i] != b[i]) return a[i] < b[i] ? -1 : 1;
  return 0;
}

int bcmp(const void *some, const void *others, size n) { return memcmp(some, others, n); }

// A product of numbers of 128 bits, by pieces of 32.
typedef unsigned __int128 wide;

static wide both(size high, size low) { return (wide)high << 64 | low; }

static wide product(size a, size b) {
  size half = 0xffffffffu;
  size low = (a & half) * (b & half);
  size middle = (a >> 32) * (b & half) + (low >> 32);
  size other = (a & half) * (b >> 32) + (middle & half);
  return both((a >> 32) * (b >> 32) + (middle >> 32) + (other >> 32), other << 32 | (low & half));
}

wide __multi3(wide a, wide b) {
  size high = (size)a * (size)(b >> 64) + (size)(a >> 64) * (size)b;
  return product((size)a, (size)b) + both(high, 0);
}
