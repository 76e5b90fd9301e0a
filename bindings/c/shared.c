/* A board in memory that processes share: see shared.h. SPDX-License-Identifier: MIT OR
 * Apache-2.0 */
#define _GNU_SOURCE
#include "shared.h"
#include "kaolinsilk_host.h"
#include <errno.h>
#include <fcntl.h>
#include <signal.h>
#include <stdlib.h>
#include <string.h>
#include <sys/mman.h>
#include <sys/stat.h>
#include <unistd.h>

#ifndef MAP_FIXED_NOREPLACE
#define MAP_FIXED_NOREPLACE 0x100000
#endif

static const char mark[16] = "kaolinsilk board";
/* Room for the greatest board, and for what opening it takes. Pages that nobody touches cost
 * none. */
static const size_t most = (size_t)1 << 30;
/* Where a mapping may stand: far from what the system puts where it likes. */
static const uintptr_t places[] = {0x200000000000, 0x20000000000, 0x600000000000};
enum { PLACES = sizeof places / sizeof *places, LINE = 64 };

/* The allocator: block after block of the mapping, while it is being filled. */

static char *front, *next, *last, *end;
static int is_filling;
/* The last blocks that were taken. An opening takes those of the board's words, of what all its
 * handles share, and of its first handle, in this order and with none after them. */
static struct taken {
  char *at;
  size_t bytes;
} words_block, common_block, handle_block;

static int is_inside(const void *at) {
  return (const char *)at >= front && (const char *)at < end;
}

static struct rattle_block none(void) {
  return (struct rattle_block){0, NULL};
}

static struct rattle_block host_block(void *at) {
  return (struct rattle_block){at != NULL, at};
}

static void note(char *at, size_t bytes) {
  if (!bytes) return;
  words_block = common_block;
  common_block = handle_block;
  handle_block = (struct taken){at, bytes};
}

/* No two blocks have a cache line in common. */
struct rattle_block rattle_alloc(size_t bytes, size_t alignment) {
  (void)alignment;
  if (!is_filling) return host_block(malloc(bytes));
  char *at = front + ((size_t)(next - front) + LINE - 1) / LINE * LINE;
  if (at > end || bytes > (size_t)(end - at)) return none();
  last = at;
  next = at + bytes;
  note(at, bytes);
  return (struct rattle_block){1, at};
}

void rattle_dealloc(void *at) {
  if (!is_inside(at)) {
    free(at);
  } else if (is_filling && at == last) {
    next = last;
  }
}

struct rattle_block rattle_realloc(void *at, size_t kept, size_t bytes, size_t alignment) {
  if (!is_inside(at)) return host_block(realloc(at, bytes));
  if (is_filling && at == last) {
    if (bytes > (size_t)(end - last)) return none();
    next = last + bytes;
    return (struct rattle_block){1, at};
  }
  struct rattle_block moved = rattle_alloc(bytes, alignment);
  if (moved.is_there) memcpy(moved.at, at, kept < bytes ? kept : bytes);
  return moved;
}

static void begin_filling(struct shared *shared) {
  KS_HOST_IS_MINE;
  front = (char *)shared;
  next = front + sizeof *shared;
  last = NULL;
  end = front + most;
  is_filling = 1;
}

/* Who may share: the same program in the same start of the machine. */

static uint64_t sum_on(uint64_t sum, const unsigned char *bytes, size_t count) {
  for (size_t i = 0; i < count; i++) sum = (sum ^ bytes[i]) * 1099511628211u;
  return sum;
}

/* Of the program's own bytes, and of where its code lies: a program that the system puts
 * elsewhere each time has another sum each time. Link it with -no-pie. */
static uint64_t program_sum(void) {
  unsigned char bytes[1 << 14];
  uintptr_t code = (uintptr_t)&ks_work;
  uint64_t sum = sum_on(14695981039346656037u, (unsigned char *)&code, sizeof code);
  int file = open("/proc/self/exe", O_RDONLY | O_CLOEXEC);
  for (ssize_t count = 1; file >= 0 && count > 0;) {
    count = read(file, bytes, sizeof bytes);
    if (count > 0) sum = sum_on(sum, bytes, (size_t)count);
  }
  if (file >= 0) close(file);
  return sum;
}

static void start_of_machine(char start[40]) {
  memset(start, 0, 40);
  int file = open("/proc/sys/kernel/random/boot_id", O_RDONLY | O_CLOEXEC);
  if (file < 0) return;
  if (read(file, start, 39) < 0) start[0] = 0;
  close(file);
}

/* Which file it is. One that was removed and made anew may have its inode, but not its time. */
static void name_file(int file, uint64_t which[4]) {
  struct statx found;
  memset(which, 0, 4 * sizeof *which);
  if (file < 0 || statx(file, "", AT_EMPTY_PATH, STATX_INO | STATX_BTIME, &found)) return;
  which[0] = (uint64_t)found.stx_dev_major << 32 | found.stx_dev_minor;
  which[1] = found.stx_ino;
  if (!(found.stx_mask & STATX_BTIME)) return;
  which[2] = (uint64_t)found.stx_btime.tv_sec;
  which[3] = found.stx_btime.tv_nsec;
}

static enum shared_fault judge(const struct shared *found, int file) {
  char start[40];
  uint64_t which[4];
  start_of_machine(start);
  name_file(file, which);
  if (memcmp(found->mark, mark, sizeof mark)) return SHARED_OTHER;
  if (memcmp(found->start, start, sizeof start)) return SHARED_CRASHED;
  if (found->program != program_sum()) return SHARED_OTHER;
  if (memcmp(found->which, which, sizeof which)) return SHARED_COPY;
  return found->is_whole ? SHARED_WELL : SHARED_PART;
}

/* What a look tells of the board. */

static uint64_t sum_of(uint64_t sum, const char *from, const char *to) {
  for (; from < to; from += 8) {
    uint64_t eight;
    memcpy(&eight, from, 8);
    sum = (sum ^ eight) * 0x9e3779b97f4a7c15u;
    sum ^= sum >> 32;
  }
  return sum;
}

/* Of all bytes that nobody changes: the front is summed without what is changed there. */
static uint64_t mapping_sum(const struct shared *shared) {
  struct shared begin;
  memcpy(&begin, shared, sizeof begin);
  begin.sum = 0;
  begin.is_whole = 0;
  begin.is_over = 0;
  const char *from = (const char *)shared, *to = from + shared->length;
  const char *words = (const char *)shared->words, *members = (const char *)shared->members;
  uint64_t sum = sum_of(1, (const char *)&begin, (const char *)(&begin + 1));
  sum = sum_of(sum, from + sizeof begin, words);
  sum = sum_of(sum, words + 8 * shared->word_count, members);
  return sum_of(sum, members + 8, to);
}

static bool is_within(const struct shared *shared, const void *at, size_t bytes) {
  const char *from = (const char *)shared, *to = from + shared->length;
  const char *first = at;
  return first >= from + sizeof *shared && first <= to && bytes <= (size_t)(to - first);
}

static bool has_parts(const struct shared *shared) {
  return shared->word_count < most / 8 &&
         is_within(shared, shared->words, shared->word_count * 8) &&
         is_within(shared, shared->members, 8) &&
         is_within(shared, shared->handle, shared->handle_length) &&
         shared->members >= shared->words + shared->word_count;
}

/* No word has a stamp of a later step than the one that comes. */
static bool are_stamped(const struct shared *shared, ks_seat *seat) {
  struct ks_progress seen;
  uint64_t latest = 0;
  for (size_t i = 0; i < shared->word_count; i++) {
    uint64_t stamp = atomic_load(&shared->words[i]) >> 32;
    if (stamp > latest) latest = stamp;
  }
  ks_progress(seat, &seen);
  return seen.step <= seen.steps && seen.conflict <= seen.steps && latest <= seen.step + 1ull;
}

enum shared_fault shared_look(const struct shared *shared, int file) {
  ks_seat seat;
  struct stat stat;
  if (file < 0) return SHARED_WELL;
  if (fstat(file, &stat)) return SHARED_FILE;
  enum shared_fault fault = judge(shared, file);
  if (fault) return fault;
  if ((size_t)stat.st_size != shared->length) return SHARED_CUT;
  if (!has_parts(shared) || shared->sum != mapping_sum(shared)) return SHARED_CHANGED;
  if (shared_seat(shared, &seat)) return SHARED_MEMORY;
  fault = are_stamped(shared, &seat) ? SHARED_WELL : SHARED_WORDS;
  ks_close_seat(&seat);
  return fault;
}

/* The mapping. */

static struct shared *map_at(uintptr_t place, size_t length, int file) {
  int how = MAP_FIXED_NOREPLACE | MAP_NORESERVE | MAP_SHARED | (file < 0 ? MAP_ANONYMOUS : 0);
  void *at = mmap((void *)place, length, PROT_READ | PROT_WRITE, how, file, 0);
  if (at == MAP_FAILED) return NULL;
  if (at == (void *)place) return at;
  munmap(at, length); /* a system that doesn't know the flag has put it elsewhere */
  errno = EEXIST;
  return NULL;
}

static struct shared *map_somewhere(int file) {
  struct shared *at = NULL;
  for (int i = 0; i < PLACES && !at; i++) at = map_at(places[i], most, file);
  return at;
}

/* A disk that is full shows as this signal while the mapping is being filled, and later a file that
 * was cut. */
static const char *name_of_file;

static void say(const char *text) {
  ssize_t written = write(2, text, strlen(text));
  (void)written;
}

static void on_lost_page(int number, siginfo_t *about, void *context) {
  (void)context;
  if (!is_inside(about->si_addr)) {
    signal(number, SIG_DFL);
    return;
  }
  if (is_filling) unlink(name_of_file);
  say("file ");
  say(name_of_file);
  say("\npramx-processes: ");
  say(is_filling ? "the disk has no room for the board\n" : "the file was cut, or can't be read\n");
  _exit(KS_FAILED);
}

static void expect_lost_pages(const char *name) {
  struct sigaction action = {.sa_sigaction = on_lost_page, .sa_flags = SA_SIGINFO};
  name_of_file = name;
  sigaction(SIGBUS, &action, NULL);
}

static enum shared_fault make_file(const char *name, int *file) {
  *file = open(name, O_RDWR | O_CREAT | O_EXCL | O_CLOEXEC, 0666);
  if (*file < 0) return errno == EEXIST ? SHARED_THERE : SHARED_FILE;
  expect_lost_pages(name);
  if (!ftruncate(*file, (off_t)most)) return SHARED_WELL;
  unlink(name);
  return SHARED_FILE;
}

enum shared_fault shared_make(const char *name, struct shared **made, int *file) {
  *file = -1;
  enum shared_fault fault = name ? make_file(name, file) : SHARED_WELL;
  if (fault) return fault;
  *made = map_somewhere(*file);
  if (!*made) {
    if (name) unlink(name);
    return name ? SHARED_FILE : SHARED_MEMORY;
  }
  struct shared first = {.program = program_sum(), .at = *made};
  memcpy(first.mark, mark, sizeof mark);
  start_of_machine(first.start);
  name_file(*file, first.which);
  begin_filling(*made);
  memcpy(*made, &first, sizeof first);
  return SHARED_WELL;
}

const uint8_t *shared_text(const uint8_t *text, size_t length) {
  void *at = rattle_alloc(length + 1, 1).at;
  return at ? memcpy(at, text, length) : NULL;
}

/* Whether the last blocks are those that they are taken for. */
static bool are_known(ks_board *board) {
  ks_seat seat;
  const _Atomic uint64_t *members = (const _Atomic uint64_t *)common_block.at;
  if (handle_block.at != board->at || words_block.bytes % 8 || *members != 1) return false;
  is_filling = 0;
  bool is_one_more = !ks_seat_of(board, &seat) && *members == 2;
  if (is_one_more) ks_close_seat(&seat);
  return is_one_more && *members == 1;
}

static void keep(struct shared *shared, uint32_t workers) {
  size_t page = (size_t)sysconf(_SC_PAGESIZE), taken = (size_t)(next - front);
  shared->workers = workers;
  shared->length = (taken + page - 1) / page * page;
  shared->handle = handle_block.at;
  shared->handle_length = handle_block.bytes;
  shared->words = (const _Atomic uint64_t *)words_block.at;
  shared->word_count = words_block.bytes / 8;
  shared->members = (const _Atomic uint64_t *)common_block.at;
}

enum shared_fault shared_is_full(struct shared *shared, int file, ks_board *board,
                                 uint32_t workers) {
  if (!are_known(board)) return SHARED_OTHER;
  keep(shared, workers);
  end = front + shared->length;
  munmap(end, most - shared->length);
  if (file >= 0) {
    off_t length = (off_t)shared->length;
    if (ftruncate(file, length) || posix_fallocate(file, 0, length)) return SHARED_FILE;
    shared->sum = mapping_sum(shared);
  }
  shared->is_whole = 1;
  return SHARED_WELL;
}

enum shared_fault shared_join(const char *name, struct shared **found, int *file) {
  struct shared first;
  struct stat stat;
  *file = open(name, O_RDWR | O_CLOEXEC);
  if (*file < 0 || fstat(*file, &stat)) return SHARED_FILE;
  if (pread(*file, &first, sizeof first, 0) != (ssize_t)sizeof first) return SHARED_OTHER;
  enum shared_fault fault = judge(&first, *file);
  if (fault) return fault;
  if ((size_t)stat.st_size != first.length) return SHARED_CUT;
  *found = map_at((uintptr_t)first.at, first.length, *file);
  if (!*found) return SHARED_FILE;
  front = (char *)*found;
  end = front + first.length;
  expect_lost_pages(name);
  return shared_look(*found, *file);
}

/* Handles. */

/* The board's handle, as this process has it. */
static bool take_handle(const struct shared *shared, ks_board *board) {
  static void *own;
  if (!own && (own = malloc(shared->handle_length)))
    memcpy(own, shared->handle, shared->handle_length);
  board->at = own;
  return own;
}

uint32_t shared_worker(const struct shared *shared, uint32_t number, ks_worker *worker) {
  ks_board board;
  return take_handle(shared, &board) ? ks_worker_of(&board, number, worker) : KS_MEMORY;
}

uint32_t shared_seat(const struct shared *shared, ks_seat *seat) {
  ks_board board;
  return take_handle(shared, &board) ? ks_seat_of(&board, seat) : KS_MEMORY;
}

/* The byte of a worker's number is locked while a process is at work as this worker. The system
 * frees it when the process ends. */

void shared_hold(int file, uint32_t worker) {
  struct flock lock = {.l_type = F_RDLCK, .l_whence = SEEK_SET, .l_start = worker, .l_len = 1};
  if (file >= 0) fcntl(file, F_SETLK, &lock);
}

bool shared_is_held(int file) {
  struct flock lock = {.l_type = F_WRLCK, .l_whence = SEEK_SET, .l_len = 64};
  return file >= 0 && !fcntl(file, F_GETLK, &lock) && lock.l_type != F_UNLCK;
}
