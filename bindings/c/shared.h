/* shared.h - a board in memory that processes share, for processes.c.
 * SPDX-License-Identifier: MIT OR Apache-2.0
 *
 * The mapping stands at one address in every process, so the board's pointers, and the pointer to
 * the board, mean the same in each. It belongs to a file (then processes that come later join by
 * its name), or to no file (then it is shared by the maker and those that it forks).
 *
 * When processes are killed: what a process has stored in the mapping is there for all others at
 * once, whatever becomes of it. Each atomic step is one instruction of the processor, so it was
 * made or not, and a board may lose a worker after any of them. A file keeps the board also once
 * all processes are gone. What a process alone uses, its worker and its seat, is lost with it.
 *
 * When the machine crashes: the system writes pages of the file to the disk when it likes, in any
 * order. What is found after a crash is of no one moment, and the theorems say nothing of it. So
 * the mapping names the start of the machine in which it was made, and is refused after another
 * one. Nothing is written to the disk at any moment by msync, since that would not help.
 *
 * When the file is copied, cut or changed: a copy that is made while workers are at work is of no
 * one moment, either, so the mapping names its file, and is refused in another one. A sum tells of
 * all bytes that no worker changes, the job's above all.
 */
#ifndef SHARED_H
#define SHARED_H
#include <kaolinsilk.h>
#include <stdatomic.h>
#include <stdbool.h>

/* What stands at the front of the mapping. A process makes its worker and its seat when it needs
 * them, in memory of its own, by a handle that it copies: as a forked child has a copy of all that
 * its parent had. So no two processes use one handle, and any number of them may come. */
struct shared {
  char mark[16];
  uint64_t program;   /* a sum of the program that made it, and of where its code lies */
  char start[40];     /* which start of the machine it was made in */
  uint64_t which[4];  /* which file it is: the device, the inode and when it was made */
  uint64_t sum;       /* of all bytes of the mapping that nobody changes */
  struct shared *at;  /* where it stands in each process */
  size_t length;      /* of the mapping, in bytes */
  const char *handle; /* what the board's handle points to, */
  size_t handle_length;
  const _Atomic uint64_t *words; /* the words of the board, which its workers change, */
  size_t word_count;
  const _Atomic uint64_t *members; /* and the number of those that keep it alive */
  const uint8_t *text;             /* that was opened, and whether its steps were counted before */
  size_t text_length;
  bool is_counted;
  uint32_t workers;
  _Atomic uint32_t is_whole; /* the board is open */
  _Atomic uint32_t is_over;  /* a worker knows the answer */
};

/* Why there is no mapping. */
enum shared_fault {
  SHARED_WELL,
  SHARED_THERE,   /* the file is there already */
  SHARED_FILE,    /* it can't be made, read or mapped */
  SHARED_OTHER,   /* it holds no board, or one of another build of this program */
  SHARED_CRASHED, /* it holds one of an earlier start of the machine */
  SHARED_COPY,    /* it is a copy of the file that was made */
  SHARED_CUT,     /* it was cut, or it grew */
  SHARED_CHANGED, /* bytes are changed that no worker changes */
  SHARED_WORDS,   /* the board has words that no run leaves */
  SHARED_PART,    /* its maker has not opened the board, or never did */
  SHARED_MEMORY   /* out of memory */
};

/* Makes a mapping, in this new file or in none (NULL). Until shared_is_full the library's blocks
 * are taken from it; *file is the open file, or -1. */
enum shared_fault shared_make(const char *name, struct shared **made, int *file);
/* A copy of a text in the mapping, or NULL. */
const uint8_t *shared_text(const uint8_t *text, size_t length);
/* Keeps this board, which was opened for so many workers. The library's blocks are taken from
 * malloc again. The mapping and the file are cut to what was taken, and all of the file is on the
 * disk's account, so that no later store is refused. */
enum shared_fault shared_is_full(struct shared *shared, int file, ks_board *board,
                                 uint32_t workers);
/* Maps the board of a file, if it is as it was made, as far as a look tells. From then on a part of
 * the file that is missing ends the process with KS_FAILED. */
enum shared_fault shared_join(const char *name, struct shared **found, int *file);
/* Whether the board of this file is as it was made, but for its words, and these have no stamp of a
 * step that is still to come. No look can tell of another value in a word of a place, of a node
 * that is marked, or of the words of an earlier moment that were put back. */
enum shared_fault shared_look(const struct shared *shared, int file);

/* Makes a worker of this number, or a seat, in memory of this process, and returns a status. */
uint32_t shared_worker(const struct shared *shared, uint32_t number, ks_worker *worker);
uint32_t shared_seat(const struct shared *shared, ks_seat *seat);

/* This process is at work as this worker until it ends, however it does. */
void shared_hold(int file, uint32_t worker);
/* Whether another process is at work on the board of this file. */
bool shared_is_held(int file);

#endif
