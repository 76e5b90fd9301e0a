/* Runs a job by four threads of which three are cancelled in the midst of their work: the answer
 * is there all the same. SPDX-License-Identifier: MIT OR Apache-2.0
 *
 *   cc -pthread threads.c $(pkg-config --cflags --libs kaolinsilk) -o threads
 *
 *   threads FILE                     prints the answer, by cells
 *   threads FILE ANSWER RUNS SEED    runs it again and again; each answer has to be that of the
 *                                    file ANSWER, as `pramx plain` prints it for a text of the
 *                                    machine
 *
 * A thread works in pieces, and may be cancelled between two: after any atomic step, as a piece has
 * any number of them. In the runs some are cancelled asynchronously, within a call. ks_work takes
 * no memory and holds no lock, so it bears that; but the call does not give back its handle, and
 * what that stood for is closed by a copy. The library has no tables for unwinding: handlers that
 * such a thread pushed are called, unless their code was compiled with -fexceptions, as that of C++
 * is.
 */
#define _GNU_SOURCE
#include <kaolinsilk.h>
#include <pthread.h>
#include <stdbool.h>
#include <stdio.h>
#include <stdlib.h>
#include <string.h>
#include <time.h>

enum { THREADS = 4 };

struct text {
  uint8_t *bytes;
  size_t length;
};

struct thread {
  pthread_t id;
  ks_worker worker;
  uint64_t piece; /* how many atomic steps between two looks for a cancellation; 0: all */
  pthread_barrier_t *start;
};

struct tally {
  unsigned long cancelled, ended, looks, fallen;
};

static _Noreturn void fail(const char *what) {
  fprintf(stderr, "threads: %s\n", what);
  exit(KS_FAILED);
}

static struct text read_text(const char *name) {
  FILE *file = fopen(name, "rb");
  struct text text = {malloc(1 << 24), 0};
  if (!file || !text.bytes) fail(name);
  text.length = fread(text.bytes, 1, 1 << 24, file);
  fclose(file);
  return text;
}

/* In one call, which may be cancelled in its midst. */
static uint32_t work_at_once(ks_worker worker) {
  int before;
  pthread_setcanceltype(PTHREAD_CANCEL_ASYNCHRONOUS, &before);
  uint32_t status = ks_work(&worker, UINT64_MAX);
  pthread_setcanceltype(before, &before);
  return status;
}

static uint32_t work_in_pieces(ks_worker worker, uint64_t piece) {
  uint32_t status;
  do {
    status = ks_work(&worker, piece);
    pthread_testcancel();
  } while (status == KS_UNFINISHED);
  return status;
}

static void *work(void *given) {
  struct thread *thread = given;
  pthread_barrier_wait(thread->start);
  uint32_t status =
      thread->piece ? work_in_pieces(thread->worker, thread->piece) : work_at_once(thread->worker);
  if (status != KS_DONE && status != KS_CONFLICT) fail("a worker came to no end");
  return NULL;
}

static void begin(struct thread *thread, ks_board *board, uint32_t number) {
  if (ks_worker_of(board, number, &thread->worker)) fail("out of memory");
  if (pthread_create(&thread->id, NULL, work, thread)) fail("a thread was refused");
}

static uint64_t nanoseconds(void) {
  struct timespec now;
  clock_gettime(CLOCK_MONOTONIC, &now);
  return (uint64_t)now.tv_sec * 1000000000u + (uint64_t)now.tv_nsec;
}

/* Looks at the board while the threads work: the last finished step never falls. */
static void look_until(uint64_t late, ks_seat *seat, struct tally *tally) {
  uint32_t last = 0;
  do {
    struct ks_progress seen;
    ks_progress(seat, &seen);
    tally->looks++;
    tally->fallen += seen.step < last;
    last = seen.step;
  } while (nanoseconds() < late);
}

static void end(struct thread *thread, struct tally *tally) {
  void *ended;
  pthread_join(thread->id, &ended);
  tally->cancelled += ended == PTHREAD_CANCELED;
  tally->ended += ended != PTHREAD_CANCELED;
  ks_close_worker(&thread->worker);
}

/* Writes the answer as pramx does, by cells. */
static void tell(FILE *to, ks_seat *seat) {
  static uint32_t cells[1048576];
  struct ks_fault fault;
  struct ks_progress seen;
  ks_progress(seat, &seen);
  if (ks_fault(seat, &fault) == KS_CONFLICT) {
    fprintf(to, "conflict step=%u cell=%u processors=%u,%u\n", fault.step, fault.cell, fault.first,
            fault.second);
    return;
  }
  if (ks_memory(seat, cells, 1048576)) fail("there is no answer");
  fprintf(to, "done steps=%u\n", seen.steps);
  for (size_t i = 0; i < seen.cells; i++) fprintf(to, "%zu: %u\n", i, cells[i]);
}

/* All threads but one are cancelled, each after a time of its own. */
static void lose_some(struct thread *threads, uint64_t span, ks_seat *seat, struct tally *tally) {
  int stays = rand() % THREADS;
  for (int i = 0; i < THREADS; i++) {
    uint64_t wait = (uint64_t)rand() % (span / THREADS + 1);
    if (i == stays) continue;
    look_until(nanoseconds() + wait, seat, tally);
    pthread_cancel(threads[i].id);
  }
}

static void run(struct text text, uint64_t span, bool is_storm, FILE *to, struct tally *tally) {
  struct thread threads[THREADS];
  pthread_barrier_t start;
  ks_board board;
  ks_seat seat;
  if (ks_open(text.bytes, text.length, THREADS, 0, &board)) fail("there is no board");
  if (ks_seat_of(&board, &seat)) fail("out of memory");
  pthread_barrier_init(&start, NULL, THREADS + 1);
  for (int i = 0; i < THREADS; i++) {
    threads[i].start = &start;
    threads[i].piece = is_storm && rand() % 2 ? 0 : 1 + (uint64_t)rand() % 200;
    begin(&threads[i], &board, (uint32_t)i);
  }
  pthread_barrier_wait(&start);
  lose_some(threads, span, &seat, tally);
  for (int i = 0; i < THREADS; i++) end(&threads[i], tally);
  tell(to, &seat);
  ks_close_seat(&seat);
  ks_close(&board);
  pthread_barrier_destroy(&start);
}

static uint64_t time_of(struct text text) {
  ks_board board;
  ks_worker worker;
  if (ks_open(text.bytes, text.length, 1, 0, &board)) fail("there is no board");
  if (ks_worker_of(&board, 0, &worker)) fail("out of memory");
  uint64_t begun = nanoseconds();
  ks_work(&worker, UINT64_MAX);
  uint64_t ended = nanoseconds();
  ks_close_worker(&worker);
  ks_close(&board);
  return ended - begun;
}

/* How often the answer was another one. */
static unsigned long storm(struct text text, struct text wanted, long runs) {
  struct tally tally = {0, 0, 0, 0};
  unsigned long others = 0;
  uint64_t span = time_of(text);
  for (long i = 0; i < runs; i++) {
    struct text told;
    FILE *to = open_memstream((char **)&told.bytes, &told.length);
    if (!to) fail("out of memory");
    run(text, span, true, to, &tally);
    fclose(to);
    others += told.length != wanted.length || memcmp(told.bytes, wanted.bytes, wanted.length);
    free(told.bytes);
  }
  printf("%ld runs: %lu threads cancelled in their work, %lu ended; %lu looks, %lu fell; ", runs,
         tally.cancelled, tally.ended, tally.looks, tally.fallen);
  printf("%ld of %ld alike\n", runs - (long)others, runs);
  return others + tally.fallen;
}

int main(int count, char **words) {
  struct tally tally = {0, 0, 0, 0};
  unsigned long bad = 0;
  if (count != 2 && count != 5) fail("FILE, or FILE ANSWER RUNS SEED");
  struct text text = read_text(words[1]), wanted = {NULL, 0};
  if (count == 5) {
    wanted = read_text(words[2]);
    srand((unsigned)atoi(words[4]));
    bad = storm(text, wanted, atol(words[3]));
  } else {
    run(text, time_of(text), false, stdout, &tally);
    fprintf(stderr, "%lu threads were cancelled in their work\n", tally.cancelled);
  }
  free(text.bytes), free(wanted.bytes);
  return bad ? 1 : 0;
}
