/* Tries every call of the library, for tools/library_test. SPDX-License-Identifier: MIT OR
 * Apache-2.0
 *
 *   tries refuse FILE ..          refuses each allocation of each call in turn
 *   tries stack KILOBYTES FILE .. makes each call in a thread with such a stack
 *   tries threads N FILE ..       makes all calls in N threads at once
 *   tries wrong FILE ..           makes calls whose request or answer is wrong
 *   tries leaks FILE ..           makes all calls once, for valgrind
 *   tries time FILE ..            tells the least time of each call
 *   tries serve                   makes the calls that standard input asks for: see struct asked
 *
 * The status is 0 if all was as it should be; what was not is told.
 */
#define _GNU_SOURCE
#include "../kaolinsilk_host.h"
#include <kaolinsilk.h>
#include <pthread.h>
#include <stdatomic.h>
#include <stdio.h>
#include <stdlib.h>
#include <string.h>
#include <time.h>

enum { ROOM = 1 << 18, TEXT_ROOM = 1 << 26, NOTHING = 0x5a };

/* The allocator: counts what lives, and refuses one allocation of a thread. */

static _Atomic long living;
static _Thread_local long made, refused_one = -1;

static struct rattle_block counted(void *at, long more) {
  living += at ? more : 0;
  return (struct rattle_block){at != NULL, at};
}

static void expect_alignment(size_t alignment) {
  if (alignment <= 16) return;
  puts("a block is to be aligned to more than 16 bytes");
  exit(1);
}

struct rattle_block rattle_alloc(size_t bytes, size_t alignment) {
  expect_alignment(alignment);
  return counted(made++ == refused_one ? NULL : malloc(bytes), 1);
}

void rattle_dealloc(void *at) {
  living--;
  free(at);
}

struct rattle_block rattle_realloc(void *at, size_t kept, size_t bytes, size_t alignment) {
  (void)kept;
  expect_alignment(alignment);
  return counted(made++ == refused_one ? NULL : realloc(at, bytes), 0);
}

/* What a call told. */

struct text {
  const char *name;
  uint8_t *bytes;
  size_t length;
};

struct told {
  uint32_t status;
  struct ks_answer answer;
  uint8_t out[ROOM]; /* what is not written stays NOTHING */
};

static void clear(struct told *told) {
  memset(told, 0, sizeof *told - ROOM);
  memset(told->out, NOTHING, ROOM);
  told->answer.size = sizeof told->answer;
}

static int are_same(const struct told *one, const struct told *other) {
  return one->status == other->status &&
         !memcmp(&one->answer, &other->answer, sizeof one->answer) &&
         !memcmp(one->out, other->out, ROOM);
}

/* Out of memory, with nothing written. */
static int is_refusal(const struct told *told) {
  if (told->status != KS_MEMORY || told->answer.length) return 0;
  for (size_t i = 0; i < ROOM; i++)
    if (told->out[i] != NOTHING) return 0;
  return 1;
}

/* The calls. */

typedef uint32_t command(const uint8_t *, size_t, const struct ks_request *, uint8_t *, size_t,
                         struct ks_answer *);
static const char rows[] = "worker,act,ticks\n0,go,30\n1,stop,0\n0,back,0\n2,sleep,3\n0,go,9\n";
static const char settings[] = "n=4\nA=3,1,4,1\n";
/* The second input fails. */
static const char exercise[] = "exercise 1\ntitle squares\nwant A\ngiven\n pardo 1\n rule crew\n"
                               " const n = 4\n procs i < n\n shared A[n]\nstart\n code\n"
                               "input n=2 -> A=0,1\ninput n=4 -> A=0,1,4,9\n";
static const char submission[] =
    "pardo 1\nrule crew\nconst n = 4\nprocs i < n\nshared A[n]\ncode\nA[i] := i\n";
/* Its answer is 13, 11, 14 and 11 where A and add are given so. */
static const char adding[] = "pardo 1\nrule crew\nconst n = 4\nprocs i < n\nprivate twice = i * 2\n"
                             "shared T[2, n]\nshared A[n] = 1, 2, 3, 4\nshared add = 1\ncode\n"
                             "A[i] := A[i] + add\n";
static const uint32_t numbers[] = {3, 1, 4, 1, 10};
static const struct ks_given given[] = {{(const uint8_t *)"add", 3, numbers + 4, 1},
                                        {(const uint8_t *)"A", 1, numbers, 4}};
static const char said[] = "no,2,\"A[2] holds 2, wanted 4\"\n";

static struct ks_request request(uint32_t flags) {
  return (struct ks_request){.size = sizeof(struct ks_request),
                             .why = flags,
                             .rows_alone = flags,
                             .from = 1,
                             .to = 9,
                             .workers = 3,
                             .lines = flags};
}

static void ask(command *call, uint32_t flags, const struct text *text, struct told *told) {
  struct ks_request asked = request(flags);
  told->status = call(text->bytes, text->length, &asked, told->out, ROOM, &told->answer);
}

static void check(const struct text *text, struct told *told) {
  ask(ks_check, 0, text, told);
}
static void compile(const struct text *text, struct told *told) {
  ask(ks_compile, 0, text, told);
}
static void plain(const struct text *text, struct told *told) {
  ask(ks_plain, 0, text, told);
}
static void why(const struct text *text, struct told *told) {
  ask(ks_plain, 1, text, told);
}
static void cost(const struct text *text, struct told *told) {
  ask(ks_cost, 0, text, told);
}
static void cost_lines(const struct text *text, struct told *told) {
  ask(ks_cost, 1, text, told);
}
static void steps(const struct text *text, struct told *told) {
  ask(ks_steps, 0, text, told);
}
static void csv(const struct text *text, struct told *told) {
  ask(ks_steps, 1, text, told);
}

static void replay(const struct text *text, struct told *told) {
  struct ks_request asked = request(1);
  told->status = ks_replay(text->bytes, text->length, (const uint8_t *)rows, sizeof rows - 1,
                           &asked, told->out, ROOM, &told->answer);
}

static void cells(const struct text *text, struct told *told) {
  told->status =
      ks_cells(text->bytes, text->length, (uint32_t *)(void *)told->out, ROOM / 4, &told->answer);
}

static void plan(const struct text *text, struct told *told) {
  (void)text;
  told->status =
      ks_plan((const uint8_t *)rows, sizeof rows - 1, 3, (struct ks_plan_row *)(void *)told->out,
              ROOM / sizeof(struct ks_plan_row), &told->answer);
}

static void set(const struct text *text, struct told *told) {
  told->status = ks_set(text->bytes, text->length, (const uint8_t *)settings, sizeof settings - 1,
                        told->out, ROOM, &told->answer);
}

static uint32_t judge_by(const char *by, size_t length, const uint8_t *judged, size_t judged_length,
                         struct told *told) {
  return ks_judge((const uint8_t *)by, length, judged, judged_length, told->out, ROOM,
                  &told->answer);
}

static void judge(const struct text *text, struct told *told) {
  (void)text;
  told->status = judge_by(exercise, sizeof exercise - 1, (const uint8_t *)submission,
                          sizeof submission - 1, told);
}

static void judge_text(const struct text *text, struct told *told) {
  told->status = judge_by(exercise, sizeof exercise - 1, text->bytes, text->length, told);
}

static void judge_by_text(const struct text *text, struct told *told) {
  told->status = judge_by((const char *)text->bytes, text->length, text->bytes, text->length, told);
}

/* A board, worked to its end by a worker that comes back. What is seen on the way is compared,
 * too. */

struct seen {
  struct ks_progress before, after;
  struct ks_reading reading;
  struct ks_fault fault;
  struct ks_stop stop;
  uint32_t piece, ended, stopped;
};

static uint32_t work(ks_worker *worker, ks_seat *seat, struct told *told) {
  struct seen seen;
  memset(&seen, 0, sizeof seen);
  ks_progress(seat, &seen.before);
  seen.piece = ks_work(worker, 3);
  ks_back(worker);
  seen.ended = ks_work(worker, UINT64_MAX);
  ks_progress(seat, &seen.after);
  ks_read(seat, 0, &seen.reading);
  uint32_t conflict = ks_fault(seat, &seen.fault);
  seen.stopped = ks_stop(seat, &seen.stop);
  uint32_t *held = (uint32_t *)(void *)(told->out + sizeof seen);
  uint32_t status = ks_memory(seat, held, (ROOM - sizeof seen) / 4);
  if (status == KS_MEMORY || conflict == KS_MEMORY) return KS_MEMORY;
  memcpy(told->out, &seen, sizeof seen);
  return status;
}

typedef uint32_t opening(const uint8_t *, size_t, uint32_t, uint32_t, ks_board *);

static void board_by(opening *open, const struct text *text, struct told *told) {
  ks_board board = {NULL};
  ks_seat seat = {NULL};
  ks_worker worker = {NULL};
  told->status = open(text->bytes, text->length, 2, 0, &board);
  if (told->status) return;
  told->status = ks_seat_of(&board, &seat);
  if (!told->status) told->status = ks_worker_of(&board, 1, &worker);
  if (!told->status) told->status = work(&worker, &seat, told);
  ks_close(&board);
  if (worker.at) ks_close_worker(&worker);
  if (seat.at) ks_close_seat(&seat);
}

static void board(const struct text *text, struct told *told) {
  board_by(ks_open, text, told);
}
static void board_uncounted(const struct text *text, struct told *told) {
  board_by(ks_open_uncounted, text, told);
}

/* One that starts with what is given, and the place of what may be given. */
static uint32_t open_given(const uint8_t *text, size_t length, uint32_t workers, uint32_t grain,
                           ks_board *board) {
  return ks_open_with(text, length, workers, grain, given, 2, board);
}

static void board_with(const struct text *text, struct told *told) {
  const struct text own = {text->name, (uint8_t *)(uintptr_t)adding, sizeof adding - 1};
  board_by(open_given, &own, told);
}

static uint32_t place_of(const char *text, const char *name, struct ks_place *place) {
  return ks_place_of((const void *)text, strlen(text), (const void *)name, strlen(name), place);
}

static void place(const struct text *text, struct told *told) {
  struct ks_place *found = (struct ks_place *)(void *)told->out;
  told->status = ks_place_of(text->bytes, text->length, (const void *)"A", 1, found);
}

typedef void call(const struct text *, struct told *);
static const struct {
  const char *name;
  call *make;
} calls[] = {{"check", check},
             {"compile", compile},
             {"plain", plain},
             {"plain --why", why},
             {"cost", cost},
             {"cost --lines", cost_lines},
             {"steps", steps},
             {"steps --csv", csv},
             {"replay", replay},
             {"cells", cells},
             {"plan", plan},
             {"set", set},
             {"judge", judge},
             {"judge text", judge_text},
             {"judge by", judge_by_text},
             {"board", board},
             {"board uncounted", board_uncounted},
             {"board with", board_with},
             {"place", place}};
enum { CALLS = sizeof calls / sizeof *calls };

static void make(int which, const struct text *text, struct told *told) {
  clear(told);
  calls[which].make(text, told);
}

/* Each allocation refused in turn. */

static long tried, told_refused;

static int is_well_refused(int which, const struct text *text, long one, const struct told *whole) {
  static struct told told;
  long before = living;
  made = 0, refused_one = one;
  make(which, text, &told);
  refused_one = -1;
  int is_refused = is_refusal(&told);
  tried++, told_refused += is_refused;
  if (living == before && (is_refused || are_same(&told, whole))) return 1;
  printf("%s %s: allocation %ld refused: status %u, length %llu, %ld blocks left\n", text->name,
         calls[which].name, one, told.status, (unsigned long long)told.answer.length,
         living - before);
  return 0;
}

static int try_refusals(const struct text *texts, int count) {
  static struct told whole;
  int bad = 0;
  for (int i = 0; i < count * CALLS; i++) {
    const struct text *text = &texts[i / CALLS];
    made = 0;
    make(i % CALLS, text, &whole);
    long all = made;
    for (long one = 0; one < all; one++) bad += !is_well_refused(i % CALLS, text, one, &whole);
  }
  printf("%ld of %ld as promised: %ld out of memory, %ld whole all the same\n", tried - bad, tried,
         told_refused, tried - told_refused - bad);
  return bad;
}

/* All calls in a thread. */

struct thread {
  pthread_t id;
  const struct text *texts;
  int count, first, bad;
  struct told *wanted; /* for each call of each text, or NULL */
};

static void *all_calls(void *given) {
  struct thread *thread = given;
  struct told *told = malloc(sizeof *told);
  if (!told) exit(5);
  for (int i = 0; i < thread->count * CALLS; i++) {
    int at = (i + thread->first) % (thread->count * CALLS);
    make(at % CALLS, &thread->texts[at / CALLS], told);
    if (!thread->wanted || are_same(told, &thread->wanted[at])) continue;
    printf("%s %s differs in a thread\n", thread->texts[at / CALLS].name, calls[at % CALLS].name);
    thread->bad++;
  }
  free(told);
  return NULL;
}

static int begin(struct thread *thread, size_t stack) {
  pthread_attr_t how;
  pthread_attr_init(&how);
  int fault = stack ? pthread_attr_setstacksize(&how, stack) : 0;
  if (!fault) fault = pthread_create(&thread->id, &how, all_calls, thread);
  if (fault) printf("no thread: %s\n", strerror(fault));
  pthread_attr_destroy(&how);
  return fault;
}

static int try_stack(const struct text *texts, int count, size_t stack) {
  struct thread thread = {.texts = texts, .count = count};
  if (begin(&thread, stack)) return 1;
  pthread_join(thread.id, NULL);
  printf("%d of %d calls in a stack of %zu KB\n", count * CALLS, count * CALLS, stack / 1024);
  return 0;
}

static int try_threads(const struct text *texts, int count, int threads) {
  struct told *wanted = malloc((size_t)count * CALLS * sizeof *wanted);
  struct thread *all = calloc((size_t)threads, sizeof *all);
  int bad = 0, calls_made = threads * count * CALLS;
  if (!wanted || !all) exit(5);
  for (int i = 0; i < count * CALLS; i++) make(i % CALLS, &texts[i / CALLS], &wanted[i]);
  for (int i = 0; i < threads; i++) {
    all[i] = (struct thread){.texts = texts, .count = count, .first = i * 7, .wanted = wanted};
    if (begin(&all[i], 0)) exit(1);
  }
  for (int i = 0; i < threads; i++) {
    pthread_join(all[i].id, NULL);
    bad += all[i].bad;
  }
  printf("%d of %d calls alike in %d threads at once, %ld blocks left\n", calls_made - bad,
         calls_made, threads, living);
  return bad + (living != 0);
}

/* Calls that are wrong. */

static int faults, made_wrong;

static void expect(const char *what, int is_well) {
  made_wrong++, faults += !is_well;
  if (!is_well) printf("%s is not as it should be\n", what);
}

/* Status 4, which is told of the request, and nothing is written to the output. */
static void expect_failed(const char *what, command *call, const struct ks_request *asked,
                          const struct text *text) {
  static struct told told;
  clear(&told);
  told.status = call(text->bytes, text->length, asked, told.out, ROOM, &told.answer);
  int is_told = told.status == KS_FAILED && told.answer.subject == KS_REQUEST;
  told.status = KS_MEMORY;
  expect(what, is_told && is_refusal(&told));
}

static uint32_t replay_call(const uint8_t *text, size_t length, const struct ks_request *asked,
                            uint8_t *out, size_t room, struct ks_answer *answer) {
  return ks_replay(text, length, text, 0, asked, out, room, answer);
}

static void try_requests(const struct text *text) {
  static command *const commands[] = {ks_check, ks_compile, ks_plain,
                                      ks_cost,  ks_steps,   replay_call};
  for (size_t i = 0; i < sizeof commands / sizeof *commands; i++) {
    struct ks_request small = request(0), reserved = request(0);
    small.size--, reserved.reserved[i] = 1;
    expect_failed("a request of another size", commands[i], &small, text);
    expect_failed("a request with a reserved number", commands[i], &reserved, text);
  }
  struct ks_request flags = request(2), window = request(0), none = request(0), many = request(0);
  window.from = 10, none.workers = 0, many.workers = 65;
  expect_failed("why 2", ks_plain, &flags, text);
  expect_failed("lines 2", ks_cost, &flags, text);
  expect_failed("rows_alone 2 of steps", ks_steps, &flags, text);
  expect_failed("rows_alone 2 of a replay", replay_call, &flags, text);
  expect_failed("steps from 10 to 9", ks_steps, &window, text);
  expect_failed("a replay by no workers", replay_call, &none, text);
  expect_failed("a replay by 65 workers", replay_call, &many, text);
}

static void try_answers(const struct text *text) {
  struct told told, before;
  struct ks_request asked = request(0);
  clear(&told);
  told.answer.size++, told.status = KS_FAILED;
  before = told;
  told.status = ks_check(text->bytes, text->length, &asked, told.out, ROOM, &told.answer);
  expect("an answer of another size", are_same(&told, &before));
  told.status = ks_cells(text->bytes, text->length, (uint32_t *)(void *)told.out, 1, &told.answer);
  expect("cells with an answer of another size", are_same(&told, &before));
  set(text, &told);
  expect("a text that is set, with an answer of another size", are_same(&told, &before));
}

/* What is said of a submission, and of what is no exercise. */
static void try_verdicts(const struct text *text) {
  static struct told told;
  size_t length = sizeof said - 1;
  clear(&told);
  judge(text, &told);
  expect("a submission that did not pass",
         told.status == KS_NOT_PASSED && told.answer.length == length &&
             !memcmp(told.out, said, length) && told.out[length] == NOTHING);
  clear(&told);
  told.answer.size++;
  judge(text, &told);
  expect("a verdict with an answer of another size",
         told.status == KS_FAILED && told.out[0] == NOTHING);
  clear(&told);
  judge_by_text(text, &told);
  int is_told = told.status == KS_REFUSED && told.answer.subject == KS_EXERCISE &&
                told.answer.line == 1 && !strcmp(told.answer.kind, "BadHeader") &&
                !strcmp(told.answer.sentence, "the first line must be exercise 1");
  told.status = KS_MEMORY;
  expect("what is no exercise", is_told && is_refusal(&told));
}

static void try_sizes(void) {
  struct text text = {"", calloc(TEXT_ROOM + 1, 1), TEXT_ROOM + 1};
  static struct told told;
  if (!text.bytes) exit(5);
  memset(text.bytes, ';', text.length);
  clear(&told);
  plain(&text, &told);
  expect("a text that is too large", told.status == KS_FAILED && told.answer.subject == KS_SIZE);
  clear(&told);
  text.length--;
  plain(&text, &told);
  expect("the largest text", told.status == KS_REFUSED && told.answer.subject == KS_TEXT);
  free(text.bytes);
}

static void try_boards(const struct text *text) {
  ks_board board = {NULL};
  ks_seat seat = {NULL};
  ks_worker worker = {NULL};
  static const uint32_t wrong[][2] = {{0, 0}, {65, 0}, {2, 3}, {2, 128}};
  uint32_t cell = 0;
  struct ks_progress progress;
  struct ks_reading reading;
  struct ks_fault fault;
  struct ks_stop stop = {NOTHING};
  for (int i = 0; i < 4; i++)
    expect("a board that can't be",
           ks_open(text->bytes, text->length, wrong[i][0], wrong[i][1], &board) == KS_FAILED);
  expect("no board", !board.at);
  if (ks_open(text->bytes, text->length, 2, 0, &board) || ks_seat_of(&board, &seat)) exit(5);
  expect("a worker that is not there", ks_worker_of(&board, 2, &worker) == KS_FAILED && !worker.at);
  expect("progress", !ks_progress(&seat, &progress) && progress.step == 0 && !progress.conflict);
  expect("a cell that is not there", ks_read(&seat, progress.cells, &reading) == KS_FAILED);
  expect("no memory yet", ks_memory(&seat, &cell, 1) == KS_UNFINISHED);
  expect("no conflict yet", ks_fault(&seat, &fault) == KS_UNFINISHED);
  expect("no stop yet", ks_stop(&seat, &stop) == KS_UNFINISHED && stop.step == NOTHING);
  ks_close(&board);
  ks_close_seat(&seat);
  expect("closed handles", !board.at && !seat.at);
  ks_close_seat(&seat);
  expect("a closed seat", ks_progress(&seat, &progress) == KS_FAILED);
}

/* With a handle that stands for nothing. */
static void try_blank(void) {
  ks_board board = {NULL};
  ks_seat seat = {NULL};
  ks_worker worker = {NULL};
  uint32_t cell = NOTHING;
  struct ks_progress progress = {NOTHING, 0, 0, 0};
  struct ks_reading reading = {NOTHING, 0};
  struct ks_fault fault = {NOTHING, 0, 0, 0};
  struct ks_stop stop = {NOTHING};
  expect("a seat of nothing", ks_seat_of(&board, &seat) == KS_FAILED && !seat.at);
  expect("a worker of nothing", ks_worker_of(&board, 0, &worker) == KS_FAILED && !worker.at);
  expect("work of nobody", ks_work(&worker, 1) == KS_FAILED && ks_back(&worker) == KS_FAILED);
  expect("turns of nobody", ks_turns(&worker, 1) == KS_FAILED);
  expect("progress of nothing", ks_progress(&seat, &progress) == KS_FAILED);
  expect("a read of nothing", ks_read(&seat, 0, &reading) == KS_FAILED);
  expect("memory of nothing", ks_memory(&seat, &cell, 1) == KS_FAILED);
  expect("a conflict of nothing", ks_fault(&seat, &fault) == KS_FAILED);
  expect("a stop of nothing", ks_stop(&seat, &stop) == KS_FAILED && stop.step == NOTHING);
  expect("nothing is told of nothing", cell == NOTHING && progress.step == NOTHING &&
                                           reading.step == NOTHING && fault.step == NOTHING);
  ks_close(&board);
  ks_close_seat(&seat);
  ks_close_worker(&worker);
}

/* A worker has a memory, and one that came back has one: without, these would take more atomic
   steps. */
static void try_memory(int is_back, const char *what) {
  static char job[] = "pram 1\ncells 1\nprocs 1\nsteps 3\ncode\nset r1 1\nsub r2 r0 r1\nst r0 r2\n";
  const struct text text = {"", (void *)job, sizeof job - 1};
  ks_board board = {NULL};
  ks_seat seat = {NULL};
  ks_worker worker = {NULL};
  struct ks_progress progress;
  if (ks_open(text.bytes, text.length, 1, 0, &board) || ks_seat_of(&board, &seat)) exit(5);
  if (ks_worker_of(&board, 0, &worker) || (is_back && ks_back(&worker))) exit(5);
  if (ks_work(&worker, 12 + is_back) == KS_FAILED || ks_progress(&seat, &progress)) exit(5);
  expect(what, progress.step == 3);
  ks_close(&board);
  ks_close_seat(&seat);
  ks_close_worker(&worker);
}

/* A worker goes on where it stopped, by a phase or two at a time, and ends the job. */
static void try_turns(void) {
  static char job[] = "pram 1\ncells 1\nprocs 1\nsteps 3\ncode\nset r1 1\nsub r2 r0 r1\nst r0 r2\n";
  const struct text text = {"", (void *)job, sizeof job - 1};
  ks_board board = {NULL};
  ks_seat seat = {NULL};
  ks_worker worker = {NULL};
  struct ks_progress progress;
  unsigned calls = 1;
  if (ks_open(text.bytes, text.length, 1, 0, &board) || ks_seat_of(&board, &seat)) exit(5);
  if (ks_worker_of(&board, 0, &worker)) exit(5);
  expect("no turns", ks_turns(&worker, 0) == KS_UNFINISHED);
  expect("nothing done", !ks_progress(&seat, &progress) && progress.step == 0);
  while (calls < 100 && ks_turns(&worker, 1) == KS_UNFINISHED) calls++;
  expect("turns to the end", 3 < calls && calls < 100 && ks_turns(&worker, 1) == KS_DONE);
  expect("all done", !ks_progress(&seat, &progress) && progress.step == 3);
  ks_close(&board);
  ks_close_seat(&seat);
  ks_close_worker(&worker);
}

/* A program whose steps nobody counts stops where it does if they are counted, and has as many
 * steps as one may take; a text of the machine has its own. */
static void try_uncounted(const char *job, uint32_t steps, uint32_t stopped) {
  ks_board board = {NULL};
  ks_seat seat = {NULL};
  ks_worker worker = {NULL};
  struct ks_progress progress;
  struct ks_stop stop;
  if (ks_open_uncounted((const void *)job, strlen(job), 1, 0, &board)) exit(5);
  if (ks_seat_of(&board, &seat) || ks_worker_of(&board, 0, &worker)) exit(5);
  expect("work on a board whose steps nobody counts", ks_work(&worker, UINT64_MAX) == KS_DONE);
  expect("its steps", !ks_progress(&seat, &progress) && progress.steps == steps);
  expect("its stop", !ks_stop(&seat, &stop) && stop.step == stopped);
  ks_close(&board);
  ks_close_seat(&seat);
  ks_close_worker(&worker);
}

/* The steps of a program, when they are counted. */
static uint32_t steps_of(const char *program) {
  ks_board board = {NULL};
  ks_seat seat = {NULL};
  struct ks_progress progress;
  if (ks_open((const void *)program, strlen(program), 1, 0, &board)) exit(5);
  if (ks_seat_of(&board, &seat) || ks_progress(&seat, &progress)) exit(5);
  ks_close(&board);
  ks_close_seat(&seat);
  return progress.steps;
}

static void try_stops(void) {
  static const char job[] = "pram 1\ncells 1\nprocs 1\nsteps 9\ncode\nset r1 1\nst r0 r1\nhalt\n";
  try_uncounted(submission, 1 << 20, steps_of(submission));
  try_uncounted(job, 9, 3);
}

/* The status of opening a board for this text with so much of this. */
static uint32_t opened_with(const char *text, const struct ks_given *of, size_t count) {
  ks_board board = {NULL};
  uint32_t status = ks_open_with((const void *)text, strlen(text), 1, 0, of, count, &board);
  int has_board = board.at != NULL;
  ks_close(&board);
  return has_board == (status == KS_DONE) ? status : 6;
}

static int is_place(const char *name, uint32_t first, uint32_t length, uint32_t columns,
                    uint32_t is_array) {
  struct ks_place place;
  return place_of(adding, name, &place) == KS_DONE && place.first == first &&
         place.length == length && place.columns == columns && place.is_array == is_array;
}

static void try_places(void) {
  struct ks_place place = {NOTHING, 0, 0, 0};
  expect("the place of a table", is_place("T", 0, 8, 4, 1));
  expect("the place of an array", is_place("A", 8, 4, 0, 1));
  expect("the place of a scalar", is_place("add", 12, 1, 0, 0));
  expect("no array of this name", place_of(adding, "B", &place) == KS_FAILED);
  expect("no array but a constant", place_of(adding, "n", &place) == KS_FAILED);
  expect("no array but a private one", place_of(adding, "twice", &place) == KS_FAILED);
  expect("a text without names", place_of("pram 1\n", "A", &place) == KS_FAILED);
  expect("a refused text", place_of("pardo 1\nrule\n", "A", &place) == KS_REFUSED);
  expect("no place is told", place.first == NOTHING);
}

/* What starts with what is given ends with what follows from that. */
static void try_given(void) {
  static const char job[] = "pram 1\ncells 1\nprocs 1\nsteps 1\ncode\nhalt\n";
  static const uint32_t wanted[] = {13, 11, 14, 11, 10};
  static struct told told;
  struct ks_given unknown = {(const void *)"B", 1, numbers, 4}, few = given[1], twice[3];
  few.values_length = 3;
  memcpy(twice + 1, given, sizeof given);
  twice[0] = given[1], twice[0].values = numbers + 1;
  expect("nothing is given", opened_with(adding, given, 0) == KS_DONE);
  expect("an unknown name", opened_with(adding, &unknown, 1) == KS_REFUSED);
  expect("too few values", opened_with(adding, &few, 1) == KS_REFUSED);
  expect("what is given twice", opened_with(adding, twice, 3) == KS_DONE);
  expect("a text that is refused", opened_with("pardo 1\n", given, 2) == KS_REFUSED);
  expect("a name for a text of the machine", opened_with(job, given, 1) == KS_REFUSED);
  expect("a text of the machine", opened_with(job, given, 0) == KS_DONE);
  clear(&told);
  board_with(&(struct text){"", NULL, 0}, &told);
  const uint32_t *cells = (const uint32_t *)(const void *)(told.out + sizeof(struct seen));
  expect("the answer of what is given", !told.status && !memcmp(cells + 8, wanted, sizeof wanted));
}

static void try_memories(void) {
  try_memory(0, "a worker's memory");
  try_memory(1, "the memory of one that came back");
  try_turns();
}

static int try_wrong(const struct text *texts, int count) {
  for (int i = 0; i < count; i++) {
    try_requests(&texts[i]);
    try_answers(&texts[i]);
    try_verdicts(&texts[i]);
    try_boards(&texts[i]);
  }
  try_sizes();
  try_blank();
  try_memories();
  try_stops();
  try_places();
  try_given();
  printf("%d of %d wrong calls as promised, %ld blocks left\n", made_wrong - faults, made_wrong,
         living);
  return faults + (living != 0);
}

/* How long each call takes: the least of many times, as the machine does other work, too. */

static double microseconds(void) {
  struct timespec now;
  clock_gettime(CLOCK_MONOTONIC, &now);
  return (double)now.tv_sec * 1e6 + (double)now.tv_nsec / 1e3;
}

static double least_time(int which, const struct text *text, struct told *told) {
  double least = 1e9, spent = 0;
  for (int i = 0; i < 1000 && spent < 2e5; i++) {
    clear(told);
    double begun = microseconds();
    calls[which].make(text, told);
    double took = microseconds() - begun;
    if (took < least) least = took;
    spent += took;
  }
  return least;
}

static int tell_times(const struct text *texts, int count) {
  static struct told told;
  for (int i = 0; i < count; i++) {
    printf("%s, %zu bytes:", texts[i].name, texts[i].length);
    for (int which = 0; which < CALLS; which++) {
      double least = least_time(which, &texts[i], &told);
      printf("%s %s %.2f us", which ? "," : "", calls[which].name, least);
    }
    puts("");
  }
  return 0;
}

/* Calls that are asked for by standard input, as a caller with other buffers would make them. */

struct asked {
  uint32_t command, why, rows_alone, from, to, workers, lines, unused;
  uint64_t room, text_length, plan_length; /* then the text, then the plan or the settings */
};

static int read_all(void *to, size_t length) {
  return fread(to, 1, length, stdin) == length;
}

static uint8_t *read_bytes(uint64_t length) {
  uint8_t *bytes = malloc(length + 1);
  if (!bytes || !read_all(bytes, length)) exit(4);
  return bytes;
}

static uint32_t serve(const struct asked *asked, const uint8_t *text, const uint8_t *given_plan,
                      uint8_t *out, struct ks_answer *answer) {
  static command *const commands[] = {ks_check, ks_compile, ks_plain, ks_cost, ks_steps};
  struct ks_request how = {.size = sizeof how,
                           .why = asked->why,
                           .rows_alone = asked->rows_alone,
                           .from = asked->from,
                           .to = asked->to,
                           .workers = asked->workers,
                           .lines = asked->lines};
  if (asked->command < sizeof commands / sizeof *commands)
    return commands[asked->command](text, asked->text_length, &how, out, asked->room, answer);
  if (asked->command > sizeof commands / sizeof *commands)
    return ks_set(text, asked->text_length, given_plan, asked->plan_length, out, asked->room,
                  answer);
  return ks_replay(text, asked->text_length, given_plan, asked->plan_length, &how, out, asked->room,
                   answer);
}

/* Writes the status, what was told, and the whole buffer. */
static int serve_all(void) {
  struct asked asked;
  while (read_all(&asked, sizeof asked)) {
    uint8_t *text = read_bytes(asked.text_length), *rows_given = read_bytes(asked.plan_length);
    uint8_t *out = malloc(asked.room + 1);
    struct ks_answer answer = {.size = sizeof answer};
    if (!out) exit(5);
    memset(out, NOTHING, asked.room + 1);
    uint32_t status = serve(&asked, text, rows_given, out, &answer);
    fwrite(&status, sizeof status, 1, stdout);
    fwrite(&answer, sizeof answer, 1, stdout);
    fwrite(out, 1, asked.room + 1, stdout);
    if (fflush(stdout)) return 4;
    free(out), free(text), free(rows_given);
  }
  return living != 0;
}

static struct text read_text(const char *name) {
  struct text text = {name, malloc(TEXT_ROOM), 0};
  FILE *file = fopen(name, "rb");
  if (!file || !text.bytes) exit((fprintf(stderr, "file %s\n", name), 4));
  text.length = fread(text.bytes, 1, TEXT_ROOM, file);
  text.bytes = realloc(text.bytes, text.length + 1);
  fclose(file);
  return text;
}

int main(int count, char **words) {
  const char *what = count > 1 ? words[1] : "";
  if (!strcmp(what, "serve")) return serve_all();
  int has_number = !strcmp(what, "stack") || !strcmp(what, "threads"), first = 2 + has_number;
  if (count <= first) return 2;
  int number = has_number ? atoi(words[2]) : 0, files = count - first, bad = 2;
  struct text *texts = calloc((size_t)files, sizeof *texts);
  if (!texts) return 5;
  for (int i = 0; i < files; i++) texts[i] = read_text(words[first + i]);
  if (!strcmp(what, "refuse")) bad = try_refusals(texts, files);
  if (!strcmp(what, "stack")) bad = try_stack(texts, files, (size_t)number * 1024);
  if (!strcmp(what, "threads")) bad = try_threads(texts, files, number);
  if (!strcmp(what, "leaks")) bad = try_stack(texts, files, 0) + (living != 0);
  if (!strcmp(what, "wrong")) bad = try_wrong(texts, files);
  if (!strcmp(what, "time")) bad = tell_times(texts, files);
  for (int i = 0; i < files; i++) free(texts[i].bytes);
  free(texts);
  return bad ? 1 : 0;
}
