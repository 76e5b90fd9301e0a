/* pramx-processes: runs a job by processes that share one board, each of which anyone may kill.
 * `pramx-processes --help` says how it is called. SPDX-License-Identifier: MIT OR Apache-2.0
 *
 *   cc -no-pie processes.c shared.c words.c -l:libkaolinsilk.a -o pramx-processes
 *
 * It has an allocator of its own, which libkaolinsilk.so does not take, so it asks for the name of
 * kaolinsilk_host.h that the static library alone has.
 *
 * The first process opens the board in shared memory (shared.h says what becomes of that where
 * processes or the machine go down) and forks a process for each worker. It has no threads, since
 * a forked child of a process with threads may not call the library. A process makes a worker and a
 * seat of its own; the words of the board are all that they share. So one that is killed leaves
 * nothing half done: another one of its number makes another worker, and comes back from the
 * position that stands on the board. Two of one number may be at work together.
 */
#define _GNU_SOURCE
#include "shared.h"
#include "words.h"
#include <errno.h>
#include <signal.h>
#include <stdio.h>
#include <stdlib.h>
#include <string.h>
#include <sys/prctl.h>
#include <sys/wait.h>
#include <time.h>
#include <unistd.h>

enum { MOST_BYTES = 67108864, MOST_CHILDREN = 64 + MOST_EVENTS };
enum act { GO, SLEEP, BACK, STOP };

struct child {
  pid_t process; /* 0: it has ended */
  uint32_t worker;
};

struct run {
  struct words words;
  struct shared *shared;
  int file;     /* of the board, or -1 */
  ks_seat seat; /* this process looks at the board by it */
  struct ks_progress seen;
  struct ks_plan_row *rows; /* of the plan */
  size_t row_count;
  struct child children[MOST_CHILDREN];
  size_t child_count;
  bool lacks_memory;       /* a worker's process was refused */
  struct timespec told_at; /* when progress was told, and the step */
  uint32_t told_step;
  char *line; /* where the words stand that ps shows */
  size_t line_length;
};

/* Endings. */

static _Noreturn void out_of_memory(void) {
  fputs("memory\n", stderr);
  exit(KS_MEMORY);
}

static _Noreturn void file_failed(const char *name) {
  fprintf(stderr, "file %s\n", name);
  exit(KS_FAILED);
}

static const char *spoken(const char *name) {
  return strcmp(name, "-") ? name : "standard input";
}

static void explain(const struct run *run, const char *name, const char *part,
                    const struct ks_answer *answer) {
  if (run->words.explains)
    fprintf(stderr, "%s, %s %llu: %s\n", spoken(name), part, (unsigned long long)answer->line,
            answer->sentence);
}

/* Tells why the library refused a text or a plan, as pramx does, and ends. */
static _Noreturn void refused(const struct run *run, uint32_t status,
                              const struct ks_answer *answer) {
  unsigned long long line = answer->line;
  if (status == KS_MEMORY) out_of_memory();
  if (answer->subject == KS_PLAN) {
    fprintf(stderr, "plan row=%llu kind=%s\n", line, answer->kind);
    explain(run, run->words.plan, "row", answer);
  } else {
    fprintf(stderr, "text line=%llu kind=%s\n", line, answer->kind);
    explain(run, run->words.job ? run->words.job : run->words.board, "line", answer);
  }
  exit((int)status);
}

static _Noreturn void no_board(const struct run *run, enum shared_fault fault) {
  static const char *const reasons[] = {
      [SHARED_THERE] = "is there already: --join N goes on with its board, or remove it",
      [SHARED_FILE] = "can't be made or mapped as a board",
      [SHARED_OTHER] = "holds no board of this very build of pramx-processes",
      [SHARED_COPY] = "is a copy of a board's file: what its words hold is of no one moment",
      [SHARED_CUT] = "was cut, or has grown, since its board was opened",
      [SHARED_CHANGED] = "has bytes that were changed, and that no worker changes",
      [SHARED_WORDS] = "has words that no run leaves",
      [SHARED_CRASHED] = "is of an earlier start of this machine: what its words hold now is of no "
                         "one moment",
      [SHARED_PART] = "holds a board that is not open yet; if its maker is gone, remove it"};
  if (fault == SHARED_MEMORY) out_of_memory();
  fprintf(stderr, "file %s\n", run->words.board);
  fprintf(stderr, "pramx-processes: %s %s%s%s\n", run->words.board, reasons[fault],
          fault == SHARED_FILE && errno ? ": " : "",
          fault == SHARED_FILE && errno ? strerror(errno) : "");
  exit(KS_FAILED);
}

/* Files. */

/* Adds what the file still has, up to one byte more than most. */
static uint8_t *read_on(FILE *file, size_t most, size_t *length) {
  size_t room = 1 << 16;
  uint8_t *bytes = malloc(room);
  *length = 0;
  while (bytes && *length <= most) {
    size_t count = fread(bytes + *length, 1, room - *length, file);
    *length += count;
    if (!count) return bytes;
    if (*length < room) continue;
    uint8_t *more = realloc(bytes, room *= 2);
    if (!more) free(bytes);
    bytes = more;
  }
  if (!bytes) out_of_memory();
  return bytes;
}

static uint8_t *read_file(const char *name, size_t most, size_t *length) {
  FILE *file = strcmp(name, "-") ? fopen(name, "rb") : stdin;
  if (!file) file_failed(name);
  uint8_t *bytes = read_on(file, most, length);
  if (ferror(file)) file_failed(name);
  if (file != stdin) fclose(file);
  if (*length <= most) return bytes;
  fprintf(stderr, "size %s\n", name);
  exit(KS_FAILED);
}

static void read_plan(struct run *run) {
  struct ks_answer answer = {.size = sizeof answer};
  struct ks_plan_row none;
  size_t length;
  if (!run->words.plan) return;
  uint8_t *plan = read_file(run->words.plan, MOST_BYTES, &length);
  uint32_t workers = run->words.workers;
  uint32_t status = ks_plan(plan, length, workers, &none, 0, &answer);
  if (status) refused(run, status, &answer);
  run->row_count = answer.length;
  run->rows = calloc(run->row_count + 1, sizeof *run->rows);
  if (!run->rows) out_of_memory();
  status = ks_plan(plan, length, workers, run->rows, run->row_count, &answer);
  if (status) refused(run, status, &answer);
  free(plan);
}

/* What the first process opens, and others join. */

/* Whether a text is a program: its first word is `pardo`. A text of the machine says its steps. */
static bool is_program(const uint8_t *text, size_t length) {
  static const char word[] = "pardo", ends[] = " \t\r\n;";
  size_t at = 0, word_length = sizeof word - 1;
  while (at < length && text[at] && strchr(ends, text[at])) {
    bool is_comment = text[at++] == ';';
    while (is_comment && at < length && text[at] != '\n') at++;
  }
  if (length - at < word_length || memcmp(text + at, word, word_length)) return false;
  at += word_length;
  return at == length || (text[at] && strchr(ends, text[at]));
}

/* A program's steps are counted before where somebody waits for them, and else once the job is
 * over: meanwhile nothing is lost with this process. */
static bool counts_first(const struct words *words) {
  return words->plan || words->pace || words->event_count || words->tells_progress ||
         words->tells_events;
}

static uint32_t open_text(struct run *run, const uint8_t *text, size_t length, ks_board *board) {
  const struct words *words = &run->words;
  struct shared *shared = run->shared;
  shared->is_counted = counts_first(words) || !is_program(text, length);
  shared->text = shared_text(text, length);
  shared->text_length = length;
  if (!shared->text) return KS_MEMORY;
  if (shared->is_counted) return ks_open(text, length, words->workers, words->block, board);
  return ks_open_uncounted(text, length, words->workers, words->block, board);
}

static void open_board(struct run *run) {
  struct ks_request request = {.size = sizeof request};
  ks_board board;
  struct ks_answer answer = {.size = sizeof answer};
  const struct words *words = &run->words;
  size_t length;
  uint8_t *text = read_file(words->job, MOST_BYTES, &length);
  read_plan(run);
  enum shared_fault fault = shared_make(words->board, &run->shared, &run->file);
  if (fault) no_board(run, fault);
  uint32_t status = open_text(run, text, length, &board);
  if (status && words->board) unlink(words->board);
  if (status == KS_REFUSED) ks_check(text, length, &request, text, 0, &answer);
  if (status) refused(run, status, &answer);
  fault = shared_is_full(run->shared, run->file, &board, words->workers);
  if (fault && words->board) unlink(words->board);
  if (fault) no_board(run, fault);
  free(text);
}

static void take_seat(struct run *run) {
  if (shared_seat(run->shared, &run->seat)) out_of_memory();
}

static void look(struct run *run) {
  ks_progress(&run->seat, &run->seen);
}

static bool is_known(const struct run *run) {
  return run->seen.conflict || run->seen.step == run->seen.steps;
}

/* The answer. */

/* The steps of a job that is over: the board tells them where each processor came to its end, and
 * else they are counted now, as by `pramx check`. Of a program that never ends that is told. */
static uint32_t count_steps(struct run *run) {
  struct ks_request request = {.size = sizeof request};
  struct ks_answer answer = {.size = sizeof answer};
  struct ks_stop stop;
  char line[256];
  const char *steps;
  const struct shared *shared = run->shared;
  if (shared->is_counted) return run->seen.steps;
  if (!ks_stop(&run->seat, &stop)) return stop.step;
  uint32_t status = ks_check(shared->text, shared->text_length, &request, (uint8_t *)line,
                             sizeof line - 1, &answer);
  if (status) refused(run, status, &answer);
  line[answer.length < sizeof line ? answer.length : sizeof line - 1] = 0;
  steps = strstr(line, " steps=");
  return steps ? (uint32_t)strtoul(steps + 7, NULL, 10) : run->seen.steps;
}

static void tell_memory(struct run *run) {
  size_t count = run->seen.cells;
  uint32_t *cells = malloc((count + 1) * sizeof *cells);
  if (!cells || ks_memory(&run->seat, cells, count)) out_of_memory();
  printf("done steps=%u\n", count_steps(run));
  for (size_t i = 0; i < count; i++) printf("%zu: %u\n", i, cells[i]);
  free(cells);
}

static void tell_conflict(struct run *run) {
  struct ks_fault fault;
  if (ks_fault(&run->seat, &fault) != KS_CONFLICT) out_of_memory();
  printf("conflict step=%u cell=%u processors=%u,%u\n", fault.step, fault.cell, fault.first,
         fault.second);
}

/* Nothing is told of a board that something else than workers has changed, as far as that shows. */
static void judge_board(const struct run *run) {
  enum shared_fault fault = shared_look(run->shared, run->file);
  if (fault) no_board(run, fault);
}

/* Tells the answer, or how far the board is, and returns the status. */
static int tell_answer(struct run *run) {
  bool is_done = run->seen.step == run->seen.steps;
  judge_board(run);
  if (!is_known(run) && run->lacks_memory) out_of_memory();
  if (run->seen.conflict) {
    tell_conflict(run);
  } else if (is_done) {
    tell_memory(run);
  } else {
    printf("unfinished step=%u\n", run->seen.step);
  }
  if (fflush(stdout) || ferror(stdout)) file_failed("-");
  return run->seen.conflict ? KS_CONFLICT : is_done ? KS_DONE : KS_UNFINISHED;
}

/* A worker's life. */

struct me {
  struct run *run;
  ks_worker worker;
  uint32_t number;
};

static void pause_for(uint32_t microseconds) {
  struct timespec left = {microseconds / 1000000, (long)(microseconds % 1000000) * 1000};
  while (nanosleep(&left, &left) && errno == EINTR) {
  }
}

/* At most so many atomic steps, each after its pause. */
static uint32_t go(struct me *me, uint64_t count) {
  uint32_t pace = me->run->words.pace, status = KS_UNFINISHED;
  if (!pace) return ks_work(&me->worker, count);
  for (; count && status == KS_UNFINISHED; count--) {
    pause_for(pace);
    status = ks_work(&me->worker, 1);
  }
  return status;
}

/* A sleep ends with the job. Without a pace it takes no time. */
static void sleep_through(struct me *me, uint32_t passes) {
  uint32_t pace = me->run->words.pace;
  for (; pace && passes && !me->run->shared->is_over; passes--) pause_for(pace);
}

/* Obeys the rows of this worker, and goes on without a limit. KS_UNFINISHED: a row stopped it. */
static uint32_t obey(struct me *me) {
  for (size_t i = 0; i < me->run->row_count; i++) {
    const struct ks_plan_row *row = &me->run->rows[i];
    uint32_t status = KS_UNFINISHED;
    if (row->worker != me->number) continue;
    if (row->act == STOP) return KS_UNFINISHED;
    if (row->act == GO) status = go(me, row->ticks);
    if (row->act == SLEEP) sleep_through(me, row->ticks);
    if (row->act == BACK) ks_back(&me->worker);
    if (status != KS_UNFINISHED) return status;
  }
  return go(me, UINT64_MAX);
}

static void name_process(struct run *run, uint32_t number) {
  char name[16];
  snprintf(name, sizeof name, "pramx-worker %u", number % 100);
  prctl(PR_SET_NAME, name);
  memset(run->line, 0, run->line_length);
  memcpy(run->line, name, strlen(name) < run->line_length ? strlen(name) : run->line_length);
}

/* Works as this worker. One that comes later than the first ones takes up no plan. */
static uint32_t work(struct run *run, uint32_t number, bool is_anew) {
  struct me me = {.run = run, .number = number};
  name_process(run, number);
  shared_hold(run->file, number);
  uint32_t status = shared_worker(run->shared, number, &me.worker);
  if (status) return status;
  if (is_anew) ks_back(&me.worker);
  status = is_anew ? go(&me, UINT64_MAX) : obey(&me);
  if (status != KS_UNFINISHED) run->shared->is_over = 1;
  return status;
}

/* The first process. */

static void tell_event(const struct run *run, uint32_t worker, const char *form, int number) {
  if (!run->words.tells_events) return;
  fprintf(stderr, "worker %u ", worker);
  fprintf(stderr, form, number);
  fprintf(stderr, " after step %u of %u\n", run->seen.step, run->seen.steps);
}

static sigset_t child_signal(void) {
  sigset_t set;
  sigemptyset(&set);
  sigaddset(&set, SIGCHLD);
  return set;
}

/* What is done in a new process. Without a file the board ends with the first process, and so do
 * the workers. */
static _Noreturn void begin_child(struct run *run, uint32_t number, bool is_anew, pid_t first) {
  sigset_t set = child_signal();
  sigprocmask(SIG_UNBLOCK, &set, NULL);
  if (run->file < 0) prctl(PR_SET_PDEATHSIG, SIGKILL);
  if (run->file < 0 && getppid() != first) _exit(KS_UNFINISHED);
  _exit((int)work(run, number, is_anew));
}

static void start(struct run *run, uint32_t number, bool is_anew) {
  pid_t first = getpid(), process = fork();
  if (process == 0) begin_child(run, number, is_anew, first);
  if (process < 0) {
    run->lacks_memory = true;
    tell_event(run, number, "has no process (%d)", errno);
    return;
  }
  run->children[run->child_count++] = (struct child){process, number};
  tell_event(run, number, is_anew ? "is started anew as process %d" : "is process %d", process);
}

static void note_change(struct run *run, struct child *child, int status) {
  if (WIFSTOPPED(status)) {
    tell_event(run, child->worker, "is stopped by signal %d", WSTOPSIG(status));
  } else if (WIFCONTINUED(status)) {
    tell_event(run, child->worker, "goes on (signal %d)", SIGCONT);
  } else {
    child->process = 0;
    if (WIFSIGNALED(status)) {
      tell_event(run, child->worker, "is ended by signal %d", WTERMSIG(status));
    } else {
      tell_event(run, child->worker, "ends with status %d", WEXITSTATUS(status));
    }
  }
}

/* Hears of the children that changed, and says whether a process of the board is left. */
static bool is_anyone_left(struct run *run) {
  int status;
  pid_t process;
  while ((process = waitpid(-1, &status, WNOHANG | WUNTRACED | WCONTINUED)) > 0)
    for (size_t i = 0; i < run->child_count; i++)
      if (run->children[i].process == process) note_change(run, &run->children[i], status);
  for (size_t i = 0; i < run->child_count; i++)
    if (run->children[i].process) return true;
  return shared_is_held(run->file);
}

static void signal_worker(struct run *run, uint32_t worker, int number) {
  for (size_t i = 0; i < run->child_count; i++)
    if (run->children[i].process && run->children[i].worker == worker)
      kill(run->children[i].process, number);
}

/* Does what is due, and says whether something still may be. */
static bool act(struct run *run) {
  bool is_more = false;
  for (size_t i = 0; i < run->words.event_count; i++) {
    struct event *event = &run->words.events[i];
    if (event->is_past) continue;
    if (event->step > run->seen.step) {
      is_more = true;
      continue;
    }
    event->is_past = true;
    if (event->what == KILL) signal_worker(run, event->worker, SIGKILL);
    if (event->what == STOP_PROCESS) signal_worker(run, event->worker, SIGSTOP);
    if (event->what == START) start(run, event->worker, true);
  }
  return is_more;
}

/* At most four times a second. */
static void tell_progress(struct run *run) {
  struct timespec now;
  if (!run->words.tells_progress || run->told_step == run->seen.step) return;
  clock_gettime(CLOCK_MONOTONIC, &now);
  long long passed = (now.tv_sec - run->told_at.tv_sec) * 1000LL;
  passed += (now.tv_nsec - run->told_at.tv_nsec) / 1000000;
  if (passed < 250) return;
  fprintf(stderr, "step %u of %u\n", run->seen.step, run->seen.steps);
  run->told_step = run->seen.step;
  run->told_at = now;
}

/* Until a child has changed; a little while at most, as others may know the answer, too. */
static void wait_a_little(bool is_more_due) {
  struct timespec most = {0, is_more_due ? 100000 : 5000000};
  sigset_t set = child_signal();
  sigtimedwait(&set, NULL, &most);
}

static void attend(struct run *run) {
  for (;;) {
    bool is_left = is_anyone_left(run);
    look(run);
    if (is_known(run)) return;
    bool is_more_due = act(run);
    if (!is_left && !is_anyone_left(run)) return;
    tell_progress(run);
    wait_a_little(is_more_due);
  }
}

/* Once the answer is told no process is needed, nor one that is stopped. */
static void end_children(struct run *run) {
  for (size_t i = 0; i < run->child_count; i++)
    if (run->children[i].process) kill(run->children[i].process, SIGKILL);
  for (size_t i = 0; i < run->child_count; i++)
    if (run->children[i].process) waitpid(run->children[i].process, NULL, 0);
}

static int lead(struct run *run) {
  sigset_t set = child_signal();
  open_board(run);
  take_seat(run);
  look(run);
  sigprocmask(SIG_BLOCK, &set, NULL);
  for (uint32_t number = 0; number < run->words.workers; number++) start(run, number, false);
  attend(run);
  int status = tell_answer(run);
  end_children(run);
  return status;
}

/* A process that comes later. */

static int join(struct run *run) {
  enum shared_fault fault = shared_join(run->words.board, &run->shared, &run->file);
  if (fault) no_board(run, fault);
  if (run->words.joins && run->words.join >= run->shared->workers) {
    fprintf(stderr, "error: the board has the workers 0 to %u\n", run->shared->workers - 1);
    return KS_FAILED;
  }
  take_seat(run);
  look(run);
  if (run->words.checks) {
    struct ks_stop stop = {run->seen.step};
    if (!run->shared->is_counted) ks_stop(&run->seat, &stop);
    printf("lawful step=%u\n", stop.step);
    return fflush(stdout) || ferror(stdout) ? KS_FAILED : KS_DONE;
  }
  if (run->words.joins && work(run, run->words.join, true) == KS_MEMORY) out_of_memory();
  look(run);
  return tell_answer(run);
}

int main(int count, char **line) {
  static struct run run = {.file = -1};
  run.line = line[0];
  run.line_length = (size_t)(line[count - 1] + strlen(line[count - 1]) - line[0]);
  read_words(count, line, &run.words);
  signal(SIGPIPE, SIG_IGN);
  signal(SIGXFSZ, SIG_IGN);
  return run.words.job ? lead(&run) : join(&run);
}
