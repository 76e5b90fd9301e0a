/* The words of a line of pramx-processes. SPDX-License-Identifier: MIT OR Apache-2.0 */
#define _GNU_SOURCE
#include "words.h"
#include <getopt.h>
#include <stdarg.h>
#include <stdio.h>
#include <stdlib.h>
#include <string.h>
#include <unistd.h>

static const char help[] =
    "Run a job by processes that share one board\n"
    "\n"
    "Usage: pramx-processes FILE --workers W [OPTIONS]\n"
    "       pramx-processes --board FILE --join N [--pace M]\n"
    "       pramx-processes --board FILE [--check]\n"
    "\n"
    "Each worker is a process, pramx-worker N in ps and top. Anyone may kill it (kill -9),\n"
    "stop it (kill -STOP) or let it go on (kill -CONT), at any moment: one that is left ends\n"
    "the job. The answer is printed, by cells, as soon as one of them knows it.\n"
    "\n"
    "With --board the board is in a file. Any process of this program joins it by the file's\n"
    "name and a worker's number, also after all others were killed; the workers go on when the\n"
    "first process is gone; and the file stays. The third line tells how far the board is.\n"
    "A copy of the file is refused, and one that was cut or changed where a look can see it: at\n"
    "each start, before an answer, and by --check, which tells the last finished step.\n"
    "\n"
    "Options:\n"
    "      --workers W   How many workers there are, from 1 to 64\n"
    "      --plan P      The plan that they follow, as CSV: rows of go, sleep, back and stop\n"
    "      --board FILE  The file of the board; with --workers a new one\n"
    "      --join N      Be worker N of the board, from 0, and tell the answer\n"
    "      --check       Look at each byte and word of the board\n"
    "      --pace M      A pause of M microseconds before each atomic step, from 0 to 1000000\n"
    "      --block G     How many processors a leaf stands for, a power of two from 1 to 64\n"
    "      --kill-at T:N,..   Kill worker N (SIGKILL) once step T is seen to be finished\n"
    "      --stop-at T:N,..   Stop its process (SIGSTOP) then\n"
    "      --start-at T:N,..  Start it anew then: it comes back, and obeys no plan\n"
    "      --progress    Tell on standard error how far the workers are\n"
    "      --events      Tell there when a worker starts, is ended, stops or goes on\n"
    "      --explain     Explain a refusal in a sentence, as on a terminal\n"
    "      --help        Print this\n"
    "\n"
    "Status: 0 done, 1 conflict, 2 the text or the plan is refused, 3 unfinished: no process of\n"
    "a worker is left, 4 a bad line or a file that failed, 5 out of memory\n"
    "\n"
    "Examples:\n"
    "  pramx-processes examples/sort.pardo --workers 8 --kill-at 0:0,3:1,9:2 --events\n"
    "  pramx-processes examples/sort.pram --workers 3 --pace 1000 --board run.board --progress\n"
    "  pramx-processes --board run.board --join 0\n";

static _Noreturn void refuse(const char *form, ...) {
  va_list values;
  va_start(values, form);
  fputs("error: ", stderr);
  vfprintf(stderr, form, values);
  fputs("\n\nFor more information, try '--help'.\n", stderr);
  va_end(values);
  exit(4);
}

/* Reads a number of digits alone, and returns what stands behind it, or NULL. */
static const char *read_number(const char *text, uint32_t *number) {
  uint64_t read = 0;
  const char *at = text;
  for (; *at >= '0' && *at <= '9'; at++) {
    read = read * 10 + (uint64_t)(*at - '0');
    if (read > UINT32_MAX) return NULL;
  }
  *number = (uint32_t)read;
  return at > text ? at : NULL;
}

static uint32_t number_within(const char *name, const char *text, uint32_t least, uint32_t most) {
  uint32_t number;
  const char *behind = read_number(text, &number);
  if (!behind || *behind || number < least || number > most)
    refuse("invalid value '%s' for '--%s': a number from %u to %u is wanted", text, name, least,
           most);
  return number;
}

static uint32_t block_of(const char *text) {
  uint32_t block = number_within("block", text, 1, 64);
  if (block & (block - 1)) refuse("invalid value '%s' for '--block': no power of two", text);
  return block;
}

/* Reads events such as 3:0,9:1. */
static void add_events(struct words *words, const char *name, const char *text, int what) {
  const char *at = text;
  for (;;) {
    struct event event = {.what = what};
    at = read_number(at, &event.step);
    at = at && *at == ':' ? read_number(at + 1, &event.worker) : NULL;
    if (!at || (*at && *at != ','))
      refuse("invalid value '%s' for '--%s': T:N,.. is wanted", text, name);
    if (words->event_count == MOST_EVENTS) refuse("more than %d events", MOST_EVENTS);
    words->events[words->event_count++] = event;
    if (!*at++) return;
  }
}

static char *copy_of(const char *text) {
  char *copy = strdup(text);
  if (copy) return copy;
  fputs("memory\n", stderr);
  exit(5);
}

static const struct option options[] = {{"workers", required_argument, NULL, 'w'},
                                        {"plan", required_argument, NULL, 'p'},
                                        {"board", required_argument, NULL, 'b'},
                                        {"join", required_argument, NULL, 'j'},
                                        {"pace", required_argument, NULL, 'm'},
                                        {"block", required_argument, NULL, 'g'},
                                        {"kill-at", required_argument, NULL, 'k'},
                                        {"stop-at", required_argument, NULL, 's'},
                                        {"start-at", required_argument, NULL, 'a'},
                                        {"progress", no_argument, NULL, 'r'},
                                        {"events", no_argument, NULL, 'e'},
                                        {"explain", no_argument, NULL, 'x'},
                                        {"check", no_argument, NULL, 'c'},
                                        {"help", no_argument, NULL, 'h'},
                                        {NULL, 0, NULL, 0}};

static void read_option(struct words *words, int option) {
  switch (option) {
    case 'w': words->workers = number_within("workers", optarg, 1, 64); break;
    case 'p': words->plan = copy_of(optarg); break;
    case 'b': words->board = copy_of(optarg); break;
    case 'j': words->joins = true, words->join = number_within("join", optarg, 0, 63); break;
    case 'm': words->pace = number_within("pace", optarg, 0, 1000000); break;
    case 'g': words->block = block_of(optarg); break;
    case 'k': add_events(words, "kill-at", optarg, KILL); break;
    case 's': add_events(words, "stop-at", optarg, STOP_PROCESS); break;
    case 'a': add_events(words, "start-at", optarg, START); break;
    case 'r': words->tells_progress = true; break;
    case 'e': words->tells_events = true; break;
    case 'x': words->explains = true; break;
    case 'c': words->checks = true; break;
    case 'h': exit(fputs(help, stdout) < 0 || fflush(stdout) ? 4 : 0);
    default: exit((fputs("\nFor more information, try '--help'.\n", stderr), 4));
  }
}

/* What is asked for has to be one of the three lines of the help. */
static void judge(const struct words *words) {
  if (words->job && words->joins) refuse("a FILE and '--join' are not of one line");
  if (words->checks && (words->job || words->joins))
    refuse("'--check' stands beside '--board' alone");
  if (words->job && !words->workers) refuse("'--workers W' is wanted beside FILE");
  if (!words->job && !words->board) refuse("a FILE, or '--board FILE', is wanted");
  if (words->job) {
    for (size_t i = 0; i < words->event_count; i++)
      if (words->events[i].worker >= words->workers)
        refuse("there is no worker %u to kill, stop or start", words->events[i].worker);
    return;
  }
  if (words->workers || words->plan || words->block || words->event_count)
    refuse("beside '--board' alone stand only '--join' and '--pace': the board has its workers");
}

void read_words(int count, char **line, struct words *words) {
  *words = (struct words){.explains = isatty(2)};
  for (int option; (option = getopt_long(count, line, "", options, NULL)) != -1;)
    read_option(words, option);
  if (optind < count) words->job = copy_of(line[optind++]);
  if (optind < count) refuse("unexpected word '%s'", line[optind]);
  judge(words);
}
