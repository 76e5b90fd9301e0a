/* words.h - the words of a line of pramx-processes. SPDX-License-Identifier: MIT OR Apache-2.0 */
#ifndef WORDS_H
#define WORDS_H
#include <stdbool.h>
#include <stddef.h>
#include <stdint.h>

enum { MOST_EVENTS = 256 };

/* What the first process does to a worker once a step is finished. */
struct event {
  uint32_t step, worker;
  enum { KILL, STOP_PROCESS, START } what;
  bool is_past;
};

struct words {
  char *job, *plan, *board; /* names of files, or NULL */
  uint32_t workers;         /* 0: this process is not the first one */
  uint32_t block;           /* 0: the library chooses */
  bool joins, checks;
  uint32_t join; /* the worker that it is then */
  uint32_t pace; /* microseconds; 0: no pause */
  bool tells_progress, tells_events, explains;
  struct event events[MOST_EVENTS];
  size_t event_count;
};

/* Reads the line. Ends the program with status 4 where it is wrong, and with 0 after --help. */
void read_words(int count, char **line, struct words *words);

#endif
