/* Runs a program, then with other values, and one with a fault. SPDX-License-Identifier: MIT OR
 * Apache-2.0
 *
 *   cc example.c $(pkg-config --cflags --libs kaolinsilk) -o example
 */
#include <kaolinsilk.h>
#include <stdio.h>
#include <string.h>

/* Each of four processors adds two neighbours, then each of two, then one. */
static const char *sum = "pardo 1\n"
                         "rule crew\n"
                         "procs i < 4\n"
                         "shared A[8] = 3, 1, 4, 1, 5, 9, 2, 6\n"
                         "code\n"
                         "for round = 1 to 3\n"
                         "  if i < 8 >> round\n"
                         "    A[i] := A[2 * i] + A[2 * i + 1]\n"
                         "  end\n"
                         "end\n";

/* Prints what `pramx plain --why` does; or why the text is refused. */
static void run(const uint8_t *text, size_t length) {
  struct ks_request request = {.size = sizeof request, .why = 1};
  struct ks_answer answer = {.size = sizeof answer};
  uint8_t out[4096];
  uint32_t status = ks_plain(text, length, &request, out, sizeof out, &answer);
  if (status == KS_DONE || status == KS_CONFLICT) {
    fwrite(out, 1, answer.length < sizeof out ? answer.length : sizeof out, stdout);
  } else {
    printf("status %u, line %u, column %u: %s\n", status, (unsigned)answer.line, answer.column,
           answer.sentence);
  }
}

static void run_text(const char *text) {
  run((const uint8_t *)text, strlen(text));
}

/* The same of a text with names set; or why a setting is refused. */
static void run_set(const char *text, const char *settings) {
  struct ks_answer answer = {.size = sizeof answer};
  uint8_t set[4096];
  uint32_t status = ks_set((const uint8_t *)text, strlen(text), (const uint8_t *)settings,
                           strlen(settings), set, sizeof set, &answer);
  if (status != KS_DONE) {
    printf("status %u, setting %u: %s\n", status, (unsigned)answer.line, answer.kind);
  } else if (answer.length <= sizeof set) {
    run(set, answer.length);
  }
}

int main(void) {
  run_text(sum);
  run_set(sum, "A=1,2,3,4,5,6,7,8\n");
  run_set(sum, "A=1,2,3\n");
  run_text("pardo 1\nrule crew\nprocs i < 4\nshared A[4]\ncode\nA[i] = 1\n");
  return 0;
}
