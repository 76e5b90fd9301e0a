/* A handle that stands for nothing, as {0} or a closed one, is refused: the proved calls, whose
 * names tools/library changes, are made with no such handle. SPDX-License-Identifier: MIT OR
 * Apache-2.0 */
#include <kaolinsilk.h>

uint32_t proved_ks_seat_of(ks_board *board, ks_seat *seat);
uint32_t proved_ks_worker_of(ks_board *board, uint32_t number, ks_worker *worker);
uint32_t proved_ks_work(ks_worker *worker, uint64_t limit);
uint32_t proved_ks_turns(ks_worker *worker, uint64_t least);
uint32_t proved_ks_back(ks_worker *worker);
uint32_t proved_ks_progress(ks_seat *seat, struct ks_progress *progress);
uint32_t proved_ks_read(ks_seat *seat, uint32_t cell, struct ks_reading *reading);
uint32_t proved_ks_memory(ks_seat *seat, uint32_t *cells, size_t cells_length);
uint32_t proved_ks_stop(ks_seat *seat, struct ks_stop *stop);
uint32_t proved_ks_fault(ks_seat *seat, struct ks_fault *fault);
void proved_ks_close(ks_board *board);
void proved_ks_close_seat(ks_seat *seat);
void proved_ks_close_worker(ks_worker *worker);

uint32_t ks_seat_of(ks_board *board, ks_seat *seat) {
  return board->at ? proved_ks_seat_of(board, seat) : KS_FAILED;
}

uint32_t ks_worker_of(ks_board *board, uint32_t number, ks_worker *worker) {
  return board->at ? proved_ks_worker_of(board, number, worker) : KS_FAILED;
}

uint32_t ks_work(ks_worker *worker, uint64_t limit) {
  return worker->at ? proved_ks_work(worker, limit) : KS_FAILED;
}

uint32_t ks_turns(ks_worker *worker, uint64_t least) {
  return worker->at ? proved_ks_turns(worker, least) : KS_FAILED;
}

uint32_t ks_back(ks_worker *worker) {
  return worker->at ? proved_ks_back(worker) : KS_FAILED;
}

uint32_t ks_progress(ks_seat *seat, struct ks_progress *progress) {
  return seat->at ? proved_ks_progress(seat, progress) : KS_FAILED;
}

uint32_t ks_read(ks_seat *seat, uint32_t cell, struct ks_reading *reading) {
  return seat->at ? proved_ks_read(seat, cell, reading) : KS_FAILED;
}

uint32_t ks_memory(ks_seat *seat, uint32_t *cells, size_t cells_length) {
  return seat->at ? proved_ks_memory(seat, cells, cells_length) : KS_FAILED;
}

uint32_t ks_stop(ks_seat *seat, struct ks_stop *stop) {
  return seat->at ? proved_ks_stop(seat, stop) : KS_FAILED;
}

uint32_t ks_fault(ks_seat *seat, struct ks_fault *fault) {
  return seat->at ? proved_ks_fault(seat, fault) : KS_FAILED;
}

void ks_close(ks_board *board) {
  if (board->at) proved_ks_close(board);
}

void ks_close_seat(ks_seat *seat) {
  if (seat->at) proved_ks_close_seat(seat);
}

void ks_close_worker(ks_worker *worker) {
  if (worker->at) proved_ks_close_worker(worker);
}
