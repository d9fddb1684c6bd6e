/* Opens tables that hold nothing yet: on the stack, and from elsewhere; with the functions and with the short calls. It is compiled as C and as C++ at every level of optimisation, and
 * none may warn. Exit status 1 where one is not opened. */
#include "changegraph_hub.h"

static uint32_t by_short_calls(cg_bench *bench) {
  cg_graph graph = cg_graph_of_bench(bench);
  cg_queue queue = cg_queue_of_bench(bench), batch = cg_batch_of_bench(bench);
  uint64_t actors;
  uint32_t number = cg_hub_open(&graph, 3);
  number = number == CG_DONE ? cg_hub_queue_open(&queue) : number;
  number = number == CG_DONE ? cg_hub_queue_open(&batch) : number;
  number = number == CG_DONE ? cg_hub_num_actors(&graph, &actors) : number;
  return number == CG_DONE && actors == 3 ? CG_DONE : CG_NOT_VALID;
}

static uint32_t by_functions(void) {
  uint8_t hashes[2 * CG_HASH], waiting[CG_HASH], deps[CG_DEPS];
  uint32_t nodes[2 * CG_NODE], clocks[2], counts[CG_COUNTS], count[1];
  uint64_t numbers[CG_NUMBERS], told[1];
  cg_edge edges[4];
  uint32_t number = cg_open(hashes, sizeof hashes, nodes, 2 * CG_NODE, edges, 4, clocks, 2, counts, CG_COUNTS, 1);
  number = number == CG_DONE ? cg_len(hashes, sizeof hashes, nodes, 2 * CG_NODE, edges, 4, clocks, 2, counts, CG_COUNTS, told, 1) : number;
  number = number == CG_DONE ? cg_queue_open(waiting, CG_HASH, numbers, CG_NUMBERS, deps, CG_DEPS, count, 1) : number;
  return number == CG_DONE && told[0] == 0 ? CG_DONE : CG_NOT_VALID;
}

int main(void) {
  cg_bench bench; /* 600 KB of whatever was there */
  return by_short_calls(&bench) != CG_DONE || by_functions() != CG_DONE;
}
