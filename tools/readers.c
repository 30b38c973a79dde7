/* The readers of include/qsense.h as functions that a linker finds, a row of things at once: for the harness, which holds them to its model,
 * and for tools/book, which tells what they read. */
#include "qsense.h"

void readers_head(const uint32_t *words, size_t len, uint32_t *out) {
    *out++ = qsense_read_processes(words, len);
    *out++ = qsense_read_hazards(words, len);
    *out++ = qsense_read_nodes(words, len);
    *out++ = qsense_read_visibility(words, len);
    *out++ = qsense_read_quiescence(words, len);
    *out++ = qsense_read_fallback(words, len);
    *out++ = qsense_read_lateness(words, len);
    *out++ = qsense_read_clock(words, len);
    *out++ = qsense_read_path(words, len);
    *out++ = qsense_read_epoch(words, len);
}

/* Five numbers for each of the first so many processes. */
void readers_processes(const uint32_t *words, size_t len, uint32_t count, uint32_t *out) {
    for (uint32_t process = 0; process < count; process++) {
        *out++ = qsense_process_epoch(words, len, process);
        *out++ = qsense_process_calls(words, len, process);
        *out++ = qsense_process_presence(words, len, process);
        *out++ = qsense_process_stores(words, len, process);
        *out++ = qsense_process_present(words, len, process);
    }
}

/* Three numbers for each of the first so many hazards of a process. */
void readers_hazards(const uint32_t *words, size_t len, uint32_t process, uint32_t count, uint32_t *out) {
    for (uint32_t hazard = 0; hazard < count; hazard++) {
        *out++ = qsense_hazard_visible(words, len, process, hazard);
        *out++ = qsense_hazard_assigned(words, len, process, hazard);
        *out++ = qsense_hazard_validated(words, len, process, hazard);
    }
}

/* Three numbers for each of the first so many places for stores of a process. */
void readers_stores(const uint32_t *words, size_t len, uint32_t process, uint32_t count, uint32_t *out) {
    for (uint32_t i = 0; i < count; i++) {
        *out++ = qsense_store_hazard(words, len, process, i);
        *out++ = qsense_store_node(words, len, process, i);
        *out++ = qsense_store_time(words, len, process, i);
    }
}

/* Five numbers for each of the first so many nodes. */
void readers_nodes(const uint32_t *words, size_t len, uint32_t count, uint32_t *out) {
    for (uint32_t node = 0; node < count; node++) {
        *out++ = qsense_node_state(words, len, node);
        *out++ = qsense_node_owner(words, len, node);
        *out++ = qsense_node_guest(words, len, node);
        *out++ = qsense_node_retired_at(words, len, node);
        *out++ = qsense_node_limbo(words, len, node);
    }
}
