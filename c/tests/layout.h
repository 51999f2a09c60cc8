/* The sizes and places that crates/maltcove_c has for the structs of maltcove.h: src/records.rt and src/scheduler.rt
 * prove the same sizes. */
#ifndef MALTCOVE_LAYOUT_H
#define MALTCOVE_LAYOUT_H
#include "maltcove.h"

#ifdef __cplusplus
#define HOLDS(fact) static_assert(fact, #fact)
#else
#define HOLDS(fact) _Static_assert(fact, #fact)
#endif
#define STANDS(type, field, place) HOLDS(offsetof(type, field) == (place))

HOLDS(sizeof(void *) == 8);
HOLDS(sizeof(bool) == 1);

/* written by tools/tables --write */
HOLDS(sizeof(maltcove) == 16);
STANDS(maltcove, inner, 0);
STANDS(maltcove, is_open, 8);

HOLDS(sizeof(maltcove_fault) == 32);
STANDS(maltcove_fault, place, 0);
STANDS(maltcove_fault, kind, 8);
STANDS(maltcove_fault, offset, 16);
STANDS(maltcove_fault, len, 24);

HOLDS(sizeof(maltcove_packet) == 56);
STANDS(maltcove_packet, tag, 0);
STANDS(maltcove_packet, len, 8);
STANDS(maltcove_packet, sport, 12);
STANDS(maltcove_packet, dport, 14);
STANDS(maltcove_packet, src, 16);
STANDS(maltcove_packet, dst, 32);
STANDS(maltcove_packet, proto, 48);
STANDS(maltcove_packet, ecn, 49);
STANDS(maltcove_packet, version, 50);

HOLDS(sizeof(maltcove_where) == 24);
STANDS(maltcove_where, transport, 0);
STANDS(maltcove_where, flow_label, 8);
STANDS(maltcove_where, verdict, 12);
STANDS(maltcove_where, fragment, 16);
STANDS(maltcove_where, ports, 17);
STANDS(maltcove_where, dscp, 18);
STANDS(maltcove_where, ecn, 19);

HOLDS(sizeof(maltcove_found) == 24);
STANDS(maltcove_found, offset, 0);
STANDS(maltcove_found, tags, 8);
STANDS(maltcove_found, ethertype, 16);

HOLDS(sizeof(maltcove_admitted) == 24);
STANDS(maltcove_admitted, id, 0);
STANDS(maltcove_admitted, drops, 8);
STANDS(maltcove_admitted, flow, 16);

HOLDS(sizeof(maltcove_sent) == 32);
STANDS(maltcove_sent, tag, 0);
STANDS(maltcove_sent, id, 8);
STANDS(maltcove_sent, drops, 16);
STANDS(maltcove_sent, len, 24);
STANDS(maltcove_sent, ecn, 28);
STANDS(maltcove_sent, mark, 29);

HOLDS(sizeof(maltcove_dropped) == 24);
STANDS(maltcove_dropped, tag, 0);
STANDS(maltcove_dropped, id, 8);
STANDS(maltcove_dropped, cause, 16);

HOLDS(sizeof(maltcove_flushed) == 16);
STANDS(maltcove_flushed, tag, 0);
STANDS(maltcove_flushed, id, 8);

HOLDS(sizeof(maltcove_totals_t) == 112);
STANDS(maltcove_totals_t, accepted, 0);
STANDS(maltcove_totals_t, accepted_bytes, 8);
STANDS(maltcove_totals_t, sent, 16);
STANDS(maltcove_totals_t, sent_bytes, 24);
STANDS(maltcove_totals_t, dropped_codel, 32);
STANDS(maltcove_totals_t, dropped_overflow, 40);
STANDS(maltcove_totals_t, dropped_bytes, 48);
STANDS(maltcove_totals_t, flushed, 56);
STANDS(maltcove_totals_t, flushed_bytes, 64);
STANDS(maltcove_totals_t, marked, 72);
STANDS(maltcove_totals_t, threshold_marked, 80);
STANDS(maltcove_totals_t, queued, 88);
STANDS(maltcove_totals_t, queued_bytes, 96);
STANDS(maltcove_totals_t, closed, 104);

HOLDS(sizeof(maltcove_flow_t) == 64);
STANDS(maltcove_flow_t, queued, 0);
STANDS(maltcove_flow_t, queued_bytes, 8);
STANDS(maltcove_flow_t, credits, 16);
STANDS(maltcove_flow_t, first_above, 24);
STANDS(maltcove_flow_t, drop_next, 32);
STANDS(maltcove_flow_t, count, 40);
STANDS(maltcove_flow_t, last_count, 48);
STANDS(maltcove_flow_t, has_first_above, 56);
STANDS(maltcove_flow_t, dropping, 57);

HOLDS(sizeof(maltcove_params_t) == 56);
STANDS(maltcove_params_t, target, 0);
STANDS(maltcove_params_t, interval, 8);
STANDS(maltcove_params_t, ce_threshold, 16);
STANDS(maltcove_params_t, memory_limit, 24);
STANDS(maltcove_params_t, limit, 32);
STANDS(maltcove_params_t, flows, 36);
STANDS(maltcove_params_t, quantum, 40);
STANDS(maltcove_params_t, mtu, 44);
STANDS(maltcove_params_t, drop_batch, 48);
STANDS(maltcove_params_t, has_ce_threshold, 52);
STANDS(maltcove_params_t, has_memory_limit, 53);
STANDS(maltcove_params_t, ecn, 54);
STANDS(maltcove_params_t, hash, 55);
/* end of what tools/tables wrote */

#endif
