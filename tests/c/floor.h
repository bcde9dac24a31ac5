/*
 * A map and an unmap by hand, with the parameters of the library's, their statuses and what they write: the least that calls with these
 * parameters cost.
 */
#ifndef FLOOR_H
#define FLOOR_H

#include "x86_64_paging.h"

/* Does what x64_map_as_mapper does. */
uint32_t floor_map(const x64_hierarchy *hierarchy, x64_table *tables, size_t table_count, uint64_t *pool, size_t capacity,
    size_t *free_count, const x64_map_request *request);

/* Does what x64_unmap does. */
uint32_t floor_unmap(const x64_hierarchy *hierarchy, x64_table *tables, size_t table_count, const x64_page *page, uint64_t *frame);

#endif
