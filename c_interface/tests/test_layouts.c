/*
 * Random layouts of every call that takes pictures: sizes, strides, lengths and numbers, most right and some wrong, in buffers
 * with guards around them, compared with plain loops. usage: test_layouts [LAYOUTS]
 */
#define _DEFAULT_SOURCE
#include "v_frame.h"

#include <math.h>
#include <stdio.h>
#include <stdlib.h>
#include <string.h>
#include <sys/mman.h>
#include <unistd.h>

#include "guarded.inc"

#define GIVEN(it) &(it)->rows, (void *)(it)->data, (it)->length
#define OF(entry, call, ...) ((entry) == 1 ? v_frame_##call##_u8(__VA_ARGS__) : v_frame_##call##_u16(__VA_ARGS__))

static uint64_t apart(uint64_t p, uint64_t q) {
    return p < q ? q - p : p - q;
}

#include "layouts_of_two.inc"
#include "layouts_of_measures.inc"
#include "layouts_of_more.inc"

int main(int count, char **words) {
    unsigned long layouts = count > 1 ? strtoul(words[1], NULL, 10) : 10000;
    make_rooms();
    for (layout = 0; layout < layouts; layout++) {
        size_t entry = 1 + layout % 2;
        measures(entry);
        single(entry);
        for (int kind = 0; kind < KINDS; kind++) {
            changes((enum kind)kind, entry);
        }
        masks(entry);
        interleaves(entry);
        frames(entry);
        borders(entry);
        if (entry == 1) {
            colors();
        }
    }
    printf("%lu layouts of each call, %lu checks\n", layouts, checks);
    return 0;
}
