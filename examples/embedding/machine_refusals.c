/* Passes the pager what it must refuse, closed and open, and looks that nothing was done. */
#include "superpager_machine.h"
#include <stdio.h>

enum { WRONG_CALLS = 13 };

static superpager_machine machine;
static int failures;

/* Says where a status isn't the one that is wanted. */
static void wants(const char *name, uint32_t status, uint32_t wanted) {
    if (status == wanted) return;
    printf("%s: status %u, and not %u\n", name, (unsigned)status, (unsigned)wanted);
    failures++;
}

/* A pager of so many frames, processors and spaces. */
static uint32_t open_of(uint32_t frames, uint32_t processors, uint32_t spaces) {
    superpager_machine_setting setting = {.frames = frames, .processors = processors, .spaces = spaces, .pages_8 = 1, .pages_64 = 1, .pages_512 = 1};
    return superpager_machine_open(&machine, setting);
}

/* Makes calls each of which has a number that is out of its bounds. */
static void refuse_calls(uint32_t wanted) {
    const superpager_told told[WRONG_CALLS] = {
        superpager_machine_load(&machine, 2, 0, 0),
        superpager_machine_load(&machine, 0, 3, 0),
        superpager_machine_load(&machine, 0, 0, 4),
        superpager_machine_load(&machine, 0, 0, UINT64_C(8589934592)),
        superpager_machine_store(&machine, 0, 0, UINT64_MAX, 1),
        superpager_machine_map(&machine, 0, 0, 1048576, 1, SUPERPAGER_FIXED, SUPERPAGER_WRITE),
        superpager_machine_map(&machine, 0, 0, 0, 0, SUPERPAGER_FIXED, SUPERPAGER_WRITE),
        superpager_machine_map(&machine, 0, 0, 0, 1, 3, SUPERPAGER_WRITE),
        superpager_machine_map(&machine, 0, 0, 0, 1, SUPERPAGER_FIXED, 3),
        superpager_machine_protect(&machine, 0, 0, 0, 1048577, SUPERPAGER_READ),
        superpager_machine_grow(&machine, 0, 0, 0, 0),
        superpager_machine_evict(&machine, 0, 0, UINT32_MAX),
        superpager_machine_discard(&machine, UINT32_MAX, 0, 0, 1),
    };
    for (int at = 0; at < WRONG_CALLS; at++) {
        wants("a wrong call", told[at].status, wanted);
        if (told[at].reply || told[at].value || told[at].has_frame || told[at].pages) wants("a number beside the status", 1, 0);
    }
}

int main(void) {
    wants("close", superpager_machine_close(&machine), SUPERPAGER_MACHINE_CLOSED);
    wants("counts", superpager_machine_counts(&machine).status, SUPERPAGER_MACHINE_CLOSED);
    refuse_calls(SUPERPAGER_MACHINE_CLOSED);
    wants("513 frames", open_of(513, 1, 1), SUPERPAGER_MACHINE_RANGE);
    wants("no frame", open_of(0, 1, 1), SUPERPAGER_MACHINE_RANGE);
    wants("17 processors", open_of(512, 17, 1), SUPERPAGER_MACHINE_RANGE);
    wants("no space", open_of(512, 1, 0), SUPERPAGER_MACHINE_RANGE);
    wants("open", open_of(512, 2, 3), SUPERPAGER_MACHINE_DONE);
    wants("open again", open_of(512, 2, 3), SUPERPAGER_MACHINE_OPEN);
    refuse_calls(SUPERPAGER_MACHINE_RANGE);
    superpager_machine_counted counts = superpager_machine_counts(&machine);
    wants("calls", counts.calls, 0);
    wants("free frames", counts.free, 512);
    superpager_told told = superpager_machine_load(&machine, 1, 2, 8);
    wants("a load of no region", told.status, SUPERPAGER_MACHINE_DONE);
    wants("its reply", told.reply, SUPERPAGER_REPLY_UNMAPPED);
    wants("close", superpager_machine_close(&machine), SUPERPAGER_MACHINE_DONE);
    wants("close again", superpager_machine_close(&machine), SUPERPAGER_MACHINE_CLOSED);
    return failures != 0;
}
