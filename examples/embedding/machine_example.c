/* Makes the calls of a trace, which it reads, one by one, and prints what `superpager order` prints of the trace: the answers by processor, and the
 * counts. A trace with a daemon isn't for it. With a number as its word it makes so many loads beside, and says how long one takes. */
#include "superpager_machine.h"
#include <inttypes.h>
#include <stdio.h>
#include <stdlib.h>
#include <string.h>
#include <time.h>

enum { MOST_PROCESSORS = 16, MOST_WORDS = 8 };

static superpager_machine machine;
/* The answers of each processor, and how many it got. */
static struct { FILE *to; char *text; size_t bytes; unsigned calls; } answers[MOST_PROCESSORS];

/* The place of a word among words, or a number. */
static uint64_t number_of(const char *word) {
    static const char *const words[] = {"fixed", "growing", "wired", "none", "read", "write"};
    for (uint64_t at = 0; at < 6; at++)
        if (strcmp(word, words[at]) == 0)
            return at % 3;
    return strtoull(word, NULL, 10);
}

/* The words of a line that is read. */
static int read_words(char *line, char *words[MOST_WORDS]) {
    int count = 0;
    for (char *word = strtok(line, " \n"); word && count < MOST_WORDS; word = strtok(NULL, " \n"))
        words[count++] = word;
    return count;
}

/* Makes a call by its name. */
static superpager_told ask(uint32_t by, const char *name, const uint64_t *n) {
    superpager_machine *m = &machine;
    uint32_t space = (uint32_t)n[0], page = (uint32_t)n[1], length = (uint32_t)n[2];
    if (strcmp(name, "map") == 0) return superpager_machine_map(m, by, space, page, length, (uint32_t)n[3], (uint32_t)n[4]);
    if (strcmp(name, "grow") == 0) return superpager_machine_grow(m, by, space, page, length);
    if (strcmp(name, "unmap") == 0) return superpager_machine_unmap(m, by, space, page);
    if (strcmp(name, "protect") == 0) return superpager_machine_protect(m, by, space, page, length, (uint32_t)n[3]);
    if (strcmp(name, "load") == 0) return superpager_machine_load(m, by, space, n[1]);
    if (strcmp(name, "store") == 0) return superpager_machine_store(m, by, space, n[1], n[2]);
    if (strcmp(name, "sync") == 0) return superpager_machine_sync(m, by, space, page);
    if (strcmp(name, "evict") == 0) return superpager_machine_evict(m, by, space, page);
    if (strcmp(name, "discard") == 0) return superpager_machine_discard(m, by, space, page, length);
    if (strcmp(name, "wire") == 0) return superpager_machine_wire(m, by, space, page);
    if (strcmp(name, "unwire") == 0) return superpager_machine_unwire(m, by, space, page);
    return (superpager_told){.status = SUPERPAGER_MACHINE_RANGE};
}

/* Prints an answer for its processor. */
static void tell(uint32_t by, const superpager_told *told) {
    static const char *const replies[] = {"done", "value", "clean", "written", "unmapped", "denied", "overlap", "outofspace", "notgrowing",
                                          "regionsfull", "noframes", "storefault", "nomemory", "busy"};
    FILE *to = answers[by].to;
    fprintf(to, "%" PRIu32 " %u %s", by, answers[by].calls++, replies[told->reply]);
    if (told->reply == SUPERPAGER_REPLY_VALUE) fprintf(to, " %" PRIu64, told->value);
    if (told->reply == SUPERPAGER_REPLY_NO_FRAMES) fprintf(to, " %" PRIu32 " %" PRIu32 " %" PRIu32, told->wired, told->claimed, told->held);
    if (told->reply == SUPERPAGER_REPLY_STORE_FAULT) fprintf(to, " %" PRIu32 " %" PRIu64, told->space, told->faults);
    if (told->reply == SUPERPAGER_REPLY_BUSY) fprintf(to, " %" PRIu32, told->page);
    if (told->pages) {
        int level = told->pages == 1 ? 0 : told->pages == 8 ? 1 : told->pages == 64 ? 2 : 3;
        fprintf(to, " %s %d", told->is_hit ? "hit" : "miss", level);
    }
    fprintf(to, "\n");
}

/* Opens the pager that the first line asks for. */
static bool opens(void) {
    char line[128], *words[MOST_WORDS] = {0};
    if (!fgets(line, sizeof line, stdin) || read_words(line, words) < 5) return false;
    const char *sizes = words[5] ? words[5] : "0123";
    superpager_machine_setting setting = {
        .frames = (uint32_t)number_of(words[2]), .processors = (uint32_t)number_of(words[3]), .spaces = (uint32_t)number_of(words[4]),
        .pages_8 = strchr(sizes, '1') != NULL, .pages_64 = strchr(sizes, '2') != NULL, .pages_512 = strchr(sizes, '3') != NULL};
    for (uint32_t by = 0; by < setting.processors && by < MOST_PROCESSORS; by++)
        answers[by].to = open_memstream(&answers[by].text, &answers[by].bytes);
    return superpager_machine_open(&machine, setting) == SUPERPAGER_MACHINE_DONE;
}

/* Makes the calls of the lines up to the line `end`. */
static bool replays(void) {
    char line[128], *words[MOST_WORDS];
    while (fgets(line, sizeof line, stdin)) {
        int count = read_words(line, words);
        if (count == 1 && strcmp(words[0], "end") == 0) return true;
        uint64_t numbers[MOST_WORDS] = {0};
        for (int at = 2; at < count; at++)
            numbers[at - 2] = number_of(words[at]);
        uint32_t by = (uint32_t)number_of(words[0]);
        superpager_told told = ask(by, words[1], numbers);
        if (told.status != SUPERPAGER_MACHINE_DONE) return false;
        tell(by, &told);
    }
    return false;
}

/* Prints the answers by processor, and the counts. */
static void print(void) {
    for (int by = 0; by < MOST_PROCESSORS && answers[by].to; by++) {
        fclose(answers[by].to);
        fwrite(answers[by].text, 1, answers[by].bytes, stdout);
        free(answers[by].text);
    }
    superpager_machine_counted c = superpager_machine_counts(&machine);
    printf("tiles %" PRIu32 " %" PRIu32 " %" PRIu32 " %" PRIu32 "\n", c.tiles_1, c.tiles_8, c.tiles_64, c.tiles_512);
    printf("promotions %" PRIu64 "\ndemotions %" PRIu64 "\npreemptions %" PRIu64 "\n", c.promotions, c.demotions, c.preemptions);
    printf("images %" PRIu64 " %" PRIu64 "\nframes %" PRIu32 " %" PRIu32 " %" PRIu32 "\nend\n", c.hits, c.misses, c.free, c.reserved, c.used);
}

/* Says how long a load takes that is served. */
static void time_loads(unsigned long count) {
    clock_t begun = clock();
    for (unsigned long at = 0; at < count; at++)
        superpager_machine_load(&machine, 0, 0, at % 8 * 8192);
    fprintf(stderr, "%.0f ns a load\n", (double)(clock() - begun) / CLOCKS_PER_SEC * 1e9 / (double)count);
}

int main(int count, char **words) {
    bool whole = opens() && replays();
    if (whole) print();
    if (whole && count > 1) time_loads(strtoul(words[1], NULL, 10));
    superpager_machine_close(&machine);
    return whole ? 0 : 1;
}
