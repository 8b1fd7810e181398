/* Reads calls of the pool, one a line: a word and numbers. Prints of each what it answers: the status and the other numbers, and behind these the pool's
 * counts. `tools/try-c-library` writes the lines and reads what is printed. */
#include <inttypes.h>
#include <stdio.h>
#include <string.h>
#include "superpager.h"

enum { MOST = 8 };

static superpager pool;

static void print_counts(void) {
    superpager_counted c = superpager_counts(&pool);
    printf(" ; %" PRIu32 " %" PRIu32 " %" PRIu32 " %" PRIu32 " %" PRIu32 " %" PRIu32 " %" PRIu64 "\n", c.free, c.reserved, c.used, c.wired, c.claimed,
        c.held, c.preempted);
}

static void print(uint32_t status, uint32_t one, uint32_t two, uint32_t three) {
    printf("%" PRIu32 " %" PRIu32 " %" PRIu32 " %" PRIu32, status, one, two, three);
}

/* Calls that a page is named by. Answers whether the word is one. */
static bool calls_page(const char *word, const uint32_t *n) {
    superpager_want want = {n[2], n[3], n[4], n[5]};
    if (!strcmp(word, "take")) {
        superpager_framed a = superpager_take(&pool, n[0], n[1], want);
        print(a.status, a.frame, 0, 0);
    } else if (!strcmp(word, "frame")) {
        superpager_framed a = superpager_frame_of(&pool, n[0], n[1]);
        print(a.status, a.frame, 0, 0);
    } else if (!strcmp(word, "give")) {
        superpager_given a = superpager_give(&pool, n[0], n[1]);
        print(a.status, a.frame, a.is_held, a.processor);
    } else if (!strcmp(word, "pin")) {
        superpager_pinned a = superpager_pin(&pool, n[0], n[1], n[2], n[3]);
        print(a.status, a.page, a.frame, 0);
    } else
        return false;
    return true;
}

/* Calls that a processor is named by. Answers whether the word is one. */
static bool calls_processor(const char *word, const uint32_t *n) {
    superpager_want want = {n[3], n[4], n[5], n[6]};
    if (!strcmp(word, "claim")) {
        superpager_victim a = superpager_claim(&pool, n[0]);
        print(a.status, a.space, a.page, a.frame);
    } else if (!strcmp(word, "unclaim")) {
        superpager_framed a = superpager_unclaim(&pool, n[0]);
        print(a.status, a.frame, 0, 0);
    } else if (!strcmp(word, "collect")) {
        superpager_collected a = superpager_collect(&pool, n[0]);
        print(a.status, a.frame, a.is_held, 0);
    } else if (!strcmp(word, "drop")) {
        superpager_framed a = superpager_drop_held(&pool, n[0]);
        print(a.status, a.frame, 0, 0);
    } else if (!strcmp(word, "use")) {
        superpager_framed a = superpager_use_held(&pool, n[0], n[1], n[2], want);
        print(a.status, a.frame, 0, 0);
    } else
        return false;
    return true;
}

int main(void) {
    char line[256], word[16];
    while (fgets(line, sizeof line, stdin)) {
        uint32_t n[MOST] = {0};
        int read = sscanf(line, "%15s %" SCNu32 " %" SCNu32 " %" SCNu32 " %" SCNu32 " %" SCNu32 " %" SCNu32 " %" SCNu32, word, &n[0], &n[1], &n[2],
            &n[3], &n[4], &n[5], &n[6]);
        if (read >= 1 && !strcmp(word, "open")) {
            superpager_close(&pool);
            print(superpager_open(&pool, (superpager_setting){n[0], n[1], n[2], n[3], n[4]}), 0, 0, 0);
        } else if (read < 1 || (!calls_page(word, n) && !calls_processor(word, n))) {
            fprintf(stderr, "sequence: what is this line? %s", line);
            return 1;
        }
        print_counts();
    }
    superpager_close(&pool);
    return 0;
}
