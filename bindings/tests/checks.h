/* Checks that are counted, in groups with names. A test runs all of its groups, or those that its words name; the last
 * line is 'N passed, M failed'. */
#ifndef CHECKS_H
#define CHECKS_H

#include <stdio.h>
#include <string.h>

static unsigned long checks_passed;
static unsigned long checks_failed;

#define CHECK(holds) \
    do { \
        if (holds) { \
            checks_passed += 1; \
        } else { \
            checks_failed += 1; \
            fprintf(stderr, "%s:%d: %s\n", __FILE__, __LINE__, #holds); \
        } \
    } while (0)

struct checks_group {
    const char *name;
    void (*run)(void);
};

#define GROUP(name) {#name, name}

/* Runs the group of this name. Whether there is one. */
static int checks_run(const struct checks_group *groups, size_t count, const char *name)
{
    size_t at;
    for (at = 0; at < count; at++) {
        if (strcmp(groups[at].name, name) == 0) {
            groups[at].run();
            return 1;
        }
    }
    fprintf(stderr, "there is no group %s\n", name);
    return 0;
}

/* The status of a test: 0 where all that it ran holds, and it ran something. */
static int checks_main(const struct checks_group *groups, size_t count, int words, char **names)
{
    size_t at;
    int word;
    for (at = 0; words < 2 && at < count; at++)
        groups[at].run();
    for (word = 1; word < words; word++) {
        if (!checks_run(groups, count, names[word]))
            return 2;
    }
    printf("%lu passed, %lu failed\n", checks_passed, checks_failed);
    return checks_failed > 0 || checks_passed == 0;
}

#define CHECKS_MAIN(groups, words, names) checks_main(groups, sizeof(groups) / sizeof *(groups), words, names)

#endif
