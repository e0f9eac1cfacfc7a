/* Random and damaged probes, stamps, notes: each is refused or harmless. Damaged bytes of a checker cost no memory. */
#include "../wullaphi.h"
#include "checks.h"

#include <stdlib.h>
#include <string.h>

#define ROUNDS 10000
#define NOTES 200
#define ZEROS (4u << 20)
/* The word of the saved bytes that counts the questions. */
#define QUESTIONS 32

/* The compiler's checks of addresses tell what is allocated; a build without them has no such call. */
extern int __sanitizer_install_malloc_and_free_hooks(void (*)(const volatile void *, size_t),
                                                     void (*)(const volatile void *)) __attribute__((weak));

static uint64_t state = 88172645463325252u;

static uint32_t number(void)
{
    state ^= state << 13;
    state ^= state >> 7;
    state ^= state << 17;
    return (uint32_t)(state >> 16);
}

static void damage(void *memory, size_t size)
{
    unsigned char *bytes = memory;
    uint32_t times = 1 + number() % 3;
    while (times-- > 0) {
        bytes[number() % size] ^= (unsigned char)(1u << number() % 8);
    }
}

static void fill(void *memory, size_t size)
{
    unsigned char *bytes = memory;
    size_t place;
    for (place = 4; place < size; place++) {
        bytes[place] = (unsigned char)(number() % 7 == 0 ? number() : 0);
    }
}

static void use(wcp_probe *probe, const wcp_stamp *stamp, wcp_checker *checker, const wcp_note *note)
{
    wcp_probe before = *probe;
    wcp_stamp made;
    wcp_note given;
    uint32_t answer = wcp_probe_receive(probe, stamp);
    CHECK(answer <= WCP_CLOCK_END);
    if (answer != WCP_DONE) {
        CHECK(memcmp(probe, &before, sizeof before) == 0);
    }
    CHECK(wcp_probe_observe(probe, 1) <= WCP_CLOCK_END);
    CHECK(wcp_probe_next(probe, number(), &given) <= WCP_CLOCK_END);
    CHECK(wcp_probe_stamp(probe, number() % 17, &made) <= WCP_CLOCK_END);
    CHECK(wcp_probe_close(probe) <= WCP_CLOCK_END);
    CHECK(wcp_checker_take(checker, note) <= WCP_TAKEN_ALREADY);
    answer = wcp_checker_report(checker);
    CHECK(answer >= WCP_FOUND && answer <= WCP_UNDECIDED);
}

static size_t allocated;

static void count_allocated(const volatile void *memory, size_t size)
{
    (void)memory;
    allocated += size;
}

static void count_freed(const volatile void *memory)
{
    (void)memory;
}

/* Saves a checker of the pairs of 16 processes that keeps many candidates: its bytes, and how many they are. */
static uint8_t *save_candidates(uint64_t *length)
{
    wcp_checker checker = WCP_CHECKER_NONE;
    wcp_probe probe;
    wcp_stamp stamp;
    wcp_note note;
    uint8_t *bytes;
    int taken;
    CHECK(wcp_checker_new_pairs(&checker, 5, 16) == WCP_DONE);
    CHECK(wcp_probe_init(&probe, 5, 0, 16) == WCP_DONE);
    for (taken = 0; taken < NOTES; taken++) {
        CHECK(wcp_probe_observe(&probe, 1) == WCP_DONE_WITH_NOTE);
        CHECK(wcp_probe_next(&probe, (uint64_t)taken, &note) == WCP_DONE_WITH_NOTE);
        CHECK(wcp_checker_take(&checker, &note) == WCP_DONE);
        CHECK(wcp_probe_stamp(&probe, 1, &stamp) == WCP_DONE);
    }
    bytes = malloc(ZEROS);
    CHECK(bytes != NULL && wcp_checker_save(&checker, bytes, ZEROS, length) == WCP_DONE);
    CHECK(wcp_checker_end(&checker) == WCP_DONE);
    return bytes;
}

/* Whether these bytes are refused, and without any memory. */
static int is_refused(const uint8_t *bytes, size_t length)
{
    wcp_checker checker = WCP_CHECKER_NONE;
    allocated = 0;
    return wcp_checker_load(&checker, bytes, length) == WCP_NO_SAVED && allocated == 0;
}

/* Puts the checksum of the bytes before them, Adler-32, into the last 4 of `length` bytes. */
static void seal(uint8_t *bytes, size_t length)
{
    uint32_t low = 1;
    uint32_t high = 0;
    size_t place;
    for (place = 0; place < length - 4; place++) {
        low = (low + bytes[place]) % 65521;
        high = (high + low) % 65521;
    }
    for (place = 0; place < 2; place++) {
        bytes[length - 4 + place] = (uint8_t)(low >> 8 * place);
        bytes[length - 2 + place] = (uint8_t)(high >> 8 * place);
    }
}

static void load_damaged(void)
{
    wcp_checker checker = WCP_CHECKER_NONE;
    uint64_t length = 0;
    uint8_t *bytes = save_candidates(&length);
    int round;
#ifdef __SANITIZE_ADDRESS__
    CHECK(__sanitizer_install_malloc_and_free_hooks(count_allocated, count_freed) > 0);
#else
    if (__sanitizer_install_malloc_and_free_hooks) {
        CHECK(__sanitizer_install_malloc_and_free_hooks(count_allocated, count_freed) > 0);
    }
#endif
    for (round = 0; round < 64; round++) {
        bytes[QUESTIONS + round / 8] ^= (uint8_t)(1u << round % 8);
        CHECK(is_refused(bytes, length));
        bytes[QUESTIONS + round / 8] ^= (uint8_t)(1u << round % 8);
    }
    for (round = 0; round < 100; round++) {
        size_t place = number() % length;
        uint8_t bit = (uint8_t)(1u << number() % 8);
        bytes[place] ^= bit;
        CHECK(is_refused(bytes, length));
        bytes[place] ^= bit;
    }
    for (round = 0; round < 16; round++) {
        CHECK(is_refused(bytes, length - 1 - (size_t)round));
    }
    CHECK(wcp_checker_load(&checker, bytes, length) == WCP_DONE);
    CHECK(wcp_checker_end(&checker) == WCP_DONE);
    memset(bytes + QUESTIONS, 0xff, 4);
    memset(bytes + QUESTIONS + 4, 0, ZEROS - QUESTIONS - 4);
    CHECK(is_refused(bytes, ZEROS));
    seal(bytes, ZEROS);
    allocated = 0;
    CHECK(wcp_checker_load(&checker, bytes, ZEROS) == WCP_NO_SAVED);
    CHECK(allocated < 64u * ZEROS);
    free(bytes);
}

static void use_damaged(void)
{
    wcp_checker checker = WCP_CHECKER_NONE;
    int round;
    CHECK(wcp_checker_new(&checker, 5, 3) == WCP_DONE);
    for (round = 0; round < ROUNDS; round++) {
        wcp_probe probe;
        wcp_probe sender;
        wcp_stamp stamp;
        wcp_note note;
        CHECK(wcp_probe_init(&probe, 5, 1, 3) == WCP_DONE);
        CHECK(wcp_probe_init(&sender, 5, 0, 3) == WCP_DONE);
        CHECK(wcp_probe_observe(&sender, 1) == WCP_DONE_WITH_NOTE);
        CHECK(wcp_probe_next(&sender, number(), &note) == WCP_DONE_WITH_NOTE);
        CHECK(wcp_probe_stamp(&sender, 1, &stamp) == WCP_DONE);
        if (round % 2 == 0) {
            damage(&probe, sizeof probe);
            damage(&stamp, sizeof stamp);
            damage(&note, sizeof note);
        } else {
            fill(&probe, sizeof probe);
            fill(&stamp, sizeof stamp);
            fill(&note, sizeof note);
        }
        use(&probe, &stamp, &checker, &note);
    }
    CHECK(wcp_checker_end(&checker) == WCP_DONE);
}

int main(int argc, char **argv)
{
    static const struct checks_group groups[] = {
        GROUP(load_damaged),
        GROUP(use_damaged),
    };
    return CHECKS_MAIN(groups, argc, argv);
}
