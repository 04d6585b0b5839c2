/* quay.h held to the archive: each name of it for the situation that 01 gives it, each place of the image by what the box accepts
 * or writes there, the inline functions at their limits. It is C99 and C++. */
#include <inttypes.h>
#include <stdio.h>
#include <string.h>

#include "quay.h"

static uint8_t image[QUAY_IMAGE_SIZE + 1]; /* room for a length that is one too long */
static size_t length;
static unsigned failed;

#define BOX image, length
#define IS(got, wanted) is(__LINE__, #got, got, #wanted, wanted)
#define SAYS(answer, letter, file, page) says(__LINE__, #answer, answer, #letter, letter, file, page)

static void is(int line, const char *what, uint64_t got, const char *name, uint64_t wanted)
{
    if (got == wanted)
        return;
    printf("tests/header.c:%d: %s gives %" PRIu64 ", but %s is %" PRIu64 "\n", line, what, got, name, wanted);
    failed++;
}

/* The answer has this letter and names this page; page 0: it names none. */
static void says(int line, const char *what, uint64_t answer, const char *name, char letter, unsigned file, unsigned page)
{
    is(line, what, quay_refused(answer), "refused", 0);
    is(line, what, (uint64_t)quay_letter(answer), name, (uint64_t)letter);
    is(line, what, quay_has_page(answer), "has a page", page > 0);
    if (page > 0) {
        is(line, what, quay_file(answer), "its file", file);
        is(line, what, quay_page(answer), "its page", page);
    }
}

static void put(size_t at, unsigned width, uint32_t value)
{
    for (unsigned i = 0; i < width; i++)
        image[at + i] = (uint8_t)(value >> (8 * i));
}

/* Two frames, look-ahead 100, fetch time 20; file 0 has 5 pages, file 7 has 1,024. */
static void start(void)
{
    memset(image, 0, sizeof image);
    length = QUAY_IMAGE_SIZE;
    put(QUAY_AT_FRAMES, 2, 2);
    put(QUAY_AT_LOOK_AHEAD, 4, 100);
    put(QUAY_AT_FETCH_TIME, 4, 20);
    put(QUAY_AT_SIZES, 2, 5);
    put(QUAY_AT_SIZES + 2 * 7, 2, 1024);
}

static void version(void)
{
    char parts[32];
    snprintf(parts, sizeof parts, "%d.%d.%d", QUAY_VERSION_MAJOR, QUAY_VERSION_MINOR, QUAY_VERSION_PATCH);
    IS(strcmp(parts, QUAY_VERSION), 0);
}

/* A first image of other settings, over a buffer of other bytes: whether number and image are those of such a start. */
static void first_image(void)
{
    static uint8_t wanted[sizeof image];
    const uint64_t sizes[8] = {5, 0, 0, 0, 0, 0, 0, 1024}, none[8] = {0};
    start();
    put(QUAY_AT_FRAMES, 2, 300);
    put(QUAY_AT_LOOK_AHEAD, 4, 0x10203);
    put(QUAY_AT_FETCH_TIME, 4, 2000000);
    image[QUAY_IMAGE_SIZE] = 0xa5;
    memcpy(wanted, image, sizeof image);
    memset(image, 0xa5, sizeof image);
    SAYS(quay_first_image(BOX, 300, 0x10203, 2000000, sizes), QUAY_DONE, 0, 0);
    IS(memcmp(image, wanted, sizeof image), 0);
    SAYS(quay_prefetch(BOX), QUAY_NOTHING, 0, 0);
    SAYS(quay_first_image(BOX, 1, 1, 0, none), QUAY_DONE, 0, 0);
    IS(quay_attach(BOX, 0, 0, 10, 0, 0), QUAY_NO_FILE);
}

/* The same with a rule and expected readers, of a file without pages too, which the box then keeps. */
static void first_image_by_rule(void)
{
    static uint8_t wanted[sizeof image];
    const uint64_t sizes[8] = {5, 0, 0, 0, 0, 0, 0, 1024}, none[8] = {0}, expected[8] = {0x102, 1000, 0, 0, 0, 0, 0, 999};
    for (unsigned rule = QUAY_RULE_1989; rule <= QUAY_RULE_1993; rule++) {
        start();
        put(QUAY_AT_RULE, 1, rule);
        put(QUAY_AT_EXPECTED, 2, 0x102);
        put(QUAY_AT_EXPECTED + 2 * 1, 2, 1000);
        put(QUAY_AT_EXPECTED + 2 * 7, 2, 999);
        image[QUAY_IMAGE_SIZE] = 0xa5;
        memcpy(wanted, image, sizeof image);
        memset(image, 0xa5, sizeof image);
        SAYS(quay_first_image_by_rule(BOX, 2, 100, 20, sizes, rule, expected), QUAY_DONE, 0, 0);
        IS(memcmp(image, wanted, sizeof image), 0);
        IS(quay_refused(quay_run(BOX, 0)), 0);
        IS(memcmp(image, wanted, sizeof image), 0);
    }
    SAYS(quay_first_image(BOX, 2, 100, 20, sizes), QUAY_DONE, 0, 0);
    memcpy(wanted, image, sizeof image);
    SAYS(quay_first_image_by_rule(BOX, 2, 100, 20, sizes, QUAY_RULE_1989, none), QUAY_DONE, 0, 0);
    IS(memcmp(image, wanted, sizeof image), 0);
}

/* Settings out of range, also ones that only their high half puts there, and other lengths; the buffer stays. */
static void refused_first_images(void)
{
    static uint8_t before[sizeof image];
    const uint64_t wide = (uint64_t)1 << 32, sizes[8] = {5}, large[8] = {0, 0, 0, 0, 0, 0, 0, 1025}, huge[8] = {wide};
    start();
    memset(image, 0xa5, sizeof image);
    memcpy(before, image, sizeof image);
    IS(quay_first_image(BOX, 0, 100, 20, sizes), QUAY_BAD_SETTINGS);
    IS(quay_first_image(BOX, 1025, 100, 20, sizes), QUAY_BAD_SETTINGS);
    IS(quay_first_image(BOX, wide + 2, 100, 20, sizes), QUAY_BAD_SETTINGS);
    IS(quay_first_image(BOX, 2, 0, 20, sizes), QUAY_BAD_SETTINGS);
    IS(quay_first_image(BOX, 2, 2000001, 20, sizes), QUAY_BAD_SETTINGS);
    IS(quay_first_image(BOX, 2, wide + 100, 20, sizes), QUAY_BAD_SETTINGS);
    IS(quay_first_image(BOX, 2, 100, 2000001, sizes), QUAY_BAD_SETTINGS);
    IS(quay_first_image(BOX, 2, 100, wide, sizes), QUAY_BAD_SETTINGS);
    IS(quay_first_image(BOX, 2, 100, 20, large), QUAY_BAD_SETTINGS);
    IS(quay_first_image(BOX, 2, 100, 20, huge), QUAY_BAD_SETTINGS);
    IS(quay_first_image(image, 0, 2, 100, 20, sizes), QUAY_BAD_IMAGE);
    IS(quay_first_image(image, QUAY_IMAGE_SIZE - 1, 2, 100, 20, sizes), QUAY_BAD_IMAGE);
    IS(quay_first_image(image, QUAY_IMAGE_SIZE + 1, 0, 100, 20, sizes), QUAY_BAD_IMAGE);
    IS(memcmp(image, before, sizeof image), 0);
}

/* Rules and expected readers out of range, under either rule, and a length that is no image's any more. */
static void refused_rules(void)
{
    static uint8_t before[sizeof image];
    const uint64_t wide = (uint64_t)1 << 32, sizes[8] = {5}, large[8] = {1025};
    const uint64_t none[8] = {0}, many[8] = {0, 0, 0, 0, 0, 0, 0, 1001}, huge[8] = {wide};
    start();
    memset(image, 0xa5, sizeof image);
    memcpy(before, image, sizeof image);
    IS(quay_first_image_by_rule(BOX, 2, 100, 20, sizes, 2, none), QUAY_BAD_SETTINGS);
    IS(quay_first_image_by_rule(BOX, 2, 100, 20, sizes, 256, none), QUAY_BAD_SETTINGS);
    IS(quay_first_image_by_rule(BOX, 2, 100, 20, sizes, wide + 1, none), QUAY_BAD_SETTINGS);
    for (uint64_t rule = QUAY_RULE_1989; rule <= QUAY_RULE_1993; rule++) {
        IS(quay_first_image_by_rule(BOX, 2, 100, 20, sizes, rule, many), QUAY_BAD_SETTINGS);
        IS(quay_first_image_by_rule(BOX, 2, 100, 20, sizes, rule, huge), QUAY_BAD_SETTINGS);
        IS(quay_first_image_by_rule(BOX, 2, 100, 20, large, rule, none), QUAY_BAD_SETTINGS);
        IS(quay_first_image_by_rule(BOX, 0, 100, 20, sizes, rule, none), QUAY_BAD_SETTINGS);
        IS(quay_first_image_by_rule(image, QUAY_IMAGE_SIZE_V3, 2, 100, 20, sizes, rule, none), QUAY_BAD_IMAGE);
    }
    IS(quay_first_image_by_rule(image, QUAY_IMAGE_SIZE + 1, 2, 100, 20, sizes, 2, many), QUAY_BAD_IMAGE);
    IS(memcmp(image, before, sizeof image), 0);
}

static void refusals(void)
{
    start();
    IS(quay_attach(BOX, 16, 0, 10, 0, 5), QUAY_NO_SLOT);
    IS(quay_attach(BOX, 0, 8, 10, 0, 5), QUAY_NO_FILE);
    IS(quay_attach(BOX, 0, 1, 10, 0, 5), QUAY_NO_FILE);
    IS(quay_attach(BOX, 0, 0, 1001, 0, 5), QUAY_BAD_PACE);
    IS(quay_attach(BOX, 0, 0, 10, 0, 0), QUAY_BAD_RANGE);
    IS(quay_attach(BOX, 0, 0, 10, 0, 6), QUAY_BAD_RANGE);
    IS(quay_attach(BOX, 0, 0, 10, 4, 3), QUAY_BAD_RANGE);
    IS(quay_read(BOX, 0), QUAY_SLOT_EMPTY);
    IS(quay_arrive(BOX, 0, 6), QUAY_NO_PAGE);
    IS(quay_arrive(BOX, 0, 5), QUAY_NOT_IN_FETCH);
    IS(quay_run(BOX, 16385), QUAY_TOO_MANY_TURNS);
    SAYS(quay_attach(BOX, 0, 0, 10, 0, 5), QUAY_DONE, 0, 0);
    IS(quay_attach(BOX, 0, 0, 10, 0, 5), QUAY_SLOT_TAKEN);
    SAYS(quay_read(BOX, 0), QUAY_FETCH, 0, 1);
    IS(quay_read(BOX, 0), QUAY_READER_WAITS);
    IS(quay_run(BOX, 1), QUAY_FETCH_OPEN);
    IS(quay_measure(BOX, 0, 0, 0), QUAY_BAD_INTERVAL);
    IS(quay_measure(BOX, 0, 1000001, 0), QUAY_BAD_INTERVAL);
    IS(quay_measure(BOX, 0, 1000000, 1000001), QUAY_BAD_INTERVAL);
    const size_t lengths[] = {0, QUAY_IMAGE_SIZE_V1, QUAY_IMAGE_SIZE_V3, QUAY_IMAGE_SIZE - 1, QUAY_IMAGE_SIZE + 1};
    for (size_t i = 0; i < sizeof lengths / sizeof *lengths; i++) {
        length = lengths[i];
        IS(quay_attach(BOX, 1, 0, 10, 0, 5), QUAY_BAD_IMAGE);
        IS(quay_detach(BOX, 0), QUAY_BAD_IMAGE);
        IS(quay_read(BOX, 0), QUAY_BAD_IMAGE);
        IS(quay_arrive(BOX, 0, 1), QUAY_BAD_IMAGE);
        IS(quay_lost(BOX, 0, 1), QUAY_BAD_IMAGE);
        IS(quay_prefetch(BOX), QUAY_BAD_IMAGE);
        IS(quay_steal(BOX), QUAY_BAD_IMAGE);
        IS(quay_run(BOX, 0), QUAY_BAD_IMAGE);
        IS(quay_measure(BOX, 0, 1, 0), QUAY_BAD_IMAGE);
    }
}

/* Attach's refusals and Measure's, each where all that come after it apply too. */
static void refusals_in_order(void)
{
    start();
    SAYS(quay_attach(BOX, 0, 0, 10, 0, 5), QUAY_DONE, 0, 0);
    IS(quay_attach(image, QUAY_IMAGE_SIZE - 1, 16, 8, 0, 1, 0), QUAY_BAD_IMAGE);
    IS(quay_attach(BOX, 16, 8, 0, 1, 0), QUAY_NO_SLOT);
    IS(quay_attach(BOX, 0, 8, 0, 1, 0), QUAY_NO_FILE);
    IS(quay_attach(BOX, 0, 0, 0, 1, 0), QUAY_BAD_PACE);
    IS(quay_attach(BOX, 0, 0, 10, 1, 0), QUAY_BAD_RANGE);
    IS(quay_attach(BOX, 0, 0, 10, 1, 1), QUAY_SLOT_TAKEN);
    IS(quay_measure(image, QUAY_IMAGE_SIZE - 1, 16, 0, 1), QUAY_BAD_IMAGE);
    IS(quay_measure(BOX, 16, 0, 1), QUAY_NO_SLOT);
    IS(quay_measure(BOX, 1, 0, 1), QUAY_SLOT_EMPTY);
    IS(quay_measure(BOX, 0, 0, 1), QUAY_BAD_INTERVAL);
}

/* Numbers are 64 bits wide: none of these is cut to one that fits. */
static void wide_numbers(void)
{
    const uint64_t wide = (uint64_t)1 << 32;
    start();
    IS(quay_attach(BOX, wide, 0, 10, 0, 5), QUAY_NO_SLOT);
    IS(quay_attach(BOX, 0, wide, 10, 0, 5), QUAY_NO_FILE);
    IS(quay_attach(BOX, 0, 0, wide + 10, 0, 5), QUAY_BAD_PACE);
    IS(quay_attach(BOX, 0, 0, 10, wide, 5), QUAY_BAD_RANGE);
    IS(quay_attach(BOX, 0, 0, 10, 0, wide + 5), QUAY_BAD_RANGE);
    IS(quay_attach(BOX, 0, 0, 10, wide, wide + 5), QUAY_BAD_RANGE);
    IS(quay_detach(BOX, wide), QUAY_NO_SLOT);
    IS(quay_read(BOX, wide), QUAY_NO_SLOT);
    IS(quay_arrive(BOX, wide, 1), QUAY_NO_FILE);
    IS(quay_arrive(BOX, 0, wide + 1), QUAY_NO_PAGE);
    IS(quay_lost(BOX, wide, 1), QUAY_NO_FILE);
    IS(quay_lost(BOX, 0, wide + 1), QUAY_NO_PAGE);
    IS(quay_run(BOX, wide), QUAY_TOO_MANY_TURNS);
    IS(quay_measure(BOX, wide, 1, 0), QUAY_NO_SLOT);
    SAYS(quay_attach(BOX, 0, 0, 10, 0, 5), QUAY_DONE, 0, 0);
    IS(quay_measure(BOX, 0, wide + 1, 0), QUAY_BAD_INTERVAL);
    IS(quay_measure(BOX, 0, 1, wide), QUAY_BAD_INTERVAL);
    IS(quay_refused(quay_run(BOX, 0)), 0);
}

/* A reader of the last page of all, in slot 3, with what the box writes at each place of the image. */
static void answers(void)
{
    static const uint8_t running[8] = {1, 7, 0xe7, 3, 0xff, 3, 0, 4}, empty[8] = {0};
    uint8_t *reader = image + QUAY_AT_READERS + 8 * 3;
    uint8_t *cached = image + QUAY_AT_CACHED + 128 * 7 + 127, *fetching = image + QUAY_AT_FETCHING + 128 * 7 + 127;
    start();
    SAYS(quay_attach(BOX, 3, 7, 999, 1023, 1024), QUAY_DONE, 0, 0);
    IS(memcmp(reader, running, 8) == 0, 1);
    SAYS(quay_steal(BOX), QUAY_NOTHING, 0, 0);
    SAYS(quay_prefetch(BOX), QUAY_NOTHING, 0, 0);
    put(QUAY_AT_LOOK_AHEAD, 4, 999);
    SAYS(quay_prefetch(BOX), QUAY_FETCH, 7, 1024);
    SAYS(quay_read(BOX, 3), QUAY_WAIT, 7, 1024);
    IS(reader[0], 2);
    IS(*fetching, 0x80);
    SAYS(quay_lost(BOX, 7, 1024), QUAY_DONE, 0, 0);
    IS(*fetching, 0);
    SAYS(quay_read(BOX, 3), QUAY_FETCH, 7, 1024);
    SAYS(quay_arrive(BOX, 7, 1024), QUAY_ARRIVED, 0, 0);
    IS(*fetching, 0);
    IS(*cached, 0x80);
    SAYS(quay_read(BOX, 3), QUAY_HIT, 7, 1024);
    SAYS(quay_read(BOX, 3), QUAY_END, 0, 0);
    IS(quay_reads(quay_run(BOX, 5)), 0);
    IS(image[QUAY_AT_TURN], 5);
    SAYS(quay_detach(BOX, 3), QUAY_DONE, 0, 0);
    IS(memcmp(reader, empty, 8) == 0, 1);
    put(QUAY_AT_FRAMES, 2, 1);
    SAYS(quay_attach(BOX, 0, 0, 10, 0, 5), QUAY_DONE, 0, 0);
    SAYS(quay_read(BOX, 0), QUAY_FETCH, 0, 1);
    SAYS(quay_arrive(BOX, 0, 1), QUAY_ARRIVED, 7, 1024);
    SAYS(quay_steal(BOX), QUAY_STOLEN, 0, 1);
}

/* A reader in the slot: file 0, pace 10, with these numbers. An empty slot has no file and no pace. */
static void seat(unsigned slot, uint8_t condition, uint8_t position, uint8_t last)
{
    uint8_t *reader = image + QUAY_AT_READERS + 8 * slot;
    reader[0] = condition;
    reader[2] = condition ? 10 : 0;
    reader[4] = position;
    reader[6] = last;
}

/* Readers of a file of five pages: one reads page 3 alone, one has read what it wants before it starts. */
static void last_pages(void)
{
    static const uint8_t reader[8] = {1, 0, 10, 0, 3, 0, 3, 0};
    start();
    SAYS(quay_attach(BOX, 0, 0, 10, 2, 3), QUAY_DONE, 0, 0);
    SAYS(quay_prefetch(BOX), QUAY_FETCH, 0, 3);
    SAYS(quay_prefetch(BOX), QUAY_NOTHING, 0, 0);
    SAYS(quay_arrive(BOX, 0, 3), QUAY_ARRIVED, 0, 0);
    SAYS(quay_read(BOX, 0), QUAY_HIT, 0, 3);
    SAYS(quay_read(BOX, 0), QUAY_END, 0, 0);
    IS(memcmp(image + QUAY_AT_READERS, reader, 8), 0);
    SAYS(quay_attach(BOX, 15, 0, 10, 5, 5), QUAY_DONE, 0, 0);
    SAYS(quay_read(BOX, 15), QUAY_END, 0, 0);
}

static unsigned number_at(size_t at) { return image[at] + 256u * image[at + 1]; }

/* A reader of file 7 in slot 3 that has read so many pages since its mark at page 9, and its pace after this measure. */
static unsigned paced(unsigned pages, uint64_t interval, uint64_t blocked)
{
    start();
    SAYS(quay_attach(BOX, 3, 7, 44, 9, 1024), QUAY_DONE, 0, 0);
    IS(number_at(QUAY_AT_MARKS + 2 * 3), 9);
    put(QUAY_AT_READERS + 8 * 3 + 4, 2, 9 + pages);
    SAYS(quay_measure(BOX, 3, interval, blocked), QUAY_DONE, 0, 0);
    IS(number_at(QUAY_AT_MARKS + 2 * 3), 9 + pages);
    IS(number_at(QUAY_AT_READERS + 8 * 3 + 4), 9 + pages);
    unsigned pace = number_at(QUAY_AT_READERS + 8 * 3 + 2);
    SAYS(quay_detach(BOX, 3), QUAY_DONE, 0, 0);
    IS(number_at(QUAY_AT_MARKS + 2 * 3), 0);
    return pace;
}

/* A measured pace: the ticks that were not blocked, by the pages since the mark. */
static void paces(void)
{
    IS(paced(20, 1000, 400), 30);
    IS(paced(7, 1000, 400), 85);
    IS(paced(0, 1000, 400), 44);
    IS(paced(3, 1000, 1000), 1);
    IS(paced(3, 1000000, 0), 1000);
    IS(paced(1000, 1, 0), 1);
}

/* A waiting reader is measured too, and goes on waiting. */
static void paced_while_waiting(void)
{
    start();
    SAYS(quay_attach(BOX, 0, 0, 10, 0, 5), QUAY_DONE, 0, 0);
    SAYS(quay_read(BOX, 0), QUAY_FETCH, 0, 1);
    put(QUAY_AT_READERS + 4, 2, 3);
    image[QUAY_AT_FETCHING] = 8;
    SAYS(quay_measure(BOX, 0, 100, 40), QUAY_DONE, 0, 0);
    IS(number_at(QUAY_AT_READERS + 2), 20);
    IS(quay_read(BOX, 0), QUAY_READER_WAITS);
}

/* What an older image is upgraded to, in another buffer and in its own. */
static void upgrades(const uint8_t *older, size_t older_length, const uint8_t *newer)
{
    static uint8_t copy[QUAY_IMAGE_SIZE];
    memcpy(copy, older, older_length);
    IS(quay_steal(copy, older_length), QUAY_BAD_IMAGE);
    memset(image, 0xa5, sizeof image);
    SAYS(quay_upgrade_image(BOX, older, older_length), QUAY_DONE, 0, 0);
    IS(memcmp(image, newer, sizeof image), 0);
    memset(image, 0xa5, sizeof image);
    memcpy(image, older, older_length);
    SAYS(quay_upgrade_image(BOX, image, older_length), QUAY_DONE, 0, 0);
    IS(memcmp(image, newer, sizeof image), 0);
    SAYS(quay_upgrade_image(BOX, image, length), QUAY_DONE, 0, 0);
    IS(memcmp(image, newer, sizeof image), 0);
    SAYS(quay_read(BOX, 0), QUAY_END, 0, 0);
    IS(memcmp(image, newer, sizeof image), 0);
}

/* An image of version 1, a reader with a last page of its own in it; and one of version 3, with marks of its own. */
static void older_images(void)
{
    static uint8_t older[QUAY_IMAGE_SIZE_V3], newer[sizeof image];
    start();
    seat(0, 1, 5, 0);
    seat(3, 1, 2, 4);
    seat(15, 1, 0, 0);
    memcpy(older, image, QUAY_IMAGE_SIZE_V1);
    seat(0, 1, 5, 5);
    seat(15, 1, 0, 5);
    put(QUAY_AT_MARKS, 2, 5);
    put(QUAY_AT_MARKS + 2 * 3, 2, 2);
    image[QUAY_IMAGE_SIZE] = 0xa5;
    memcpy(newer, image, sizeof image);
    upgrades(older, QUAY_IMAGE_SIZE_V1, newer);

    put(QUAY_AT_MARKS, 2, 4);
    put(QUAY_AT_MARKS + 2 * 3, 2, 0);
    memcpy(older, image, QUAY_IMAGE_SIZE_V3);
    memcpy(newer, image, sizeof image);
    upgrades(older, QUAY_IMAGE_SIZE_V3, newer);
}

/* The newest image is copied as it is, its rule, its expected readers and its attaches too. */
static void newest_image(void)
{
    static uint8_t copy[sizeof image];
    const uint64_t sizes[8] = {5}, expected[8] = {7, 1000};
    start();
    quay_first_image_by_rule(BOX, 2, 100, 20, sizes, QUAY_RULE_1993, expected);
    SAYS(quay_attach(BOX, 0, 0, 10, 0, 5), QUAY_DONE, 0, 0);
    memset(copy, 0xa5, sizeof copy);
    SAYS(quay_upgrade_image(copy, length, image, length), QUAY_DONE, 0, 0);
    IS(memcmp(copy, image, length), 0);
}

/* Lengths that are no image's, and bytes that are none: the buffer stays, or the next call refuses it. */
static void refused_upgrades(void)
{
    static uint8_t older[sizeof image], before[sizeof image];
    start();
    memset(image, 0xa5, sizeof image);
    memcpy(before, image, sizeof image);
    IS(quay_upgrade_image(BOX, older, 0), QUAY_BAD_IMAGE);
    IS(quay_upgrade_image(BOX, older, QUAY_IMAGE_SIZE_V1 - 1), QUAY_BAD_IMAGE);
    IS(quay_upgrade_image(BOX, older, QUAY_IMAGE_SIZE_V1 + 1), QUAY_BAD_IMAGE);
    IS(quay_upgrade_image(BOX, older, QUAY_IMAGE_SIZE_V3 - 1), QUAY_BAD_IMAGE);
    IS(quay_upgrade_image(BOX, older, QUAY_IMAGE_SIZE_V3 + 1), QUAY_BAD_IMAGE);
    IS(quay_upgrade_image(BOX, older, QUAY_IMAGE_SIZE - 1), QUAY_BAD_IMAGE);
    IS(quay_upgrade_image(BOX, older, QUAY_IMAGE_SIZE + 1), QUAY_BAD_IMAGE);
    IS(quay_upgrade_image(image, QUAY_IMAGE_SIZE - 1, older, QUAY_IMAGE_SIZE_V1), QUAY_BAD_IMAGE);
    IS(quay_upgrade_image(image, QUAY_IMAGE_SIZE_V3, older, QUAY_IMAGE_SIZE_V3), QUAY_BAD_IMAGE);
    IS(quay_upgrade_image(image, QUAY_IMAGE_SIZE + 1, older, QUAY_IMAGE_SIZE), QUAY_BAD_IMAGE);
    IS(memcmp(image, before, sizeof image), 0);
    SAYS(quay_upgrade_image(BOX, older, QUAY_IMAGE_SIZE_V1), QUAY_DONE, 0, 0); /* no frames */
    IS(quay_steal(BOX), QUAY_BAD_IMAGE);
    older[QUAY_AT_READERS] = 1;
    older[QUAY_AT_READERS + 1] = 8; /* no such file, so its last page stays 0 */
    SAYS(quay_upgrade_image(BOX, older, QUAY_IMAGE_SIZE_V1), QUAY_DONE, 0, 0);
    IS(number_at(QUAY_AT_READERS + 6), 0);
    start();
    seat(0, 1, 2, 0); /* a last page of 0, in a length that has none */
    memcpy(older, image, sizeof older);
    SAYS(quay_upgrade_image(BOX, older, QUAY_IMAGE_SIZE_V3), QUAY_DONE, 0, 0);
    IS(memcmp(image, older, length), 0);
    IS(quay_steal(BOX), QUAY_BAD_IMAGE);
}

/* Whether the box takes an image with this value at this place. */
static int takes(size_t at, unsigned width, uint32_t value)
{
    start();
    put(at, width, value);
    return quay_steal(BOX) != QUAY_BAD_IMAGE;
}

/* Whether the box takes an image with such a reader in slot 15, every page of its file in fetch. */
static int seats(uint8_t condition, uint8_t position, uint8_t last)
{
    start();
    seat(15, condition, position, last);
    image[QUAY_AT_FETCHING] = 0x1f;
    return quay_steal(BOX) != QUAY_BAD_IMAGE;
}

/* The ranges of a position and a last page, and where a reader may wait. */
static void reader_ranges(void)
{
    IS(seats(1, 0, 1), 1);
    IS(seats(1, 5, 5), 1);
    IS(seats(1, 5, 6), 0);
    IS(seats(1, 3, 3), 1);
    IS(seats(1, 4, 3), 0);
    IS(seats(1, 5, 0), 0);
    IS(seats(1, 0, 0), 0);
    IS(seats(2, 2, 3), 1);
    IS(seats(2, 3, 3), 0);
    IS(seats(2, 4, 3), 0);
    IS(seats(2, 4, 0), 0);
    IS(seats(0, 0, 0), 1);
    IS(seats(0, 0, 5), 0);
}

/* Whether the box takes an image with this mark of slot 15, where a reader has read three pages, if any is there. */
static int marks(uint8_t condition, uint32_t mark)
{
    start();
    seat(15, condition, condition ? 3 : 0, condition ? 5 : 0);
    put(QUAY_AT_MARKS + 2 * 15, 2, mark);
    return quay_steal(BOX) != QUAY_BAD_IMAGE;
}

/* The range of a mark. */
static void mark_ranges(void)
{
    IS(marks(1, 0), 1);
    IS(marks(1, 3), 1);
    IS(marks(1, 4), 0);
    IS(marks(1, 256), 0);
    IS(marks(0, 0), 1);
    IS(marks(0, 1), 0);
    IS(marks(0, 256), 0);
}

/* The ranges of 01, at the places where the values lie. */
static void ranges(void)
{
    IS(takes(QUAY_AT_FRAMES, 2, 0), 0);
    IS(takes(QUAY_AT_FRAMES, 2, 1), 1);
    IS(takes(QUAY_AT_FRAMES, 2, 1024), 1);
    IS(takes(QUAY_AT_FRAMES, 2, 1025), 0);
    IS(takes(QUAY_AT_TURN, 1, 15), 1);
    IS(takes(QUAY_AT_TURN, 1, 16), 0);
    IS(takes(QUAY_AT_LOOK_AHEAD, 4, 0), 0);
    IS(takes(QUAY_AT_LOOK_AHEAD, 4, 1), 1);
    IS(takes(QUAY_AT_LOOK_AHEAD, 4, 2000000), 1);
    IS(takes(QUAY_AT_LOOK_AHEAD, 4, 2000001), 0);
    IS(takes(QUAY_AT_FETCH_TIME, 4, 0), 1);
    IS(takes(QUAY_AT_FETCH_TIME, 4, 2000000), 1);
    IS(takes(QUAY_AT_FETCH_TIME, 4, 2000001), 0);
    IS(takes(QUAY_AT_SIZES, 2, 0), 1);
    IS(takes(QUAY_AT_SIZES, 2, 1024), 1);
    IS(takes(QUAY_AT_SIZES, 2, 1025), 0);
    IS(takes(QUAY_AT_SIZES + 2 * 7, 2, 1025), 0);
}

/* The ranges of the rule, the byte behind it, the expected readers and the attaches. */
static void rule_ranges(void)
{
    IS(takes(QUAY_AT_RULE, 1, QUAY_RULE_1989), 1);
    IS(takes(QUAY_AT_RULE, 1, QUAY_RULE_1993), 1);
    IS(takes(QUAY_AT_RULE, 1, 2), 0);
    IS(takes(QUAY_AT_RULE, 1, 255), 0);
    IS(takes(QUAY_AT_RULE + 1, 1, 1), 0);
    IS(takes(QUAY_AT_RULE + 1, 1, 128), 0);
    for (size_t file = 0; file < 8; file++) {
        IS(takes(QUAY_AT_EXPECTED + 2 * file, 2, 1000), 1);
        IS(takes(QUAY_AT_EXPECTED + 2 * file, 2, 1001), 0);
        IS(takes(QUAY_AT_EXPECTED + 2 * file, 2, 65535), 0);
        IS(takes(QUAY_AT_ATTACHES + 2 * file, 2, 65535), 1);
    }
}

/* R counts what is attached and not what is refused, under either rule, forgets no reader that is gone, and stops at 65,535. */
static void attaches(uint8_t rule)
{
    start();
    put(QUAY_AT_RULE, 1, rule);
    put(QUAY_AT_ATTACHES, 2, 65533);
    SAYS(quay_attach(BOX, 3, 7, 10, 0, 1024), QUAY_DONE, 0, 0);
    IS(quay_attach(BOX, 3, 7, 10, 0, 1024), QUAY_SLOT_TAKEN);
    SAYS(quay_detach(BOX, 3), QUAY_DONE, 0, 0);
    SAYS(quay_attach(BOX, 3, 7, 10, 9, 1024), QUAY_DONE, 0, 0);
    IS(number_at(QUAY_AT_ATTACHES + 2 * 7), 2);
    IS(number_at(QUAY_AT_ATTACHES), 65533);
    for (unsigned slot = 4; slot < 8; slot++)
        SAYS(quay_attach(BOX, slot, 0, 10, 0, 5), QUAY_DONE, 0, 0);
    IS(number_at(QUAY_AT_ATTACHES), 65535);
    IS(number_at(QUAY_AT_ATTACHES + 2 * 1), 0);
    IS(number_at(QUAY_AT_EXPECTED), 0);
    IS(image[QUAY_AT_RULE], rule);
}

/* Four frames, all taken: pages 1 to 3 of file 0, page 8 of file 1, no reader; file 0 is expected so often. */
static void full(uint64_t rule, uint64_t expected)
{
    const uint64_t sizes[8] = {8, 8}, both[8] = {expected, 1};
    length = QUAY_IMAGE_SIZE;
    SAYS(quay_first_image_by_rule(BOX, 4, 100, 0, sizes, rule, both), QUAY_DONE, 0, 0);
    image[QUAY_AT_CACHED] = 7;
    image[QUAY_AT_CACHED + 128] = 0x80;
}

/* The two rules drop in another order; with more readers to come a file keeps more, until they have come. */
static void rules(void)
{
    full(QUAY_RULE_1989, 1);
    SAYS(quay_steal(BOX), QUAY_STOLEN, 1, 8);
    SAYS(quay_steal(BOX), QUAY_STOLEN, 0, 3);
    full(QUAY_RULE_1993, 1); /* 3 - 2 against 1 - 2 */
    SAYS(quay_steal(BOX), QUAY_STOLEN, 0, 3);
    SAYS(quay_steal(BOX), QUAY_STOLEN, 0, 2);
    SAYS(quay_steal(BOX), QUAY_STOLEN, 1, 8);
    SAYS(quay_steal(BOX), QUAY_STOLEN, 0, 1);
    SAYS(quay_steal(BOX), QUAY_NOTHING, 0, 0);
    full(QUAY_RULE_1993, 3); /* 3 - 3 against 1 - 1: the higher file */
    SAYS(quay_steal(BOX), QUAY_STOLEN, 1, 8);
    full(QUAY_RULE_1993, 3); /* one has come, 3 - 8/3 against 1 - 4/3: page 3 is past its last */
    SAYS(quay_attach(BOX, 0, 0, 10, 0, 2), QUAY_DONE, 0, 0);
    image[QUAY_AT_FETCHING] = 0x10;
    SAYS(quay_arrive(BOX, 0, 5), QUAY_ARRIVED, 0, 3);
}

/* The inline functions at their limits; Runs of 300 and of 16,384 fetches. */
static void limits(void)
{
    IS(quay_refused(65535), 1);
    IS(quay_refused(65536), 0);
    IS(quay_file('F' * 65536 + 1024), 0);
    IS(quay_page('F' * 65536 + 1024), 1024);
    IS(quay_file('F' * 65536 + 1025), 1);
    IS(quay_page('F' * 65536 + 1025), 1);

    start();
    quay_attach(BOX, 0, 7, 10, 0, 1024);
    quay_attach(BOX, 1, 7, 10, 0, 1024);
    uint64_t answer = quay_run(BOX, 16 * 300);
    IS(quay_refused(answer), 0);
    IS(quay_fetches(answer), 300);
    IS(quay_reads(answer), 600);

    start();
    put(QUAY_AT_FRAMES, 2, 1); /* and no two turns in a row read the same file, so each turn fetches */
    for (unsigned slot = 0; slot < 16; slot++) {
        put(QUAY_AT_SIZES + 2 * (slot % 8), 2, 1024);
        quay_attach(BOX, slot, slot % 8, 10, 0, 1024);
    }
    answer = quay_run(BOX, 16384);
    IS(quay_fetches(answer), 16384);
    IS(quay_reads(answer), 16384);
}

int main(void)
{
    version();
    first_image();
    first_image_by_rule();
    refused_first_images();
    refused_rules();
    refusals();
    refusals_in_order();
    wide_numbers();
    answers();
    last_pages();
    paces();
    paced_while_waiting();
    older_images();
    newest_image();
    refused_upgrades();
    ranges();
    reader_ranges();
    mark_ranges();
    rule_ranges();
    attaches(QUAY_RULE_1989);
    attaches(QUAY_RULE_1993);
    rules();
    limits();
    if (failed > 0)
        printf("quay.h is not the archive's: %u faults\n", failed);
    return failed > 0;
}
