/* quay.h: the quay box, for a server in C.
 *
 * The box decides which page of a passage file keeps its frame in the shared cache and which page is fetched early. Its whole
 * state is an image of QUAY_IMAGE_SIZE bytes that the caller owns. quay_first_image writes the first one, or
 * quay_first_image_by_rule; each of the other calls takes the image, carries the call out and leaves the image of the new state in
 * the same buffer. Link with -lquay.
 *
 * Numbers. Every call may be made with any numbers. It is carried out, or refused under one number.
 *
 * Buffers. `image` points to `length` bytes that the call may read and write; it is not NULL, also where the length is 0. The buffer
 * is the caller's: it may lie anywhere, at any alignment, and hold any bytes. The call keeps no pointer to it, allocates nothing and
 * touches no byte outside it. A refusal leaves the buffer byte for byte as it was; after any other answer all of it is the new
 * image. So it may be copied, kept in a file and taken up again by another process.
 *
 * Decisions. Which page is fetched early and which is dropped goes by when the readers come to it. With a fetch time above 0 a reader
 * comes to a page the later, the more pages it lacks on the way there. A page in fetch is not one of these: the link carries it already.
 * So a fetch that is opened, or closed by quay_lost, may change which page is chosen next; it is worked out afresh each time.
 * What is dropped goes by one of two rules, as the first image has it: QUAY_RULE_1989 looks at these times alone, QUAY_RULE_1993 also
 * at how many readers are still to come for each file. What is fetched early is the same under both.
 *
 * Threads. A call touches its image and its own stack; there is no other state, no lock and no global. Threads may make calls on
 * different images at the same time. Two threads that share one image need a lock of the caller's, held for the whole of each
 * call. */
#ifndef QUAY_H
#define QUAY_H

#include <stddef.h>
#include <stdint.h>

#ifdef __cplusplus
extern "C" {
#endif

/* ---- the version --------------------------------------------------------------------------------------------------------
 *
 * MAJOR grows when a server has to change or its images do: a call takes other numbers, an answer or a refusal means something
 * else, or the image is longer. MINOR grows when something is added, a call for instance, or other pages are chosen, and a server
 * need not change. PATCH grows when this header says the same as before. */
#define QUAY_VERSION "4.0.0"
#define QUAY_VERSION_MAJOR 4
#define QUAY_VERSION_MINOR 0
#define QUAY_VERSION_PATCH 0

/* ---- the image ---------------------------------------------------------------------------------------------------------
 *
 * Numbers of several bytes are little-endian. A server needs none of these places: the functions below write a first image, and the
 * calls do the rest. They are here for whoever looks into an image.
 *
 *   offset  bytes  what                                                     in range
 *        0      2  frames                                                   1 to 1,024
 *        2      1  turn                                                     0 to 15
 *        3      1  0
 *        4      4  look-ahead L, ticks                                      1 to 2,000,000
 *        8      4  fetch time T, ticks                                      0 to 2,000,000
 *       12    8x2  sizes of the files 0 to 7, pages (0: no such file)       0 to 1,024
 *       28   16x8  readers: condition (0 empty, 1 running, 2 waiting), file, pace (2), position (2), last page (2)
 *      156      4  0
 *      160   1024  cached pages, 128 bytes a file, page 1 in the lowest bit of the first
 *     1184   1024  pages in fetch, likewise
 *     2208   16x2  marks of the readers: the position from which the next quay_measure counts pages
 *     2240      1  steal rule: QUAY_RULE_1989 or QUAY_RULE_1993             0 or 1
 *     2241      1  0
 *     2242    8x2  E: how many readers are expected for the files 0 to 7    0 to 1,000
 *     2258    8x2  R: how many attaches to them were carried out            0 to 65,535
 *
 * A reader's file is 0 to 7 and of a size above 0, its pace 1 to 1,000, its last page 1 to the size, its position 0 to its last page,
 * its mark 0 to the position; an empty slot is all 0. A waiting reader is not at its last page, and its next page is in fetch. No page
 * is above its file's size or in both maps, and no more pages are cached than there are frames. E and R are free in their ranges, under
 * either rule and for a file of size 0 too. Any other image is refused: 13.
 *
 * Older images. From version to version the image grows at its end: it has no version in it, only a length. Versions 1 and 2 have
 * QUAY_IMAGE_SIZE_V1 bytes, version 3 has QUAY_IMAGE_SIZE_V3, version 4 has QUAY_IMAGE_SIZE. A call takes the newest length alone and
 * refuses any other, 13; quay_upgrade_image writes the newest image from an older one, which gets what it lacks. Each gets the rule
 * QUAY_RULE_1989, E 0 and R 0, and an image of version 3 nothing else. In one of the shortest length a last page of 0 in a taken slot,
 * as every reader of version 1 has it, becomes the size of the reader's file, and the mark of each reader its position, so that the
 * first measure counts the pages read after the upgrade. In the longer ones a last page of 0 in a taken slot is refused. */
#define QUAY_IMAGE_SIZE 2274
#define QUAY_IMAGE_SIZE_V1 2208
#define QUAY_IMAGE_SIZE_V3 2240
#define QUAY_AT_FRAMES 0
#define QUAY_AT_TURN 2
#define QUAY_AT_LOOK_AHEAD 4
#define QUAY_AT_FETCH_TIME 8
#define QUAY_AT_SIZES 12
#define QUAY_AT_READERS 28
#define QUAY_AT_CACHED 160
#define QUAY_AT_FETCHING 1184
#define QUAY_AT_MARKS 2208
#define QUAY_AT_RULE 2240
#define QUAY_AT_EXPECTED 2242
#define QUAY_AT_ATTACHES 2258

/* ---- refusals -----------------------------------------------------------------------------------------------------------
 * Where several apply, the one that stands first at the call below is given. */
#define QUAY_BAD_SETTINGS 1     /* first image: a value out of range */
#define QUAY_NO_SLOT 2          /* slot above 15 */
#define QUAY_NO_FILE 3          /* file above 7 or of size 0 */
#define QUAY_BAD_PACE 4         /* pace not 1 to 1,000 */
#define QUAY_SLOT_TAKEN 5       /* slot not empty */
#define QUAY_SLOT_EMPTY 6       /* slot empty */
#define QUAY_READER_WAITS 7     /* reader waiting */
#define QUAY_NO_PAGE 8          /* page 0 or above the size */
#define QUAY_NOT_IN_FETCH 9     /* page not in fetch */
#define QUAY_FETCH_OPEN 10      /* a page is in fetch */
#define QUAY_TOO_MANY_TURNS 11  /* turns above 16,384 */
#define QUAY_BAD_IMAGE 13       /* another length than QUAY_IMAGE_SIZE, or no image of the box; tested first by every call */
#define QUAY_BAD_RANGE 15       /* last page 0 or above the file's size, or start above the last page */
#define QUAY_BAD_INTERVAL 16    /* interval not 1 to 1,000,000, or more ticks blocked than it has */

/* ---- answers ------------------------------------------------------------------------------------------------------------
 * A refusal's number is below 65,536. Any other answer has a letter, and some name a page. Run's answer has no letter but two
 * counts. */
#define QUAY_DONE 'O'     /* first image, upgrade, attach, detach, lost, measure: done */
#define QUAY_HIT 'H'      /* read: the page was cached, and is read */
#define QUAY_WAIT 'W'     /* read: the page is in fetch; the reader waits for it */
#define QUAY_FETCH 'F'    /* read, prefetch: fetch this page now; a reader that asked waits for it */
#define QUAY_END 'Z'      /* read: the reader is at its last page */
#define QUAY_NOTHING 'U'  /* steal: nothing is cached; prefetch: nothing to fetch */
#define QUAY_STOLEN 'S'   /* steal: this page was dropped */
#define QUAY_ARRIVED 'I'  /* arrive: the page is cached; the page that was dropped for it, if any */

static inline int quay_refused(uint64_t answer) { return answer < 65536; }

/* The letter of an answer that is neither a refusal nor Run's. */
static inline char quay_letter(uint64_t answer) { return (char)(answer >> 16); }

/* Does the answer name a page? If so, its file and its page, which counts from 1. */
static inline int quay_has_page(uint64_t answer) { return (answer & 0xffff) != 0; }
static inline unsigned quay_file(uint64_t answer) { return (unsigned)(((answer & 0xffff) - 1) / 1024); }
static inline unsigned quay_page(uint64_t answer) { return (unsigned)(((answer & 0xffff) - 1) % 1024 + 1); }

/* The counts of Run's answer. */
static inline unsigned quay_fetches(uint64_t answer) { return (unsigned)(answer >> 16 & 0xffff); }
static inline unsigned quay_reads(uint64_t answer) { return (unsigned)(answer & 0xffff); }

/* ---- the steal rules ----------------------------------------------------------------------------------------------------
 *
 * Which page is dropped where a frame is wanted: by quay_steal, quay_arrive or quay_run. An image has one of two rules from the first
 * on; no call changes it.
 *
 * QUAY_RULE_1989: of all cached pages first those that no reader of their file still has before it, larger page first; then those ahead
 * of some reader but in no look-ahead, larger page first; then the others, the one that is read latest first.
 *
 * QUAY_RULE_1993: the file is chosen before the page. E is how many readers the server expects for a file in all, as it said at the
 * first image; R is how many the box has had: it grows by 1 with each quay_attach to the file that is carried out, under either rule,
 * and stops at 65,535. A detach takes nothing from it, and taking up a kept image is no attach. With these
 *     weight = (E - R, or 0 where R is greater) x size
 *     share  = frames x weight / sum of the eight weights, or 0 where that sum is 0
 * and of the files that have cached pages the one is chosen for which cached pages - share is greatest, compared as fractions and not
 * rounded; where two are equal, the higher file. Of its pages that one goes that QUAY_RULE_1989 would drop first.
 *
 * Choose QUAY_RULE_1993 where it is known how many will dock for each file, that is many more for some than for others, and the frames
 * hold much of these files; else QUAY_RULE_1989. docs/C.md, "The steal rule", has a table of when which serves. That no schedule of
 * the same reads has fewer fetches than quay_run is shown for QUAY_RULE_1989 alone, where readers have one pace, fetches cost no time
 * and look-aheads reach the last pages. */
#define QUAY_RULE_1989 0
#define QUAY_RULE_1993 1

/* ---- a first image ------------------------------------------------------------------------------------------------------ */

/* Writes the image of a box without readers, cached pages or fetches, over whatever the buffer holds. Frames are 1 to 1,024, the
 * look-ahead 1 to 2,000,000 ticks, the fetch time 0 to 2,000,000 ticks; `sizes` points to eight numbers, the pages of the files 0 to
 * 7, each 0 to 1,024 (0: no such file). The rule is QUAY_RULE_1989 or QUAY_RULE_1993; `expected` points to eight numbers, E of the
 * files, each 0 to 1,000: how many times a tablet will dock for the file, one that docks again counted again. Under QUAY_RULE_1989 they
 * are kept, and decide nothing. R is 0 for each.
 * QUAY_DONE. Refusals: 13 for a length that is not QUAY_IMAGE_SIZE, 1. It is plain C outside the proofs; tests hold it to the rule of
 * Setup. */
static inline uint64_t quay_first_image_by_rule(uint8_t *image, size_t length, uint64_t frames, uint64_t look_ahead,
                                                uint64_t fetch_time, const uint64_t sizes[8], uint64_t rule,
                                                const uint64_t expected[8])
{
    if (length != QUAY_IMAGE_SIZE)
        return QUAY_BAD_IMAGE;
    if (frames < 1 || frames > 1024 || look_ahead < 1 || look_ahead > 2000000 || fetch_time > 2000000 || rule > QUAY_RULE_1993)
        return QUAY_BAD_SETTINGS;
    for (size_t file = 0; file < 8; file++)
        if (sizes[file] > 1024 || expected[file] > 1000)
            return QUAY_BAD_SETTINGS;
    for (size_t i = 0; i < QUAY_IMAGE_SIZE; i++)
        image[i] = 0;
    for (size_t i = 0; i < 2; i++)
        image[QUAY_AT_FRAMES + i] = (uint8_t)(frames >> (8 * i));
    for (size_t i = 0; i < 4; i++) {
        image[QUAY_AT_LOOK_AHEAD + i] = (uint8_t)(look_ahead >> (8 * i));
        image[QUAY_AT_FETCH_TIME + i] = (uint8_t)(fetch_time >> (8 * i));
    }
    for (size_t i = 0; i < 16; i++) {
        image[QUAY_AT_SIZES + i] = (uint8_t)(sizes[i / 2] >> (8 * (i % 2)));
        image[QUAY_AT_EXPECTED + i] = (uint8_t)(expected[i / 2] >> (8 * (i % 2)));
    }
    image[QUAY_AT_RULE] = (uint8_t)rule;
    return (uint64_t)QUAY_DONE << 16;
}

/* The same under QUAY_RULE_1989, with E 0 for every file. */
static inline uint64_t quay_first_image(uint8_t *image, size_t length, uint64_t frames, uint64_t look_ahead, uint64_t fetch_time,
                                        const uint64_t sizes[8])
{
    const uint64_t none[8] = {0};
    return quay_first_image_by_rule(image, length, frames, look_ahead, fetch_time, sizes, QUAY_RULE_1989, none);
}

/* ---- an older image ----------------------------------------------------------------------------------------------------- */

/* Writes the newest image from one of QUAY_IMAGE_SIZE_V1, QUAY_IMAGE_SIZE_V3 or QUAY_IMAGE_SIZE bytes; the last is copied as it is. It
 * judges nothing but the lengths: whether the bytes are an image the next call tells, 13. `old` may be `image` itself, so that an old
 * image can be read from its file into a buffer of the newest length and be upgraded there.
 * QUAY_DONE. Refusal: 13 for a length that is not QUAY_IMAGE_SIZE, or an old length that is none of the three; the buffer is left. It
 * is plain C outside the proofs; tests hold it to the rule of Restore. */
static inline uint64_t quay_upgrade_image(uint8_t *image, size_t length, const uint8_t *old, size_t old_length)
{
    if (length != QUAY_IMAGE_SIZE)
        return QUAY_BAD_IMAGE;
    if (old_length != QUAY_IMAGE_SIZE_V1 && old_length != QUAY_IMAGE_SIZE_V3 && old_length != QUAY_IMAGE_SIZE)
        return QUAY_BAD_IMAGE;
    if (image != old)
        for (size_t i = 0; i < old_length; i++)
            image[i] = old[i];
    for (size_t i = old_length; i < QUAY_IMAGE_SIZE; i++) /* 1989, E and R 0; the marks come below */
        image[i] = 0;
    for (size_t slot = 0; slot < 16 && old_length == QUAY_IMAGE_SIZE_V1; slot++) {
        uint8_t *reader = image + QUAY_AT_READERS + 8 * slot, *mark = image + QUAY_AT_MARKS + 2 * slot;
        int whole = reader[0] != 0 && reader[1] < 8 && reader[6] == 0 && reader[7] == 0; /* a taken slot without a last page */
        for (size_t i = 0; i < 2; i++) {
            if (whole)
                reader[6 + i] = image[QUAY_AT_SIZES + 2 * reader[1] + i];
            mark[i] = reader[4 + i];
        }
    }
    return (uint64_t)QUAY_DONE << 16;
}

/* ---- the calls ----------------------------------------------------------------------------------------------------------
 * Each takes the image and its length, which must be QUAY_IMAGE_SIZE. */

/* A tablet docks: the empty slot holds a reader of the file, with that pace in ticks a page. It reads the pages from start + 1 to last:
 * start is its position, the page that it read last, 0 for a tablet that has none yet; last is the page at which it is done, the
 * file's size if it wants the whole file. Where start is last, its first read answers QUAY_END. The file's R grows by 1, unless it is
 * 65,535: one more reader of those expected has come, also if this tablet was here before.
 * QUAY_DONE. Refusals: 13, 2, 3, 4, 15, 5. */
uint64_t quay_attach(uint8_t *image, size_t length, uint64_t slot, uint64_t file, uint64_t pace, uint64_t start, uint64_t last);

/* The tablet is taken off; a fetch that it waited for stays open. It stays counted in R.
 * QUAY_DONE. Refusals: 13, 2, 6. */
uint64_t quay_detach(uint8_t *image, size_t length, uint64_t slot);

/* The reader in the slot asks for its next page.
 * QUAY_END at its last page, or QUAY_HIT, QUAY_WAIT or QUAY_FETCH with the page. Refusals: 13, 2, 6, 7. */
uint64_t quay_read(uint8_t *image, size_t length, uint64_t slot);

/* A page that was in fetch has come: it is cached, in the frame of another page if none is free, and its waiters run.
 * QUAY_ARRIVED, with the page dropped for it, if any. Refusals: 13, 3, 8, 9. */
uint64_t quay_arrive(uint8_t *image, size_t length, uint64_t file, uint64_t page);

/* A fetch has failed: it is closed, and its waiters run, so that their next read asks for the page again.
 * QUAY_DONE. Refusals: 13, 3, 8, 9. */
uint64_t quay_lost(uint8_t *image, size_t length, uint64_t file, uint64_t page);

/* The link is idle: the page that is worth fetching early is put in fetch.
 * QUAY_FETCH with the page, or QUAY_NOTHING. Refusal: 13. */
uint64_t quay_prefetch(uint8_t *image, size_t length);

/* A frame is wanted back: the head of the steal order is dropped, by the image's rule.
 * QUAY_STOLEN with the page, or QUAY_NOTHING. Refusal: 13. */
uint64_t quay_steal(uint8_t *image, size_t length);

/* So many turns at once, starting with the slot whose turn it is. Each reads for its slot; a page not cached is fetched and arrives
 * within the turn.
 * 4,294,967,296 + fetches x 65,536 + reads: take it apart by quay_fetches and quay_reads. Refusals: 13, 11, 10. */
uint64_t quay_run(uint8_t *image, size_t length, uint64_t turns);

/* What the tablet in the slot really takes for a page becomes its pace. The interval, 1 to 1,000,000, is how many ticks have passed
 * since its last measure, or since it docked; blocked is for how many of them it could not go on, because it waited for a page. With n
 * the pages that it has read since then,
 *     pace = (interval - blocked) / n, rounded down, at least 1 and at most 1,000;
 * where n is 0 the pace stays. The box has no clock: both numbers are the server's. What it counts is the pages, from the mark, which
 * is then set to the position. A waiting tablet may be measured too.
 * QUAY_DONE. Refusals: 13, 2, 6, 16. */
uint64_t quay_measure(uint8_t *image, size_t length, uint64_t slot, uint64_t interval, uint64_t blocked);

#ifdef __cplusplus
}
#endif

#endif
