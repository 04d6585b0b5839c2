/* A small server over the quay box: two tablets dock, read their passage file and are taken off again.
 *
 * Tablet 0 is to have the whole file. It is taken off half full, and when it docks again it goes on where it left off. Tablet 1 needs
 * the first pages alone, the harbour reaches. The dispatcher guesses one pace for both. What they really take the server measures
 * every few pages, so that the box knows who comes to a page first.
 *
 * The link is played by a queue: a fetch asked for at one tick arrives at a later one, and one of them is lost on the way. When
 * nobody waits for a page the box is asked what to fetch early. Half way the server stops, leaves the image in a file and comes
 * back from it.
 *
 * usage: server IMAGE-FILE */
#include <stdio.h>
#include <stdlib.h>
#include <string.h>

#include "quay.h"

enum { FILE_PAGES = 12, HARBOUR_PAGES = 6, FRAMES = 6, LOOK_AHEAD = 90, FETCH_TIME = 3, GUESS = 10, MEASURED_PAGES = 3 };
enum { LINK_DELAY = 2, LINK_DEPTH = 8, LOSS_TICK = 23, STOP_TICK = 48, LAST_TICK = 200 };
enum { HARBOUR_TICK = 10, OFF_TICK = 35, AGAIN_TICK = 46 };

struct fetch {
    unsigned file, page, due;
};

/* What the server keeps of a tablet: the page that it read last, the page at which it is done, and the ticks that it really takes for a
 * page, which nobody knows beforehand. Of a docked one also its clock, for the next measure: since when, how long it was blocked, and
 * since when it waits, if it does. */
struct tablet {
    unsigned position, last, takes;
    int done;
    unsigned ready, since, mark, blocked, waits_since;
};

struct server {
    uint8_t image[QUAY_IMAGE_SIZE];
    struct fetch link[LINK_DEPTH];
    unsigned on_link;
    struct tablet tablets[2];
};

/* A first image: nothing docked, cached or in fetch, and file 0 alone has pages. */
static int start(struct server *s)
{
    const uint64_t sizes[8] = {FILE_PAGES};
    const struct tablet whole = {0, FILE_PAGES, 6, 0, 0, 0, 0, 0, 0}, harbour = {0, HARBOUR_PAGES, 20, 0, 0, 0, 0, 0, 0};
    memset(s, 0, sizeof *s);
    s->tablets[0] = whole;
    s->tablets[1] = harbour;
    return !quay_refused(quay_first_image(s->image, sizeof s->image, FRAMES, LOOK_AHEAD, FETCH_TIME, sizes));
}

static void show(unsigned tick, const char *what, uint64_t answer)
{
    printf("%3u  %-10s", tick, what);
    if (quay_refused(answer))
        printf(" refused: %u", (unsigned)answer);
    else if (quay_has_page(answer))
        printf(" %c file %u page %u", quay_letter(answer), quay_file(answer), quay_page(answer));
    else
        printf(" %c", quay_letter(answer));
    printf("\n");
}

static void show_slot(unsigned tick, const char *what, unsigned slot, uint64_t answer)
{
    char words[16];
    snprintf(words, sizeof words, "%s %u", what, slot);
    show(tick, words, answer);
}

/* The box asks for a page: it goes on the link. */
static void ask(struct server *s, unsigned tick, uint64_t answer)
{
    struct fetch f = {quay_file(answer), quay_page(answer), tick + LINK_DELAY};
    s->link[s->on_link++] = f;
}

/* The wait for a page is over: it came, or is lost. */
static void unblock(struct server *s, unsigned tick, unsigned page)
{
    for (unsigned slot = 0; slot < 2; slot++) {
        struct tablet *t = &s->tablets[slot];
        if (t->waits_since == 0 || t->position + 1 != page)
            continue;
        t->blocked += tick - t->waits_since;
        t->waits_since = 0;
    }
}

/* What the link brings at this tick; at one tick it loses it. */
static void deliver(struct server *s, unsigned tick)
{
    unsigned left = 0;
    for (unsigned i = 0; i < s->on_link; i++) {
        struct fetch f = s->link[i];
        if (f.due > tick) {
            s->link[left++] = f;
            continue;
        }
        if (tick == LOSS_TICK)
            show(tick, "lost", quay_lost(s->image, sizeof s->image, f.file, f.page));
        else
            show(tick, "arrived", quay_arrive(s->image, sizeof s->image, f.file, f.page));
        unblock(s, tick, f.page);
    }
    s->on_link = left;
}

/* A tablet docks, in the slot of its number, and goes on behind the page that it read last. */
static void dock(struct server *s, unsigned tick, unsigned slot, unsigned last)
{
    struct tablet *t = &s->tablets[slot];
    uint64_t answer = quay_attach(s->image, sizeof s->image, slot, 0, GUESS, t->position, last);
    show_slot(tick, "dock", slot, answer);
    if (quay_refused(answer))
        return;
    t->ready = tick + 1;
    t->since = tick;
    t->mark = t->position;
    t->blocked = t->waits_since = 0;
}

static void take_off(struct server *s, unsigned tick, unsigned slot)
{
    s->tablets[slot].waits_since = 0;
    show_slot(tick, "undock", slot, quay_detach(s->image, sizeof s->image, slot));
}

/* The pages in the order in which they would be dropped, as text: asked of a copy, so that nothing is. */
static void drop_order(const struct server *s, char text[4 * FRAMES])
{
    uint8_t copy[QUAY_IMAGE_SIZE];
    memcpy(copy, s->image, sizeof copy);
    text[0] = 0;
    for (uint64_t answer; quay_letter(answer = quay_steal(copy, sizeof copy)) == QUAY_STOLEN;)
        text += sprintf(text, " %u", quay_page(answer));
}

static unsigned pace_of(const struct server *s, unsigned slot)
{
    const uint8_t *pace = s->image + QUAY_AT_READERS + 8 * slot + 2;
    return pace[0] + 256u * pace[1];
}

/* Every few pages a tablet is measured: how long since the last time, and for how much of that it waited. */
static void measure(struct server *s, unsigned tick, unsigned slot)
{
    struct tablet *t = &s->tablets[slot];
    unsigned pages = t->position - t->mark, interval = tick - t->since, pace = pace_of(s, slot);
    char before[4 * FRAMES], after[4 * FRAMES];
    if (pages < MEASURED_PAGES)
        return;
    drop_order(s, before);
    show_slot(tick, "measure", slot, quay_measure(s->image, sizeof s->image, slot, interval, t->blocked));
    drop_order(s, after);
    printf("     %u pages in %u ticks, %u of them blocked: pace %u, now %u\n", pages, interval, t->blocked, pace, pace_of(s, slot));
    printf("     to drop%s, now%s\n", before, after);
    t->since = tick;
    t->mark = t->position;
    t->blocked = 0;
}

/* A tablet that has done with its page asks for the next. With its last page read it is done, and taken off. */
static void serve(struct server *s, unsigned tick, unsigned slot)
{
    struct tablet *t = &s->tablets[slot];
    if (tick < t->ready)
        return;
    uint64_t answer = quay_read(s->image, sizeof s->image, slot);
    if (answer == QUAY_READER_WAITS || answer == QUAY_SLOT_EMPTY)
        return;
    show_slot(tick, "tablet", slot, answer);
    if (quay_letter(answer) == QUAY_HIT) {
        t->position = quay_page(answer);
        t->ready = tick + t->takes;
        measure(s, tick, slot);
    } else if (quay_letter(answer) == QUAY_END) {
        t->done = 1;
        take_off(s, tick, slot);
    } else
        t->waits_since = tick;
    if (quay_letter(answer) == QUAY_FETCH)
        ask(s, tick, answer);
}

/* The link is idle: the box may want a page early. */
static void fetch_early(struct server *s, unsigned tick)
{
    uint64_t answer = quay_prefetch(s->image, sizeof s->image);
    if (quay_letter(answer) != QUAY_FETCH)
        return;
    show(tick, "early", answer);
    ask(s, tick, answer);
}

static int keep(const struct server *s, const char *path)
{
    FILE *f = fopen(path, "wb");
    if (!f)
        return 0;
    size_t n = fwrite(s->image, 1, sizeof s->image, f);
    return fclose(f) == 0 && n == sizeof s->image;
}

/* Comes back from the file, which any older version may have left. What was on the link is lost with the process, so every open fetch
 * is closed. */
static int resume(struct server *s, unsigned tick, const char *path)
{
    uint8_t bytes[QUAY_IMAGE_SIZE + 1]; /* one more, so that a longer file is refused too */
    FILE *f = fopen(path, "rb");
    if (!f)
        return 0;
    size_t n = fread(bytes, 1, sizeof bytes, f);
    fclose(f);
    s->on_link = 0;
    if (quay_refused(quay_upgrade_image(s->image, sizeof s->image, bytes, n)))
        return 0;
    for (unsigned page = 1; page <= FILE_PAGES; page++) {
        uint64_t answer = quay_lost(s->image, sizeof s->image, 0, page);
        if (answer == QUAY_BAD_IMAGE)
            return 0;
        if (answer == QUAY_NOT_IN_FETCH)
            continue;
        printf("     fetch of page %u closed\n", page);
        unblock(s, tick, page);
    }
    return 1;
}

/* What happens on the quay at a tick. */
static void happen(struct server *s, unsigned tick)
{
    if (tick == HARBOUR_TICK)
        dock(s, tick, 1, HARBOUR_PAGES);
    if (tick == OFF_TICK)
        take_off(s, tick, 0);
    if (tick == AGAIN_TICK)
        dock(s, tick, 0, FILE_PAGES);
    deliver(s, tick);
    serve(s, tick, 0);
    serve(s, tick, 1);
    if (s->on_link == 0)
        fetch_early(s, tick);
}

int main(int argc, char **argv)
{
    struct server s;
    if (argc != 2) {
        fprintf(stderr, "usage: server IMAGE-FILE\n");
        return 2;
    }
    if (!start(&s)) {
        fprintf(stderr, "server: the settings are out of range\n");
        return 1;
    }
    dock(&s, 0, 0, FILE_PAGES + 1); /* the file has no such page */
    dock(&s, 0, 0, FILE_PAGES);
    dock(&s, 0, 0, FILE_PAGES);
    for (unsigned tick = 1; tick < LAST_TICK && !(s.tablets[0].done && s.tablets[1].done); tick++) {
        if (tick == STOP_TICK) {
            if (!keep(&s, argv[1]) || !resume(&s, tick, argv[1])) {
                fprintf(stderr, "server: the image could not be kept in %s\n", argv[1]);
                return 1;
            }
            printf("     back from the file\n");
        }
        happen(&s, tick);
    }
    show(LAST_TICK, "steal", quay_steal(s.image, sizeof s.image));
    return s.tablets[0].done && s.tablets[1].done ? 0 : 1;
}
