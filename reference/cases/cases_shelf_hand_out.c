#include "cases.h"

#include "case_listing.h"
#include "case_shelf_listing.h"
#include "stamp_samples.h"

enum {
    /* Of two phys the lower one is in use all the time, so that the other is the lowest free one. */
    IN_USE = 0,
    OURS = 1
};

static const struct phy_event hard_reset = {.code = EVENT_HARD_RESET};

/* ---- Full queues ---- */

/* The first go to the phys in turn; then the queue fills up, and the last is one too many. */
static void tell_opens(struct shelf_story *story, uint64_t count)
{
    for (uint64_t i = 0; i < count; i++) {
        tell(story, to_port(numbered_open(i)));
    }
}

/* A full queue is no refusal to a phy, and comes behind 2 and 12; a phy that is freed makes room for one more. */
static void list_full_queue(struct case_file *file, size_t phys)
{
    struct shelf_story story = shelf_story(phys);

    tell_opens(&story, phys + QUEUE_MOST_OPENS + 1);
    tell(&story, to_port(plain_event(EVENT_TICK)));
    tell(&story, to_phy(phys, numbered_open(40)));
    tell(&story, to_phy(0, numbered_open(41)));
    tell(&story, to_phy(phys - 1, hard_reset));
    tell(&story, to_port(numbered_open(42)));
    tell(&story, to_port(numbered_open(43)));
    tell(&story, to_phy(0, plain_event(EVENT_OPEN_ACCEPT)));
    tell(&story, to_port(numbered_open(44)));
    list_story(file, &story);
}

/* To the last one, and then the phys stay free. */
static void list_emptied_queue(struct case_file *file, size_t phys)
{
    struct shelf_story story = shelf_story(phys);

    tell_opens(&story, phys + QUEUE_MOST_OPENS);
    for (uint64_t i = 0; i <= QUEUE_MOST_OPENS + phys; i++) {
        tell(&story, to_phy(i % phys, hard_reset));
    }
    list_story(file, &story);
}

/* ---- The lowest-numbered free phy ---- */

/* The others have an Open that was sent straight to them; at the end one waits. */
static void list_beside_free(struct case_file *file, unsigned free_phys)
{
    struct shelf_story story = shelf_story(PORT_MOST_BAYS);

    for (size_t i = 0; i < PORT_MOST_BAYS; i++) {
        if ((free_phys >> i & 1) == 0) {
            tell(&story, to_phy(i, numbered_open(i)));
        }
    }
    while (tell(&story, to_port(numbered_open(9))).handed != HANDED_TO_NONE) {
    }
    list_story(file, &story);
}

/* ---- Every event that frees a phy, from every pair of states ---- */

/* first: where its first event goes, the phy or the port; a later Open would find no free phy by the port. */
static void tell_way(
    struct shelf_story *story, uint64_t first, uint64_t phy, const struct phy_item way[SCRIPT_ITEMS])
{
    for (size_t i = 0; i < SCRIPT_ITEMS && way[i].repeat != 0; i++) {
        tell(story, to_phy(i == 0 ? first : phy, way[i].event));
    }
}

/* An Open waits, the event frees the phy, and a reset frees it for the next. */
static void tell_freeing(
    struct shelf_story *story, uint64_t first, const struct phy_item way[SCRIPT_ITEMS], struct phy_event event)
{
    struct shelf_story tried = *story;

    tell_way(&tried, first, OURS, way);
    if (!event_frees(&tried.now.bays[OURS], &event)) {
        return;
    }
    tell(&tried, to_port(numbered_open(3)));
    tell(&tried, to_phy(OURS, event));
    tell(&tried, to_phy(OURS, hard_reset));
    *story = tried;
}

/* The gaps end with the timer's last tick, or go on when the phy has been free for long. */
static void list_freeings(struct case_file *file, uint64_t first, const struct phy_item way[SCRIPT_ITEMS])
{
    static const uint64_t gaps[] = {1, 1000, 2000, 5000, BAY_MOST_COUNTER};
    struct shelf_story story = shelf_story(2);

    tell(&story, to_phy(IN_USE, numbered_open(1)));
    tell(&story, to_phy(OURS, stamp_at(BAY_MOST_COUNTER - 1500)));
    for (uint64_t code = EVENT_TX_OPEN; code <= EVENT_PHY_DISABLED; code++) {
        tell_freeing(&story, first, way, sample_event(code));
    }
    for (size_t i = 0; i < sizeof gaps / sizeof gaps[0]; i++) {
        tell_freeing(&story, first, way, stamp_behind(story.now.bays[OURS].base, gaps[i]));
    }
    list_story(file, &story);
}

/* The first way leaves the phy free, and no Open waits beside that. */
static void list_all_freeings(struct case_file *file)
{
    for (size_t i = 1; i < listing_way_count; i++) {
        list_freeings(file, OURS, listing_ways[i]);
        if (listing_ways[i][0].event.code == EVENT_TX_OPEN) {
            list_freeings(file, THE_PORT_ITSELF, listing_ways[i]);
        }
    }
}

/* ---- Gaps that free the phy or end before that ---- */

/* The Open that waits may have been handed out or not, so it takes two resets until the phy is free for the next. */
static void list_gaps(struct case_file *file, const struct phy_item way[SCRIPT_ITEMS])
{
    static const uint64_t gaps[] = {0, 1, 1000, 1999};
    struct shelf_story story = shelf_story(2);

    tell(&story, to_phy(IN_USE, numbered_open(1)));
    tell(&story, to_phy(OURS, stamp_at(BAY_MOST_COUNTER - 500)));
    for (size_t i = 0; i < sizeof gaps / sizeof gaps[0]; i++) {
        tell(&story, to_phy(OURS, plain_event(EVENT_ACCEPT_OPENS)));
        tell_way(&story, OURS, OURS, way);
        tell(&story, to_port(numbered_open(3)));
        tell(&story, to_phy(OURS, stamp_behind(story.now.bays[OURS].base, gaps[i])));
        tell(&story, to_phy(OURS, hard_reset));
        tell(&story, to_phy(OURS, hard_reset));
    }
    list_story(file, &story);
}

/* ---- Events that do not free one leave the queue ---- */

/* Each code in turn to where the ones before have led, refused ones among them. */
static void list_kept_queue(struct case_file *file, size_t first_way, uint64_t flag)
{
    struct shelf_story story = shelf_story(PORT_MOST_BAYS);

    for (size_t i = 0; i < PORT_MOST_BAYS; i++) {
        tell(&story, to_phy(i, plain_event(flag)));
        tell_way(&story, i, i, listing_ways[first_way + i]);
    }
    tell_opens(&story, 2);
    for (uint64_t code = EVENT_TX_OPEN; code <= EVENT_TIME_STAMP; code++) {
        const struct phy_event event = sample_event(code);

        for (size_t i = 0; i < PORT_MOST_BAYS; i++) {
            if (!event_frees(&story.now.bays[i], &event)) {
                tell(&story, to_phy(i, event));
            }
        }
    }
    list_story(file, &story);
}

/* ---- Opens straight to a phy ---- */

/* It is taken beside L2 and L6 too, where the port hands out none, and is answered before those that wait. */
static void list_overtaking(struct case_file *file, const struct phy_item way[SCRIPT_ITEMS], uint64_t flag)
{
    struct shelf_story story = shelf_story(2);

    tell(&story, to_phy(IN_USE, numbered_open(1)));
    tell(&story, to_phy(OURS, plain_event(flag)));
    tell_way(&story, OURS, OURS, way);
    tell_opens(&story, 2);
    tell(&story, to_phy(OURS, numbered_open(OTHER_ADDRESS)));
    tell(&story, to_phy(OURS, numbered_open(OTHER_ADDRESS)));
    tell(&story, to_phy(OURS, plain_event(EVENT_TICK)));
    tell(&story, to_phy(OURS, hard_reset));
    list_story(file, &story);
}

static void list_all_overtaking(struct case_file *file)
{
    static const struct phy_item selected[SCRIPT_ITEMS] = {OPEN_FROM(OTHER_ADDRESS, PROTOCOL_SSP)};
    static const struct phy_item broken[SCRIPT_ITEMS] = {OPEN_FROM(OTHER_ADDRESS, PROTOCOL_SSP), PLAIN(1, EVENT_BREAK)};

    list_overtaking(file, selected, EVENT_REJECT_OPENS);
    list_overtaking(file, selected, EVENT_ACCEPT_OPENS);
    list_overtaking(file, broken, EVENT_ACCEPT_OPENS);
}

/* None is queued again, whether another waits or not. */
static void list_rejects(struct case_file *file)
{
    struct shelf_story story = shelf_story(1);

    for (uint64_t reason = 0; reason <= 7; reason++) {
        const struct phy_event reject = {EVENT_OPEN_REJECT, {reason}};

        tell_opens(&story, 2);
        tell(&story, to_phy(0, reject));
        tell(&story, to_phy(0, reject));
    }
    list_story(file, &story);
}

void make_hand_out_listing_cases(struct case_file *file)
{
    static const size_t rows[] = {1, 2, 3, PORT_MOST_BAYS};
    static const unsigned free_phys[] = {0x80, 0x50, 0xA5, 0xFF};

    for (size_t i = 0; i < sizeof rows / sizeof rows[0]; i++) {
        list_full_queue(file, rows[i]);
    }
    list_emptied_queue(file, 7);
    for (size_t i = 0; i < sizeof free_phys / sizeof free_phys[0]; i++) {
        list_beside_free(file, free_phys[i]);
    }
    list_all_freeings(file);
    for (size_t i = 0; i < listing_way_count; i++) {
        list_gaps(file, listing_ways[i]);
    }
    list_kept_queue(file, 1, EVENT_REJECT_OPENS);
    list_kept_queue(file, listing_way_count - PORT_MOST_BAYS, EVENT_ACCEPT_OPENS);
    list_all_overtaking(file);
    list_rejects(file);
}
