/* Lays two trains out, marks the link on which the second stands, checks the yard, and prints the report and the path of the first. */
#include "lavtoeu.h"
#include <stdio.h>
#include <stdlib.h>
#include <string.h>

/* The records of the header are as long as the layouts have them. */
_Static_assert(sizeof(lavtoeu_table_header) == LAVTOEU_TABLE_HEADER, "table header");
_Static_assert(sizeof(lavtoeu_link) == LAVTOEU_LINK_RECORD, "link");
_Static_assert(sizeof(lavtoeu_est) == LAVTOEU_EST_RECORD, "est");
_Static_assert(sizeof(lavtoeu_node) == LAVTOEU_PATH_RECORD, "node");
_Static_assert(sizeof(lavtoeu_diverge) == LAVTOEU_DIVERGE_RECORD, "diverge");
_Static_assert(sizeof(lavtoeu_image_header) == LAVTOEU_IMAGE_HEADER, "image header");
_Static_assert(sizeof(lavtoeu_row) == LAVTOEU_REPORT_RECORD, "row");
_Static_assert(sizeof(lavtoeu_bundle_header) == LAVTOEU_BUNDLE_HEADER, "bundle header");
_Static_assert(sizeof(lavtoeu_recording_header) == LAVTOEU_RECORDING_HEADER, "recording header");
_Static_assert(sizeof(lavtoeu_step) == LAVTOEU_STEP_RECORD, "step");
_Static_assert(sizeof(lavtoeu_wide_diverge) == LAVTOEU_WIDE_DIVERGE_RECORD, "wide diverge");
_Static_assert(sizeof(lavtoeu_wide_row) == LAVTOEU_WIDE_REPORT_RECORD, "wide row");
_Static_assert(sizeof(lavtoeu_undo_record_header) == LAVTOEU_UNDO_RECORD_HEADER, "undo record header");

enum { LINKS = 5, SLOTS = 2, FIRST = LAVTOEU_IMAGE_SIZE(5, 4), SECOND = LAVTOEU_IMAGE_SIZE(2, 2) };
enum { FIRST_AT = LAVTOEU_YARD_HEADER + LAVTOEU_YARD_OFFSET * SLOTS, SECOND_AT = FIRST_AT + FIRST, YARD = SECOND_AT + SECOND };

static void need(const char *call, uint32_t refusal) {
    if (refusal == 0) return;
    fprintf(stderr, "%s: refused %d at %d\n", call, lavtoeu_number(refusal), lavtoeu_place(refusal));
    exit(1);
}

static void print_path(const uint8_t *image) {
    static const char *const types[] = { "Arrive", "Clear", "Fake" };
    lavtoeu_image_header h;
    memcpy(&h, image, sizeof h);
    for (uint32_t i = 0; i < h.nodes; i++) {
        lavtoeu_node x;
        memcpy(&x, image + h.nodes_at + i * sizeof x, sizeof x);
        printf("node %s of link %u, est %u, at %g m\n", types[x.type], x.link, x.est, x.offset);
    }
}

int main(void) {
    /* Train 1 runs over link 1 to link 3, and could go round link 1 over link 2. Train 2 runs over link 1 alone. */
    const lavtoeu_est first[] = {
        { .type = LAVTOEU_FAKE, .next = 1, .alt = 2 },
        { .type = LAVTOEU_ARRIVE, .link = 1, .dist_to_next = 100, .next = 4 },
        { .type = LAVTOEU_FAKE, .next = 3 },
        { .type = LAVTOEU_ARRIVE, .link = 2, .dist_to_next = 100, .next = 4, .prev = 2 },
        { .type = LAVTOEU_ARRIVE, .link = 3, .prev = 1, .prev_alt = 3 },
    };
    const lavtoeu_est second[] = { { .type = LAVTOEU_FAKE, .next = 1 }, { .type = LAVTOEU_ARRIVE, .link = 1 } };

    /* The yard: its size, the number of slots, where each image begins; then the images. */
    static uint8_t yard[YARD];
    const uint32_t head[] = { YARD, SLOTS, FIRST_AT, SECOND_AT };
    memcpy(yard, head, sizeof head);
    need("lay out 1", lavtoeu_lay_out((const uint8_t *)first, sizeof first, 1, 0, 0, 4, LINKS, yard + FIRST_AT, FIRST));
    need("lay out 2", lavtoeu_lay_out((const uint8_t *)second, sizeof second, 2, 0, 0, 2, LINKS, yard + SECOND_AT, SECOND));

    /* Link 4 is link 1 in the other direction: marking 4 for train 2 occupies its flip, link 1. */
    const struct { lavtoeu_table_header head; lavtoeu_link link[LINKS]; } table =
        { { sizeof table, LINKS, 0, sizeof table }, { [1].flip = 4, [4].flip = 1 } };
    uint16_t occupancy[LINKS] = { 0 };
    need("mark", lavtoeu_mark((const uint8_t *)&table, sizeof table, occupancy, LINKS, 4, 2));

    /* Train 2 has moved; link 1 may block; from slot 1 on, not local, at most 5 rounds an update. */
    const uint32_t blocking[] = { 1 };
    lavtoeu_row report[SLOTS];
    uint64_t answer[LAVTOEU_CHECK_WORDS];
    need("check", lavtoeu_check(yard, YARD, occupancy, LINKS, blocking, 1, 2, 1, 0, 5, (uint8_t *)report, sizeof report, answer, LAVTOEU_CHECK_WORDS));
    printf("%d erred, deadlock %d, next %d\n", (int)answer[LAVTOEU_ERRED], (int)answer[LAVTOEU_DEADLOCK], (int)answer[LAVTOEU_NEXT]);
    for (int t = 1; t <= SLOTS; t++)
        printf("slot %d: code %d, %d rounds, %u strays, met %u\n", t, report[t - 1].code, report[t - 1].rounds, report[t - 1].strays, report[t - 1].met);
    print_path(yard + FIRST_AT);
    return 0;
}
