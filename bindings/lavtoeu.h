/* The calls of the proved free path core of a dispatch yard, for C on x86-64.
 *
 * Link with libfree_path_c.a (`rt lib` in crates/free_path_c). Every call is total: any bytes, lengths and numbers get an
 * answer. A pointer goes with the length that follows it, counted in elements; with length 0 it is not read. No buffer that a
 * call writes may overlap another of its buffers. A refused call changes no buffer but the words of an update's `answer`; a
 * refused check leaves `answer` as it was.
 *
 * No call keeps anything, allocates, prints or locks: any thread may call at any time. Bytes may lie at any address, numbers at
 * one that fits their type. A sheet takes 320 KB of stack at most, a game 192 KB, a check beside an index 176 KB,
 * a replay 160 KB, any other call 128 KB; README.md beside this file has each. Text has no byte 0 at its end.
 *
 * A refusal is a number with its place in the upper 16 bits; 0 is none. The bytes of every buffer are in docs/LAYOUTS.md, the
 * numbers in docs/REFUSALS.md. */
#ifndef LAVTOEU_H
#define LAVTOEU_H

#include <stddef.h>
#include <stdint.h>

#ifdef __cplusplus
extern "C" {
#endif

/* The version of this header: major, minor and patch in a byte each, and as text. lavtoeu_version gives the library's.
 * CHANGELOG.md says what has changed. */
#define LAVTOEU_VERSION 0x000200
#define LAVTOEU_VERSION_TEXT "0.2.0"
uint32_t lavtoeu_version(void);

/* Bytes of each header and record of docs/LAYOUTS.md, and of a buffer that holds every sheet. */
enum {
    LAVTOEU_TABLE_HEADER = 16, LAVTOEU_LINK_RECORD = 12, LAVTOEU_LOCKOUT_RECORD = 4,
    LAVTOEU_IMAGE_HEADER = 64, LAVTOEU_EST_RECORD = 32, LAVTOEU_PATH_RECORD = 32, LAVTOEU_DIVERGE_RECORD = 4,
    LAVTOEU_YARD_HEADER = 8, LAVTOEU_YARD_OFFSET = 4,
    LAVTOEU_REPORT_RECORD = 20,
    LAVTOEU_BUNDLE_HEADER = 32,
    LAVTOEU_RECORDING_HEADER = 12, LAVTOEU_STEP_RECORD = 20,
    LAVTOEU_WIDE_DIVERGE_RECORD = 8, LAVTOEU_WIDE_REPORT_RECORD = 24,
    LAVTOEU_SHEET_ROOM = 4096,
    LAVTOEU_PAGE_LINE = 40
};

/* The size of an image of e est records with room for q diverge nodes. */
#define LAVTOEU_IMAGE_SIZE(e, q) (LAVTOEU_IMAGE_HEADER + (LAVTOEU_EST_RECORD + LAVTOEU_PATH_RECORD) * (e) + LAVTOEU_DIVERGE_RECORD * (q))

/* The size of a wide image. */
#define LAVTOEU_WIDE_IMAGE_SIZE(e, q) (LAVTOEU_IMAGE_HEADER + (LAVTOEU_EST_RECORD + LAVTOEU_PATH_RECORD) * (e) + LAVTOEU_WIDE_DIVERGE_RECORD * (q))

/* Where an image's header has its width, 1 in a wide one and 0 in a narrow one; the largest train beside a narrow image, and beside
 * wide ones alone. */
enum { LAVTOEU_WIDTH_AT = 42, LAVTOEU_MAX_NARROW_TRAIN = 65535, LAVTOEU_MAX_TRAIN = 999999 };

/* The most links, lockouts, est records of a train, diverge nodes of a train, slots; the longest bundle. */
enum {
    LAVTOEU_MAX_LINKS = 4000, LAVTOEU_MAX_LOCKOUTS = 4096, LAVTOEU_MAX_ESTS = 512, LAVTOEU_MAX_ROOM = 1024,
    LAVTOEU_MAX_SLOTS = 63, LAVTOEU_MAX_BUNDLE = 65536
};

/* The most links and turns of a game. */
enum { LAVTOEU_MAX_GAME_LINKS = 8, LAVTOEU_MAX_TURNS = 6 };

/* The types of est records and path nodes. */
enum { LAVTOEU_ARRIVE = 0, LAVTOEU_CLEAR = 1, LAVTOEU_FAKE = 2 };

/* The kinds of a recording's steps. */
enum { LAVTOEU_STEP_MARK = 0, LAVTOEU_STEP_CHECK = 1 };

/* The headers and records, field by field. The calls take bytes: hand an array of records over as (uint8_t *), and copy a record
 * out of an image, a yard or a bundle with memcpy. Spare bytes are 0. */
typedef struct { uint32_t size, links, lockouts, lockouts_at; } lavtoeu_table_header;
typedef struct { uint32_t flip, start, count; } lavtoeu_link;
typedef struct { double dist_to_next; uint32_t next, alt, prev, prev_alt, link; uint8_t type, spare[3]; } lavtoeu_est;
typedef struct { double offset, time_pass; uint32_t link, est; uint16_t auth; uint8_t type, spare[5]; } lavtoeu_node;
typedef struct { uint16_t train, node; } lavtoeu_diverge;
typedef struct {
    uint32_t size, ests, nodes, diverges, room, ests_at, nodes_at, diverges_at;
    uint16_t train, fixed, free, front, back;
    uint8_t width, spare[5];
    double search, fixed_max;
} lavtoeu_image_header;
typedef struct { uint16_t code, place, rounds, holder; uint32_t strays, faults, met; } lavtoeu_row;
typedef struct {
    uint32_t size, occupancy_at, occupancy, blocking_at, blocking, yard_at;
    uint16_t moved, begin, limit, local;
} lavtoeu_bundle_header;
typedef struct { uint32_t train; uint16_t node, spare; } lavtoeu_wide_diverge;
typedef struct { uint16_t code, place, rounds, spare; uint32_t strays, faults, holder, met; } lavtoeu_wide_row;
typedef struct { uint32_t size, steps, links; } lavtoeu_recording_header;
typedef struct { uint32_t kind, first, count; uint16_t train, begin, limit, local; } lavtoeu_step;

/* The number and the place of a refusal. */
static inline uint16_t lavtoeu_number(uint32_t refusal) { return (uint16_t)(refusal & 0xffff); }
static inline uint16_t lavtoeu_place(uint32_t refusal) { return (uint16_t)(refusal >> 16); }

/* Marks a link for a train, or releases it with train 0. Refused by 1, 2, 3. */
uint32_t lavtoeu_mark(const uint8_t *table, size_t table_len, uint16_t *occupancy, size_t occupancy_len, uint32_t link, uint16_t train);

/* The first refusal of an image, of either width, over a number of links by 6, 7, 22, 8, 9; 2 where these are fewer than 2 or more than
 * 4,000. */
uint32_t lavtoeu_image_fault(const uint8_t *image, size_t image_len, uint32_t links);

/* The first refusal of an image by 6 to 9 over 4,000 links, then 29: an est distance, a distance of the header or a path offset is
 * no whole multiple of 1/1024 metre from 0 to 40,000 metres. */
uint32_t lavtoeu_profile(const uint8_t *image, size_t image_len);

/* Lays a new train out in an image buffer: est records of 32 bytes each, the train, dist_disp_path_search and dist_fixed_max in
 * metres, Q (room for diverge nodes) and L (number of links). Refused by 5 to 9 and 11. */
uint32_t lavtoeu_lay_out(const uint8_t *est, size_t est_len, uint16_t train, double search, double fixed, uint32_t room, uint32_t links, uint8_t *image, size_t image_len);

/* The words of an update's answer. */
enum { LAVTOEU_CODE = 0, LAVTOEU_ERRORS = 1, LAVTOEU_ROUNDS = 2, LAVTOEU_STRAYS = 3, LAVTOEU_STEPS = 4, LAVTOEU_HOLDER = 5, LAVTOEU_MET = 6, LAVTOEU_UPDATE_WORDS = 7 };

/* Codes, as a report has them. 16 + n is refused by n. */
enum { LAVTOEU_UNVISITED = 0, LAVTOEU_FINISHED = 1, LAVTOEU_MOVED = 2, LAVTOEU_SUCCESS = 3, LAVTOEU_BLOCKED = 4, LAVTOEU_FAULTY = 5, LAVTOEU_REFUSED = 16 };

/* Updates the train of an image: the occupancy, the blocking list, the moved train, local (0 is no), the round limit. The first
 * seven words of the answer get the code, the number of errors where it is FAULTY, the rounds entered, the strays counted, the
 * steps of the search, those of a refused update up to its refusal, the train that holds this one where it is BLOCKED, else 0, and
 * the train that was met where the first round stopped on the path, 0 where it met none or the update is refused; words past
 * answer_len are left out. Refused by 2 and 4 to 13; the words are written then too. */
uint32_t lavtoeu_update(uint8_t *image, size_t image_len, const uint16_t *occupancy, size_t occupancy_len, const uint32_t *blocking, size_t blocking_len, uint16_t moved, uint32_t local, uint16_t limit, uint64_t *answer, size_t answer_len);

/* The words of a check's answer. */
enum { LAVTOEU_ERRED = 0, LAVTOEU_DEADLOCK = 1, LAVTOEU_NEXT = 2, LAVTOEU_CHECK_WORDS = 3 };

/* Checks a yard from slot begin on; the report gets 20 bytes for each slot: u16 code, place, rounds, holder; u32 strays, faults, met.
 * Holder and met are as of the slot's update, 0 where it had none. The first three words of the answer get the number of slots that
 * erred; where it is 0, 1 for a deadlock, and the next begin. Refused by 2, 4, 5, 14, 15, 16; a refused check leaves `answer` as it
 * was. */
uint32_t lavtoeu_check(uint8_t *yard, size_t yard_len, const uint16_t *occupancy, size_t occupancy_len, const uint32_t *blocking, size_t blocking_len, uint16_t moved, uint16_t begin, uint32_t local, uint16_t limit, uint8_t *report, size_t report_len, uint64_t *answer, size_t answer_len);

/* Writes the sheet of a bundle to the text, as many bytes as it has room for, and returns how many; no byte 0 behind them. */
size_t lavtoeu_sheet(const uint8_t *bundle, size_t bundle_len, uint8_t *text, size_t text_len);

/* Writes the page of an image's path: for each node a line of 39 columns and a line end, bytes 0 to 40 N - 1; bytes past them stay.
 * Refused by 6 to 9 over 4,000 links, and by 18. */
uint32_t lavtoeu_page(const uint8_t *image, size_t image_len, uint8_t *page, size_t page_len);

/* The most search steps of a round of an image's train, 3 E + 1, to answer[0]. Refused by 6 to 9 over 4,000 links; a refused call
 * leaves `answer` as it was. */
uint32_t lavtoeu_ceiling(const uint8_t *image, size_t image_len, uint64_t *answer, size_t answer_len);

/* The most search steps of a check of a yard, to answer[0]: the sum of the slots' ceilings, each times the round limit; an image that
 * is refused by 6 to 9 adds 0. Refused by 5, then 14; a refused call leaves `answer` as it was. */
uint32_t lavtoeu_yard_ceiling(const uint8_t *yard, size_t yard_len, uint16_t limit, uint64_t *answer, size_t answer_len);

/* Replays a recording over the starting yard and occupancy, and leaves them as making its marks, releases and checks one by one would;
 * every mark and release takes the one table, and a check's report goes unread. In a step first is the link of a mark, and the index
 * of a check's first blocking link among the recording's; train is a check's moved train. The list has an entry for each step and
 * gets the number of its refusal, 0 where there is none; a refused step changes nothing, and the replay goes on. Refused by 19, a
 * malformed recording or a list of another length, before any step. */
uint32_t lavtoeu_replay(const uint8_t *recording, size_t recording_len, const uint8_t *table, size_t table_len, uint8_t *yard, size_t yard_len, uint16_t *occupancy, size_t occupancy_len, uint16_t *list, size_t list_len);

/* Whether the closer can force it in a lesson game over one train, to answer[0]: 1 or 0. The closer has links, up to 8, all open at
 * the start, and turns, up to 6; at each turn the closer closes up to two, then the dispatcher opens a closed one or passes. At the end
 * the train is updated once in a copy of its image, which may be narrow or wide, the closed links held by the moved train and as the
 * blocking list; BLOCKED wins for the closer. 1 exactly where the closer has an answer to every line of the dispatcher's, each from
 * what was played so far. Nothing else is written. Refused as an update with no blocking list by 2, 5, 6, 22 (an entry of the occupancy
 * or moved above 65,535, with a wide image above 999,999), 7, 22 (a train of a diverge record above 999,999), 8, 9, 10; then by 28: a
 * link twice, 0 or at least occupancy_len, too many links or turns. A refused call leaves `answer` as it was. */
uint32_t lavtoeu_closer_can_force(const uint8_t *image, size_t image_len, const uint32_t *occupancy, size_t occupancy_len, uint32_t moved, uint32_t local, uint16_t limit, const uint32_t *links, size_t links_len, uint32_t turns, uint64_t *answer, size_t answer_len);

/* Shows the candidate of a slot one record of its train's path: as many of the 32 bytes as `record` has room for, and to answer[0] 1
 * where it is an Arrive whose link is taken, be it by that train, else 0. The slot's image may be narrow or wide. Refused by 1, 2, 22,
 * 14, 26, 27; a refused call leaves `record` and `answer` as they were. */
uint32_t lavtoeu_view(const uint8_t *table, size_t table_len, const uint32_t *occupancy, size_t occupancy_len, const uint8_t *yard, size_t yard_len, uint16_t slot, uint32_t node, uint8_t *record, size_t record_len, uint64_t *answer, size_t answer_len);

/* Marks an Arrive link of that path for the train of the slot, or releases it where marks is 0, whoever holds it. Refused by 1, 2, 22,
 * 14, 26, 27. */
uint32_t lavtoeu_act(const uint8_t *table, size_t table_len, uint32_t *occupancy, size_t occupancy_len, const uint8_t *yard, size_t yard_len, uint16_t slot, uint32_t link, uint32_t marks);

/* Taking a check back. The bytes of an undo record before its two yards, their fields, and the bytes of the record of a yard. */
enum { LAVTOEU_UNDO_RECORD_HEADER = 16 };
typedef struct { uint32_t filled, slots, old_at, written_at; } lavtoeu_undo_record_header;
#define LAVTOEU_UNDO_RECORD_SIZE(yard_len) (LAVTOEU_UNDO_RECORD_HEADER + 2 * (yard_len))

/* Checks a yard as lavtoeu_check does, and fills the record: u32 bytes filled, S, offsets of both yards; then the old yard and the one
 * written. Refused by 20 where the record has fewer than 16 bytes plus twice the yard, then as lavtoeu_check is; a refused check changes
 * nothing. Bytes beyond the record stay. */
uint32_t lavtoeu_check_recorded(uint8_t *yard, size_t yard_len, const uint16_t *occupancy, size_t occupancy_len, const uint32_t *blocking, size_t blocking_len, uint16_t moved, uint16_t begin, uint32_t local, uint16_t limit, uint8_t *report, size_t report_len, uint8_t *record, size_t record_len, uint64_t *answer, size_t answer_len);

/* Checks a yard as lavtoeu_check_wide does, and fills the record. Refused by 20, then as lavtoeu_check_wide is. */
uint32_t lavtoeu_check_recorded_wide(uint8_t *yard, size_t yard_len, const uint32_t *occupancy, size_t occupancy_len, const uint32_t *blocking, size_t blocking_len, uint32_t moved, uint16_t begin, uint32_t local, uint16_t limit, uint8_t *report, size_t report_len, uint8_t *record, size_t record_len, uint64_t *answer, size_t answer_len);

/* Gives the yard back that the record's check was given, while the yard is what that check wrote; the occupancy is not rewound. Refused
 * by 21; then nothing is changed. Bytes beyond the record go unread. */
uint32_t lavtoeu_undo(uint8_t *yard, size_t yard_len, const uint8_t *record, size_t record_len);

/* Trains of six digits: the calls over an occupancy of u32 trains, for images of either width. A wide image has 1 in the header's byte
 * 42 and diverge records of 8 bytes. Trains are at most 65,535 where an image of the call is narrow, in a check any of the yard's, and
 * 999,999 otherwise; a larger one is refused by 22. The calls over u16 trains, the sheet and the replay refuse a wide image by 6; those
 * without an occupancy (lavtoeu_image_fault, the page, the ceilings, the profile, the index) take both widths, and
 * 22 stands behind 7 in them. */

/* lavtoeu_mark over u32 trains. Refused by 1, 2, 3, then by 22: the train or one of the occupancy is above 999,999. */
uint32_t lavtoeu_mark_wide(const uint8_t *table, size_t table_len, uint32_t *occupancy, size_t occupancy_len, uint32_t link, uint32_t train);

/* lavtoeu_update over u32 trains. Refused as it is, and by 22: the moved train or one of the occupancy, between 6 and 7; a train of a
 * diverge record, its index the place, between 7 and 8. */
uint32_t lavtoeu_update_wide(uint8_t *image, size_t image_len, const uint32_t *occupancy, size_t occupancy_len, const uint32_t *blocking, size_t blocking_len, uint32_t moved, uint32_t local, uint16_t limit, uint64_t *answer, size_t answer_len);

/* lavtoeu_check over u32 trains. Where any image of the yard is wide, the report has 24 bytes for each slot: u16 code, place, rounds, 0;
 * u32 strays, faults, holder, met. Refused as lavtoeu_check is, and by 22 between 14 and 15. */
uint32_t lavtoeu_check_wide(uint8_t *yard, size_t yard_len, const uint32_t *occupancy, size_t occupancy_len, const uint32_t *blocking, size_t blocking_len, uint32_t moved, uint16_t begin, uint32_t local, uint16_t limit, uint8_t *report, size_t report_len, uint64_t *answer, size_t answer_len);

/* Writes a narrow image wide, every number kept. Refused by 6, also where the image is wide already or out has not the wide size, 7, 22,
 * 8, 9 over 4,000 links. */
uint32_t lavtoeu_widen(const uint8_t *image, size_t image_len, uint8_t *out, size_t out_len);

/* Writes a wide image narrow. Refused as lavtoeu_widen is, the widths changed over, then by 23: a train above 65,535. */
uint32_t lavtoeu_narrow(const uint8_t *image, size_t image_len, uint8_t *out, size_t out_len);

/* Which trains run over a link: an index beside the yard, with an entry for each link. Bit t of an entry, 2 to the power of t, is set exactly
 * if the path of slot t has an Arrive on that link; a slot with a refused image sets none, and bit 0 is never set. After a call beside an
 * index the bits of the slots whose image has other bytes than before are as lavtoeu_index would write them, over index_len links and
 * images of either width; all others stay, wrong ones too, so a right index stays right. A refused call leaves the index. Stack: up to 176 KB. */

/* Writes the index of a yard, every entry of it. Refused by 25, fewer than 2 entries or more than 4,000, then by 14. */
uint32_t lavtoeu_index(const uint8_t *yard, size_t yard_len, uint64_t *index, size_t index_len);

/* lavtoeu_check beside an index. Refused by 2, 25 where index_len is not occupancy_len, 4, 5, 14, 15, 16. */
uint32_t lavtoeu_check_indexed(uint8_t *yard, size_t yard_len, const uint16_t *occupancy, size_t occupancy_len, const uint32_t *blocking, size_t blocking_len, uint16_t moved, uint16_t begin, uint32_t local, uint16_t limit, uint8_t *report, size_t report_len, uint64_t *index, size_t index_len, uint64_t *answer, size_t answer_len);

/* lavtoeu_check_wide beside an index. Refused by 2, 25, 4, 5, 14, 22, 15, 16. */
uint32_t lavtoeu_check_indexed_wide(uint8_t *yard, size_t yard_len, const uint32_t *occupancy, size_t occupancy_len, const uint32_t *blocking, size_t blocking_len, uint32_t moved, uint16_t begin, uint32_t local, uint16_t limit, uint8_t *report, size_t report_len, uint64_t *index, size_t index_len, uint64_t *answer, size_t answer_len);

/* lavtoeu_check_recorded beside an index. Refused by 20, then as lavtoeu_check_indexed is. */
uint32_t lavtoeu_check_recorded_indexed(uint8_t *yard, size_t yard_len, const uint16_t *occupancy, size_t occupancy_len, const uint32_t *blocking, size_t blocking_len, uint16_t moved, uint16_t begin, uint32_t local, uint16_t limit, uint8_t *report, size_t report_len, uint8_t *record, size_t record_len, uint64_t *index, size_t index_len, uint64_t *answer, size_t answer_len);

/* lavtoeu_check_recorded_wide beside an index. Refused by 20, then as lavtoeu_check_indexed_wide is. */
uint32_t lavtoeu_check_recorded_indexed_wide(uint8_t *yard, size_t yard_len, const uint32_t *occupancy, size_t occupancy_len, const uint32_t *blocking, size_t blocking_len, uint32_t moved, uint16_t begin, uint32_t local, uint16_t limit, uint8_t *report, size_t report_len, uint8_t *record, size_t record_len, uint64_t *index, size_t index_len, uint64_t *answer, size_t answer_len);

/* lavtoeu_lay_out beside an index: the image is that of slot `train`, and its bits are written where the bytes of the image change. Refused
 * by 5, a train of 0 or above 63, 6, 25 where index_len is not `links`, 7, 8, 9, 11. */
uint32_t lavtoeu_lay_out_indexed(const uint8_t *est, size_t est_len, uint16_t train, double search, double fixed, uint32_t room, uint32_t links, uint8_t *image, size_t image_len, uint64_t *index, size_t index_len);

/* lavtoeu_undo beside an index. A slot that only one of the two yards has has changed; it has no bits where it is gone. Refused by 25, fewer
 * than 2 entries or more than 4,000, then by 21. */
uint32_t lavtoeu_undo_indexed(uint8_t *yard, size_t yard_len, const uint8_t *record, size_t record_len, uint64_t *index, size_t index_len);

/* Carrying a sitting from narrow images to wide ones while it runs. The slots go one by one into a second yard of the all-wide size: yard_len
 * and 4 bytes for each diverge node that an image has room for. Until the last step, slots 1 to count are those of the second yard, the
 * others of the first; marks by lavtoeu_mark_wide over the wide occupancy and checks by lavtoeu_check_half may come between steps. After S
 * steps the second yard has every slot. Stack: up to 128 KB. */

/* One step of a sitting of which `count` slots are carried: writes slot count + 1 to its part of the second yard. With count 0 it also writes
 * the yard's header, zeroes its other parts and carries the occupancy; later the wide occupancy stays. The first yard and its occupancy are
 * never written. Refused by 2, either length outside 2 to 4,000 or two that are not equal; 14 of the first yard; 6, 7, 8, 9 of the first of
 * slots count + 1 to S that fails, a wide image being 6; then 24: a count of S or more, a second yard of another size, or with a count
 * above 0 one that count steps do not leave: its header, the train and the width of slots 1 to count, a byte other than 0 in the part of
 * another slot. */
uint32_t lavtoeu_carry(const uint8_t *yard, size_t yard_len, const uint16_t *occupancy, size_t occupancy_len, uint32_t count, uint8_t *wide_yard, size_t wide_yard_len, uint32_t *wide_occupancy, size_t wide_occupancy_len);

/* lavtoeu_check_wide of a sitting of which `count` slots, 1 to S - 1, are carried: each slot is read and written in its own yard. The report has
 * 24 bytes for each slot. Refused by 2, 4, 5, 14 of the first yard, 24 as lavtoeu_carry is and for a count of 0, 22, 15, 16. */
uint32_t lavtoeu_check_half(uint8_t *yard, size_t yard_len, uint8_t *wide_yard, size_t wide_yard_len, uint32_t count, const uint32_t *occupancy, size_t occupancy_len, const uint32_t *blocking, size_t blocking_len, uint32_t moved, uint16_t begin, uint32_t local, uint16_t limit, uint8_t *report, size_t report_len, uint64_t *answer, size_t answer_len);

#ifdef __cplusplus
}
#endif

#endif
