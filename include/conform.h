/* conform.h: replaying exam trails from C. docs/FORMATS.md has the words used here, the files byte by byte with an example of
 * each, the sheet line by line, and all refusals in one table.
 *
 * Link with libclient.a (`tools/build` writes target/staticlib/libclient.a). Nothing else is needed: no call allocates
 * memory, keeps anything from one call to the next, reads a file or prints. Calls on different trails may run at the same time.
 *
 * WHAT IS LENT. A byte slice is a pointer and a length. Its bytes are lent for the time of the call. `const` slices are only
 * read; of the others only the bytes named below change, and none at all where the call is refused. Any bytes may be lent:
 * what is damaged is refused. NULL is fine where the length is 0. A slice that is written must not overlap another slice of
 * the same call.
 *
 * NUMBERS in tables, object lists and counts are four bytes each, least significant first.
 *
 * A ROUTE TABLE begins with its contents: for each of its four bodies the byte at which it begins and its length in bytes. The
 * bodies follow without gaps, to the table's end:
 *   byte 0    contents     start and length of kinds, places, activities, arcs
 *   byte 32   kinds        source, sink: two places of the kind    1 to 8 kinds, 8 bytes each
 *   then      places       kind                                    2 to 64 places, 4 bytes each
 *   then      activities   number of arcs, 1 to 8                  1 to 64 activities, 4 bytes each
 *   then      arcs         input place, output place               8 bytes each, activity 0's first, then activity 1's
 *
 * HOW MANY places and activities there are is in the table's contents: the places are the length of their body, which is the
 * number at byte 12, divided by 4, and the activities the number at byte 20 divided by 4. A trail holds its table from byte 40
 * on, so the two numbers stand at its bytes 52 and 60. This holds of every table and trail that is not refused. Or count by
 * asking: the places 0, 1, 2 and on have lines until the answer is 51, the activities until it is 52. The number of objects is
 * the first number of conform_trail_counts.
 *
 * A TRAIL is held by the caller, as the bytes of its desk record: at most CONFORM_MAX_RECORD. conform_start and
 * conform_restore write it in front of a buffer and answer how long it is. From then on `trail_len` is exactly that length,
 * whatever the buffer's size; it does not change while the trail runs. A longer or shorter slice is damaged.
 *
 * ANSWERS. Every call answers one uint64_t:
 *   CONFORM_NUMBER(answer)   0 where the call was taken, else the number of the refusal
 *   CONFORM_SECOND(answer)   where the call was taken and writes: how many bytes it wrote;
 *                            with 43 and 44: their second number; else 0
 * The first number that applies is given, in the order of each list below. A refused call changes no lent byte.
 *
 * THE TRAIL'S OWN NUMBERS: every call that takes a trail (or a record) gives these before any other.
 *   41  it has under 40 or over 29,844 bytes
 *   42  its contents do not fit together
 *   43  its table is refused; the second number is the table's, 1 to 9
 *   44  its register (the kinds of the objects) is refused; the second number is 11 or 12,
 *       or 0 where the register's length is no multiple of 4
 *   45  its positions: not one for each object, an unknown place or one of another kind, or an object off its sink in a
 *       closed trail
 *   46  its counts: wrong length, closed flag over 1, over 1,000,000 events, FIRED not adding up to the events, JUMPS above
 *       MOVED, closing jumps above the number of objects, or closing jumps in an open trail
 *   47  its jump counts: wrong length, a jump from a place to itself or to another kind, a sum other than JUMPS plus closing
 *       jumps, or a place's IN above its TAKEN
 */
#ifndef CONFORM_H
#define CONFORM_H

#include <stddef.h>
#include <stdint.h>

#ifdef __cplusplus
extern "C" {
#endif

#define CONFORM_NUMBER(answer) ((uint32_t)(answer))
#define CONFORM_SECOND(answer) ((uint32_t)((answer) >> 32))

#define CONFORM_MAX_TABLE 4704   /* bytes of the longest route table */
#define CONFORM_MAX_RECORD 29844 /* bytes of the longest trail */
#define CONFORM_MAX_LINE 41      /* bytes of the longest line of the sheet, its line feed included */

/* Says whether a route table would be taken. Writes nothing.
 *    1  under 32 or over 4,704 bytes
 *    2  its contents do not fit together, or a length is no multiple of its row
 *    3  not 1 to 8 kinds, 2 to 64 places and 1 to 64 activities
 *    4  unknown kind of a place
 *    5  a source or sink unknown, of another kind, or the two equal
 *    6  an activity with no arcs or over 8, or the numbers of arcs do not add up to the arcs
 *    7  an arc's place unknown, or its two places of different kinds
 *    8  two arcs of one activity of one kind
 *    9  a sink not reached from its source by arcs */
uint64_t conform_load(const uint8_t *table, size_t table_len);

/* Starts a trail. `objects` is the register: the kind of each object, one number each. The trail's first record is written in
 * front of `trail`; CONFORM_SECOND is its length, bytes behind it stay.
 *    1 to 9  the table, as above
 *   11  no objects, over 1,024, or a length that is no multiple of 4
 *   12  an unknown kind
 *   61  `trail` is shorter than the record (CONFORM_MAX_RECORD bytes are always enough) */
uint64_t conform_start(const uint8_t *table, size_t table_len, const uint8_t *objects, size_t objects_len, uint8_t *trail,
                       size_t trail_len);

/* Puts an event to a trail: an activity and its objects, one number each, exactly one object of each kind that the activity
 * takes, in any order. The trail's bytes change in place. CONFORM_SECOND is 0 where it is taken.
 *   41 to 47  the trail, as above
 *   21  the trail is closed
 *   22  1,000,000 events are accepted already
 *   23  unknown activity
 *   24  the list is not four bytes for each arc of the activity
 *   25  an unknown object
 *   26  an object of a kind that the activity does not take
 *   27  two of the objects are of one kind, or the same object twice */
uint64_t conform_event(uint8_t *trail, size_t trail_len, uint32_t activity, const uint8_t *objects, size_t objects_len);

/* Closes a trail: objects off their sinks jump there, and all are taken from them. The trail's bytes change in place.
 * CONFORM_SECOND is 0 where it is taken.
 *   41 to 47  the trail, as above
 *   31  closed already */
uint64_t conform_close(uint8_t *trail, size_t trail_len);

/* Takes up a record. Its bytes are written in front of `trail`; CONFORM_SECOND is their number, bytes behind them stay.
 *   41 to 47  the record, as above
 *   61  `trail` is shorter than the record (CONFORM_MAX_RECORD bytes are always enough) */
uint64_t conform_restore(const uint8_t *record, size_t record_len, uint8_t *trail, size_t trail_len);

/* Puts down the record of a trail. It is written in front of `record`; CONFORM_SECOND is its length, bytes behind it stay.
 *   41 to 47  the trail, as above
 *   61  `record` is shorter than the trail (CONFORM_MAX_RECORD bytes are always enough) */
uint64_t conform_save(const uint8_t *trail, size_t trail_len, uint8_t *record, size_t record_len);

/* THE SHEET. Each call writes one line in front of `line`, in ASCII, with its line feed and no 0 byte behind it;
 * CONFORM_SECOND is its length, bytes behind it stay. Open trails have lines too.
 *   trail OBJECTS EVENTS JUMPS TRANSFERS FIT
 *   place NUMBER TAKEN IN OUT FIT
 *   act NUMBER FIRED MOVED JUMPS FIT
 *   jump FROM TO COUNT          a count of 0 writes nothing: 0 bytes, taken even where line_len is 0
 * A whole sheet has the trail's line, all places, all activities and then all pairs of places.
 *
 * FIT is 1 - JUMPS/TRANSFERS, 1 - IN/TAKEN or 1 - JUMPS/MOVED, written as 0.900 or 1.000, or as - where the divisor is 0. It is
 * rounded to the nearest thousandth, halves upward, but with one jump or more never above 0.999: 1 jump of 3 transfers gives
 * 0.667, 1 of 2,000 gives 0.999, and 1.000 means no jump at all.
 *
 *   41 to 47  the trail, as above
 *   51  unknown place (conform_place_line, conform_jump_line)
 *   52  unknown activity (conform_act_line)
 *   61  `line` is shorter than the line (CONFORM_MAX_LINE bytes are always enough) */
uint64_t conform_trail_line(const uint8_t *trail, size_t trail_len, uint8_t *line, size_t line_len);
uint64_t conform_place_line(const uint8_t *trail, size_t trail_len, uint32_t place, uint8_t *line, size_t line_len);
uint64_t conform_act_line(const uint8_t *trail, size_t trail_len, uint32_t activity, uint8_t *line, size_t line_len);
uint64_t conform_jump_line(const uint8_t *trail, size_t trail_len, uint32_t from, uint32_t to, uint8_t *line, size_t line_len);

/* THE COUNTS. The whole numbers of the same lines, four bytes each, in front of `counts`; CONFORM_SECOND is 16 where it is
 * taken, and 12 for conform_jump_count. Bytes behind them stay.
 *   conform_trail_counts   objects, events, jumps, transfers
 *   conform_place_counts   number, TAKEN, IN, OUT
 *   conform_act_counts     number, FIRED, MOVED, JUMPS
 *   conform_jump_count     from, to, count (also where it is 0)
 *
 *   41 to 47  the trail, as above
 *   51  unknown place (conform_place_counts, conform_jump_count)
 *   52  unknown activity (conform_act_counts)
 *   61  `counts` is shorter than 16 bytes, or than 12 for conform_jump_count */
uint64_t conform_trail_counts(const uint8_t *trail, size_t trail_len, uint8_t *counts, size_t counts_len);
uint64_t conform_place_counts(const uint8_t *trail, size_t trail_len, uint32_t place, uint8_t *counts, size_t counts_len);
uint64_t conform_act_counts(const uint8_t *trail, size_t trail_len, uint32_t activity, uint8_t *counts, size_t counts_len);
uint64_t conform_jump_count(const uint8_t *trail, size_t trail_len, uint32_t from, uint32_t to, uint8_t *counts,
                            size_t counts_len);

#ifdef __cplusplus
}
#endif

#endif
