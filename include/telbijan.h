/* Telbijan: a tuning loader. Scales and keyboard mappings in, pitches and degrees out.
 *
 * Every function is total: no argument stops it or draws a made-up answer, but for what C leaves to the caller: pointers are
 * aligned for their type and point to as many elements as their lengths say, no pointer is null (one with length 0 may point
 * anywhere else; the calls on structs take NULL for a text, a description or an export of 0 bytes), no two lent parts of memory overlap, and the calling thread rounds
 * to nearest, ties to even, and does not flush subnormal numbers to zero. All memory is the
 * caller's, lent for the length of a call: nothing is allocated or freed, no pointer is kept, and there
 * are no globals: calls may run on any number of threads, each with its own memory to write to; any number may read the same
 * tables, while none writes to them. What an out-pointer points to needs no value before the call.
 *
 * A result is 0, or a refusal: its low byte is the number, and the rest the detail, which is a line of the text (from 1),
 * the number of a required line, or 0. A refusal leaves all lent memory, and every value behind a pointer, as it was.
 *
 * This file is written by tools/header from the proved sources, whose contracts say the rest.
 */
#ifndef TELBIJAN_H
#define TELBIJAN_H

#include <stdbool.h>
#include <stddef.h>
#include <stdint.h>

#ifdef __cplusplus
extern "C" {
#endif

/* A result taken apart. */
#define TELBIJAN_NUMBER(result) ((uint32_t)((result) & 0xff))
#define TELBIJAN_DETAIL(result) ((uint64_t)(result) >> 8)

/* The numbers. */
#define TELBIJAN_ACCEPTED 0
#define TELBIJAN_NOT_UTF8 1 /* a line is not UTF-8; the detail is the line */
#define TELBIJAN_LINE_MISSING 2 /* a required line is missing; the detail says which, counted from 1 */
#define TELBIJAN_INT_VALUE 3 /* not an integer of its type; the detail is the line */
#define TELBIJAN_CENTS_VALUE 4 /* not a cents value; the detail is the line */
#define TELBIJAN_NUMER 5 /* not a numerator; the detail is the line */
#define TELBIJAN_DENOM 6 /* not a denominator; the detail is the line */
#define TELBIJAN_FLOAT_VALUE 7 /* not a decimal; the detail is the line */
#define TELBIJAN_KEYBOARD_MAPPING 8 /* not a mapping entry; the detail is the line */
#define TELBIJAN_UNSUPPORTED_NUMERAL 9 /* a numeral with an exponent, a word, or over 18 digits; the detail is the line */
#define TELBIJAN_UNUSABLE 10 /* a value, a state or a lent table that cannot be used; the detail is the line, or 0 outside a text */
#define TELBIJAN_OVERFLOW 11 /* a number leaves its type; the detail is the line, or 0 */
#define TELBIJAN_NO_ROOM 12 /* what was lent is too small; the detail is the line, or 0 */
#define TELBIJAN_TOO_LARGE 13 /* over 65,535 entries */
#define TELBIJAN_INCONSISTENT_COUNT 14 /* the text has another count of notes or entries than it says */
#define TELBIJAN_FORMAL_OCTAVE_MISSING 15 /* a builder with entries and no formal octave */
#define TELBIJAN_KEY_OUT_OF_RANGE 16 /* the key is outside the range */
#define TELBIJAN_UNMAPPED_KEY 17 /* the key is unmapped */
#define TELBIJAN_BEYOND_REACH 18 /* beyond reach: a period of 1.0, 0 divisions, or a computed pitch or ratio outside its range */
#define TELBIJAN_REFERENCE_UNMAPPED 19 /* the reference key is unmapped, counted from the middle key; said of pitches alone */
#define TELBIJAN_BACKWARDS_RANGE 25 /* the last key is below the first; the detail is the last key's line, or 0 */
#define TELBIJAN_NO_FRACTION 29 /* no fraction: the odd limit is 0 */

/* A scale is seven columns, each lent with its length, and `count` beside them. Four columns hold the items, place for place: `kind`,
 * `cents`, `numer`, `denom`. Place 0 holds the implicit 0.0 cents, item j stands at place j, and the last item is the period. The
 * kind says which numbers count; the others are stored as 0. Cents are usable from -38400 to 38400, a numerator and a denominator
 * from 1 on; a table with any other item or kind among its `count` + 1 first places is refused (10).
 * Three columns hold the sorted list: `place`, `ratio`, `wraps`. It has `count` + 1 entries in the order of their ratios: the place of
 * the item, its ratio reduced by the period, and how many periods that took away. The shortest of the seven columns is the
 * room of a scale, place 0 counted: for n items each column needs n + 1 places.
 */
#define TELBIJAN_CENTS 0    /* the item `cents` */
#define TELBIJAN_FRACTION 1 /* the item `numer` / `denom` */
#define TELBIJAN_WHOLE 2    /* the item `numer`, an integer: a fraction whose denominator is lacking */

/* A mapping is a table of entries, `map`, lent with its length, and numbers beside it: `count` entries from the table's first
 * place on; keys from `start` up to, not including, `end` (the last key is end - 1); the `reference` key, and its pitch `hz`;
 * `offset`, the middle key minus the reference key; `octave`, how many degrees make a formal octave. An entry is the degree of
 * its key, from -32768 to 32767, or TELBIJAN_UNMAPPED; a table with any other number among its `count` entries is refused (10).
 * What was read or built has a `start` below its `end` (25 where it would not): one key at least. A call that is given a mapping does
 * not ask for that: with an `end` not above the `start` no key is in the range (16).
 * Keys are counted in one of two ways; the first entry belongs to the key that is counted from. The calls `.._from_middle` count from the
 * middle key, the exact sum of reference and offset, and tune the reference key to `hz`, but for rounding, as Scala's pages say: take them
 * for files made for Scala. Where the reference key is unmapped, there is no pitch (19). All others, the searches too, count from the
 * reference key, as the Rust crate `tune` does. Where the offset is 0 both give a key the same degree, and the same pitch too if the first
 * entry is 0 or there are no entries.
 */
#define TELBIJAN_UNMAPPED (-2147483647 - 1)

/* An export of so many entries never takes more bytes than this (proved). */
#define TELBIJAN_KBM_ROOM(count) (73 + 7 * (size_t)(count))

/* Nor an export of so many items under a description of so many bytes (proved). */
#define TELBIJAN_SCL_ROOM(description_length, count) ((size_t)(description_length) + 7 + 22 * (size_t)(count))

/* ---- math.rs for C: division rounded down, and the odd part. */

/* The quotient rounded down, stored; 10 for denominator 0. */
uint64_t telbijan_i32_div_u(int32_t numer, uint32_t denom, int32_t *quotient);

/* What the quotient leaves, stored; 10 for denominator 0. */
uint64_t telbijan_i32_rem_u(int32_t numer, uint32_t denom, uint32_t *remainder);

/* Quotient and remainder, both stored; 10 for denominator 0. */
uint64_t telbijan_i32_dr_u(int32_t numer, uint32_t denom, int32_t *quotient, uint32_t *remainder);

/* The number with every factor of two taken out; 0 stays 0. */
uint16_t telbijan_odd_factors_u16(uint16_t number);

/* ---- key.rs for C: a key goes as its MIDI number. */

/* The MIDI number of a key in 0..127, stored; else 16. */
uint64_t telbijan_checked_midi_number(int32_t number, uint8_t *midi);

/* How many keys lie from one key up to another, stored; 11 outside 32 bits. */
uint64_t telbijan_num_keys_before(int32_t number, int32_t other, int32_t *steps);

/* The key that many steps after a key, stored; 11 outside 32 bits. */
uint64_t telbijan_plus_steps(int32_t number, int32_t steps, int32_t *after);

/* ---- pitch.rs for C: a ratio goes as its number, and a pitch as its number of Hz. */

/* The ratio of a number; 10 outside 2^-900..2^900. */
uint64_t telbijan_ratio_from_float(double value, double *ratio);

/* The ratio of so many octaves; 18 outside -900..900. */
uint64_t telbijan_ratio_from_octaves(double octaves, double *ratio);

/* The ratio of so many semitones; 18. */
uint64_t telbijan_ratio_from_semitones(double semitones, double *ratio);

/* The ratio of so many cents; 18. */
uint64_t telbijan_ratio_from_cents(double cents, double *ratio);

/* The ratio from the first pitch to the second; 10, 18. */
uint64_t telbijan_ratio_between_pitches(double first, double second, double *ratio);

/* One ratio on top of another; 10, 18. */
uint64_t telbijan_ratio_stretched_by(double value, double stretch, double *ratio);

/* How far a ratio is from another; 10, 18. */
uint64_t telbijan_ratio_deviation_from(double value, double reference, double *ratio);

/* So many times the interval; 10, 18. */
uint64_t telbijan_ratio_repeated(double value, double times, double *ratio);

/* One of so many equal parts of the interval; 10, 18. */
uint64_t telbijan_ratio_divided_into_equal_steps(double value, double steps, double *ratio);

/* How many steps make the interval, infinite or a NaN for a step of 1.0; 10. */
uint64_t telbijan_ratio_num_equal_steps_of_size(double value, double step, double *count);

/* The octaves of a ratio; 10. */
uint64_t telbijan_ratio_as_octaves(double value, double *octaves);

/* The semitones of a ratio; 10. */
uint64_t telbijan_ratio_as_semitones(double value, double *semitones);

/* The cents of a ratio; 10. */
uint64_t telbijan_ratio_as_cents(double value, double *cents);

/* The interval turned over; 10. */
uint64_t telbijan_ratio_inv(double value, double *ratio);

/* The interval upwards; 10. */
uint64_t telbijan_ratio_abs(double value, double *ratio);

/* The pitch of a number in Hz; 10 outside 2^-900..2^900. */
uint64_t telbijan_pitch_from_hz(double value, double *hz);

/* The pitch that much higher; 10, 18. */
uint64_t telbijan_pitch_times_ratio(double value, double ratio, double *hz);

/* The pitch that much lower; 10, 18. */
uint64_t telbijan_pitch_over_ratio(double value, double ratio, double *hz);

/* Whether a ratio is as good as a unison; 10. */
uint64_t telbijan_ratio_is_negligible(double value, bool *negligible);

/* Whether a ratio is lower than another (-1), the same (0) or higher (1); 10. */
uint64_t telbijan_ratio_total_cmp(double value, double other, int32_t *order);

/* The nearest fraction that the walk finds within the odd limit, octaves taken off: numer, denom, deviation and octaves are
   stored; 10 outside 2^-64..2^64. */
uint64_t telbijan_ratio_nearest_fraction(double value, uint16_t limit, uint16_t *numer, uint16_t *denom, double *deviation, int32_t *octaves);

/* The best fraction: of all n / d with n and d from 1 to 65535 whose odd parts are within the odd limit, the one nearest to the value, by
   the larger over the smaller; where two are as near, the smaller denominator, then the smaller numerator: it is in lowest terms. Octaves
   are not taken off. Stored are numer, denom and deviation, value / (numer / denom); 10 outside 2^-64..2^64, then 29 for limit 0. The time
   grows with the limit: about half a microsecond at 9, a quarter of a millisecond at 65535. */
uint64_t telbijan_ratio_best_fraction(double value, uint16_t limit, uint16_t *numer, uint16_t *denom, double *deviation);

/* ---- E and L for C: the power of two and its logarithm, the same on every machine. */

/* E(x), the power 2^x, stored; 18 outside -900..900. It is above the true power by one part in 2^53 at most, and below it by less
   than one in 2^51: within 8e-13 cents. What a caller computes before and after rounds again. */
uint64_t telbijan_exp2(double x, double *power);

/* L(x), the base 2 logarithm, stored; 18 outside 2^-900..2^900. It is above the true logarithm by |L(x)| * 2^-53 at most, and below
   it by less than that plus 2^-51: up to 32 octaves, within 5e-12 cents. What a caller computes before and after rounds again. */
uint64_t telbijan_log2(double x, double *logarithm);

/* ---- Scales for C: seven lent columns, the items' four and the sorted list's three, and beside them the count of items. */

/* The ratio of an item, stored: 10 for an item that cannot be used, one of an unknown kind too. */
uint64_t telbijan_item_as_ratio(uint8_t kind, double cents, uint32_t numer, uint32_t denom, double *ratio);

/* A scale file, read: its items go to the places after place 0, which gets the implicit 0.0 cents, and their sorted list to the
   first places of the list; the places behind keep their values. Stored are the count of items, and where the description starts
   and ends in the text. The refusals are 1, 3, 4, 5, 6, 9, 10 and 12 with their line; 2 with which required line is missing (1
   description, 2 count); 13, 14 and 18 with 0, after the last line; and 12 with 0, first, where a column has no place. */
uint64_t telbijan_read_scl(const uint8_t *text, size_t text_length, uint8_t *kind, size_t kind_length, double *cents, size_t cents_length, uint32_t *numer, size_t numer_length, uint32_t *denom, size_t denom_length, uint32_t *place, size_t place_length, double *ratio, size_t ratio_length, int32_t *wraps, size_t wraps_length, uint16_t *count, size_t *start, size_t *end);

/* A builder with nothing pushed: place 0 gets the implicit 0.0 cents, and the room is stored, the places of the shortest column; the
   count is 0. 12 where a column has no place. The list's columns are only measured. */
uint64_t telbijan_new_scl(uint8_t *kind, size_t kind_length, double *cents, size_t cents_length, uint32_t *numer, size_t numer_length, uint32_t *denom, size_t denom_length, const uint32_t *place, size_t place_length, const double *ratio, size_t ratio_length, const int32_t *wraps, size_t wraps_length, size_t *room);

/* One item in cents more, at place `count` + 1 of columns of `room` places; the new count is stored. 10 for a room or count that is
   not the columns', and for cents outside -38400..38400; 12 with no place left. */
uint64_t telbijan_push_cents(uint8_t *kind, size_t kind_length, double *cents, size_t cents_length, uint32_t *numer, size_t numer_length, uint32_t *denom, size_t denom_length, size_t room, size_t count, double value, size_t *after);

/* One ratio more, kept as its cents, in the same way; 10 for a ratio outside 2^-900..2^900 too. */
uint64_t telbijan_push_ratio(uint8_t *kind, size_t kind_length, double *cents, size_t cents_length, uint32_t *numer, size_t numer_length, uint32_t *denom, size_t denom_length, size_t room, size_t count, double value, size_t *after);

/* One integer more, a fraction whose denominator is lacking, in the same way; 10 for 0. */
uint64_t telbijan_push_int(uint8_t *kind, size_t kind_length, double *cents, size_t cents_length, uint32_t *numer, size_t numer_length, uint32_t *denom, size_t denom_length, size_t room, size_t count, uint32_t value, size_t *after);

/* One fraction more, in the same way; 10 where either number is 0. */
uint64_t telbijan_push_fraction(uint8_t *kind, size_t kind_length, double *cents, size_t cents_length, uint32_t *numer, size_t numer_length, uint32_t *denom, size_t denom_length, size_t room, size_t count, uint32_t above, uint32_t below, size_t *after);

/* The scale of the items that were pushed: its sorted list goes to the first `count` + 1 places of the list, and the count of items
   is stored; the items stay. 10 for a state or an item that cannot be used, 13 over 65,535 items, 18 where two or more items
   have the period 1.0. */
uint64_t telbijan_build_scl(const uint8_t *kind, size_t kind_length, const double *cents, size_t cents_length, const uint32_t *numer, size_t numer_length, const uint32_t *denom, size_t denom_length, uint32_t *place, size_t place_length, double *ratio, size_t ratio_length, int32_t *wraps, size_t wraps_length, size_t room, size_t count, uint16_t *items);

/* The text of a scale, written into the lent bytes: the description as it is, the count, the items. The number of bytes is stored, and
   bytes behind it keep their values. 10 for a table that cannot be used or a description that is not UTF-8, 12 where the text is
   longer than the bytes: never where they are the description's length + 7 + 22 for each item. */
uint64_t telbijan_export_scl(const uint8_t *description, size_t description_length, const uint8_t *kind, size_t kind_length, const double *cents, size_t cents_length, const uint32_t *numer, size_t numer_length, const uint32_t *denom, size_t denom_length, uint16_t count, uint8_t *out, size_t out_length, size_t *written);

/* ---- Scales that are computed, for C: segments of the harmonic series and rank-2 temperaments. They are written into a scale's seven lent columns. */

/* A scale from a segment of the harmonic series, its items and its sorted list written as a builder would, its count of items stored.
   `otonal`: the harmonics start + 1 to start + size over start; else start + size over start + size - 1 down to start. `divided`: the
   harmonics nearest to so many equal divisions of the segment. 10 for start 0, 12 where a column has no place for all items and place
   0, 18 for 0 divisions and where two or more items have the period 1.0. */
uint64_t telbijan_create_harmonics_scale(bool otonal, uint16_t start, uint16_t size, bool divided, uint16_t divisions, uint8_t *kind, size_t kind_length, double *cents, size_t cents_length, uint32_t *numer, size_t numer_length, uint32_t *denom, size_t denom_length, uint32_t *place, size_t place_length, double *ratio, size_t ratio_length, int32_t *wraps, size_t wraps_length, uint16_t *count);

/* A scale from a rank-2 temperament: the period, and so many generations of the generator up and down, each within the period, in
   ascending order; its items, in cents, and its sorted list written as a builder would, its count of items stored. 13 for over 65,535
   items, 10 for a generator or a period outside 2^-32..2^32 or a period of 1.0, 12 where a column has no place for all items and place
   0, 18 where two or more items have the period 1.0. */
uint64_t telbijan_create_rank2_temperament_scale(double generator, uint16_t positive, uint16_t negative, double period, uint8_t *kind, size_t kind_length, double *cents, size_t cents_length, uint32_t *numer, size_t numer_length, uint32_t *denom, size_t denom_length, uint32_t *place, size_t place_length, double *ratio, size_t ratio_length, int32_t *wraps, size_t wraps_length, uint16_t *count);

/* ---- Keyboard mappings for C: a lent table of entries, and beside it the mapping's numbers. An entry is a degree from -32768 to 32767, or -2147483648 for none. */

/* The degree of a key, stored: 10 for a table that cannot be used, 16 outside start..end (end is outside, and every key where end is
   not above start), 11 where the distance from the reference key passes 32 bits, 17 unmapped, 11 where the degree does. The pitch plays
   no part: any `hz` will do. */
uint64_t telbijan_scale_degree_of(const int32_t *map, size_t map_length, uint16_t count, int32_t start, int32_t end, int32_t reference, double hz, int32_t offset, int16_t octave, int32_t number, int32_t *degree);

/* The degree of a key counted from the middle key, as in Scala, stored. The middle key is the exact sum of reference and offset, which may
   lie outside 32 bits. 10 for a table that cannot be used, 16 outside start..end, 11 where the distance from the middle key passes 32 bits,
   17 unmapped, 11 where the degree does. The pitch plays no part: any `hz` will do. */
uint64_t telbijan_scale_degree_from_middle(const int32_t *map, size_t map_length, uint16_t count, int32_t start, int32_t end, int32_t reference, double hz, int32_t offset, int16_t octave, int32_t number, int32_t *degree);

/* The text of a mapping, written into the lent bytes; the number of bytes is stored, and bytes behind it keep their values. 10 for
   a table or pitch that cannot be used, 11 where the last or the middle key passes 32 bits, 12 where the text is longer than
   the bytes. A mapping whose last key is below its first is written as any other; a read refuses that text (25). */
uint64_t telbijan_export_kbm(const int32_t *map, size_t map_length, uint16_t count, int32_t start, int32_t end, int32_t reference, double hz, int32_t offset, int16_t octave, uint8_t *out, size_t out_length, size_t *written);

/* Whether a mapping's root can be used: 10 for a pitch outside 2^-10..2^20. */
uint64_t telbijan_kbm_root(int32_t reference, double hz, int32_t offset);

/* One mapped entry more, at place `count` of a table of `room` places; the new count is stored. 10 for a room or count that
   is not the table's, 12 with no place left. */
uint64_t telbijan_push_mapped_key(int32_t *map, size_t map_length, size_t room, size_t count, int16_t degree, size_t *after);

/* One unmapped entry more, in the same way. */
uint64_t telbijan_push_unmapped_key(int32_t *map, size_t map_length, size_t room, size_t count, size_t *after);

/* The mapping of the entries that were pushed: its count and its formal octave are stored. `given` says whether there is a formal
   octave, `octave`; with none and no entries 0 is stored. 10 for a state, table or pitch that cannot be used, 15 for entries
   and no formal octave, 25 where `end` is not above `start`, so that the last key is below the first, 13 over 65,535 entries. */
uint64_t telbijan_build_kbm(const int32_t *map, size_t map_length, size_t room, size_t count, int32_t start, int32_t end, int32_t reference, double hz, int32_t offset, bool given, int16_t octave, uint16_t *entries, int16_t *formal);

/* A mapping file, read: its entries go to the first places of the table, the places behind them keep their values, and its numbers
   are stored. The refusals are 1, 3, 7, 8, 9, 10, 11, 12 and 25 with their line; 2 with which required line is missing (1 size, 2
   first key, 3 last key, 4 middle key, 5 reference key, 6 pitch, 7 formal octave); 12, 13 and 14 with 0, after the last line. 25 is for
   a last key below the first, at the last key's line, after 3 and 11 there: what is read has at least one key in its range. */
uint64_t telbijan_read_kbm(const uint8_t *text, size_t text_length, int32_t *map, size_t map_length, uint16_t *count, int32_t *start, int32_t *end, int32_t *reference, double *hz, int32_t *offset, int16_t *octave);

/* ---- Pitches for C: of degrees and keys, over a scale's lent columns, and a root or a mapping beside them. */

/* The period of a scale, the ratio of its last item, stored; of a scale without items that of place 0. 10 for items that cannot be used. */
uint64_t telbijan_period(const uint8_t *kind, size_t kind_length, const double *cents, size_t cents_length, const uint32_t *numer, size_t numer_length, const uint32_t *denom, size_t denom_length, uint16_t count, double *period);

/* The ratio of a degree to degree 0, stored: 10 for items that cannot be used, 18 where the ratio lies outside 2^-900..2^900. */
uint64_t telbijan_relative_pitch_of(const uint8_t *kind, size_t kind_length, const double *cents, size_t cents_length, const uint32_t *numer, size_t numer_length, const uint32_t *denom, size_t denom_length, uint16_t count, int32_t degree, double *relative);

/* The same of a degree in ascending order: 10 for items or a list that cannot be used, 18. */
uint64_t telbijan_sorted_relative_pitch_of(const uint8_t *kind, size_t kind_length, const double *cents, size_t cents_length, const uint32_t *numer, size_t numer_length, const uint32_t *denom, size_t denom_length, const uint32_t *place, size_t place_length, const double *ratio, size_t ratio_length, const int32_t *wraps, size_t wraps_length, uint16_t count, int32_t degree, double *relative);

/* The pitch of a degree in Hz, stored: 10 for items that cannot be used or a root's pitch outside 2^-10..2^20, 11 for the root offset
   -2147483648, 18 where a pitch or ratio lies outside 2^-900..2^900. */
uint64_t telbijan_pitch_of(const uint8_t *kind, size_t kind_length, const double *cents, size_t cents_length, const uint32_t *numer, size_t numer_length, const uint32_t *denom, size_t denom_length, uint16_t count, int32_t reference, double hz, int32_t offset, int32_t degree, double *pitch);

/* The pitch of a key, whose degree is its distance from the reference key: 10, 11 where the distance passes 32 bits, 11 for the root
   offset -2147483648, 18. */
uint64_t telbijan_pitch_of_key(const uint8_t *kind, size_t kind_length, const double *cents, size_t cents_length, const uint32_t *numer, size_t numer_length, const uint32_t *denom, size_t denom_length, uint16_t count, int32_t reference, double hz, int32_t offset, int32_t number, double *pitch);

/* The pitch of a degree in ascending order: 10 for the list too, 11 for the root offset -2147483648, 18. */
uint64_t telbijan_sorted_pitch_of(const uint8_t *kind, size_t kind_length, const double *cents, size_t cents_length, const uint32_t *numer, size_t numer_length, const uint32_t *denom, size_t denom_length, const uint32_t *place, size_t place_length, const double *ratio, size_t ratio_length, const int32_t *wraps, size_t wraps_length, uint16_t count, int32_t reference, double hz, int32_t offset, int32_t degree, double *pitch);

/* The pitch of a key of a mapping, stored: 10 for tables or a root's pitch that cannot be used, 16 outside start..end, 11 where the
   distance from the reference key passes 32 bits, 17 unmapped, 11 where the degree does, 11 for the root offset -2147483648, 18. */
uint64_t telbijan_maybe_pitch_of(const uint8_t *kind, size_t kind_length, const double *cents, size_t cents_length, const uint32_t *numer, size_t numer_length, const uint32_t *denom, size_t denom_length, uint16_t count, const int32_t *map, size_t map_length, uint16_t size, int32_t start, int32_t end, int32_t reference, double hz, int32_t offset, int16_t octave, int32_t number, double *pitch);

/* The same of the key so many steps above the reference key: 11 where that key passes 32 bits, after 10. */
uint64_t telbijan_maybe_pitch_of_degree(const uint8_t *kind, size_t kind_length, const double *cents, size_t cents_length, const uint32_t *numer, size_t numer_length, const uint32_t *denom, size_t denom_length, uint16_t count, const int32_t *map, size_t map_length, uint16_t size, int32_t start, int32_t end, int32_t reference, double hz, int32_t offset, int16_t octave, int32_t degree, double *pitch);

/* The pitches of `keys` keys of a mapping, from key `first` on, and beside each its refusal's number, 0 for a pitch: 10 for tables or a
   root's pitch that cannot be used, 12 where a slice is shorter than the run. Else each key answers as telbijan_maybe_pitch_of does, and
   11 where there is no such key; a refused key's pitch stays as it was, and so do the places behind the run. The tables are tested once. */
uint64_t telbijan_pitches_of(const uint8_t *kind, size_t kind_length, const double *cents, size_t cents_length, const uint32_t *numer, size_t numer_length, const uint32_t *denom, size_t denom_length, uint16_t count, const int32_t *map, size_t map_length, uint16_t size, int32_t start, int32_t end, int32_t reference, double hz, int32_t offset, int16_t octave, int32_t first, uint32_t keys, double *pitches, size_t pitches_length, uint32_t *numbers, size_t numbers_length);

/* ---- Pitches for C, counted from the middle key as in Scala. The middle key is the exact sum of reference and offset. */

/* The pitch of a key of a mapping counted from the middle key, stored: `hz` over the ratio of the reference key's own degree, times that of
   the key's degree. 10 for tables or a root's pitch that cannot be used; of the key 16 outside start..end, 11 where its distance from the
   middle key passes 32 bits, 17 unmapped, 11 where its degree does; of the reference key, which no range limits, 11 for its distance, 19
   unmapped, 11 for its degree; 18. */
uint64_t telbijan_maybe_pitch_from_middle(const uint8_t *kind, size_t kind_length, const double *cents, size_t cents_length, const uint32_t *numer, size_t numer_length, const uint32_t *denom, size_t denom_length, uint16_t count, const int32_t *map, size_t map_length, uint16_t size, int32_t start, int32_t end, int32_t reference, double hz, int32_t offset, int16_t octave, int32_t number, double *pitch);

/* The pitches of `keys` keys of a mapping counted from the middle key, from key `first` on, and beside each its refusal's number, 0 for a
   pitch: 10 for tables or a root's pitch that cannot be used, 12 where a slice is shorter than the run. Else each key answers as
   telbijan_maybe_pitch_from_middle does, and 11 where there is no such key; a refused key's pitch stays as it was, and so do the places
   behind the run. The tables are tested once. */
uint64_t telbijan_pitches_from_middle(const uint8_t *kind, size_t kind_length, const double *cents, size_t cents_length, const uint32_t *numer, size_t numer_length, const uint32_t *denom, size_t denom_length, uint16_t count, const int32_t *map, size_t map_length, uint16_t size, int32_t start, int32_t end, int32_t reference, double hz, int32_t offset, int16_t octave, int32_t first, uint32_t keys, double *pitches, size_t pitches_length, uint32_t *numbers, size_t numbers_length);

/* ---- Searches for C: the degree or key that comes nearest to a ratio or a pitch, over a scale's lent columns. */

/* The degree whose relative pitch comes nearest to a ratio, and how far the ratio lies above it, a ratio, both stored: 10 for items or a
   list that cannot be used and for a ratio outside 2^-64..2^64; 18 in a scale of one item with period 1.0, and, in a list that was
   neither built nor read, where a ratio that is computed on the way lies outside 2^-900..2^900; 11 where the degree passes 32 bits. Of
   two that come equally near, within 0.999999, it is the lower one. A scale without items answers degree 0 with the ratio itself. */
uint64_t telbijan_find_by_relative_pitch(const uint8_t *kind, size_t kind_length, const double *cents, size_t cents_length, const uint32_t *numer, size_t numer_length, const uint32_t *denom, size_t denom_length, const uint32_t *place, size_t place_length, const double *ratio, size_t ratio_length, const int32_t *wraps, size_t wraps_length, uint16_t count, double target, int32_t *degree, double *deviation);

/* The same, the degree counted in ascending order. */
uint64_t telbijan_find_by_relative_pitch_sorted(const uint8_t *kind, size_t kind_length, const double *cents, size_t cents_length, const uint32_t *numer, size_t numer_length, const uint32_t *denom, size_t denom_length, const uint32_t *place, size_t place_length, const double *ratio, size_t ratio_length, const int32_t *wraps, size_t wraps_length, uint16_t count, double target, int32_t *degree, double *deviation);

/* The degree whose pitch comes nearest to a pitch in Hz, and the deviation from it, both stored: 10 for tables, a root's pitch or a pitch
   outside 2^-10..2^20 that cannot be used, 11 for the root offset -2147483648, 18 where the root's pitch lies outside 2^-900..2^900 or the
   ratio from it up to the pitch outside 2^-64..2^64, and as for a ratio, 11 where the degree passes 32 bits. */
uint64_t telbijan_find_by_pitch(const uint8_t *kind, size_t kind_length, const double *cents, size_t cents_length, const uint32_t *numer, size_t numer_length, const uint32_t *denom, size_t denom_length, const uint32_t *place, size_t place_length, const double *ratio, size_t ratio_length, const int32_t *wraps, size_t wraps_length, uint16_t count, int32_t reference, double hz, int32_t offset, double pitch, int32_t *degree, double *deviation);

/* The same, the degree counted in ascending order. */
uint64_t telbijan_find_by_pitch_sorted(const uint8_t *kind, size_t kind_length, const double *cents, size_t cents_length, const uint32_t *numer, size_t numer_length, const uint32_t *denom, size_t denom_length, const uint32_t *place, size_t place_length, const double *ratio, size_t ratio_length, const int32_t *wraps, size_t wraps_length, uint16_t count, int32_t reference, double hz, int32_t offset, double pitch, int32_t *degree, double *deviation);

/* The key whose pitch comes nearest, that degree above the reference key, in the same way; 11 where the key passes 32 bits too. Each key
   counts as one degree: no mapping plays a part, so that a key which a mapping leaves out or gives another degree may be found. */
uint64_t telbijan_find_key_by_pitch(const uint8_t *kind, size_t kind_length, const double *cents, size_t cents_length, const uint32_t *numer, size_t numer_length, const uint32_t *denom, size_t denom_length, const uint32_t *place, size_t place_length, const double *ratio, size_t ratio_length, const int32_t *wraps, size_t wraps_length, uint16_t count, int32_t reference, double hz, int32_t offset, double pitch, int32_t *number, double *deviation);

/* ==== The same calls on structs ====================================================================================================
 *
 * The calls above, for people: a scale, a mapping and a refusal as plain structs. Each function here hands its struct to the one call above
 * that its comment names and keeps in the struct what that stores, so all that is said there holds here; the numbers are those that it may
 * answer. A refusal leaves the structs as they were too. Copies of a struct lend the same memory: one of them writes, or many read.
 */

/* What a call answers: number 0 where it was accepted; else why, and where (TELBIJAN_NUMBER, TELBIJAN_DETAIL). */
typedef struct telbijan_refusal {
    uint32_t number;
    uint64_t detail;
} telbijan_refusal;

/* A result taken apart. */
static inline telbijan_refusal telbijan_refusal_of(uint64_t result) {
    telbijan_refusal said;
    said.number = TELBIJAN_NUMBER(result);
    said.detail = TELBIJAN_DETAIL(result);
    return said;
}

/* Whether a call was accepted: its values are stored, and what it was to write is written. */
static inline bool telbijan_is_accepted(telbijan_refusal said) {
    return said.number == TELBIJAN_ACCEPTED;
}

/* A sentence for each number; a string that is never freed. */
static inline const char *telbijan_reason(uint32_t number) {
    switch (number) {
    case TELBIJAN_ACCEPTED: return "accepted";
    case TELBIJAN_NOT_UTF8: return "a line is not UTF-8";
    case TELBIJAN_LINE_MISSING: return "a required line is missing";
    case TELBIJAN_INT_VALUE: return "not an integer of its type";
    case TELBIJAN_CENTS_VALUE: return "not a cents value";
    case TELBIJAN_NUMER: return "not a numerator";
    case TELBIJAN_DENOM: return "not a denominator";
    case TELBIJAN_FLOAT_VALUE: return "not a decimal";
    case TELBIJAN_KEYBOARD_MAPPING: return "not a mapping entry";
    case TELBIJAN_UNSUPPORTED_NUMERAL: return "a numeral with an exponent, a word, or over 18 digits";
    case TELBIJAN_UNUSABLE: return "a value, a state or a lent table that cannot be used";
    case TELBIJAN_OVERFLOW: return "a number leaves its type";
    case TELBIJAN_NO_ROOM: return "what was lent is too small";
    case TELBIJAN_TOO_LARGE: return "over 65,535 entries";
    case TELBIJAN_INCONSISTENT_COUNT: return "the text has another count of notes or entries than it says";
    case TELBIJAN_FORMAL_OCTAVE_MISSING: return "a builder with entries and no formal octave";
    case TELBIJAN_KEY_OUT_OF_RANGE: return "the key is outside the range";
    case TELBIJAN_UNMAPPED_KEY: return "the key is unmapped";
    case TELBIJAN_BEYOND_REACH: return "beyond reach: a period of 1.0, 0 divisions, or a computed pitch or ratio outside its range";
    case TELBIJAN_REFERENCE_UNMAPPED: return "the reference key is unmapped, counted from the middle key";
    case TELBIJAN_BACKWARDS_RANGE: return "the last key is below the first";
    case TELBIJAN_NO_FRACTION: return "no fraction: the odd limit is 0";
    default: return "no number of this library";
    }
}

/* A scale: seven lent columns of `room` places each, and how many items it has. For n items the room is n + 1. */
typedef struct telbijan_scale {
    uint8_t *kind;
    double *cents;
    uint32_t *numer;
    uint32_t *denom;
    uint32_t *place;
    double *ratio;
    int32_t *wraps;
    size_t room;
    uint16_t count;
} telbijan_scale;

/* The root of a mapping: a key, its pitch, and the root's distance from the key. */
typedef struct telbijan_root {
    int32_t reference;
    double hz;
    int32_t offset;
} telbijan_root;

/* A mapping: a lent table of `room` places, and its numbers. One without entries needs no place, yet its pointer is not null. */
typedef struct telbijan_mapping {
    int32_t *map;
    size_t room;
    uint16_t count;
    int32_t start;
    int32_t end;
    telbijan_root root;
    int16_t octave;
} telbijan_mapping;

/* Where a part of a text starts, and where it ends. */
typedef struct telbijan_span {
    size_t start;
    size_t end;
} telbijan_span;

/* The nearest degree or key, and how far the target lies above it, a ratio. */
typedef struct telbijan_found {
    int32_t number;
    double deviation;
} telbijan_found;

/* Builders: what was pushed so far, into the columns or the table that are lent. A scale or a mapping in use is not pushed to: build into
 * spare memory, and put it in its place once it is built. */
typedef struct telbijan_scale_builder {
    telbijan_scale scale;
    size_t count;
} telbijan_scale_builder;

typedef struct telbijan_mapping_builder {
    telbijan_mapping mapping;
    size_t count;
} telbijan_mapping_builder;

/* Scale, root and mapping as the calls above take them; the argument is written out more than once. */
#define TELBIJAN_ITEMS(s) (s)->kind, (s)->room, (s)->cents, (s)->room, (s)->numer, (s)->room, (s)->denom, (s)->room
#define TELBIJAN_COLUMNS(s) TELBIJAN_ITEMS(s), (s)->place, (s)->room, (s)->ratio, (s)->room, (s)->wraps, (s)->room
#define TELBIJAN_ROOT(r) (r).reference, (r).hz, (r).offset
#define TELBIJAN_MAPPING(m) (m)->map, (m)->room, (m)->count, (m)->start, (m)->end, TELBIJAN_ROOT((m)->root), (m)->octave

/* A scale in constant tables, as those in read-only memory are, to be kept as a `const telbijan_scale`: a call that takes one so
 * writes nothing to its tables. */
static inline telbijan_scale telbijan_scale_lent(const uint8_t *kind, const double *cents, const uint32_t *numer, const uint32_t *denom,
    const uint32_t *place, const double *ratio, const int32_t *wraps, size_t room, uint16_t count) {
    telbijan_scale scale;
    scale.kind = (uint8_t *)(uintptr_t)kind;
    scale.cents = (double *)(uintptr_t)cents;
    scale.numer = (uint32_t *)(uintptr_t)numer;
    scale.denom = (uint32_t *)(uintptr_t)denom;
    scale.place = (uint32_t *)(uintptr_t)place;
    scale.ratio = (double *)(uintptr_t)ratio;
    scale.wraps = (int32_t *)(uintptr_t)wraps;
    scale.room = room;
    scale.count = count;
    return scale;
}

/* A mapping in a constant table, to be kept as a `const telbijan_mapping`, in the same way. */
static inline telbijan_mapping telbijan_mapping_lent(const int32_t *map, size_t room, uint16_t count, int32_t start, int32_t end,
    telbijan_root root, int16_t octave) {
    telbijan_mapping mapping;
    mapping.map = (int32_t *)(uintptr_t)map;
    mapping.room = room;
    mapping.count = count;
    mapping.start = start;
    mapping.end = end;
    mapping.root = root;
    mapping.octave = octave;
    return mapping;
}

/* Lent bytes as the calls above take them, which want an address even of 0 bytes: of these the one that is given, NULL or any other, is not
 * handed on, but that of something real. */
static inline const uint8_t *telbijan_bytes(const char *bytes, size_t length) {
    return (const uint8_t *)(length == 0 ? "" : bytes);
}

/* The same of bytes to be written: of none it is the address of `real`, and nothing is written there by way of it. */
static inline uint8_t *telbijan_room(char *bytes, size_t length, size_t *real) {
    return length == 0 ? (uint8_t *)real : (uint8_t *)bytes;
}

/* ---- Scales. */

/* A scale file, read by telbijan_read_scl; its description is a part of the text. `text` may be NULL where `length` is 0. 1 to 6, 9, 10, 12, 13,
 * 14, 18. */
static inline telbijan_refusal telbijan_scale_read(telbijan_scale *scale, const char *text, size_t length, telbijan_span *description) {
    return telbijan_refusal_of(telbijan_read_scl(telbijan_bytes(text, length), length, TELBIJAN_COLUMNS(scale), &scale->count, &description->start, &description->end));
}

/* The text of a scale, by telbijan_export_scl: TELBIJAN_SCL_ROOM bytes are enough. `description` may be NULL where `length` is 0, and `out` where
 * `room` is 0. 10, 12. */
static inline telbijan_refusal telbijan_scale_export(const telbijan_scale *scale, const char *description, size_t length, char *out, size_t room, size_t *written) {
    return telbijan_refusal_of(telbijan_export_scl(telbijan_bytes(description, length), length, TELBIJAN_ITEMS(scale), scale->count, telbijan_room(out, room, written), room, written));
}

/* A segment of the harmonic series, as telbijan_create_harmonics_scale makes it without divisions: 10, 12. */
static inline telbijan_refusal telbijan_scale_harmonics(telbijan_scale *scale, bool otonal, uint16_t start, uint16_t size) {
    return telbijan_refusal_of(telbijan_create_harmonics_scale(otonal, start, size, false, 0, TELBIJAN_COLUMNS(scale), &scale->count));
}

/* The harmonics nearest to so many equal divisions of a segment, by the same call: 10, 12, 18. */
static inline telbijan_refusal telbijan_scale_divided_harmonics(telbijan_scale *scale, bool otonal, uint16_t start, uint16_t size, uint16_t divisions) {
    return telbijan_refusal_of(telbijan_create_harmonics_scale(otonal, start, size, true, divisions, TELBIJAN_COLUMNS(scale), &scale->count));
}

/* A rank-2 temperament, as telbijan_create_rank2_temperament_scale makes it: 13, 10, 12, 18. */
static inline telbijan_refusal telbijan_scale_rank2(telbijan_scale *scale, double generator, uint16_t positive, uint16_t negative, double period) {
    return telbijan_refusal_of(telbijan_create_rank2_temperament_scale(generator, positive, negative, period, TELBIJAN_COLUMNS(scale), &scale->count));
}

/* The ratio of the last item, by telbijan_period: 10. Of a scale without items it is that of place 0, which a read or built scale
 * has as 1.0. */
static inline telbijan_refusal telbijan_scale_period(const telbijan_scale *scale, double *period) {
    return telbijan_refusal_of(telbijan_period(TELBIJAN_ITEMS(scale), scale->count, period));
}

/* The ratio of a degree to degree 0, by telbijan_relative_pitch_of: 10, 18. */
static inline telbijan_refusal telbijan_scale_relative_pitch_of(const telbijan_scale *scale, int32_t degree, double *relative) {
    return telbijan_refusal_of(telbijan_relative_pitch_of(TELBIJAN_ITEMS(scale), scale->count, degree, relative));
}

/* The same of a degree in ascending order, by telbijan_sorted_relative_pitch_of. */
static inline telbijan_refusal telbijan_scale_sorted_relative_pitch_of(const telbijan_scale *scale, int32_t degree, double *relative) {
    return telbijan_refusal_of(telbijan_sorted_relative_pitch_of(TELBIJAN_COLUMNS(scale), scale->count, degree, relative));
}

/* The degree whose ratio comes nearest to `target`, by telbijan_find_by_relative_pitch: 10, 18, 11. */
static inline telbijan_refusal telbijan_scale_find(const telbijan_scale *scale, double target, telbijan_found *found) {
    return telbijan_refusal_of(telbijan_find_by_relative_pitch(TELBIJAN_COLUMNS(scale), scale->count, target, &found->number, &found->deviation));
}

/* The same, the degree counted in ascending order, by telbijan_find_by_relative_pitch_sorted. */
static inline telbijan_refusal telbijan_scale_find_sorted(const telbijan_scale *scale, double target, telbijan_found *found) {
    return telbijan_refusal_of(telbijan_find_by_relative_pitch_sorted(TELBIJAN_COLUMNS(scale), scale->count, target, &found->number, &found->deviation));
}

/* ---- A scale, built: begin, push, build. `scale` lends the columns; what it holds is lost. */

/* Nothing is pushed yet; place 0 of the columns is written, by telbijan_new_scl: 12 where there is no place. */
static inline telbijan_refusal telbijan_scale_begin(telbijan_scale_builder *builder, telbijan_scale *scale) {
    size_t room = 0;
    uint64_t result = telbijan_new_scl(TELBIJAN_COLUMNS(scale), &room);
    if (result == TELBIJAN_ACCEPTED) {
        builder->scale = *scale;
        builder->count = 0;
    }
    return telbijan_refusal_of(result);
}

/* One item more, in cents, by telbijan_push_cents: 10, 12. */
static inline telbijan_refusal telbijan_scale_push_cents(telbijan_scale_builder *builder, double cents) {
    return telbijan_refusal_of(telbijan_push_cents(TELBIJAN_ITEMS(&builder->scale), builder->scale.room, builder->count, cents, &builder->count));
}

/* One ratio more, kept as its cents, by telbijan_push_ratio: 10, 12. */
static inline telbijan_refusal telbijan_scale_push_ratio(telbijan_scale_builder *builder, double ratio) {
    return telbijan_refusal_of(telbijan_push_ratio(TELBIJAN_ITEMS(&builder->scale), builder->scale.room, builder->count, ratio, &builder->count));
}

/* One integer more, by telbijan_push_int: 10, 12. */
static inline telbijan_refusal telbijan_scale_push_int(telbijan_scale_builder *builder, uint32_t number) {
    return telbijan_refusal_of(telbijan_push_int(TELBIJAN_ITEMS(&builder->scale), builder->scale.room, builder->count, number, &builder->count));
}

/* One fraction more, by telbijan_push_fraction: 10, 12. */
static inline telbijan_refusal telbijan_scale_push_fraction(telbijan_scale_builder *builder, uint32_t numer, uint32_t denom) {
    return telbijan_refusal_of(telbijan_push_fraction(TELBIJAN_ITEMS(&builder->scale), builder->scale.room, builder->count, numer, denom, &builder->count));
}

/* The scale of what was pushed, by telbijan_build_scl, in the builder's columns, to which `scale` points then: 10, 13, 18. */
static inline telbijan_refusal telbijan_scale_build(const telbijan_scale_builder *builder, telbijan_scale *scale) {
    uint16_t count = 0;
    uint64_t result = telbijan_build_scl(TELBIJAN_COLUMNS(&builder->scale), builder->scale.room, builder->count, &count);
    if (result == TELBIJAN_ACCEPTED) {
        *scale = builder->scale;
        scale->count = count;
    }
    return telbijan_refusal_of(result);
}

/* ---- Mappings. */

/* A mapping file, read by telbijan_read_kbm. `text` may be NULL where `length` is 0. 1, 2, 3, 7 to 14, 25. */
static inline telbijan_refusal telbijan_mapping_read(telbijan_mapping *mapping, const char *text, size_t length) {
    return telbijan_refusal_of(telbijan_read_kbm(telbijan_bytes(text, length), length, mapping->map, mapping->room, &mapping->count, &mapping->start, &mapping->end,
        &mapping->root.reference, &mapping->root.hz, &mapping->root.offset, &mapping->octave));
}

/* The text of a mapping, by telbijan_export_kbm: TELBIJAN_KBM_ROOM bytes are enough. `out` may be NULL where `room` is 0. 10, 11, 12. */
static inline telbijan_refusal telbijan_mapping_export(const telbijan_mapping *mapping, char *out, size_t room, size_t *written) {
    return telbijan_refusal_of(telbijan_export_kbm(TELBIJAN_MAPPING(mapping), telbijan_room(out, room, written), room, written));
}

/* The degree of a key, counted from the reference key, by telbijan_scale_degree_of: 10, 16, 11, 17. */
static inline telbijan_refusal telbijan_mapping_degree_of(const telbijan_mapping *mapping, int32_t key, int32_t *degree) {
    return telbijan_refusal_of(telbijan_scale_degree_of(TELBIJAN_MAPPING(mapping), key, degree));
}

/* The degree of a key, counted from the middle key, by telbijan_scale_degree_from_middle: 10, 16, 11, 17. Take this one for files made for
 * Scala: there the first entry belongs to the middle key. Where the offset is 0 it answers as telbijan_mapping_degree_of. */
static inline telbijan_refusal telbijan_mapping_degree_from_middle(const telbijan_mapping *mapping, int32_t key, int32_t *degree) {
    return telbijan_refusal_of(telbijan_scale_degree_from_middle(TELBIJAN_MAPPING(mapping), key, degree));
}

/* ---- A mapping, built: `mapping` lends the table, and has root and range; its count and octave do not matter. A range without a key is
 * refused by a build (25), not before it. A refused build leaves the builder as it was: set `start` and `end` of the builder's `mapping`,
 * and build again. */

/* Nothing is pushed yet, and nothing written: 10 for a root whose pitch cannot be used (telbijan_kbm_root). */
static inline telbijan_refusal telbijan_mapping_begin(telbijan_mapping_builder *builder, telbijan_mapping *mapping) {
    uint64_t result = telbijan_kbm_root(TELBIJAN_ROOT(mapping->root));
    if (result == TELBIJAN_ACCEPTED) {
        builder->mapping = *mapping;
        builder->count = 0;
    }
    return telbijan_refusal_of(result);
}

/* One entry more, a degree, by telbijan_push_mapped_key: 10, 12. */
static inline telbijan_refusal telbijan_mapping_push(telbijan_mapping_builder *builder, int16_t degree) {
    return telbijan_refusal_of(telbijan_push_mapped_key(builder->mapping.map, builder->mapping.room, builder->mapping.room, builder->count, degree, &builder->count));
}

/* One entry more that has none, by telbijan_push_unmapped_key: 10, 12. */
static inline telbijan_refusal telbijan_mapping_push_unmapped(telbijan_mapping_builder *builder) {
    return telbijan_refusal_of(telbijan_push_unmapped_key(builder->mapping.map, builder->mapping.room, builder->mapping.room, builder->count, &builder->count));
}

/* The mapping of what was pushed, with a formal octave, by telbijan_build_kbm: 10, 25, 13. The other is for a mapping without entries,
 * which needs none. */
static inline telbijan_refusal telbijan_mapping_build(const telbijan_mapping_builder *builder, int16_t octave, telbijan_mapping *mapping) {
    telbijan_mapping built = builder->mapping;
    uint64_t result = telbijan_build_kbm(built.map, built.room, built.room, builder->count, built.start, built.end, TELBIJAN_ROOT(built.root), true, octave, &built.count, &built.octave);
    if (result == TELBIJAN_ACCEPTED)
        *mapping = built;
    return telbijan_refusal_of(result);
}

/* Without a formal octave, by the same call: 10, 15 where an entry was pushed, 25. */
static inline telbijan_refusal telbijan_mapping_build_linear(const telbijan_mapping_builder *builder, telbijan_mapping *mapping) {
    telbijan_mapping built = builder->mapping;
    uint64_t result = telbijan_build_kbm(built.map, built.room, built.room, builder->count, built.start, built.end, TELBIJAN_ROOT(built.root), false, 0, &built.count, &built.octave);
    if (result == TELBIJAN_ACCEPTED)
        *mapping = built;
    return telbijan_refusal_of(result);
}

/* ---- Pitches and searches: a scale above a root, or through a mapping. */

/* The pitch of a degree above a root, by telbijan_pitch_of: 10, 11, 18. */
static inline telbijan_refusal telbijan_tuning_pitch_of(const telbijan_scale *scale, telbijan_root root, int32_t degree, double *hz) {
    return telbijan_refusal_of(telbijan_pitch_of(TELBIJAN_ITEMS(scale), scale->count, TELBIJAN_ROOT(root), degree, hz));
}

/* The pitch of a key, whose degree is its distance from the reference key, by telbijan_pitch_of_key: 10, 11, 18. */
static inline telbijan_refusal telbijan_tuning_pitch_of_key(const telbijan_scale *scale, telbijan_root root, int32_t key, double *hz) {
    return telbijan_refusal_of(telbijan_pitch_of_key(TELBIJAN_ITEMS(scale), scale->count, TELBIJAN_ROOT(root), key, hz));
}

/* The pitch of a degree in ascending order, by telbijan_sorted_pitch_of: 10, 11, 18. */
static inline telbijan_refusal telbijan_tuning_sorted_pitch_of(const telbijan_scale *scale, telbijan_root root, int32_t degree, double *hz) {
    return telbijan_refusal_of(telbijan_sorted_pitch_of(TELBIJAN_COLUMNS(scale), scale->count, TELBIJAN_ROOT(root), degree, hz));
}

/* The pitch of a key through a mapping, counted from the reference key, by telbijan_maybe_pitch_of: 10, 16, 11, 17, 18. */
static inline telbijan_refusal telbijan_tuning_maybe_pitch_of(const telbijan_scale *scale, const telbijan_mapping *mapping, int32_t key, double *hz) {
    return telbijan_refusal_of(telbijan_maybe_pitch_of(TELBIJAN_ITEMS(scale), scale->count, TELBIJAN_MAPPING(mapping), key, hz));
}

/* The same of the key so many steps above the mapping's reference key, by telbijan_maybe_pitch_of_degree. */
static inline telbijan_refusal telbijan_tuning_maybe_pitch_of_degree(const telbijan_scale *scale, const telbijan_mapping *mapping, int32_t degree, double *hz) {
    return telbijan_refusal_of(telbijan_maybe_pitch_of_degree(TELBIJAN_ITEMS(scale), scale->count, TELBIJAN_MAPPING(mapping), degree, hz));
}

/* The pitches of a run of keys through a mapping, and beside each 0 or why it has none, by telbijan_pitches_of: 10. `hz` and `numbers` have `keys`
 * places each; the pitch of a refused key stays as it was. */
static inline telbijan_refusal telbijan_tuning_pitches_of(const telbijan_scale *scale, const telbijan_mapping *mapping, int32_t first, uint32_t keys, double *hz, uint32_t *numbers) {
    return telbijan_refusal_of(telbijan_pitches_of(TELBIJAN_ITEMS(scale), scale->count, TELBIJAN_MAPPING(mapping), first, keys, hz, keys, numbers, keys));
}

/* The pitch of a key through a mapping, counted from the middle key, by telbijan_maybe_pitch_from_middle: 10, 16, 11, 17, 19, 18. Take
 * this one for files made for Scala: whichever key is the middle one, the reference key sounds the root's `hz`, but for rounding; 19 where
 * that key is unmapped. It answers as telbijan_tuning_maybe_pitch_of where the offset is 0 and the first entry is 0 or there are no
 * entries. */
static inline telbijan_refusal telbijan_tuning_pitch_from_middle(const telbijan_scale *scale, const telbijan_mapping *mapping,
    int32_t key, double *hz) {
    return telbijan_refusal_of(telbijan_maybe_pitch_from_middle(TELBIJAN_ITEMS(scale), scale->count, TELBIJAN_MAPPING(mapping), key, hz));
}

/* The same of a run of keys, and beside each 0 or why it has none, by telbijan_pitches_from_middle: 10. `hz` and `numbers` have `keys`
 * places each; the pitch of a refused key stays as it was. */
static inline telbijan_refusal telbijan_tuning_pitches_from_middle(const telbijan_scale *scale, const telbijan_mapping *mapping,
    int32_t first, uint32_t keys, double *hz, uint32_t *numbers) {
    return telbijan_refusal_of(telbijan_pitches_from_middle(TELBIJAN_ITEMS(scale), scale->count, TELBIJAN_MAPPING(mapping), first, keys,
        hz, keys, numbers, keys));
}

/* The degree whose pitch above a root comes nearest to `hz`, by telbijan_find_by_pitch: 10, 11, 18. */
static inline telbijan_refusal telbijan_tuning_find_by_pitch(const telbijan_scale *scale, telbijan_root root, double hz, telbijan_found *found) {
    return telbijan_refusal_of(telbijan_find_by_pitch(TELBIJAN_COLUMNS(scale), scale->count, TELBIJAN_ROOT(root), hz, &found->number, &found->deviation));
}

/* The same, the degree counted in ascending order, by telbijan_find_by_pitch_sorted. */
static inline telbijan_refusal telbijan_tuning_find_by_pitch_sorted(const telbijan_scale *scale, telbijan_root root, double hz, telbijan_found *found) {
    return telbijan_refusal_of(telbijan_find_by_pitch_sorted(TELBIJAN_COLUMNS(scale), scale->count, TELBIJAN_ROOT(root), hz, &found->number, &found->deviation));
}

/* The key whose pitch comes nearest, the reference key plus that degree, by telbijan_find_key_by_pitch: 10, 11, 18. Each key counts as one degree: no
 * mapping plays a part, so that a key which a mapping leaves out or gives another degree may be found. */
static inline telbijan_refusal telbijan_tuning_find_key_by_pitch(const telbijan_scale *scale, telbijan_root root, double hz, telbijan_found *found) {
    return telbijan_refusal_of(telbijan_find_key_by_pitch(TELBIJAN_COLUMNS(scale), scale->count, TELBIJAN_ROOT(root), hz, &found->number, &found->deviation));
}

#ifdef __cplusplus
}
#endif

#endif
