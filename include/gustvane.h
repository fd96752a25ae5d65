/* Gustvane for C: the checker and the translator.
 *
 * Link the static library of crate `export`, which `rt lib` in crates/export
 * makes as crates/export/out/libexport.a.
 *
 * A sheet and a certificate are any bytes at all, of any length: what is not
 * well formed is refused with a number and a place. Both functions only read
 * them. Nothing is kept from one call to the next, and no memory is used but
 * what the caller lends and some stack.
 *
 * No pointer may be NULL, not even where its length is 0. No two of the things
 * that the pointers of one call name may overlap: sheet, certificate, workspace
 * or room, *number, *place. Lengths are counts of elements: bytes of a sheet or
 * certificate, places of 16 bits of a workspace or room.
 */
#ifndef GUSTVANE_H
#define GUSTVANE_H

#include <stddef.h>
#include <stdint.h>

#ifdef __cplusplus
extern "C" {
#endif

/* The places that a workspace needs. */
#define GUSTVANE_WORKSPACE 32768

/* Room for any clause set within the limits: 3,837 clauses of three places. */
#define GUSTVANE_ROOM 11511

/* The answers. */
#define GUSTVANE_ACCEPTED 0
#define GUSTVANE_WRITTEN 0
#define GUSTVANE_CONFIRMED 1
#define GUSTVANE_REFUSED 2

/* Judges a certificate for a sheet.
 *
 *   GUSTVANE_ACCEPTED   the ladder is safe: the condition holds after every
 *                       scan, whatever the inputs; *number 0, *place 0
 *   GUSTVANE_CONFIRMED  the trace breaks the condition, after scan *number
 *                       for the first time (scans count from 1); *place 0
 *   GUSTVANE_REFUSED    *number is the refusal's number, 1 to 26, and *place
 *                       the offset of the kind byte at fault in the sheet
 *                       (2 to 11) or in the certificate (12 to 26); where no
 *                       byte is left the length, and 0 for number 1
 *
 * Number 1, workspace too short, is given exactly when work_len is less than
 * GUSTVANE_WORKSPACE, whatever the bytes.
 *
 * The workspace may hold anything before the call. After refusal 1 no place of
 * it has changed. After every other answer its first GUSTVANE_WORKSPACE places
 * are zero and the others are as they were.
 */
uint8_t gustvane_check(const uint8_t *sheet, size_t sheet_len,
                       const uint8_t *certificate, size_t certificate_len,
                       uint16_t *work, size_t work_len,
                       size_t *number, size_t *place);

/* Writes one of a sheet's clause sets for a prover: set 1 start, 2 keep or
 * 3 safe. The certificate is read only as far as its INVARIANT record.
 *
 *   GUSTVANE_WRITTEN    *number is the count of clauses; *place 0
 *   GUSTVANE_REFUSED    *number is the refusal's number and *place its place,
 *                       as above; 28, room short of three places a clause, and
 *                       29, no such set, have place 0
 *
 * A clause takes three places: 2v for variable v plain, 2v+1 for it negated,
 * 0 as filler behind the literals. Once written, the first 3 * *number places
 * of the room hold the clauses in order and the others are as they were. After
 * a refusal no place of the room has changed.
 */
uint8_t gustvane_translate(uint32_t set,
                           const uint8_t *sheet, size_t sheet_len,
                           const uint8_t *certificate, size_t certificate_len,
                           uint16_t *room, size_t room_len,
                           size_t *number, size_t *place);

#ifdef __cplusplus
}
#endif

#endif
