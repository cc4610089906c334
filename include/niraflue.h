/* Niraflue: a router for connector rows, its reader, its agreement test and its drawer.
 *
 * A row is a byte list: byte i is the label of node i, and nodes with one label form a net. Label 255 (FF) is no net's: each node that has it is a blank, a pin
 * joined to nothing, not even to another blank. Ku and Kl are the tracks of the street above and below the row.
 * A sheet is the routing sheet of a row, a film the wires drawn from a sheet.
 *
 * Every call takes any lengths and any contents: it tests its input itself, and after it every byte of every lent buffer is what is said below.
 * What the caller must see to, since no call can test it:
 *   - a pointer with its length is a buffer of that many bytes, that may be read, and written where it is not const;
 *   - a null pointer goes with length 0 only;
 *   - a buffer that is written overlaps no other buffer of the call.
 * Nothing is allocated and nothing is kept between calls, so calls on separate buffers may run at the same time. Each needs less than 16 KiB of stack.
 *
 * An answer is number * 2^32 + place. Number 0 is accepted, any other a refusal; place is 0 unless it is named below. Numbers are tested in the order of
 * the lists, and node numbers count from 1.
 *
 * Link with libcapi.a, which `scripts/staticlib capi` writes to target/staticlib/. */
#ifndef NIRAFLUE_H
#define NIRAFLUE_H

#include <stdbool.h>
#include <stddef.h>
#include <stdint.h>

#ifdef __cplusplus
extern "C" {
#endif

/* The nodes of a row that can be routed. */
#define NIRAFLUE_LEAST_NODES 2
#define NIRAFLUE_MOST_NODES 512

/* The label of a blank. */
#define NIRAFLUE_BLANK 255

/* The bytes of work that the router needs for n nodes, blanks among them, and the bytes of their sheet. */
#define NIRAFLUE_WORK_SIZE(n) (90 * (size_t)(n))
#define NIRAFLUE_SHEET_SIZE(n) (2 + (3 * (size_t)(n) + 3) / 4)

/* The bytes of a film record. No film of n nodes has more than 14 n records. */
#define NIRAFLUE_RECORD_SIZE 5
#define NIRAFLUE_FILM_SIZE(n) (NIRAFLUE_RECORD_SIZE * 14 * (size_t)(n))

/* An answer's number and place. */
static inline uint32_t niraflue_number(uint64_t answer) { return (uint32_t)(answer >> 32); }
static inline uint32_t niraflue_place(uint64_t answer) { return (uint32_t)answer; }

/* Routes a row.
 *   0  accepted; place n. The sheet of the row's first placing, with as few wires above each blank as the limits allow, fills the start of `sheet`, the rest of
 *      it is untouched.
 *   1  under 2 or over 512 nodes
 *   2  Ku or Kl over 3
 *   3  a label other than 255 stands at one node only; place: the first such node
 *   4  work has under 90 n bytes
 *   5  sheet has under 2 + ceil(3n/4) bytes
 *   6  no placing; place: the first node i such that nodes 1 to i alone have no choice that meets the limits, never a blank
 * After 0 and 6 the first 90 n bytes of work are zero and the rest is untouched; after 1 to 5 all of work is untouched. After 1 to 6 all of sheet is untouched.
 * The sheet depends on which nodes are joined, which are blank, and on Ku and Kl, and on nothing else. */
uint64_t niraflue_route(const uint8_t *row, size_t row_len, uint8_t ku, uint8_t kl, uint8_t *work, size_t work_len, uint8_t *sheet, size_t sheet_len);

/* Reads a sheet back into a row.
 *   0  accepted; place n. The row's labels fill the start of `row`, the rest of it is untouched. Nets are labelled 0, 1, 2 in the order of their first nodes,
 *      blanks 255.
 *  11  sheet has under 2 bytes, or its n is not 2 to 512
 *  12  its Ku is over 3
 *  13  its length is not 2 + ceil(3n/4)
 *  14  row has under n bytes
 *  16  p, at a blank s, is over b; place: the node
 *  17  p - 1, at a blank s, is over Ku, the upper street overflows; place: the node
 *  30  b - p, at a blank b - s, is over Kl, the lower street overflows; place: the node
 *  31  b is over Ku + Kl, both streets together overflow; place: the node, never a blank
 *  18  nets are open at the end; place n
 *  19  the padding is not zero
 *  23  there are more than 255 nets
 * At a node, p is the position of its net, 1 at the top, and b the number of open nets, its own among them; at a blank, s is the number of wires above it, and
 * any s that meets the limits is taken. 16, 17, 30 and 31 are tested node by node, leftmost first. After a refusal all of row is untouched. */
uint64_t niraflue_read(const uint8_t *sheet, size_t sheet_len, uint8_t *row, size_t row_len);

/* Whether a sheet passes the reader's tests other than 14, joins the same nodes as the row, of the same length, and has the same blanks. */
bool niraflue_agrees(const uint8_t *row, size_t row_len, const uint8_t *sheet, size_t sheet_len);

/* Draws the wires of a sheet.
 *   0  accepted; place: the number of records, 0 for blanks alone. They fill the start of `film`, in an order that is left free; the rest of it is untouched.
 *  11, 12, 13, 16, 17, 30, 31, 18, 19, as the reader and in its order; a sheet of 256 nets is drawn, its last net with number 255
 *  21  film has under 5 bytes for each record
 * After a refusal all of film is untouched.
 * A record has 40 bits, most significant first. Horizontal: 0, net (8 bits), level + 4 (4), left column (13), right column (13), one zero bit.
 * Vertical: 1, net (8), lower level + 4 (4), column (13), upper level + 4 (4), ten zero bits. Node i is at column 16 (i - 1), and
 * no record touches a blank's pin. */
uint64_t niraflue_draw(const uint8_t *sheet, size_t sheet_len, uint8_t *film, size_t film_len);

#ifdef __cplusplus
}
#endif

#endif
