#ifndef TREECOVER_H
#define TREECOVER_H

#include <stddef.h>
#include <stdint.h>

#ifdef __cplusplus
extern "C" {
#endif

/*
 * Each function reads the bytes that it is lent, keeps no pointer and never fails otherwise than by its answer.
 * What has length 0 may have any pointer. Output and work area must not overlap each other or the sheets, and the work area
 * is aligned as uint64_t. A call takes up to 512 KB of stack.
 *
 * A refusal is number * 2^32 + place, and of a part tree * 2^40 more; a success has 0 above bit 31, but an accepted cover has the
 * highest bit set. The numbers:
 *    1  output or work area too short; place 0
 *    2  the library ends before or inside a field; place: the field's first bit, counted from 0
 *    3  a set bit in the library's last byte after the last field, or a byte after it; place: the bit after the last field
 *    4  a value out of range, or a bin load not above the one before; place: the field's first bit
 *    5  a pattern opens with a leaf, repeats a pin, or lacks one; place: the code, the pin number, the pattern's first bit
 *    6  a pattern's 17th node, or a pattern count past 128 in all; place: that field
 *   12, 13, 14  as 2, 3 and 4, in the tree; in a part bytes may follow any tree except the last
 *   16  the tree's 65th node; place: its code
 *    7  more than 31 trade-offs at a node under a load considered there; place: the highest-numbered such node
 *    8  map: no cover arrives by the required time; list: the root has no cover; place 0
 *   22  the cover sheet ends before or inside a field, or has a bad tail; place as for 2 or 3
 *   23  a match is misplaced or not legal, or its crossing is wrong; place: its position from 0; or the list ends early; place: the
 *       match count
 *   24  the stated area or arrival is not that of the cover listed; place 0
 *   31  the function sheet ends before or inside a field; place: the field's first bit
 *   32  a set bit in the function sheet's last byte after the last field, or a byte after it; place: the bit after the last field
 *   33  a drawing computes another function than its cell's; place: the lowest such pattern's number
 *   41  the counts or links of a part end before or inside a field, or a value is out of range; place: the field's first bit; or a set bit
 *       follows in the byte; place: the bit after the last field; or a link names no leaf, or one that an earlier link names; place: the
 *       leaf field's first bit
 *   42  the driving tree of a link is not lower than its reading tree; place: the link's position from 0
 *   43  a linked arrival is over 1000000; place: the lowest-numbered such leaf of the tree
 */

/* The least lengths of an output in bytes and of a work area in words. */
#define TREECOVER_MAP_OUTPUT 149
#define TREECOVER_LIST_OUTPUT 179
#define TREECOVER_PART_OUTPUT 2384
#define TREECOVER_WORK 8192

/* Set in the answer to a cover that is accepted. */
#define TREECOVER_ACCEPTED (UINT64_C(1) << 63)

/* Judges a library: cells * 256 + patterns, or a refusal with a number from 2 to 6. */
uint64_t treecover_judge_library(const uint8_t *library, size_t library_len);

/*
 * Judges a function sheet: cells * 256 + patterns if each drawing of the library, held cells' too, computes the function that the
 * sheet states of its cell; or a refusal, the library's (2 to 6), 31, 32 or 33.
 */
uint64_t treecover_judge_functions(const uint8_t *library, size_t library_len,
                                   const uint8_t *functions, size_t functions_len);

/* Judges a tree: its node count, or a refusal with the number 12, 13, 14 or 16. */
uint64_t treecover_judge_tree(const uint8_t *tree, size_t tree_len);

/*
 * Finds the smallest cover of the tree that arrives by its required time, and the earliest of that area; the inputs of a pattern's
 * NANDs may be exchanged, and a match's crossing says which are. Answers how many bytes of the output the cover sheet takes; the
 * bytes after them are as they were. A refusal leaves the whole output as it was.
 *
 * The first TREECOVER_WORK words of the work area are zero after a success and after refusals 7 and 8, words beyond are as
 * they were, and other refusals touch none. What output and work area hold before the call does not matter.
 */
uint64_t treecover_map(const uint8_t *library, size_t library_len, const uint8_t *tree, size_t tree_len,
                       uint8_t *output, size_t output_len, uint64_t *work, size_t work_len);

/* Lists every trade-off of the tree's root between arrival and area, earliest first; the rest is as for treecover_map. */
uint64_t treecover_list(const uint8_t *library, size_t library_len, const uint8_t *tree, size_t tree_len,
                        uint8_t *output, size_t output_len, uint64_t *work, size_t work_len);

/*
 * Maps the trees of a part in their order. A linked leaf takes the arrival of its driving tree's cover in place of its own, and keeps its
 * drive. Answers how many bytes of the output the cover sheets take, one after another, each filled to its byte; nothing is written
 * before every tree is mapped, and later bytes, or after a refusal all, are as they were. A refusal of a tree, or of its mapping, has
 * the tree's number, any other tree 0; bits of a tree count from the first of its own sheet. Work area as for treecover_map, and zero
 * after refusal 43 too.
 */
uint64_t treecover_map_part(const uint8_t *library, size_t library_len, const uint8_t *part, size_t part_len,
                            uint8_t *output, size_t output_len, uint64_t *work, size_t work_len);

/*
 * Judges a cover sheet: TREECOVER_ACCEPTED + area * 2^24 + arrival if it is that of a legal cover of the tree by the library's cells, late or
 * not, with its true area and arrival; or a refusal, the library's (2 to 6), the tree's (12 to 14 and 16), 22, 23 or 24.
 */
uint64_t treecover_judge_cover(const uint8_t *library, size_t library_len, const uint8_t *tree, size_t tree_len,
                               const uint8_t *cover, size_t cover_len);

#ifdef __cplusplus
}
#endif

#endif
