/* Galthumir: which expressions must be equal, which orders already hold, which sorts can be dropped.
 *
 * This is what libgalthumir.a exports. "01" is the paper that defines the calls.
 *
 * Every function checks all that it is lent, ends on every input, and reads and writes nothing outside of it. It returns
 * 0 where the call is done, else the number of the refusal (GALTHUMIR_REFUSED_..). A refusal changes nothing: every array
 * that was lent is as it was, the answer too. An answer is written into `answer` (or the state that is made into `made`)
 * only where 0 is returned, and then all of it is.
 *
 * States are arrays of numbers that belong to the caller. An array of zeros is an empty arena, an empty list of orderings
 * and an empty dependency map; a group is opened by galthumir_open_group. A state may be kept, copied and compared byte by
 * byte. Two arrays of one call may not overlap, unless both are only read (const). A list is lent as a pointer and the
 * number of its elements; with no elements the pointer isn't looked at, but may not be null. A list that ends within a class,
 * a pair, a source, an ordering or a key is 11.
 *
 * Nothing here keeps anything between two calls, so calls on different arrays may run at once.
 */
#ifndef GALTHUMIR_H
#define GALTHUMIR_H

#include <stddef.h>
#include <stdint.h>

#ifdef __cplusplus
extern "C" {
#endif

/* ---- Refusals, in the order in which they are tested ---- */

#define GALTHUMIR_DONE 0
#define GALTHUMIR_REFUSED_MALFORMED 9     /* a record is malformed */
#define GALTHUMIR_REFUSED_NUMBER 12       /* a number is outside its set */
#define GALTHUMIR_REFUSED_STATE 11        /* a lent state breaks a rule */
#define GALTHUMIR_REFUSED_EXPRESSION 1    /* an expression number is not below the node count */
#define GALTHUMIR_REFUSED_CHILDREN 2      /* a node has more than 8 children */
#define GALTHUMIR_REFUSED_INDEX 10        /* a shifted column index leaves 0..65,535 */
#define GALTHUMIR_REFUSED_UNKNOWN_KEY 6   /* a key that the walk refers to is not in the dependency map */
#define GALTHUMIR_REFUSED_NO_TARGET 7     /* a node that the walk expands has no target */
#define GALTHUMIR_REFUSED_ARENA_FULL 3    /* the nodes to be added don't fit the arena */
#define GALTHUMIR_REFUSED_GROUP_FULL 4    /* members or classes exceed the limit */
#define GALTHUMIR_REFUSED_TOO_LARGE 5     /* an ordering, list of orderings, dependency table or enumeration exceeds its bound */
#define GALTHUMIR_REFUSED_OUTPUT_SHORT 8  /* the lent output is too short */

/* ---- Bounds ---- */

#define GALTHUMIR_MAX_NODES 1024
#define GALTHUMIR_MAX_CHILDREN 8
#define GALTHUMIR_MAX_CLASSES 64
#define GALTHUMIR_MAX_MEMBERS 256
#define GALTHUMIR_MAX_ORDERINGS 32
#define GALTHUMIR_MAX_KEYS 16
#define GALTHUMIR_MAX_MAP_KEYS 64
#define GALTHUMIR_MAX_DEPENDENCIES 16
#define GALTHUMIR_MAX_SOURCES 64
#define GALTHUMIR_MAX_TARGETS 8
#define GALTHUMIR_MAX_ENUMERATED 1024     /* orderings of one enumeration */
#define GALTHUMIR_MAX_SESSION_BYTES 65536 /* bytes of a session's records */
#define GALTHUMIR_SESSION_OUTPUT 131096   /* output of this many bytes is never too short for a session */
#define GALTHUMIR_ENUMERATION_OUTPUT 33792 /* output of this many places is never too short for an enumeration */

/* ---- States: sizes and layouts ---- */

/* Arena: cell 0 is the node count. Node i takes 11 cells from 1 + 11 * i: its kind, its payload (a column's name * 65,536
 * + index, a literal's value, an operation's label), the number of its children, and 8 places for children. */
#define GALTHUMIR_ARENA_CELLS 11265
#define GALTHUMIR_ARENA_COUNT 0
#define GALTHUMIR_ARENA_NODES 1
#define GALTHUMIR_NODE_CELLS 11
#define GALTHUMIR_NODE_KIND 0
#define GALTHUMIR_NODE_PAYLOAD 1
#define GALTHUMIR_NODE_CHILD_COUNT 2
#define GALTHUMIR_NODE_CHILDREN 3
#define GALTHUMIR_COLUMN 1
#define GALTHUMIR_LITERAL 2
#define GALTHUMIR_OPERATION 3

/* Group: the member limit, the number of classes, the number of all members; then for each of 64 classes the number of its
 * members, its flavour, its value; then the members of all classes in class order. Unused cells are 0. */
#define GALTHUMIR_GROUP_CELLS 451
#define GALTHUMIR_GROUP_LIMIT 0
#define GALTHUMIR_GROUP_COUNT 1
#define GALTHUMIR_GROUP_USED 2
#define GALTHUMIR_GROUP_SIZES 3
#define GALTHUMIR_GROUP_FLAVOURS 67
#define GALTHUMIR_GROUP_VALUES 131
#define GALTHUMIR_GROUP_MEMBERS 195

/* A class's constant, in a group, in a list of classes for galthumir_new_group and in answers. The value is 0 but for
 * GALTHUMIR_KNOWN. */
#define GALTHUMIR_NO_CONSTANT 0
#define GALTHUMIR_HETEROGENEOUS 1 /* one value in each partition */
#define GALTHUMIR_UNKNOWN 2       /* one value everywhere, which is not known */
#define GALTHUMIR_KNOWN 3         /* one value everywhere, which is known */

/* A sort key in a state or an answer is one number, expression * 4 + options; options are 1 for descending plus 2 for
 * nulls first. */
#define GALTHUMIR_DESCENDING 1
#define GALTHUMIR_NULLS_FIRST 2
#define GALTHUMIR_KEY(expr, options) ((expr) * 4 + (options))
#define GALTHUMIR_KEY_EXPR(key) ((key) / 4)
#define GALTHUMIR_KEY_OPTIONS(key) ((key) % 4)

/* One ordering: the number of its keys, then 16 places for keys. Unused cells are 0. */
#define GALTHUMIR_ORDERING_CELLS 17

/* List of orderings: how many there are, then 32 orderings. Unused cells are 0. */
#define GALTHUMIR_ORDERINGS_CELLS 545
#define GALTHUMIR_ORDERINGS_COUNT 0
#define GALTHUMIR_ORDERINGS_LIST 1

/* Dependency map: how many keys it has, then for each of 64 keys the key, its target's key + 1 (0 where it has no target),
 * the number of its dependencies, and 16 places for them. Unused cells are 0. */
#define GALTHUMIR_MAP_CELLS 1217
#define GALTHUMIR_MAP_COUNT 0
#define GALTHUMIR_MAP_LIST 1
#define GALTHUMIR_MAP_NODE_CELLS 19
#define GALTHUMIR_MAP_NODE_KEY 0
#define GALTHUMIR_MAP_NODE_TARGET 1
#define GALTHUMIR_MAP_NODE_SIZE 2
#define GALTHUMIR_MAP_NODE_DEPENDENCIES 3

/* Stands for "none": the projection that an expression doesn't have (galthumir_project_expressions), the target or
 * dependency that an insert is not given (galthumir_insert). */
#define GALTHUMIR_NONE 4294967295u

/* ---- Expressions ---- */

/* The check of an arena. Refusal: 11. */
uint32_t galthumir_check_arena(const uint32_t arena[GALTHUMIR_ARENA_CELLS]);

/* Adds a column; a node that is there already is answered with its number. Answer: the node's number. Refusals: 11, 3. */
uint32_t galthumir_add_column(uint32_t arena[GALTHUMIR_ARENA_CELLS], uint16_t name, uint16_t index, uint32_t answer[1]);

/* Adds a literal. Answer: the node's number. Refusals: 11, 3. */
uint32_t galthumir_add_literal(uint32_t arena[GALTHUMIR_ARENA_CELLS], uint32_t value, uint32_t answer[1]);

/* Adds an operation over children that are there. Answer: the node's number. Refusals: 11, 1, 2, 3. */
uint32_t galthumir_add_operation(uint32_t arena[GALTHUMIR_ARENA_CELLS], uint32_t label, const uint32_t *children, size_t children_count,
                                 uint32_t answer[1]);

/* Reads a node. Answer: its kind, then a column's name and index, a literal's value and 0, or an operation's label and the
 * number of its children. Refusals: 11, 1. */
uint32_t galthumir_read_node(const uint32_t arena[GALTHUMIR_ARENA_CELLS], uint32_t expr, uint32_t answer[3]);

/* Reads the child of a node at a place, counted from 0. Answer: 1 and the child's number, or 0 and 0 where the node has no
 * such place. Refusals: 11, 1. */
uint32_t galthumir_read_child(const uint32_t arena[GALTHUMIR_ARENA_CELLS], uint32_t expr, uint32_t place, uint32_t answer[2]);

/* Moves the index of every column of an expression, names kept, and adds the missing nodes. Answer: the number of the
 * shifted expression. Refusals: 11, 1, 10, 3. */
uint32_t galthumir_add_offset_to_expr(uint32_t arena[GALTHUMIR_ARENA_CELLS], uint32_t expr, int64_t offset, uint32_t answer[1]);

/* ---- Groups of equality classes ---- */

/* Makes an empty group with a member limit of 1 to 256. Refusal: 12. */
uint32_t galthumir_open_group(uint32_t limit, uint32_t made[GALTHUMIR_GROUP_CELLS]);

/* The check of a group over an arena. Refusals: 12, 11, 1. */
uint32_t galthumir_check_group(const uint32_t arena[GALTHUMIR_ARENA_CELLS], const uint32_t group[GALTHUMIR_GROUP_CELLS]);

/* The class of an expression. Answer: 1, the class's place, the number of its members, the first of them, its flavour and
 * its value; or six times 0 where the expression is in no class. Refusals: 12, 11, 1. */
uint32_t galthumir_get_equivalence_class(const uint32_t arena[GALTHUMIR_ARENA_CELLS], const uint32_t group[GALTHUMIR_GROUP_CELLS],
                                         uint32_t expr, size_t answer[6]);

/* Two expressions are equal. Answer: 1 where a new class was made, else 0. Refusals: 12, 11, 1, 4. */
uint32_t galthumir_add_equal_conditions(const uint32_t arena[GALTHUMIR_ARENA_CELLS], uint32_t group[GALTHUMIR_GROUP_CELLS], uint32_t left,
                                        uint32_t right, uint32_t answer[1]);

/* An expression is constant. Here the flavour is 0 heterogeneous, 1 unknown, 2 known: one less than in a group.
 * Refusals: 12, 11, 1, 4. */
uint32_t galthumir_add_constant(const uint32_t arena[GALTHUMIR_ARENA_CELLS], uint32_t group[GALTHUMIR_GROUP_CELLS], uint32_t expr,
                                uint32_t flavour, uint32_t value);

/* Drops the constants that may differ from partition to partition. Answer: 1 where anything changed, else 0.
 * Refusals: 12, 11, 1. */
uint32_t galthumir_clear_per_partition_constants(const uint32_t arena[GALTHUMIR_ARENA_CELLS], uint32_t group[GALTHUMIR_GROUP_CELLS],
                                                 uint32_t answer[1]);

/* The equality question. Answer: 1 for yes, 0 for no. Labels are not compared, as in the Rust. Refusals: 12, 11, 1. */
uint32_t galthumir_exprs_equal(const uint32_t arena[GALTHUMIR_ARENA_CELLS], const uint32_t group[GALTHUMIR_GROUP_CELLS], uint32_t left,
                               uint32_t right, uint32_t answer[1]);

/* The constant question. Answer: flavour and value. Refusals: 12, 11, 1. */
uint32_t galthumir_is_expr_constant(const uint32_t arena[GALTHUMIR_ARENA_CELLS], const uint32_t group[GALTHUMIR_GROUP_CELLS], uint32_t expr,
                                    uint32_t answer[2]);

/* The normal form of an expression; its missing nodes are added. Answer: its number. Refusals: 12, 11, 1, 3. */
uint32_t galthumir_normalize_expr(uint32_t arena[GALTHUMIR_ARENA_CELLS], const uint32_t group[GALTHUMIR_GROUP_CELLS], uint32_t expr,
                                  uint32_t answer[1]);

/* The normal form of a sort key. Answer: its expression and its options. Refusals: 12, 11, 1, 3. */
uint32_t galthumir_normalize_sort_expr(uint32_t arena[GALTHUMIR_ARENA_CELLS], const uint32_t group[GALTHUMIR_GROUP_CELLS], uint32_t expr,
                                       uint32_t options, uint32_t answer[2]);

/* The normal forms of sort keys, lent as expression and options of each. Keys that are uniform constants are dropped,
 * doubles stay. Answer: the keys as one ordering (which may repeat an expression). Refusals: 12, 11, 1, 3, 5. */
uint32_t galthumir_normalize_sort_exprs(uint32_t arena[GALTHUMIR_ARENA_CELLS], const uint32_t group[GALTHUMIR_GROUP_CELLS],
                                        const uint32_t *keys, size_t keys_count, uint16_t answer[GALTHUMIR_ORDERING_CELLS]);

/* Makes a group of limit 256 from a list of classes, lent as flavour, value, member count and members of each; classes that
 * overlap become one. Refusals: 12, 11, 1, 4. */
uint32_t galthumir_new_group(const uint32_t arena[GALTHUMIR_ARENA_CELLS], const uint32_t *classes, size_t classes_count,
                             uint32_t made[GALTHUMIR_GROUP_CELLS]);

/* Makes the group of a join of limit 256. Kinds: 0 Inner, 1 Left, 2 Full, 3 Right, 4 LeftSemi, 5 LeftAnti, 6 LeftMark,
 * 7 RightSemi, 8 RightAnti, 9 RightMark. left_size is the number of left columns; pairs are left and right of each
 * condition, the right one as it stands before the shift. Refusals: 12, 11, 1, 10, 3, 4. */
uint32_t galthumir_join(uint32_t arena[GALTHUMIR_ARENA_CELLS], const uint32_t left[GALTHUMIR_GROUP_CELLS],
                        const uint32_t right[GALTHUMIR_GROUP_CELLS], uint32_t kind, size_t left_size, const uint32_t *pairs,
                        size_t pairs_count, uint32_t made[GALTHUMIR_GROUP_CELLS]);

/* Makes the projection of a group by a mapping, of limit 256. A mapping is lent as source, target count and targets of each
 * source. Refusals: 12, 11, 1, 3, 4. */
uint32_t galthumir_project(uint32_t arena[GALTHUMIR_ARENA_CELLS], const uint32_t group[GALTHUMIR_GROUP_CELLS], const uint32_t *mapping,
                           size_t mapping_count, uint32_t made[GALTHUMIR_GROUP_CELLS]);

/* The projection of an expression. Answer: 1 and its number, or 0 and 0 where it has none. Refusals: 12, 11, 1, 3. */
uint32_t galthumir_project_expr(uint32_t arena[GALTHUMIR_ARENA_CELLS], const uint32_t group[GALTHUMIR_GROUP_CELLS], const uint32_t *mapping,
                                size_t mapping_count, uint32_t expr, uint32_t answer[2]);

/* The projections of some expressions, one place of the output for each: its number, or GALTHUMIR_NONE. Output past the
 * last one is unchanged. Refusals: 12, 11, 1, 3, 8. */
uint32_t galthumir_project_expressions(uint32_t arena[GALTHUMIR_ARENA_CELLS], const uint32_t group[GALTHUMIR_GROUP_CELLS],
                                       const uint32_t *mapping, size_t mapping_count, const uint32_t *exprs, size_t exprs_count,
                                       uint32_t *output, size_t output_count);

/* ---- Lists of orderings ----
 * Orderings are lent as numbers in the form of an enumeration's output: for each ordering its key count, then expression
 * and options of each key. */

/* The check of a list of orderings over an arena. Refusals: 11, 1. */
uint32_t galthumir_check_orderings(const uint32_t arena[GALTHUMIR_ARENA_CELLS], const uint16_t orderings[GALTHUMIR_ORDERINGS_CELLS]);

/* Makes a reduced list of orderings that are built from lists of keys. Refusals: 12, 11, 1, 5. */
uint32_t galthumir_new_orderings(const uint32_t arena[GALTHUMIR_ARENA_CELLS], const uint16_t *numbers, size_t numbers_count,
                                 uint16_t made[GALTHUMIR_ORDERINGS_CELLS]);

/* Adds orderings that are built from lists of keys (a repeated expression is dropped, an empty list too), and reduces.
 * Refusals: 12, 11, 1, 5. */
uint32_t galthumir_add_orderings(const uint32_t arena[GALTHUMIR_ARENA_CELLS], uint16_t orderings[GALTHUMIR_ORDERINGS_CELLS],
                                 const uint16_t *numbers, size_t numbers_count);

/* Extends the list by orderings (a repeated expression or an empty ordering is 11), and reduces. Refusals: 12, 11, 1, 5. */
uint32_t galthumir_extend_orderings(const uint32_t arena[GALTHUMIR_ARENA_CELLS], uint16_t orderings[GALTHUMIR_ORDERINGS_CELLS],
                                    const uint16_t *numbers, size_t numbers_count);

/* Empties a list of orderings. Refusals: 11, 1. */
uint32_t galthumir_clear_orderings(const uint32_t arena[GALTHUMIR_ARENA_CELLS], uint16_t orderings[GALTHUMIR_ORDERINGS_CELLS]);

/* The options of the first ordering that an expression leads. Answer: 1 and the options, or 0 and 0 where it leads none.
 * Refusals: 11, 1. */
uint32_t galthumir_get_options(const uint32_t arena[GALTHUMIR_ARENA_CELLS], const uint16_t orderings[GALTHUMIR_ORDERINGS_CELLS],
                               uint32_t expr, uint32_t answer[2]);

/* Whether an expression leads orderings with opposite options. Answer: 1 or 0. Refusals: 11, 1. */
uint32_t galthumir_is_expr_partial_const(const uint32_t arena[GALTHUMIR_ARENA_CELLS], const uint16_t orderings[GALTHUMIR_ORDERINGS_CELLS],
                                         uint32_t expr, uint32_t answer[1]);

/* The ordering of all orderings, one after the other. Answer: an ordering, with 0 keys where the list is empty.
 * Refusals: 11, 1, 5. */
uint32_t galthumir_output_ordering(const uint32_t arena[GALTHUMIR_ARENA_CELLS], const uint16_t orderings[GALTHUMIR_ORDERINGS_CELLS],
                                   uint16_t answer[GALTHUMIR_ORDERING_CELLS]);

/* Makes the list in which each ordering is extended by each of another list; an empty other list keeps all.
 * Refusals: 11, 1, 5. */
uint32_t galthumir_join_suffix(const uint32_t arena[GALTHUMIR_ARENA_CELLS], const uint16_t orderings[GALTHUMIR_ORDERINGS_CELLS],
                               const uint16_t other[GALTHUMIR_ORDERINGS_CELLS], uint16_t made[GALTHUMIR_ORDERINGS_CELLS]);

/* Moves the columns of every key, names kept, and adds the missing nodes. Refusals: 11, 1, 10, 3. */
uint32_t galthumir_add_offset(uint32_t arena[GALTHUMIR_ARENA_CELLS], uint16_t orderings[GALTHUMIR_ORDERINGS_CELLS], int64_t offset);

/* ---- Dependency maps ----
 * The output of an enumeration: for each ordering its key count, then expression and options of each key, one ordering
 * directly after the other, from the first place on. Output past the last one is unchanged. */

/* The check of a dependency map over an arena. Refusals: 11, 1. */
uint32_t galthumir_check_map(const uint32_t arena[GALTHUMIR_ARENA_CELLS], const uint16_t map[GALTHUMIR_MAP_CELLS]);

/* Inserts a key with its target and a dependency. GALTHUMIR_NONE as an expression stands for none, and then the options
 * beside it aren't looked at. A key that is there keeps its first target. Refusals: 12, 11, 1, 5. */
uint32_t galthumir_insert(const uint32_t arena[GALTHUMIR_ARENA_CELLS], uint16_t map[GALTHUMIR_MAP_CELLS], uint32_t expr, uint32_t options,
                          uint32_t target_expr, uint32_t target_options, uint32_t dependency_expr, uint32_t dependency_options);

/* Enumerates the prefix orderings of a key. Answer: how many orderings were written, and how many places of the output they
 * take. Refusals: 12, 11, 1, 6, 7, 5, 8. */
uint32_t galthumir_construct_prefix_orderings(const uint32_t arena[GALTHUMIR_ARENA_CELLS], const uint16_t map[GALTHUMIR_MAP_CELLS],
                                              uint32_t expr, uint32_t options, uint16_t *output, size_t output_count, size_t answer[2]);

/* Enumerates the orderings of some keys, lent as expression and options of each. Answer: as above.
 * Refusals: 12, 11, 1, 6, 7, 5, 8. */
uint32_t galthumir_generate_dependency_orderings(const uint32_t arena[GALTHUMIR_ARENA_CELLS], const uint16_t map[GALTHUMIR_MAP_CELLS],
                                                 const uint32_t *keys, size_t keys_count, uint16_t *output, size_t output_count,
                                                 size_t answer[2]);

/* ---- Records and the session ---- */

/* Reads the record at the start of some bytes. Answer: its kind, 1 to 8, then up to three numbers: 1 name, index; 2 value;
 * 3 label, number of children; 4 left, right; 5 expression, flavour, value; 6 expression; 7 left, right; 8 number of keys;
 * the others are 0. Refusal: 9. */
uint32_t galthumir_read_record(const uint8_t *bytes, size_t bytes_count, size_t answer[4]);

/* Makes a group of limit 256 from a record of kind 16. Refusals: 9, 12, 11, 1, 4. */
uint32_t galthumir_read_group(const uint32_t arena[GALTHUMIR_ARENA_CELLS], const uint8_t *bytes, size_t bytes_count,
                              uint32_t made[GALTHUMIR_GROUP_CELLS]);

/* Of two group records the one that a join of kind 4 to 9 keeps. Answer: 0 for left or 1 for right, and how many bytes of
 * that one, from its start, are the record. Refusals: 12, 9. */
uint32_t galthumir_chosen(uint32_t kind, const uint8_t *left, size_t left_count, const uint8_t *right, size_t right_count,
                          size_t answer[2]);

/* Runs a session: reads records from the input and writes its lines to the output, from the first byte on. Answer: how many
 * bytes were written. Refusal: 8. */
uint32_t galthumir_session(const uint8_t *input, size_t input_count, uint8_t *output, size_t output_count, size_t answer[1]);

#ifdef __cplusplus
}
#endif

#endif
