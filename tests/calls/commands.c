#include "commands.h"

#include <stdbool.h>
#include <stddef.h>
#include <stdint.h>
#include <stdio.h>
#include <string.h>

#include "forms.h"
#include "galthumir.h"
#include "lent.h"
#include "showing.h"
#include "states.h"

/* What a call answers, before it is printed or kept under a name. */
static uint32_t answer[2];
static size_t sizes[6];
static uint32_t made_group[GALTHUMIR_GROUP_CELLS];
static uint16_t made_orderings[GALTHUMIR_ORDERINGS_CELLS];
static uint16_t made_ordering[GALTHUMIR_ORDERING_CELLS];
static uint32_t projected[MOST_NUMBERS];
static uint16_t enumerated[GALTHUMIR_ENUMERATION_OUTPUT];

/* ---- What the line asks for ---- */

static uint32_t number(size_t at)
{
    return (uint32_t)asked.numbers[at];
}

static uint32_t *group(size_t at)
{
    return groups[asked.states[at].place];
}

static uint16_t *orderings_at(size_t at)
{
    return orderings[asked.states[at].place];
}

static struct mapping *mapping(size_t at)
{
    return &mappings[asked.states[at].place];
}

static uint16_t *map(size_t at)
{
    return maps[asked.states[at].place];
}

static void *lend_group(size_t at)
{
    return lend(group(at), sizeof groups[0]);
}

static void *lend_orderings(size_t at)
{
    return lend(orderings_at(at), sizeof orderings[0]);
}

static void *lend_map(size_t at)
{
    return lend(map(at), sizeof maps[0]);
}

static void *lend_mapping(size_t at)
{
    return lend(mapping(at)->numbers, mapping(at)->count * sizeof(uint32_t));
}

static void *lend_list(void)
{
    return lend(asked.list, asked.list_count * sizeof asked.list[0]);
}

/* The list in numbers of 16 bits. */
static void *lend_short_list(void)
{
    static uint16_t numbers[MOST_NUMBERS];
    for (size_t k = 0; k < asked.list_count; k++)
        numbers[k] = (uint16_t)asked.list[k];
    return lend(numbers, asked.list_count * sizeof numbers[0]);
}

/* ---- What is kept and printed after a call ---- */

/* Ends a call that returned this number: whether it was done. Else the refusal is printed, and `! changed` after it
 * where the call changed a byte nevertheless. */
static bool done(uint32_t refusal)
{
    bool same = as_before();
    if (refusal == GALTHUMIR_DONE)
        return true;
    printf("r %u\n", refusal);
    if (!same)
        printf("! changed\n");
    return false;
}

/* From now on the first state that the line names is there. */
static void make_first_name(void)
{
    make_name(asked.states[0].kind, asked.states[0].name);
}

static void print_ok(void)
{
    printf("ok\n");
}

static void print_expression(void)
{
    printf("e %u\n", answer[0]);
}

static void print_changed_group(void)
{
    make_first_name();
    print_group(group(0));
}

static void keep_made_group(void)
{
    memcpy(group(0), made_group, sizeof made_group);
    print_changed_group();
}

static void print_changed_orderings(void)
{
    make_first_name();
    print_orderings(orderings_at(0));
}

static void keep_made_orderings(void)
{
    memcpy(orderings_at(0), made_orderings, sizeof made_orderings);
    print_changed_orderings();
}

static void print_number_or_none(bool is_there, uint32_t shown)
{
    if (is_there)
        printf(" %u", shown);
    else
        printf(" -");
}

static void print_node_count(void)
{
    printf(" nodes %u\n", node_count());
}

/* ---- Expressions ---- */

static void reset(void)
{
    reset_states();
    print_ok();
}

static void add_column(void)
{
    if (done(galthumir_add_column(LEND(arena), (uint16_t)number(0), (uint16_t)number(1), LEND_BLANK(answer))))
        print_expression();
}

static void add_literal(void)
{
    if (done(galthumir_add_literal(LEND(arena), number(0), LEND_BLANK(answer))))
        print_expression();
}

static void add_operation(void)
{
    if (done(galthumir_add_operation(LEND(arena), number(0), lend_list(), asked.list_count, LEND_BLANK(answer))))
        print_expression();
}

static void add_offset_to_expr(void)
{
    if (done(galthumir_add_offset_to_expr(LEND(arena), number(0), asked.offset, LEND_BLANK(answer))))
        print_expression();
}

/* ---- Groups ---- */

static void open_group_of(uint32_t limit)
{
    if (done(galthumir_open_group(limit, LEND_BLANK(made_group))))
        keep_made_group();
}

static void open_largest_group(void)
{
    open_group_of(GALTHUMIR_MAX_MEMBERS);
}

static void open_group(void)
{
    open_group_of(number(0));
}

static void new_group(void)
{
    if (done(galthumir_new_group(LEND(arena), lend_list(), asked.list_count, LEND_BLANK(made_group))))
        keep_made_group();
}

static void print_change_of_group(void)
{
    printf("b %u\n", answer[0]);
    print_changed_group();
}

static void add_equal_conditions(void)
{
    if (done(galthumir_add_equal_conditions(LEND(arena), lend_group(0), number(0), number(1), LEND_BLANK(answer))))
        print_change_of_group();
}

static void add_constant(void)
{
    if (done(galthumir_add_constant(LEND(arena), lend_group(0), number(0), number(1), number(2))))
        print_changed_group();
}

static void clear_per_partition_constants(void)
{
    if (done(galthumir_clear_per_partition_constants(LEND(arena), lend_group(0), LEND_BLANK(answer))))
        print_change_of_group();
}

static void show_group(void)
{
    print_group(group(0));
}

static void is_expr_constant(void)
{
    if (done(galthumir_is_expr_constant(LEND(arena), lend_group(0), number(0), LEND_BLANK(answer))))
        printf("k %u %u\n", answer[0], answer[1]);
}

static void exprs_equal(void)
{
    if (done(galthumir_exprs_equal(LEND(arena), lend_group(0), number(0), number(1), LEND_BLANK(answer))))
        printf("q %u\n", answer[0]);
}

static void print_class(void)
{
    if (sizes[0] == 0)
        printf("m -\n");
    else
        printf("m %zu %zu %zu %zu %zu\n", sizes[1], sizes[2], sizes[3], sizes[4], sizes[5]);
}

static void get_equivalence_class(void)
{
    if (done(galthumir_get_equivalence_class(LEND(arena), lend_group(0), number(0), LEND_BLANK(sizes))))
        print_class();
}

static void normalize_expr(void)
{
    if (!done(galthumir_normalize_expr(LEND(arena), lend_group(0), number(0), LEND_BLANK(answer))))
        return;
    printf("n %u", answer[0]);
    print_node_count();
}

static void normalize_sort_expr(void)
{
    if (!done(galthumir_normalize_sort_expr(LEND(arena), lend_group(0), number(0), number(1), LEND_BLANK(answer))))
        return;
    printf("s");
    print_key(answer[0], answer[1]);
    print_node_count();
}

static void print_one_ordering(void)
{
    printf("o 1\n");
    print_ordering(made_ordering);
}

static void normalize_sort_exprs(void)
{
    if (done(galthumir_normalize_sort_exprs(LEND(arena), lend_group(0), lend_list(), asked.list_count,
                                            LEND_BLANK(made_ordering))))
        print_one_ordering();
}

static void join(void)
{
    if (done(galthumir_join(LEND(arena), lend_group(1), lend_group(2), number(0), asked.numbers[1], lend_list(),
                            asked.list_count, LEND_BLANK(made_group))))
        keep_made_group();
}

/* ---- Projections ---- */

static void keep_mapping(void)
{
    memcpy(mapping(0)->numbers, asked.list, asked.list_count * sizeof asked.list[0]);
    mapping(0)->count = asked.list_count;
    make_first_name();
    print_ok();
}

static void print_projection(void)
{
    printf("p");
    print_number_or_none(answer[0], answer[1]);
    if (answer[0])
        print_node_count();
    else
        printf("\n");
}

static void project_expr(void)
{
    if (done(galthumir_project_expr(LEND(arena), lend_group(0), lend_mapping(1), mapping(1)->count, number(0),
                                    LEND_BLANK(answer))))
        print_projection();
}

static void print_projections(void)
{
    printf("p");
    for (size_t k = 0; k < asked.list_count; k++)
        print_number_or_none(projected[k] != GALTHUMIR_NONE, projected[k]);
    print_node_count();
}

static void project_expressions(void)
{
    if (done(galthumir_project_expressions(LEND(arena), lend_group(0), lend_mapping(1), mapping(1)->count, lend_list(),
                                           asked.list_count, LEND_BLANK(projected), MOST_NUMBERS)))
        print_projections();
}

static void project(void)
{
    if (done(galthumir_project(LEND(arena), lend_group(1), lend_mapping(2), mapping(2)->count, LEND_BLANK(made_group))))
        keep_made_group();
}

/* ---- Orderings ---- */

static void new_orderings(void)
{
    if (done(galthumir_new_orderings(LEND(arena), lend_short_list(), asked.list_count, LEND_BLANK(made_orderings))))
        keep_made_orderings();
}

static void add_orderings(void)
{
    if (done(galthumir_add_orderings(LEND(arena), lend_orderings(0), lend_short_list(), asked.list_count)))
        print_changed_orderings();
}

static void extend_orderings(void)
{
    if (done(galthumir_extend_orderings(LEND(arena), lend_orderings(0), lend_short_list(), asked.list_count)))
        print_changed_orderings();
}

static void clear_orderings(void)
{
    if (done(galthumir_clear_orderings(LEND(arena), lend_orderings(0))))
        print_changed_orderings();
}

static void show_orderings(void)
{
    print_orderings(orderings_at(0));
}

static void output_ordering(void)
{
    if (!done(galthumir_output_ordering(LEND(arena), lend_orderings(0), LEND_BLANK(made_ordering))))
        return;
    if (made_ordering[0] == 0)
        printf("o 0\n");
    else
        print_one_ordering();
}

static void join_suffix(void)
{
    if (done(galthumir_join_suffix(LEND(arena), lend_orderings(1), lend_orderings(2), LEND_BLANK(made_orderings))))
        keep_made_orderings();
}

static void add_offset(void)
{
    if (done(galthumir_add_offset(LEND(arena), lend_orderings(0), asked.offset)))
        print_changed_orderings();
}

static void get_options(void)
{
    if (!done(galthumir_get_options(LEND(arena), lend_orderings(0), number(0), LEND_BLANK(answer))))
        return;
    printf("v");
    print_number_or_none(answer[0], answer[1]);
    printf("\n");
}

static void is_expr_partial_const(void)
{
    if (done(galthumir_is_expr_partial_const(LEND(arena), lend_orderings(0), number(0), LEND_BLANK(answer))))
        printf("v %u\n", answer[0]);
}

/* ---- Dependency maps ---- */

static void open_map(void)
{
    memset(map(0), 0, sizeof maps[0]);
    make_first_name();
    print_ok();
}

static void show_map(void)
{
    print_map(map(0));
}

static void insert(void)
{
    if (!done(galthumir_insert(LEND(arena), lend_map(0), number(0), number(1), number(2), number(3), number(4),
                               number(5))))
        return;
    make_first_name();
    show_map();
}

static void construct_prefix_orderings(void)
{
    if (done(galthumir_construct_prefix_orderings(LEND(arena), lend_map(0), number(0), number(1),
                                                  LEND_BLANK(enumerated), GALTHUMIR_ENUMERATION_OUTPUT,
                                                  LEND_BLANK(sizes))))
        print_enumerated(sizes[0], enumerated);
}

static void generate_dependency_orderings(void)
{
    if (done(galthumir_generate_dependency_orderings(LEND(arena), lend_map(0), lend_list(), asked.list_count,
                                                     LEND_BLANK(enumerated), GALTHUMIR_ENUMERATION_OUTPUT,
                                                     LEND_BLANK(sizes))))
        print_enumerated(sizes[0], enumerated);
}

/* ---- The commands ---- */

static const struct command COMMANDS[] = {
    {"reset", "", reset},
    {"col", "hh", add_column},
    {"lit", "n", add_literal},
    {"op", "ne", add_operation},
    {"off", "ni", add_offset_to_expr},
    {"arena", "", print_nodes},
    {"group", "G", open_largest_group},
    {"group", "Gn", open_group},
    {"new", "Gc", new_group},
    {"eq", "Gnn", add_equal_conditions},
    {"const", "Gnnn", add_constant},
    {"clear", "G", clear_per_partition_constants},
    {"show", "g", show_group},
    {"isconst", "gn", is_expr_constant},
    {"equal", "gnn", exprs_equal},
    {"class", "gn", get_equivalence_class},
    {"nf", "gn", normalize_expr},
    {"nfkey", "gk", normalize_sort_expr},
    {"nfkeys", "gK", normalize_sort_exprs},
    {"join", "Gggnzp", join},
    {"map", "Ms", keep_mapping},
    {"projexpr", "gmn", project_expr},
    {"projexprs", "gme", project_expressions},
    {"project", "Ggm", project},
    {"onew", "Ol", new_orderings},
    {"oadd", "Ol", add_orderings},
    {"oext", "Ol", extend_orderings},
    {"clearord", "O", clear_orderings},
    {"oshow", "o", show_orderings},
    {"oout", "o", output_ordering},
    {"ojoin", "Ooo", join_suffix},
    {"ooff", "Oi", add_offset},
    {"oopt", "on", get_options},
    {"opart", "on", is_expr_partial_const},
    {"dmap", "D", open_map},
    {"dins", "Dktt", insert},
    {"dshow", "d", show_map},
    {"dprefix", "dk", construct_prefix_orderings},
    {"dgen", "dK", generate_dependency_orderings},
};

#define COMMANDS_COUNT (sizeof COMMANDS / sizeof COMMANDS[0])

const struct command *command_of(struct text words)
{
    struct text name = take_word(&words);
    for (size_t k = 0; k < COMMANDS_COUNT; k++)
        if (is_text(name, COMMANDS[k].name, strlen(COMMANDS[k].name)) && read_form(COMMANDS[k].form, words))
            return &COMMANDS[k];
    return NULL;
}
