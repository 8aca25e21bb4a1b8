/* What a script can't say: lent states that break a rule, outputs that are too short, nodes read one by one, records
 * and the session. Every call is made with each broken state that it can be lent, and every refusal has to leave all
 * that was lent as it was. Beside these it makes calls on chains of operations which the Rust would not finish.
 *
 *     direct      the last line is 'N passed, M failed'; the status is 0 where nothing failed
 */
#include "answers.h"
#include "broken.h"
#include "chains.h"
#include "dependency_cases.h"
#include "expecting.h"
#include "first_refusals.h"
#include "good.h"
#include "lent_arenas.h"
#include "lent_groups.h"
#include "ordering_cases.h"
#include "record_cases.h"
#include "records.h"

int main(void)
{
    make_states();
    all_calls_with_good_states();
    all_calls_with_broken_states();
    nodes();
    outputs();
    all_calls_with_lent_arenas();
    full_arenas();
    nodes_by_their_cells();
    all_calls_with_lent_groups();
    full_groups();
    first_refusals_of_groups();
    first_refusals_of_keys();
    first_refusals_of_lists_and_joins();
    first_refusals_of_projections();
    outputs_of_projections();
    shifts_of_chains();
    questions_on_chains();
    normal_forms_of_chains();
    projections_of_chains();
    read_records();
    read_groups();
    choices();
    session();
    ordering_cases();
    dependency_cases();
    record_cases();
    choice_cases();
    group_record_cases();
    return print_counts() ? 0 : 1;
}
