/* Which refusal comes first where a lent state breaks a rule or a list is cut, and something else is wrong too. */
#ifndef FIRST_REFUSALS_H
#define FIRST_REFUSALS_H

void first_refusals_of_groups(void);
void first_refusals_of_keys(void);
void first_refusals_of_lists_and_joins(void);
void first_refusals_of_projections(void);

/* Outputs of a list of projections: longer, as long, too short. */
void outputs_of_projections(void);

#endif
