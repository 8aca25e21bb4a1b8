/* Lent groups: one change breaks a rule of the numbers 12, 11 and 1, or none. */
#ifndef LENT_GROUPS_H
#define LENT_GROUPS_H

/* Each call that is lent a group, with each of these, is refused and changes nothing; or it is done. */
void all_calls_with_lent_groups(void);

/* Groups that have as many members or classes as there can be, and one over an arena without nodes. */
void full_groups(void);

#endif
