/* Lent states that break a rule, and lists that are cut. */
#ifndef BROKEN_H
#define BROKEN_H

/* What the calls are lent keeps every rule: each of them is done. */
void all_calls_with_good_states(void);

/* Each call with each broken state that it can be lent is refused, and changes nothing. */
void all_calls_with_broken_states(void);

#endif
