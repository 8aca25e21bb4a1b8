/* What the calls on lists of orderings refuse: broken lists and arenas, lists of keys that are cut, and which refusal is
 * given where two hold. */
#ifndef ORDERING_CASES_H
#define ORDERING_CASES_H

void ordering_cases(void);

#endif
