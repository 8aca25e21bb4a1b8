/* What the calls on dependency maps refuse: broken maps and arenas, keys that are cut, and which refusal is given where two
 * hold; and the room that an enumeration has in its output. */
#ifndef DEPENDENCY_CASES_H
#define DEPENDENCY_CASES_H

void dependency_cases(void);

#endif
