/* Records that are whole and records that are malformed, the choice between two of them, and records of groups. */
#ifndef RECORD_CASES_H
#define RECORD_CASES_H

void record_cases(void);
void choice_cases(void);
void group_record_cases(void);

#endif
