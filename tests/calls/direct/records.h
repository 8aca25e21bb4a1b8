/* Records, the choice between two of them, and the session. */
#ifndef RECORDS_H
#define RECORDS_H

void read_records(void);
void read_groups(void);
void choices(void);
void session(void);

#endif
