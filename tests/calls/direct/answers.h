/* What is read node by node, and outputs that have just enough room. */
#ifndef ANSWERS_H
#define ANSWERS_H

void nodes(void);
void outputs(void);

#endif
