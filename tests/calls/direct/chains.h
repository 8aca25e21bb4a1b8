/* Chains: an expression, and operations over it, each with the one before as two or eight children. As trees they are
 * too large for any walk, so that the Rust can't be asked. Chains of one child are in the script chain-deep. */
#ifndef CHAINS_H
#define CHAINS_H

void shifts_of_chains(void);
void questions_on_chains(void);
void normal_forms_of_chains(void);
void projections_of_chains(void);

#endif
