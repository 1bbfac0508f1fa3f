/* The measure of formula text: a rule from its text beside the same rule from its bytes, and text to bytes and back. */
#ifndef SPELT_H
#define SPELT_H

void print_spelt(void);
void print_spelt_goal(void);

#endif
