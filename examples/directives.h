/* The four directives for a compiler, as macros: gcc -ffreestanding -include directives.h -c program.c */
#ifndef DIRECTIVES_H
#define DIRECTIVES_H

/* waits for the next tick; the target's own code has it */
void wait_for_clock(void);

#define __ASTREE_wait_for_clock(none) wait_for_clock none
#define __ASTREE_known_fact(fact) ((void)0)
#define __ASTREE_assert(claim) ((void)0)
#define __ASTREE_partition(none) ((void)0)

#endif
