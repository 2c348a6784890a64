/* The least energy that a plan of a set can report, by document 02's note 4, for the comparisons that document 01's
   slack and document 02's note 5 ask for.

   It goes through all plans and knows nothing of units and of the planner's choice. It shares no code with the archive
   or with reference.c: where these agree on a wrong plan, it does not. */

#ifndef LEAST_H
#define LEAST_H

#include <stdint.h>

#define LEAST_PLANS 4096                /* up to this many plans it is quick enough */
#define NO_ENERGY UINT64_MAX

/* Of a set that passes the planner's checks of it: the least reported energy of a plan that fits; NO_ENERGY where none
   does. */
uint64_t least_energy(const uint32_t *set);

#endif
