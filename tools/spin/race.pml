/* programs/race.cilk: two children read a total, and write what they read and something more. */
#define LOCKS 0
#define CHILDREN 2
#define child_waits(me) false

byte total;
byte before[4];            /* by instances: the variable of each child */

inline child_acts(me) {
    if
    :: at[me] == 0 -> before[me] = total; at[me]++
    :: at[me] == 1 -> total = before[me] + 10 * (me - 1); at[me]++
    :: else -> before[me] = 0; child_ends(me)
    fi
}

#include "workers.pml"
