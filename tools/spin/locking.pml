/* What children do that take two locks, count, and let them go again, the second first: each child, by its number, at its first turn and its second. */
byte holder[LOCKS];        /* who holds each, or 0 */
byte count;

#define child_waits(me) (at[me] < 2 && holder[lock_of(me, at[me])] != 0)

inline child_acts(me) {
    if
    :: at[me] < 2 -> holder[lock_of(me, at[me])] = me; at[me]++
    :: at[me] == 2 -> count++; at[me]++
    :: at[me] == 3 || at[me] == 4 -> holder[lock_of(me, 4 - at[me])] = 0; at[me]++
    :: else -> child_ends(me)
    fi
}

#include "workers.pml"
