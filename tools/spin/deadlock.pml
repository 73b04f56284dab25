/* programs/deadlock.cilk: two children take two locks, each the one first that the other takes second. */
#define LOCKS 2
#define CHILDREN 2
#define lock_of(who, turn) ((who + turn) % 2)

#include "locking.pml"
