/* programs/gallery/philosophers.cilk: three children take the lock at their left, and then the one at their right. */
#define LOCKS 3
#define CHILDREN 3
#define lock_of(who, turn) ((who + turn + 1) % 3)

#include "locking.pml"
