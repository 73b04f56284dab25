/* How WORKERS workers take turns at a program in which main alone spawns: first it readies LOCKS locks, then it spawns CHILDREN children, waits for them and
   returns. One choice is one transition, as in docs/WRITTEN_RULE.md: a step of the instance in the hand, or a pop or steal of the deque that main stands in;
   no other instance is ever in a deque. What a child does stands in `child_acts`, and where it has to wait in `child_waits`. */
#ifndef WORKERS
#define WORKERS 2
#endif
#define NOBODY 0
#define MAIN 1
#define FIRST_CHILD 2
#define INSTANCES (CHILDREN + FIRST_CHILD)

byte hand[WORKERS + 1];    /* by the number of the worker: who is in it */
byte deque;                /* the number of the worker in whose deque main stands, or 0 */
bool parked;               /* whether main waits for children */
byte live;                 /* how many children live */
byte at[INSTANCES];        /* the action with which each goes on */

inline main_acts(me) {
    if
    :: at[MAIN] < LOCKS -> at[MAIN]++
    :: at[MAIN] >= LOCKS && at[MAIN] < LOCKS + CHILDREN ->
        at[MAIN]++;
        live++;
        deque = _pid;
        me = at[MAIN] - LOCKS - 1 + FIRST_CHILD
    :: at[MAIN] == LOCKS + CHILDREN && live > 0 -> parked = true; me = NOBODY
    :: at[MAIN] == LOCKS + CHILDREN && live == 0 -> at[MAIN]++
    :: else -> at[MAIN] = 0; me = NOBODY
    fi
}

/* the last child hands main on to its worker */
inline child_ends(me) {
    at[me] = 0;
    live--;
    if
    :: parked && live == 0 -> parked = false; me = MAIN
    :: else -> me = NOBODY
    fi
}

proctype worker() {
    do
    :: d_step { hand[_pid] == MAIN -> main_acts(hand[_pid]) }
    :: d_step { hand[_pid] > MAIN && !child_waits(hand[_pid]) -> child_acts(hand[_pid]) }
    :: d_step { hand[_pid] == NOBODY && deque != NOBODY -> hand[_pid] = MAIN; deque = NOBODY }
    od
}

init {
    atomic {
        hand[1] = MAIN;
        deque = WORKERS;
        do
        :: deque > 0 -> run worker(); deque--
        :: else -> break
        od
    }
}
