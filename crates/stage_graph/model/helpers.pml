/*
 * Waiting and waking of helper threads: a model of crates/stage_graph/src/helpers.rt (`help`, `lay`, `moved`, `carry`,
 * `give`, `back`, `free`, `close`), helpers/scheduler.rt and helpers/sections.rt, with the rules of floor/causes.rt and
 * floor/events.rt as far as waiting depends on them (chunks are only counted). `run_floor` is one floor, and as many
 * threads as workers.
 *
 * One step is one of: a section (all that a thread does under the scheduler's lock in one go, its sleep included), one
 * notify_one, one notify_all, one unasked wake. All of them interleave freely. No section blocks but by its sleep, so
 * that the mutex is an atomic step. A hang is an invalid end state.
 *
 * S stages of W0..W2 workers and capacities C0..C2; FLOORS floors of N chunks, one after another; T threads, of which
 * the calling one is thread 0 (a helper that couldn't be started is one thread less); SPUR unasked wakes; REFUSE: a
 * step may be refused to any chunk; ERROR: the calling thread may end before the last floor; M_*: a fault. HOLDS: the
 * gate may hold a chunk, so that a worker has no next one before the gate was notified that its last one left. With it
 * MEET: the first chunk that enters waits until two are inside; with it LEAVE: the first chunk that leaves a stage
 * waits until one has entered the next. MEET wants W0 > 1 and N > 1, and both as many threads as workers.
 *
 *   spin -DS=2 -DW0=2 -DW1=2 -DC0=2 -DC1=1 -DN=4 -DT=3 -DFLOORS=2 -DREFUSE -a helpers.pml
 *   spin -DS=2 -DW0=2 -DW1=1 -DC0=1 -DC1=1 -DN=4 -DT=3 -DHOLDS -DMEET -DLEAVE -a helpers.pml
 *   gcc -O2 -DSAFETY -DCOLLAPSE -DNOREDUCE -DMEMLIM=2000 -o pan pan.c && ./pan -m2000000 -w22
 *
 * At the end of a floor all chunks are done, or the floor was stopped, and every slot is empty; at the end of all every
 * helper has ended. Faults that hang, or break that: CLOSE_SILENT, ROOM_SILENT, OVER_SILENT, BACK_SILENT with REFUSE,
 * NO_CLOSE, OVER_EARLY (over while a slot is full), with two threads FIRST_STAGE (a look from the first stage on),
 * LATE_WAIT (the lock is released before the wait begins), LOST_CROWD (who waits for a queue isn't counted); with HOLDS
 * FREE_SILENT (no call where a worker may have its next chunk), LOST_CALL (who finds no work takes sleepers for called,
 * since there is work for a worker that can't have it yet). NO_CALL is none (the picker goes on alone), but with HOLDS
 * and MEET.
 */
#ifndef S
#define S 2
#endif
#ifndef W0
#define W0 1
#endif
#ifndef W1
#define W1 1
#endif
#ifndef W2
#define W2 1
#endif
#ifndef C0
#define C0 1
#endif
#ifndef C1
#define C1 1
#endif
#ifndef C2
#define C2 1
#endif
#ifndef N
#define N 2
#endif
#ifndef T
#define T 2
#endif
#ifndef FLOORS
#define FLOORS 2
#endif
#ifndef SPUR
#define SPUR 0
#endif
#if S>3 || T>4
#error more stages or threads than the model has
#endif

#define WORKERS(s) ((s)==0 -> W0 : ((s)==1 -> W1 : W2))
#define CAP(s) ((s)==0 -> C0 : ((s)==1 -> C1 : C2))

/* The floor on the scheduler. */
bool open;
byte backlog;
byte queue[S];
byte slots[S];
#ifdef HOLDS
byte inside[S];               /* workers without a chunk whose last one hasn't left */
byte within;                  /* chunks that have entered and haven't left */
bool met;
bool came[S];
#endif
byte done;
byte returned;
bool stopped;

/* The scheduler. */
bool closed;
byte idle;
byte crowded;
bool awaited;

#define CALLED 1
#define ROOM 2
#define OVER 3
byte at[T];                   /* where a thread sleeps, or 0 */
#ifdef M_LATE_WAIT
byte late[T];                 /* the lock is released, but the wait hasn't begun */
#define AWAKE(t) (at[t] == 0 && late[t] == 0)
#else
#define AWAKE(t) (at[t] == 0)
#endif
byte ended;
#if SPUR>0
byte spurious = SPUR;
#endif

/* What a section answers; never part of a state. */
hidden byte i, k;
hidden byte more;

inline sleep(t, place) {
#ifdef M_LATE_WAIT
  late[t] = place
#else
  at[t] = place
#endif
}

#define WAKES(t, p) at[t] == (p) -> at[t] = 0
inline notify_one(p) {
  if
  :: WAKES(0, p)
#if T>1
  :: WAKES(1, p)
#endif
#if T>2
  :: WAKES(2, p)
#endif
#if T>3
  :: WAKES(3, p)
#endif
  :: else -> skip
  fi
}

inline notify_all(p) {
  d_step {
    i = 0;
    do
    :: i < T -> if :: at[i] == (p) -> at[i] = 0 :: else -> skip fi; i++
    :: else -> break
    od;
    i = 0
  }
}

/* sections.rt: feed_all */
inline feed() {
  do
  :: open && !stopped && backlog > 0 && queue[0] < CAP(0) -> backlog--; queue[0]++
  :: else -> break
  od
}

/* Whether a worker of stage s may take, as the floor has it, and as the scheduler has it. */
#define MAY_TAKE(s) (open && !stopped && queue[s] > 0 && slots[s] < WORKERS(s))
#ifdef HOLDS
#define MAY(s) (open && !stopped && queue[s] > 0 && slots[s] + inside[s] < WORKERS(s))
#else
#define MAY(s) MAY_TAKE(s)
#endif

/* scheduler.rt: pick, calls_after. Leaves in mine the stage + 1 of the chunk, or 0. */
inline pick(mine, call) {
  feed();
  mine = 0;
#ifdef M_FIRST_STAGE
  k = 0;
  do
  :: k < S && mine == 0 && MAY(k) -> mine = k + 1
  :: k < S && !(mine == 0 && MAY(k)) -> k++
  :: k >= S -> break
  od;
#else
  k = S;
  do
  :: k > 0 && mine == 0 && MAY(k - 1) -> mine = k
  :: k > 0 && !(mine == 0 && MAY(k - 1)) -> k--
  :: k == 0 -> break
  od;
#endif
  call = 0;
  if
  :: mine > 0 ->
     queue[mine - 1]--;
     slots[mine - 1]++;
     feed();
     more = MAY_TAKE(0);
#if S>1
     more = more || MAY_TAKE(1);
#endif
#if S>2
     more = more || MAY_TAKE(2);
#endif
#ifndef M_ROOM_SILENT
     if :: crowded > 0 -> crowded = 0; call = call | 4 :: else -> skip fi;
#endif
     if
     :: more && idle > 0 -> idle--; call = call | 1
     :: more && idle == 0 && awaited -> awaited = 0; call = call | 2
     :: else -> skip
     fi
#ifdef M_LOST_CALL
  :: mine == 0 && (idle > 0 || awaited) && (MAY_TAKE(0) || MAY_TAKE(S - 1)) ->
     if :: idle > 0 -> idle-- :: else -> awaited = 0 fi
#endif
  :: else -> skip
  fi;
  k = 0;
  more = 0
}

#if S==1
#define HELD (slots[0])
#elif S==2
#define HELD (slots[0] + slots[1])
#else
#define HELD (slots[0] + slots[1] + slots[2])
#endif
#ifndef HOLDS
#define INSIDE 0
#elif S==1
#define INSIDE (inside[0])
#elif S==2
#define INSIDE (inside[0] + inside[1])
#else
#define INSIDE (inside[0] + inside[1] + inside[2])
#endif
#ifdef M_OVER_EARLY
#define IS_OVER (!open || stopped || done + HELD == N)
#else
#define IS_OVER (!open || (HELD == 0 && INSIDE == 0 && (stopped || done == N)))
#endif

/* scheduler.rt: calls_at_end, where it doesn't. */
inline at_end(call) {
  call = 0;
#ifndef M_BACK_SILENT
  if :: crowded > 0 && stopped -> crowded = 0; call = call | 4 :: else -> skip fi;
#endif
#ifndef M_OVER_SILENT
  if :: awaited && IS_OVER -> awaited = 0; call = call | 2 :: else -> skip fi
#endif
}

/* scheduler.rt: calls_at_end, where the gate may hold the chunk next. */
inline at_give(call) {
  call = 0;
#ifdef HOLDS
  if :: idle > 0 -> idle--; call = call | 1 :: else -> skip fi;
  if :: awaited -> awaited = 0; call = call | 2 :: else -> skip fi;
  if :: crowded > 0 && stopped -> crowded = 0; call = call | 4 :: else -> skip fi
#else
  at_end(call)
#endif
}

/* helpers.rt: wake, each notification a step of its own. */
inline wake(call) {
  if :: call & 1 -> atomic { notify_one(CALLED) } :: else -> skip fi;
  if :: call & 2 -> atomic { notify_one(OVER) } :: else -> skip fi;
  if :: call & 4 -> atomic { notify_all(ROOM) } :: else -> skip fi
}

/* The worker's slot is empty, and the gate isn't told so yet. */
#ifdef HOLDS
#define EMPTY(s) slots[s]--; inside[s]++; was = (s) + 1
#else
#define EMPTY(s) slots[s]--
#endif

/* The gate: a chunk enters, or leaves stage s. */
inline enter(s) {
#ifdef HOLDS
  atomic { within++; came[s] = 1; if :: within > 1 -> met = 1 :: else -> skip fi };
#ifdef MEET
  met || stopped;
#endif
#endif
  skip
}

inline left(s) {
#ifdef HOLDS
#ifdef LEAVE
  (s) + 1 == S || stopped || came[((s) + 1 < S -> (s) + 1 : 0)];
#endif
  within--;
#endif
  skip
}

/* helpers.rt: carry, give, back, free. */
inline carry(t, mine, was, call) {
  enter(mine - 1);
  if
  :: true ->
     do
     :: atomic {
          AWAKE(t) ->
          if
          :: mine == S -> EMPTY(mine - 1); done++; mine = 0; at_give(call)
          :: mine < S && queue[mine] < CAP(mine) -> EMPTY(mine - 1); queue[mine]++; mine = 0; at_give(call)
          :: mine < S && queue[mine] >= CAP(mine) && stopped -> EMPTY(mine - 1); returned++; mine = 0; at_give(call)
          :: else ->
#ifndef M_LOST_CROWD
             crowded++;
#endif
             sleep(t, ROOM)
          fi
        };
        if :: mine == 0 -> break :: else -> skip fi
     od
#ifdef REFUSE
  :: atomic { AWAKE(t) -> EMPTY(mine - 1); returned++; stopped = 1; mine = 0; at_give(call) }
#endif
  fi;
  wake(call)
#ifdef HOLDS
  ;
  left(was - 1);
#ifdef M_FREE_SILENT
  atomic { inside[was - 1]--; was = 0 }
#else
  atomic { inside[was - 1]--; was = 0; at_end(call) };
  wake(call)
#endif
#endif
}

active proctype lead() {
  byte mine;
  byte was;
  byte call;
  byte floor;
  do
  :: floor < FLOORS ->
     atomic {
       open = 1; backlog = N; done = 0; returned = 0; stopped = 0;
       k = 0;
       do :: k < S -> queue[k] = 0; slots[k] = 0; k++ :: else -> break od;
#ifdef HOLDS
       k = 0;
       do :: k < S -> came[k] = 0; k++ :: else -> break od;
       met = 0;
       assert(INSIDE == 0 && within == 0);
#endif
       k = 0
     };
     do
     :: atomic {
          AWAKE(0) ->
          awaited = 0;
          pick(mine, call);
          if
          :: mine > 0 -> skip
          :: mine == 0 && IS_OVER ->
             open = 0;
             assert(stopped || done == N);
             assert(HELD == 0);
             mine = S + 1
          :: else -> awaited = 1; sleep(0, OVER)
          fi
        };
        if
        :: mine == S + 1 -> mine = 0; break
        :: mine > 0 && mine <= S -> wake(call); carry(0, mine, was, call)
        :: else -> skip
        fi
     od;
     floor++
#ifdef ERROR
  :: floor < FLOORS -> break
#endif
  :: floor >= FLOORS -> break
  od;
#ifndef M_NO_CLOSE
  atomic { closed = 1 };
#endif
#ifndef M_CLOSE_SILENT
  atomic { notify_all(CALLED) };
#endif
  ended == T - 1
}

#if T>1
active [T-1] proctype helper() {
  byte mine;
  byte was;
  byte call;
  byte me = _pid;
  do
  :: atomic {
       AWAKE(me) ->
       pick(mine, call);
       if
       :: mine > 0 -> skip
       :: mine == 0 && closed -> mine = S + 1
       :: else -> idle++; sleep(me, CALLED)
       fi
     };
     if
     :: mine == S + 1 -> break
     :: mine > 0 && mine <= S -> wake(call); carry(me, mine, was, call)
     :: else -> skip
     fi
  od;
  ended++
}
#endif

#ifdef M_LATE_WAIT
active [T] proctype waits() {
  byte me = _pid - T;
end:
  do
  :: atomic { late[me] != 0 -> at[me] = late[me]; late[me] = 0 }
  od
}
#endif

#if SPUR>0
active proctype unasked() {
end:
  do
  :: atomic { spurious > 0 && at[0] != 0 -> at[0] = 0; spurious-- }
#if T>1
  :: atomic { spurious > 0 && at[1] != 0 -> at[1] = 0; spurious-- }
#endif
#if T>2
  :: atomic { spurious > 0 && at[2] != 0 -> at[2] = 0; spurious-- }
#endif
  od
}
#endif
