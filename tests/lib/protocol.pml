/* The owner of a board and its workers: how they share out jobs, sleep, are called, and come to their end. It follows
 * owner.rt, pool.rt, crew.rt and workers.rt of redo_run, and lead.rt, worker.rt, member.rt and counts.rt of redo_crew
 * step by step. What the kit's channel does is one step: a ring that is sent, and one that is heard. tests/protocol lists
 * the runs.
 *
 *   N        workers beside the owner, one fewer than `-j` says
 *   J        how many jobs become ready at most
 *   REFUSE   1: memory, threads, and targets beyond the limit are refused at any point
 *   FINE     1: a step of the word is a load and an exchange, which fails if the word has changed; a job is taken out of
 *            the relay by a load of its front and an exchange. 0: each is one step. A load and a failed exchange change
 *            nothing that others see, so that comes to the same.
 *   ENDS     the claim is that the owner comes to its end
 *   BAD      a fault that is planted. Each has to be found:
 *            1    a worker goes to sleep though a job waits
 *            2    a call is spared though nobody looks
 *            3    the end is told to nobody
 *            4    a sleeper that has heard a ring doesn't look for the end
 *            5    three jobs may be out for each worker, with places for two
 *            6    a call is rung twice
 *            7    the bell is rung before the call stands in the word
 *            8    the owner takes a job that it has offered, without a claim
 *            9    a worker that is started is still counted as one that isn't
 */
#ifndef N
#define N 3
#endif
#ifndef J
#define J 3
#endif
#ifndef REFUSE
#define REFUSE 0
#endif
#ifndef FINE
#define FINE 0
#endif
#ifndef BAD
#define BAD 0
#endif

/* How many jobs may be out with workers, and how many may wait or have come back as pieces. */
#if BAD == 5
#define MOST_OUT (3 * N)
#else
#define MOST_OUT (2 * N)
#endif
#define PLACES (2 * N)

/* The word. */
byte waiting = 0, looking = 0, asleep = 0, calls = 0, holding = 0, unborn = N;
bool over = false;
/* Rings in the channel, and those that the owner has to send because the run is over. */
byte rings = 0, owed = 0;
/* How many jobs were taken out of the relay, and put into it. */
byte front = 0, back = 0;
/* What is on its way to the owner: pieces, and messages that memory was refused. */
byte pieces = 0, refusals = 0;
/* The board: jobs that are ready, jobs that are out, and jobs that may become ready when others are handed in. */
byte ready = 0, out = 0, later = J;
/* Threads that were started and haven't ended. */
byte running = 0;
bool is_refused = false, has_ended = false;
/* For assertions alone: jobs that workers have or have a right to, jobs that the owner has, sleepers that have heard a
 * ring and neither woken nor left, those that have left, and whether the owner has called a sleeper and not rung yet. */
byte carried = 0, own = 0, heard = 0, gone = 0;
bool is_to_ring = false;

/* What holds of the word at each moment: `IsKept` of redo_crew. */
#define KEPT \
  assert(looking + asleep + holding + unborn <= N); \
  assert(waiting <= PLACES); \
  assert(calls <= asleep); \
  assert(waiting <= looking + calls || (asleep == calls && unborn == 0))

/* Each job that is out is somewhere. */
#define COUNTED assert(out == own + waiting + carried + pieces + refusals)

/* Each call is one ring. Once the run is over, there is a ring for each sleeper that hasn't left. */
#define HEARD \
  assert(over || calls == is_to_ring + rings + heard); \
  assert(!over || asleep == is_to_ring + owed + rings + heard + gone)

/* Takes a step of the word, if it may happen. `done` tells whether it did. */
#if FINE
#define WORD (waiting + 8 * looking + 32 * asleep + 128 * calls + 512 * holding + 2048 * unborn + 8192 * over)
#define STEP(may, change) \
  do \
  :: atomic { seen = WORD; if :: !over && (may) -> skip :: else -> seen = 0; done = false; break fi }; \
     atomic { if :: WORD == seen -> seen = 0; done = true; change; KEPT; COUNTED; break :: else -> seen = 0 fi } \
  od
#else
#define STEP(may, change) \
  atomic { if :: !over && (may) -> done = true; change; KEPT; COUNTED :: else -> done = false fi }
#endif

/* Takes a job out of the relay. Whoever does has a right to one, and finds one. */
#if FINE
#define TAKE_OUT \
  do \
  :: at = front; \
     assert(at < back); \
     atomic { if :: front == at -> at = 0; front++; break :: else -> at = 0 fi } \
  od
#else
#define TAKE_OUT atomic { assert(front < back); front++ }
#endif

/* Something is refused, or nothing is. */
#if REFUSE
#define MAY_BE_REFUSED if :: skip :: atomic { is_refused = true; goto stops } fi
#else
#define MAY_BE_REFUSED skip
#endif

/* Rings for the sleeper that was called. There is a place for the ring. */
#if BAD == 6
#define RING atomic { rings = rings + 2; is_to_ring = false; HEARD }
#else
#define RING atomic { assert(rings < N); rings++; is_to_ring = false; HEARD }
#endif

proctype worker(byte me) {
  bool done = false, is_short = false;
#if FINE
  byte at = 0;
  short seen = 0;
#endif
finds:
  STEP(waiting > 0 && looking > 0, waiting--; looking--; holding++; carried++);
  if :: atomic { done -> done = false; goto has_right } :: else fi;
#if BAD == 1
  STEP(looking > 0, looking--; asleep++);
#else
  STEP(waiting == 0 && looking > 0, looking--; asleep++);
#endif
  if :: atomic { done -> done = false; goto sleeps } :: else fi;
  if :: atomic { over -> goto ends } :: atomic { else -> goto finds } fi;

sleeps:
  atomic { rings > 0 -> rings--; heard++; HEARD };
  STEP(calls > 0, calls--; asleep--; looking++; heard--; HEARD);
  if :: atomic { done -> done = false; goto finds } :: else fi;
#if BAD == 4
  goto sleeps;
#else
  /* whoever has heard a ring may wake, unless the run is over */
  atomic { over -> heard--; gone++; HEARD; goto ends };
#endif

has_right:
  TAKE_OUT;
#if REFUSE
  if :: skip :: is_short = true fi;
#endif
  /* nobody who sends waits for room */
  atomic {
    assert(pieces + refusals < PLACES);
    carried--;
    if :: is_short -> is_short = false; refusals++ :: else -> pieces++ fi;
    COUNTED
  };
  STEP(holding > 0, holding--; looking++);
  if :: atomic { done -> done = false; goto finds } :: else fi;
ends:
  running--
}

/* Some jobs become ready. */
inline make_ready() { do :: later > 0 -> later--; ready++ :: break od }

/* The offer of a job. It is one of four steps of the word, of which the first leaves the job to the owner. */
#if BAD == 2
#define ARE_ENOUGH (waiting <= looking + calls || (asleep == calls && unborn == 0))
#else
#define ARE_ENOUGH (waiting < looking + calls || (asleep == calls && unborn == 0))
#endif
#define OFFERED waiting++; own--; is_offered = true
#if BAD == 9
#define HIRED looking++; is_hired = true
#else
#define HIRED unborn--; looking++; is_hired = true
#endif
#define OFFER \
  if \
  :: waiting == PLACES \
  :: waiting < PLACES && ARE_ENOUGH -> OFFERED \
  :: waiting < PLACES && !ARE_ENOUGH && calls < asleep -> OFFERED; calls++; is_to_ring = true \
  :: waiting < PLACES && !ARE_ENOUGH && calls >= asleep -> OFFERED; HIRED \
  fi

active proctype owner() {
  bool is_for_worker = false, is_offered = false, is_hired = false, done = false;
  byte started = 0;
#if FINE
  byte at = 0;
  short seen = 0;
#endif
  atomic { make_ready() };
turns:
  if
  :: atomic { out > 0 && pieces + refusals > 0 -> goto receives }
  :: atomic { (out == 0 || pieces + refusals == 0) && ready > 0 -> goto builds }
  :: atomic { (out == 0 || pieces + refusals == 0) && ready == 0 -> goto claims }
  fi;

builds:
  /* A job may be offered if there is room and the owner is left with something. It is if it is worth a worker, as any
   * may be. */
  atomic {
    if :: out < MOST_OUT && (ready > 1 || out > 0) -> is_for_worker = true :: skip fi;
    ready--;
    out++;
    own++
  };
  MAY_BE_REFUSED;
  back++;
  if :: atomic { is_for_worker -> is_for_worker = false } :: atomic { else -> goto has_right } fi;
#if BAD == 7
  RING;
#endif
  STEP(true, OFFER);
  done = false;
  if :: atomic { is_offered -> is_offered = false } :: atomic { else -> goto has_right } fi;
#if BAD == 7
  atomic { is_to_ring = false; HEARD };
#else
  if :: is_to_ring -> RING :: else fi;
#endif
  if
  :: atomic { is_hired -> is_hired = false };
     MAY_BE_REFUSED;
     atomic { running++; run worker(started); started++ }
  :: else
  fi;
#if BAD == 8
  goto has_right;
#else
  goto turns;
#endif

claims:
  STEP(waiting > 0, waiting--; own++);
  if :: atomic { done -> done = false; goto has_right } :: else fi;
  if :: atomic { out == 0 -> goto stops } :: else fi;
receives:
  if
  :: atomic { pieces > 0 -> pieces--; own++; goto hands_in }
  :: atomic { refusals > 0 -> refusals--; own++; is_refused = true; goto stops }
  fi;

has_right:
  TAKE_OUT;
  MAY_BE_REFUSED;
hands_in:
  atomic { own--; out--; make_ready() };
  MAY_BE_REFUSED;
  goto turns;

stops:
#if BAD == 3
  STEP(true, over = true);
#else
  STEP(true, over = true; owed = asleep - calls; HEARD);
#endif
  do :: owed > 0 -> atomic { assert(rings < N); owed--; rings++; HEARD } :: else -> break od;
  running == 0;
  assert(is_refused || (ready == 0 && out == 0 && waiting == 0 && front == back));
  has_ended = true
}

#ifdef ENDS
ltl ends { <> has_ended }
#endif
