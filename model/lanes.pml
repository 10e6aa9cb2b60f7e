/*
 * The engine of free threads (crates/fq_lanes), for the checker Spin: the threads of the feeds and of the workers, the caller's thread,
 * called the hub, the lanes between them, and the parkers on which they sleep. A comment names the function that a part follows. README.md
 * says what is checked, and what is left out.
 *
 * A step of the model is one that another thread can notice: a load or a store of a lane's position, an unpark, a park, the start of a
 * thread, its end, a join. What a thread does by itself goes with the step before it.
 */

#ifndef FILES
#define FILES 1			/* 0 to 3 */
#endif
#ifndef WORKERS
#define WORKERS 1		/* 1 to 3 */
#endif
#ifndef ITEMS_AHEAD
#define ITEMS_AHEAD 2		/* threads.rt: the room of a feed's lane */
#endif
#ifndef MOST_OUTSTANDING
#define MOST_OUTSTANDING 4	/* worker_lanes.rt: the most jobs of a worker, and the room of its lanes */
#endif
#ifndef SLOTS
#define SLOTS 8			/* file_state.rt: the window of a file, at most 8 here */
#endif
#ifndef ITEMS
#define ITEMS 255		/* a feed gives at most so many items; 255: any number */
#endif
#ifndef FAULTS
#define FAULTS 0		/* 1: what may fail, may fail: a feed, the work, the note of a job or of an answer, the tail */
#endif
#ifndef REFUSALS
#define REFUSALS 0		/* 1: any thread may be refused */
#endif

#if FILES == 0
#define LANES 1			/* an array has at least one place */
#else
#define LANES FILES
#endif
#define HUB 0
#define FEED(f) (1 + (f))
#define WORKER(w) (1 + FILES + (w))
#define THREADS (1 + FILES + WORKERS)

/*
 * ------------------------------------------------------------------ lanes: lanes.rt, messages.rt
 *
 * A lane is a ring of rtrb. Producer::push (is_full, slots, push_reserved) and Consumer::pop (is_empty, slots, pop_known) each have one
 * load of the other end's position at most (End::load_head, End::load_tail), and then one store of their own (End::put, End::take), all
 * SeqCst. An end that takes pops what it has seen before it loads, and nobody else takes: so a take is one step, at its store, and finds
 * nothing only where nothing is there at its load. An end that puts may know of less room than there is, as Put::room (cached_slots)
 * tells, so a feed's loads are steps of their own.
 */

mtype = { Item, End,		/* FromFeed; whether an end tells a fault is chosen as it is taken, which no thread can tell from before */
	Do, Stop };		/* ToWorker */

chan lane[LANES] = [ITEMS_AHEAD] of { mtype };
chan jobs[WORKERS] = [MOST_OUTSTANDING] of { mtype };
chan answers[WORKERS] = [MOST_OUTSTANDING] of { bit };

/* ------------------------------------------------------------------ parkers: sleeping.rt (Parkers::of_feed, of_worker), Parker of std */

bit token[THREADS];		/* what an unpark gives and a park takes: parker.pml shows that a Parker is one */

/* Only for assertions. */
bit owes[THREADS];		/* this thread has put something, and has not woken the hub since */
bit owed[THREADS];		/* the hub has put or taken something of this thread's, and has not looked yet whether to wake it */
bit gone[THREADS];		/* this thread has ended */

#ifdef REPLAY
#include "replay.pml"
#else
#define says(thread, what, other) skip
#define begins() skip
#define must(hold) assert(hold)
#endif

/* Each run ends, or feeds put items for ever. */
#ifdef ENDS
bit run_over, odd;		/* the run has ended; feeds have put an odd number of items */
#define counts_item() odd = 1 - odd
#define ends() run_over = 1
ltl each_run_ends { <> run_over || ([] <> (odd == 0) && [] <> (odd == 1)) }
#else
#define counts_item() skip
#ifndef REPLAY
#define ends() skip
#endif
#endif

/* Put::put of a thread that is not the hub's */
inline put(own, at_lane, message) {
	at_lane!message;
	says(own, PUTS, HUB);
	owes[own] = 1
}

/* Waiter::wake; of the hub, as Waiter::turned has it */
inline wake(own, other) {
	atomic { says(own, WAKES, other); token[other] = 1; owes[own] = 0; owed[other] = 0 }
}

/* Waiter::wait: a thread sleeps only where nothing is there for it, or another is about to wake it. */
inline wait(own, nothing) {
	atomic { must(token[own] || (nothing)); says(own, SLEEPS, HUB); token[own] -> token[own] = 0 }
}

/* ------------------------------------------------------------------ a feed's thread: feed_thread.rt */

proctype Feed(byte f) {
	byte room = ITEMS_AHEAD;	/* Put::room: the places that it knows of */
	byte items = ITEMS;		/* so many may still come */

next:	/* run_feed; Feed::next; put_quietly, Put::put */
	if
	:: atomic {
		room > 0 -> room--;
		if
		:: items > 0 ->
			put(FEED(f), lane[f], Item);
			counts_item();
			items = (items == 255 -> 255 : items - 1);
			if
			:: room > 0 -> goto next		/* put_ahead: goes on */
			:: else
			fi
		:: put(FEED(f), lane[f], End); goto ended
		fi
		};
		wake(FEED(f), HUB);				/* put_ahead */
		goto next
	:: atomic { room == 0 && len(lane[f]) < ITEMS_AHEAD -> room = ITEMS_AHEAD - len(lane[f]); goto next }
	:: atomic { room == 0 && len(lane[f]) == ITEMS_AHEAD -> says(FEED(f), MEETS_FULL, HUB) };
		wake(FEED(f), HUB);				/* put_quietly */
		wait(FEED(f), !owes[FEED(f)] && (len(lane[f]) > 0 || owed[FEED(f)]));
		goto next
	fi;

ended:	/* put_waiting */
	atomic { wake(FEED(f), HUB); gone[FEED(f)] = 1 }
}

/* ------------------------------------------------------------------ a worker's thread: worker_thread.rt */

proctype Worker(byte w) {

next:	/* run_worker, Take::take */
	if
	:: atomic { len(jobs[w]) == 0 -> says(WORKER(w), FINDS_NOTHING, HUB) };
		wait(WORKER(w), !owes[WORKER(w)] && (len(jobs[w]) == 0 || owed[WORKER(w)]));
		goto next
	:: atomic { jobs[w]?[Stop] -> jobs[w]?Stop; says(WORKER(w), TAKES_LAST, HUB); gone[WORKER(w)] = 1; goto over }
	:: atomic { jobs[w]?[Do] -> jobs[w]?Do; says(WORKER(w), TAKES, HUB) }
	fi;
	/* put_quietly; a choice of the answer is the hub's, as it takes it */
	atomic { must(len(answers[w]) < MOST_OUTSTANDING); put(WORKER(w), answers[w], 0) };
	/* wake_hub, Take::waiting */
	if
	:: len(jobs[w]) <= 1 -> wake(WORKER(w), HUB)
	:: len(jobs[w]) > 1
	fi;
	goto next;
over:
}

/* ------------------------------------------------------------------ the hub: sink and tail */

/* What only the hub has. Serials are counted from the next one of their file that is to be handed out, so that states recur. */
chan outstanding[WORKERS] = [MOST_OUTSTANDING] of { byte, byte };	/* WorkerLanes::outstanding: file and serial */
local bit ended[LANES];		/* FeedLane::ended, and in a turn FileState::closed */
local byte ahead[LANES];	/* FeedLane::items less FileState::taken */
local byte slots[LANES];	/* FileState::slots, a bit each */
local byte at;			/* Sink::at */

#define IS_FAR(f) (ahead[f] >= SLOTS)		/* FileState::is_far */
#define IS_FREE(w) (len(outstanding[w]) < MOST_OUTSTANDING)

/* Counts the outstanding serials of a file from one more on. */
inline renumber(f) {
	n = 0;
	do
	:: n < WORKERS ->
		count = len(outstanding[n]);
		do
		:: count > 0 -> outstanding[n]?file,serial; outstanding[n]!file,(file == f -> serial - 1 : serial); count--
		:: else -> break
		od;
		n++
	:: else -> break
	od;
	n = 0; file = 0; serial = 0
}

/* put_waiting of a worker's lane, up to the wake-up */
inline give(worker, message) {
	must(len(jobs[worker]) < MOST_OUTSTANDING);
	jobs[worker]!message;
	says(HUB, PUTS, WORKER(worker));
	owed[WORKER(worker)] = 1
}

/* WorkerLanes::receive, where an answer is there */
inline receive(worker) {
	answers[worker]?_;
	says(HUB, TAKES, WORKER(worker));
	outstanding[worker]?file,serial
}

/* Hub::hand_on, Sink::next, Sink::pass, FileState::is_handed_out, FileState::next */
inline hand_on() {
	do
	:: at < FILES && ended[at] && ahead[at] == 0 -> at++
	:: at < FILES && (slots[at] & 1) ->
		d_step { slots[at] = slots[at] >> 1; ahead[at]--; renumber(at) };
		if
		:: skip
		:: FAULTS -> goto failed			/* the trace cannot grow, or Tail::take refuses */
		fi
	:: else -> break
	od
}

/* Hub::offer, Sink::offer, FileState::offer: refuses nothing */
inline offer() {
	d_step {
		must(!(ended[file] && serial >= ahead[file]));	/* Closed */
		must(serial < SLOTS);					/* Far */
		must(!(slots[file] & (1 << serial)));			/* Double */
		slots[file] = slots[file] | (1 << serial);
		file = 0; serial = 0
	}
}

/* free_worker: the first of those with the fewest jobs, or WORKERS if none may have one more */
inline free_worker() {
	n = 0; free = WORKERS; count = MOST_OUTSTANDING;
	do
	:: n < WORKERS && len(outstanding[n]) < count -> count = len(outstanding[n]); free = n
	:: n < WORKERS && len(outstanding[n]) >= count -> n++
	:: else -> break
	od;
	n = 0; count = 0
}

/* poll_feeds and poll_feed up to the next lane that is looked at, that of f, for the worker `free`; FILES if there is none. */
inline to_next_lane() {
	d_step {
		free_worker();
		do
		:: f < FILES && free == WORKERS -> f = FILES
		:: f < FILES && free < WORKERS && (IS_FAR(f) || ended[f]) -> f++
		:: else -> break
		od;
		if
		:: f == FILES -> free = 0
		:: else
		fi
	}
}

/* What the hub could do, and nobody is about to wake it for. */
#define HAS_ANSWER(w) (len(outstanding[w]) > 0 && len(answers[w]) > 0 && !owes[WORKER(w)])
#define HAS_MESSAGE(f) (!ended[f] && !IS_FAR(f) && len(lane[f]) > 0 && !owes[FEED(f)])
#if WORKERS == 1
#define OF_WORKERS(holds) (holds(0))
#elif WORKERS == 2
#define OF_WORKERS(holds) (holds(0) || holds(1))
#else
#define OF_WORKERS(holds) (holds(0) || holds(1) || holds(2))
#endif
#if FILES == 0
#define OF_FILES(holds) false
#elif FILES == 1
#define OF_FILES(holds) (holds(0))
#elif FILES == 2
#define OF_FILES(holds) (holds(0) || holds(1))
#else
#define OF_FILES(holds) (holds(0) || holds(1) || holds(2))
#endif
#define FINDS_SOMETHING (OF_WORKERS(HAS_ANSWER) || (OF_WORKERS(IS_FREE) && OF_FILES(HAS_MESSAGE)))

/* ------------------------------------------------------------------ the hub: start, turns, drains, end */

active proctype Hub() {
	byte f, w;			/* the feed and the worker at which it is */
	byte free, n, count, file, serial;
	byte feeds, workers;		/* how many threads of each run */
	bit found, done, ran;
	mtype told;

	begins();
	/*
	 * run_threads, start_feeds, start_workers, start_workers_from: each call starts a thread (start_feed, open_feed; start_worker,
	 * open_worker), or else drains the feeds that run; the last one runs the hub (Run::run, run_hub)
	 */
	do
	:: atomic { feeds < FILES -> run Feed(feeds); feeds++ }
	:: atomic { feeds == FILES && workers < WORKERS -> run Worker(workers); workers++ }
	:: REFUSALS && (feeds < FILES || workers < WORKERS) -> goto drain_feeds
	:: feeds == FILES && workers == WORKERS -> break
	od;
	ran = 1;
	to_next_lane();

turns:	/* run_turns, take_turn */
	if
	:: f < FILES ->
		/* FeedLane::next, Take::take */
		if
		:: atomic { len(lane[f]) == 0 -> says(HUB, FINDS_NOTHING, FEED(f)); f++; to_next_lane(); goto turns }
		:: atomic { lane[f]?told -> says(HUB, (told == End -> TAKES_LAST : TAKES), FEED(f)); owed[FEED(f)] = 1 }
		fi;
		/* Take::waiting */
		if
		:: len(lane[f]) == 0 -> wake(HUB, FEED(f))
		:: atomic { len(lane[f]) > 0 -> owed[FEED(f)] = 0 }
		fi;
		if
		:: atomic {
			told == Item -> told = 0;
			/* WorkerLanes::give */
			if
			:: FAULTS -> goto failed		/* the job cannot be noted, or Polled::TooMany */
			:: d_step { outstanding[free]!f,ahead[f]; ahead[f]++ }
			fi;
			give(free, Do)
			};
			atomic { wake(HUB, WORKER(free)); found = 1; f++; to_next_lane(); goto turns }
		:: atomic {
			told == End -> told = 0;
			/* Hub::close, FileState::close */
			ended[f] = 1;
			if
			:: skip
			:: FAULTS -> goto failed		/* Polled::Fault */
			fi;
			hand_on();
			found = 1; f++; to_next_lane(); goto turns
			}
		fi
	:: atomic {
		f == FILES ->
		/* poll_worker, WorkerLanes::receive */
		if
		:: len(outstanding[w]) > 0 && len(answers[w]) > 0 ->
			receive(w);
			if
			:: offer()
			:: FAULTS -> goto failed		/* Work::work answers Memory */
			fi;
			hand_on();
			found = 1
		:: len(outstanding[w]) > 0 && len(answers[w]) == 0 -> says(HUB, FINDS_NOTHING, WORKER(w))
		:: len(outstanding[w]) == 0
		fi;
		w++;
		f = 0;
		if
		:: w < WORKERS -> to_next_lane(); goto turns
		:: else -> w = 0
		fi;
		/* have_ended, are_idle */
		d_step {
			done = 1;
			do
			:: n < FILES -> done = done && ended[n]; n++
			:: else -> break
			od;
			n = 0;
			do
			:: n < WORKERS -> done = done && len(outstanding[n]) == 0; n++
			:: else -> break
			od;
			n = 0
		};
		if
		:: done -> goto finished
		:: !done && found -> found = 0; to_next_lane(); goto turns
		:: !done && !found
		fi
		};
		atomic { wait(HUB, !(FINDS_SOMETHING)); to_next_lane(); goto turns }
	fi;

finished:	/* without a fault everything was handed out */
	atomic {
		do
		:: n < FILES -> must(ahead[n] == 0 && slots[n] == 0); n++
		:: else -> break
		od;
		must(at == FILES)
	};
	goto close;

failed:	/* run_hub, drain_all; what is forgotten here is not used again */
	atomic {
		n = 0;
		do
		:: n < FILES -> ahead[n] = 0; slots[n] = 0; n++
		:: else -> break
		od;
		at = 0; f = 0; w = 0; free = 0; found = 0; file = 0; serial = 0; told = 0;
		n = 0;
		do
		:: n < WORKERS ->
			count = len(outstanding[n]);
			do
			:: count > 0 -> outstanding[n]?_,_; outstanding[n]!0,0; count--
			:: else -> break
			od;
			n++
		:: else -> break
		od;
		n = 0
	};

drain_feeds:	/* drain_lanes, FeedLane::drain */
	do
	:: f < feeds && ended[f] -> f++
	:: atomic { f < feeds && !ended[f] && lane[f]?[End] -> lane[f]?End; says(HUB, TAKES_LAST, FEED(f)); ended[f] = 1; f++ }
	:: atomic { f < feeds && !ended[f] && lane[f]?[Item] -> lane[f]?Item; says(HUB, TAKES, FEED(f)); owed[FEED(f)] = 1 };
		wake(HUB, FEED(f))
	:: atomic { f < feeds && !ended[f] && len(lane[f]) == 0 -> says(HUB, FINDS_NOTHING, FEED(f)) };
		wait(HUB, len(lane[f]) == 0 || owes[FEED(f)])
	:: f == feeds -> f = 0; break
	od;
	if
	:: !ran -> goto close
	:: ran
	fi;
	/* drain_workers, WorkerLanes::drain, WorkerLanes::receive */
	do
	:: w < WORKERS && len(outstanding[w]) == 0 -> w++
	:: atomic { w < WORKERS && len(outstanding[w]) > 0 && len(answers[w]) > 0 -> receive(w); file = 0; serial = 0 }
	:: atomic { w < WORKERS && len(outstanding[w]) > 0 && len(answers[w]) == 0 -> says(HUB, FINDS_NOTHING, WORKER(w)) };
		wait(HUB, len(answers[w]) == 0 || owes[WORKER(w)])
	:: w == WORKERS -> w = 0; break
	od;

close:	/* the way back from the recursion: close_worker, WorkerLanes::stop; close_feed */
	do
	:: atomic { workers > 0 -> workers--; give(workers, Stop) };
		wake(HUB, WORKER(workers));
		gone[WORKER(workers)]				/* child.join */
	:: workers == 0 && feeds > 0 ->
		feeds--;
		gone[FEED(feeds)]				/* child.join */
	:: workers == 0 && feeds == 0 -> break
	od;
	ends()
}
