/*
 * What threads of the engine did, which the model is to do too: each thread its own, in its order. model/traces has recorded it. A search
 * ends at assert(false) if some order of the threads' steps does it all, up to the end of the run.
 */

#define PUTS 1			/* a message into a lane that has room */
#define MEETS_FULL 2
#define TAKES 3			/* an item, a job or an answer */
#define TAKES_LAST 4		/* an end, or Stop */
#define FINDS_NOTHING 5
#define SLEEPS 6
#define WAKES 7

#define MOST 500
hidden byte did[THREADS * MOST];	/* event after event of a thread; 0 follows the last */
hidden short noted[THREADS * MOST];	/* so many events of all threads were noted before */
hidden short ahead_by;			/* the model does an event at most so many too early: else the search is too wide */
short place[THREADS];			/* so many of them the thread of the model has done */
short all_done;

#define NEXT(thread) did[(thread) * MOST + place[thread]]

inline says(thread, what, other) {
	NEXT(thread) == 16 * (what) + (other) && noted[(thread) * MOST + place[thread]] <= all_done + ahead_by -> place[thread]++;
	all_done++
}

inline begins() {
	c_code {
		FILE *file = fopen("trace", "r");
		int ahead = 0, order = 0, thread, event, count[THREADS] = { 0 };
		if (file && fscanf(file, "%d", &ahead) == 1) ahead_by = ahead;
		while (file && fscanf(file, "%d %d", &thread, &event) == 2) {
			did[thread * MOST + count[thread]] = event;
			noted[thread * MOST + count[thread]++] = order++;
		}
	}
}

/* A thread whose next step the record does not have may stop within one, as the model else never does: so assertions say nothing here. */
#define must(hold) skip

inline ends() {
	do
	:: n < THREADS && NEXT(n) == 0 -> n++
	:: n == THREADS -> assert(false)
	od
}
