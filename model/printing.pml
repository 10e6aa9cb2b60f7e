/*
 * Threads that print (crates/fq_run/src/printing.rt): the caller's hands batches on, each to a thread that prints it, or prints it itself,
 * and gathers the text. An allocation may fail at each place, and any thread may be refused. In the end no thread prints any more.
 */

#ifndef THREADS
#define THREADS 2		/* PrintSettings::threads */
#endif
#ifndef BATCHES
#define BATCHES 4		/* how often batches are handed on */
#endif

#define TEXT 255		/* Part::Text; a Part::Thread is a thread's number */

chan parts = [BATCHES] of { byte };	/* Printing::parts */
bit prints[BATCHES];			/* this thread prints */
byte printers;				/* how many do */

proctype Printer(byte n) {
	/* PrintedText::of_rows */
	atomic { prints[n] = 0; printers-- }
}

/* Part::wait */
inline await(part) {
	if
	:: part != TEXT -> !prints[part]	/* thread.join */
	:: part == TEXT
	fi
}

active proctype Caller() {
	byte n, part;
	bit failed;

	do
	:: n < BATCHES ->
		/* Printing::print, Printing::hand_on */
		if
		:: len(parts) >= THREADS ->
			/* Printing::settle_first; the part, or the text that is to take it, may have been refused */
			parts?part;
			await(part);
			if
			:: skip
			:: goto stop
			fi
		:: len(parts) < THREADS
		fi;
		/* PrintSettings::print */
		if
		:: atomic { THREADS > 1 -> prints[n] = 1; printers++; assert(printers <= THREADS); run Printer(n); part = n }
		:: part = TEXT			/* no thread is started, or it is refused */
		:: goto stop			/* so too, and the text is refused; or the thread's copy of the notations is */
		fi;
		/* push_back */
		if
		:: parts!part
		:: await(part); goto stop
		fi;
		n++
	:: goto finish				/* no more rows come */
	:: goto stop				/* the run ends by another fault */
	od;

finish:	/* Printing::finish: the last rows are printed here, and then each thread is joined, whatever has failed */
	do
	:: parts?part -> await(part)
	:: empty(parts) -> goto ended
	od;

stop:	/* RowSink::stop of Printing */
	do
	:: parts?part -> await(part)
	:: empty(parts) -> break
	od;

ended:
	assert(printers == 0)
}
