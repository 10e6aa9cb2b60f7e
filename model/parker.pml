/*
 * Parker of std: a word, and the kernel's sleep at it while it is PARKED. Seen from outside it is a token, which unpark gives and park
 * takes: lanes.pml takes it for one. Any number of unparks; the kernel may end a sleep by itself.
 */

#define UNPARKERS 3

mtype = { Empty, Notified, Parked };
mtype word = Empty;
bit asleep;			/* the thread sleeps at the word */

bit token;			/* what the word is to be */
byte waking;			/* so many threads have found it PARKED, and have not woken the sleeper yet */

/* Parker::park, Parker::exchange */
active proctype Parks() {
park:	atomic {
		if
		:: word == Empty -> word = Parked
		:: else
		fi
	};
	do
	:: atomic { word == Notified -> word = Empty; assert(token); token = 0; goto park }
	:: atomic { word != Notified -> assert(word == Parked) };
		atomic { asleep = (word == Parked) };	/* the kernel compares, and puts the thread among those that sleep */
end:		if
		:: !asleep
		:: asleep = 0
		fi
	od
}

/* Parker::unpark */
active [UNPARKERS] proctype Unparks() {
	mtype was;
	do
	:: atomic { was = word; word = Notified; token = 1; waking = waking + (was == Parked) };
		atomic { if :: was == Parked -> asleep = 0; waking-- :: else fi; was = 0 }
	:: break
	od
}

/* In each state the word is the token, and none sleeps who has one, unless it is about to be woken. */
active proctype Watches() {
	assert((word == Notified) == token && (!asleep || !token || waking > 0))
}
