/* Two agents of examples/agents/ring.py on a ring of N nodes; each node but the home base, node 0, is the black hole in
   turn. One step of an agent is what an expert would make of it: a command that reads or writes a whiteboard, with the
   departures behind it and the arrivals at nodes where the agent reads nothing. Moves are a part of the state, and the
   search prints the most. A whiteboard has a mark for its link to the right and one for its link to the left. */
#ifndef N
#define N 8
#endif

/* what a mark says of its link: nothing, an agent is on it, it is safe, it leads to the black hole; or, from TOLD on,
   how many nodes the agent that wrote it had visited */
#define NEW 0
#define GOING 1
#define SAFE 2
#define LEADS_TO_HOLE 3
#define TOLD 4

#define RIGHT 0
#define LEFT 1

mtype = { enter, begin, mark_going, destroyed, come_back, mark_safe, step_on, step_across, tell, look_again, accuse,
	ended };

byte hole;
byte right_mark[N], left_mark[N];
byte unvisited, lost, finished, right_accusations, wrong_accusations;
short moves;

/* each process of a search has a most of its own, and prints it when it rises */
c_code {
	static int most_moves;
	static void tell_most(int moves) {
		if (moves > most_moves) { most_moves = moves; printf("MOST MOVES %d\n", moves); fflush(stdout); }
	}
};

#define UNKNOWN (N - 1 - mine - theirs)
#define BEYOND(way, from) (way == RIGHT -> (from == N - 1 -> 0 : from + 1) : (from == 0 -> N - 1 : from - 1))
#define MARK(way) (way == RIGHT -> right_seen : left_seen)
#define IS_UNCHANGED (right_seen == right_mark[node] && left_seen == left_mark[node])

inline look() { right_seen = right_mark[node]; left_seen = left_mark[node] }
inline write(way, mark) { if :: way == RIGHT -> right_mark[node] = mark :: else -> left_mark[node] = mark fi }
inline forget_mark() { right_seen = 0; left_seen = 0 }
inline forget_all() { node = 0; side = 0; accused = 0; mine = 0; theirs = 0; target = 0; forget_mark() }

/* the link ahead has a mark of the other agent, which says how far that agent had come */
inline hear() {
	if
	:: MARK(side) >= TOLD -> theirs = MARK(side) - TOLD; target = mine + (UNKNOWN + 1) / 2
	:: else
	fi
}
inline go_out_and_back() {
	if
	:: BEYOND(side, node) == hole -> moves++; lost++; doing = destroyed; forget_all()
	:: else -> moves = moves + 2; unvisited--; doing = come_back; forget_mark()
	fi
}
inline go_on() { mine++; moves++; doing = step_on; node = BEYOND(side, node); forget_mark() }
inline before_going() {
	if
	:: MARK(side) == LEADS_TO_HOLE -> doing = accuse; accused = side
	:: else -> hear(); if :: MARK(side) == GOING -> go_out_and_back() :: else -> doing = mark_going fi
	fi
}
inline before_going_on() {
	if
	:: MARK(side) == LEADS_TO_HOLE || MARK(side) == SAFE -> go_on()
	:: else -> hear(); doing = mark_safe
	fi
}
inline go_across() {
	if
	:: MARK((1 - side)) == SAFE -> moves++; node = BEYOND((1 - side), node); doing = step_across; forget_mark()
	:: else -> doing = tell
	fi
}
/* at the last safe node of its side, with a copy of the whiteboard */
inline decide() {
	if
	:: mine < target -> before_going()
	:: else ->
		if
		:: UNKNOWN == 1 -> doing = accuse; accused = side
		:: UNKNOWN != 1 && mine == 0 -> theirs = 0; go_across()
		:: else -> moves = moves + mine; node = 0; theirs = 0; doing = look_again; forget_mark()
		fi
	fi
}
inline begin_side() { target = (side == RIGHT -> N / 2 : (N - 1) / 2) }
/* back over the nodes of both agents to the last safe node of its own side */
inline divide() {
	target = mine + UNKNOWN / 2;
	if
	:: theirs + mine == 0 -> decide()
	:: else ->
		moves = moves + theirs + mine; doing = step_on; forget_mark();
		node = (side == RIGHT -> mine : (mine == 0 -> 0 : N - mine))
	fi
}

proctype agent() {
	mtype doing = enter;
	byte node, mine, theirs, target, right_seen, left_seen, told;
	bit side, accused;

	do
	:: d_step { doing == enter -> look();
		if :: right_seen || left_seen -> side = LEFT; begin_side(); decide() :: else -> doing = begin fi }
	:: d_step { doing == begin ->
		if :: right_mark[0] == NEW && left_mark[0] == NEW -> right_mark[0] = GOING :: else -> side = LEFT fi;
		look(); begin_side(); decide() }
	:: d_step { doing == mark_going ->
		if
		:: IS_UNCHANGED -> write(side, GOING); look(); go_out_and_back()
		:: else -> look(); before_going()
		fi }
	:: d_step { doing == come_back -> look(); before_going_on() }
	:: d_step { doing == mark_safe ->
		if
		:: IS_UNCHANGED -> write(side, SAFE); look(); go_on()
		:: else -> look(); before_going_on()
		fi }
	:: d_step { doing == step_on -> look(); decide() }
	:: d_step { doing == look_again -> look(); go_across() }
	:: d_step { doing == step_across -> look(); theirs++; go_across() }
	:: d_step { doing == tell ->
		told = (UNKNOWN == 1 -> LEADS_TO_HOLE : TOLD + mine);
		if
		:: IS_UNCHANGED ->
			write((1 - side), told); look();
			if :: told == LEADS_TO_HOLE -> doing = accuse; accused = 1 - side :: else -> divide() fi
		:: else -> look(); go_across()
		fi;
		told = 0 }
	:: d_step { doing == accuse ->
		if :: BEYOND(accused, node) == hole -> right_accusations++ :: else -> wrong_accusations++ fi;
		finished++; doing = ended; forget_all() }
	od
}

init {
	atomic {
		select(hole : 1 .. N - 1);
		unvisited = N - 2;
		run agent(); run agent()
	}
	/* at rest */
	atomic { timeout ->
		assert(unvisited == 0 && right_accusations >= 1 && wrong_accusations == 0 && lost <= 1 && finished + lost == 2);
		c_code { tell_most(now.moves); }
	}
}
