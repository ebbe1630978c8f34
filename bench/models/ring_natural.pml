/* Two agents of examples/agents/ring.py on a ring of N nodes; each node but the home base, node 0, is the black hole in
   turn. Written as the program is, for SPIN's own reductions: departures and decisions touch local variables alone.
   Moves are a part of the state, and the search prints the most. A whiteboard has a mark for its link to the right and
   one for its link to the left. */
#ifndef N
#define N 8
#endif

/* what a mark says of its link: nothing, an agent is on it, it is safe, it leads to the black hole; or, from TOLD on,
   how many nodes the agent that wrote it had visited */
#define NEW 0
#define GOING 1
#define SAFE 2
#define LEADS_TO_HOLE 3
#define TOLD 4

#define RIGHT 0
#define LEFT 1

byte hole;
byte right_mark[N], left_mark[N];
bool is_visited[N];
byte unvisited, lost, finished, right_accusations, wrong_accusations;
short moves;

/* each process of a search has a most of its own, and prints it when it rises */
c_code {
	static int most_moves;
	static void tell_most(int moves) {
		if (moves > most_moves) { most_moves = moves; printf("MOST MOVES %d\n", moves); fflush(stdout); }
	}
};

#define UNKNOWN (N - 1 - mine - theirs)
#define BEYOND(way, from) (way == RIGHT -> (from == N - 1 -> 0 : from + 1) : (from == 0 -> N - 1 : from - 1))
#define MARK(way) (way == RIGHT -> right_seen : left_seen)

inline look() { right_seen = right_mark[node]; left_seen = left_mark[node] }
inline count_moves() { moves = moves + uncounted; uncounted = 0 }
inline forget() { mine = 0; theirs = 0; target = 0; right_seen = 0; left_seen = 0 }

inline walk(way) {
	d_step { goal = BEYOND(way, node); uncounted++ };
	if
	:: d_step { goal != hole -> node = goal; count_moves();
		if :: is_visited[node] :: else -> is_visited[node] = true; unvisited-- fi;
		look() }
	:: d_step { goal == hole -> lost++; count_moves(); forget() };
		goto done
	fi
}
/* writes a mark unless the whiteboard is another than the one seen */
inline swap(way, mark) {
	d_step {
		if
		:: right_seen == right_mark[node] && left_seen == left_mark[node] ->
			if :: way == RIGHT -> right_mark[node] = mark :: else -> left_mark[node] = mark fi; is_written = 1
		:: else -> is_written = 0
		fi;
		look()
	}
}
/* puts a mark on the link ahead, unless it leads to the black hole */
inline mark_ahead(mark) {
	do
	:: d_step { MARK(side) == LEADS_TO_HOLE -> is_written = 0 } -> break
	:: atomic { MARK(side) != LEADS_TO_HOLE ->
		if
		:: MARK(side) >= TOLD -> theirs = MARK(side) - TOLD; target = mine + (UNKNOWN + 1) / 2
		:: else
		fi;
		if
		:: MARK(side) == mark -> is_written = 1; is_there = 1
		:: else -> is_there = 0
		fi }
		if
		:: is_there -> break
		:: else -> swap(side, mark); if :: is_written -> break :: else fi
		fi
	od;
	is_there = 0
}
inline accuse(way) {
	d_step {
		if :: BEYOND(way, node) == hole -> right_accusations++ :: else -> wrong_accusations++ fi;
		finished++; count_moves(); forget()
	}
}

proctype agent() {
	byte node = 0, goal = N, mine = 0, theirs = 0, target = 0, right_seen = 0, left_seen = 0, steps = 0, uncounted = 0;
	bit side = RIGHT, is_written = 0, is_there = 0;

	d_step { look(); side = (right_seen || left_seen) };
	if
	:: side == RIGHT -> swap(RIGHT, GOING); side = !is_written
	:: else
	fi;
	d_step { target = (side == RIGHT -> N / 2 : (N - 1) / 2); is_written = 0 };
again:
	do
	:: mine < target ->
		mark_ahead(GOING);
		if :: !is_written -> accuse(side); goto done :: else fi;
		walk(side);
		walk(1 - side);
		mark_ahead(SAFE);
		mine++;
		walk(side)
	:: else -> break
	od;
	if :: UNKNOWN == 1 -> accuse(side); goto done :: else fi;
	/* back to the last safe node of the other side, and divide what is left */
	steps = mine;
	do :: steps > 0 -> walk(1 - side); steps-- :: else -> break od;
	theirs = 0;
	do
	:: MARK((1 - side)) == SAFE -> walk(1 - side); theirs++
	:: else ->
		swap(1 - side, (UNKNOWN == 1 -> LEADS_TO_HOLE : TOLD + mine));
		if :: is_written -> break :: else fi
	od;
	if :: UNKNOWN == 1 -> accuse(1 - side); goto done :: else fi;
	target = mine + UNKNOWN / 2;
	steps = theirs + mine;
	do :: steps > 0 -> walk(side); steps-- :: else -> break od;
	goto again;
done:	skip
}

init {
	atomic {
		select(hole : 1 .. N - 1);
		unvisited = N - 2; is_visited[0] = true;
		run agent(); run agent()
	}
	/* at rest */
	atomic { timeout ->
		assert(unvisited == 0 && right_accusations >= 1 && wrong_accusations == 0 && lost <= 1 && finished + lost == 2);
		c_code { tell_most(now.moves); }
	}
}
