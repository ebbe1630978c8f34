import java.io.IOException;
import java.util.Map;

/**
 * Searches a ring with two agents that know its number of nodes.
 *
 * <pre>
 * java -cp out:/usr/share/java/gson.jar Careful HOST PORT KEY NODES
 * ARENA_HOST=HOST ARENA_PORT=PORT ARENA_KEY=KEY java -cp out:/usr/share/java/gson.jar Careful NODES
 * </pre>
 *
 * Start it twice, with the keys of both agents. The agent that writes first at the home base explores the side of port
 * 0, the other the side of port 1. Each goes out to the next unexplored node of its side and comes back, and writes at
 * the home base how many nodes of each side are safe, as "3 1". Once one node is left, that is the black hole.
 */
public final class Careful {
    private final Agent agent;
    private final int nodes;
    private int side;
    private int mine;
    private String board;

    private Careful(Agent agent, int nodes) {
        this.agent = agent;
        this.nodes = nodes;
    }

    private static int[] safeOn(String board) {
        String[] parts = board.split(" ");
        return new int[] {Integer.parseInt(parts[0]), Integer.parseInt(parts[1])};
    }

    private static String boardOf(int[] safe) {
        return safe[0] + " " + safe[1];
    }

    private void chooseSide(Agent.Here here) throws IOException, Agent.Refused {
        side = 1;
        board = here.board();
        if (board.isEmpty()) {
            Agent.Swap swap = agent.write("", boardOf(new int[2]));
            side = swap.written() ? 0 : 1;
            board = swap.board();
        }
    }

    /** Goes on in one direction over this many links, at least one. */
    private Agent.Here walk(int port, int links) throws IOException, Agent.Refused {
        Agent.Here here = agent.depart(port);
        for (int more = 1; more < links; more++) {
            here = agent.depart(1 - here.came());
        }
        return here;
    }

    /** Writes how many nodes of this side are safe; what the other agent wrote stays. */
    private void note() throws IOException, Agent.Refused {
        Agent.Swap swap;
        do {
            int[] safe = safeOn(board);
            safe[side] = mine;
            swap = agent.write(board, boardOf(safe));
            board = swap.board();
        } while (!swap.written());
    }

    /** Searches until the agent has accused. */
    private void search(Agent.Here home) throws IOException, Agent.Refused {
        chooseSide(home);
        while (true) {
            int theirs = safeOn(board)[1 - side];
            int ahead = mine == 0 ? side : 1 - walk(side, mine).came();
            if (mine + theirs == nodes - 2) {
                agent.accuse(ahead);
                return;
            }
            Agent.Here found = agent.depart(ahead);
            mine++;
            board = walk(found.came(), mine).board();
            note();
        }
    }

    /** HOST, PORT, KEY and NODES. Of the first three, those that are not given are taken from the environment. */
    private static String[] wordsOf(String[] given) {
        if (given.length != 1) {
            return given;
        }
        Map<String, String> known = System.getenv();
        return new String[] {known.getOrDefault("ARENA_HOST", "127.0.0.1"), known.getOrDefault("ARENA_PORT", "4000"),
            known.getOrDefault("ARENA_KEY", ""), given[0]};
    }

    public static void main(String[] given) throws InterruptedException {
        String[] words = wordsOf(given);
        if (words.length != 4) {
            System.err.println("usage: Careful HOST PORT KEY NODES");
            System.exit(2);
        }
        try {
            Agent.Joined joined = Agent.join(words[0], Integer.parseInt(words[1]), words[2]);
            try (Agent agent = joined.agent()) {
                new Careful(agent, Integer.parseInt(words[3])).search(joined.here());
            }
        } catch (Agent.MatchOver over) {
            System.err.println(over.getMessage());
        } catch (Agent.Refused | IOException why) {
            System.err.println("refused: " + why.getMessage());
            System.exit(1);
        }
    }
}
