import com.google.gson.JsonObject;
import com.google.gson.JsonParser;
import java.io.BufferedReader;
import java.io.IOException;
import java.io.InputStreamReader;
import java.net.Socket;
import java.nio.charset.StandardCharsets;
import java.util.Set;

/**
 * A client of the arena. Each call sends a line and waits for its answer.
 *
 * <pre>
 * var joined = Agent.join("127.0.0.1", 4000, "KEY");        // joined.here() is Here[ports=2, came=null, board=]
 * var swap = joined.agent().write("", "I was here");        // Swap[written=true, board=I was here]
 * var here = joined.agent().depart(0);                      // waits until the agent has arrived
 * joined.agent().accuse(1);                                 // port 1 leads to a black hole; the agent ends
 * </pre>
 */
public final class Agent implements AutoCloseable {
    /** A node as an agent sees it. `came` is the port by which the agent came, or null. */
    public record Here(int ports, Integer came, String board) {}

    /** What a write came to: whether the text was put, and what stands on the whiteboard now. */
    public record Swap(boolean written, String board) {}

    /** An agent that has entered, and its home base. */
    public record Joined(Agent agent, Here here) {}

    /** The server refused a command, or is not there any more. The message is the word that it said. */
    public static class Refused extends Exception {
        public Refused(String why) {
            super(why);
        }
    }

    /** The match has ended. The agent can do nothing more. */
    public static final class MatchOver extends Refused {
        public MatchOver() {
            super("the match is over");
        }
    }

    // the server has no room yet, or the first line came late: the key is not used up
    private static final Set<String> TRY_AGAIN = Set.of("full", "late", "memory");
    private static final int TRIES = 20, FIRST_PAUSE = 50, LONGEST_PAUSE = 2000;

    private final Socket socket;
    private final BufferedReader lines;

    private Agent(Socket socket) throws IOException {
        this.socket = socket;
        socket.setTcpNoDelay(true);
        lines = new BufferedReader(new InputStreamReader(socket.getInputStream(), StandardCharsets.UTF_8));
    }

    /** Connects and enters. Tries again if the server has no room yet. */
    public static Joined join(String host, int port, String key) throws IOException, InterruptedException, Refused {
        int pause = FIRST_PAUSE;
        for (int left = TRIES; ; left--) {
            Agent agent = new Agent(new Socket(host, port));
            try {
                return new Joined(agent, agent.enter(key));
            } catch (Refused why) {
                agent.close();
                if (left == 0 || !TRY_AGAIN.contains(why.getMessage())) {
                    throw why;
                }
            }
            Thread.sleep(pause);
            pause = Math.min(2 * pause, LONGEST_PAUSE);
        }
    }

    /** Enters the match of this key at its home base. */
    public Here enter(String key) throws IOException, Refused {
        JsonObject command = command("enter");
        command.addProperty("key", key);
        return here(ask(command));
    }

    /** Looks at the node where the agent is. */
    public Here look() throws IOException, Refused {
        return here(ask(command("look")));
    }

    /** Puts a text on the whiteboard if what stands there is what is expected, else changes nothing. */
    public Swap write(String expect, String put) throws IOException, Refused {
        JsonObject command = command("write");
        command.addProperty("expect", expect);
        command.addProperty("put", put);
        JsonObject answer = ask(command);
        boolean written = answer.get("ok").getAsString().equals("written");
        return new Swap(written, written ? put : answer.get("board").getAsString());
    }

    /** Leaves by this port, and waits until the agent arrives. If it is destroyed, that is until the match ends. */
    public Here depart(int port) throws IOException, Refused {
        ask(command("depart", port));
        return here(answer());
    }

    /** Says that the link at this port leads to a black hole, or is dark. The agent ends. */
    public void accuse(int port) throws IOException, Refused {
        ask(command("accuse", port));
    }

    /** Leaves the match. */
    public void leave() throws IOException, Refused {
        ask(command("leave"));
    }

    @Override
    public void close() throws IOException {
        socket.close();
    }

    private static JsonObject command(String name) {
        JsonObject made = new JsonObject();
        made.addProperty("do", name);
        return made;
    }

    private static JsonObject command(String name, int port) {
        JsonObject made = command(name);
        made.addProperty("port", port);
        return made;
    }

    private JsonObject ask(JsonObject command) throws IOException, Refused {
        socket.getOutputStream().write((command + "\n").getBytes(StandardCharsets.UTF_8));
        return answer();
    }

    private JsonObject answer() throws IOException, Refused {
        String line = lines.readLine();
        if (line == null) {
            throw new Refused("the server has closed the connection");
        }
        JsonObject answer = JsonParser.parseString(line).getAsJsonObject();
        if (answer.has("no")) {
            throw new Refused(answer.get("no").getAsString());
        }
        if (answer.get("ok").getAsString().equals("over")) {
            throw new MatchOver();
        }
        return answer;
    }

    private static Here here(JsonObject answer) {
        Integer came = answer.get("from").isJsonNull() ? null : answer.get("from").getAsInt();
        return new Here(answer.get("ports").getAsInt(), came, answer.get("board").getAsString());
    }
}
