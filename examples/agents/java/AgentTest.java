import java.io.BufferedReader;
import java.io.InputStreamReader;
import java.net.InetAddress;
import java.net.ServerSocket;
import java.nio.charset.StandardCharsets;
import java.util.ArrayList;
import java.util.List;

/** A first test: java -ea -cp out:/usr/share/java/gson.jar AgentTest */
public final class AgentTest {
    private static final String HERE = "{\"board\":\"%s\",\"from\":%s,\"ok\":\"here\",\"ports\":2}\n";

    /** Answers each line of one client by the next of these answers, and keeps what it hears. */
    private static Thread serve(ServerSocket server, List<String> answers, List<String> heard) {
        Thread thread = new Thread(() -> {
            try (server; var socket = server.accept()) {
                var lines = new BufferedReader(new InputStreamReader(socket.getInputStream(), StandardCharsets.UTF_8));
                for (String answer : answers) {
                    heard.add(lines.readLine());
                    socket.getOutputStream().write(answer.getBytes(StandardCharsets.UTF_8));
                }
            } catch (java.io.IOException fault) {
                throw new AssertionError(fault);
            }
        });
        thread.start();
        return thread;
    }

    public static void main(String[] words) throws Exception {
        List<String> heard = new ArrayList<>();
        var answers = List.of(HERE.formatted("", "null"), "{\"ok\":\"gone\"}\n" + HERE.formatted("3 1", "1"));
        var server = new ServerSocket(0, 1, InetAddress.getLoopbackAddress());
        Thread thread = serve(server, answers, heard);
        var joined = Agent.join("127.0.0.1", server.getLocalPort(), "ka");
        assert joined.here().equals(new Agent.Here(2, null, "")) : joined.here();
        // a departure is answered twice
        var here = joined.agent().depart(0);
        assert here.equals(new Agent.Here(2, 1, "3 1")) : here;
        thread.join();
        assert heard.equals(List.of("{\"do\":\"enter\",\"key\":\"ka\"}", "{\"do\":\"depart\",\"port\":0}")) : heard;
        System.out.println("1 test passed");
    }
}
