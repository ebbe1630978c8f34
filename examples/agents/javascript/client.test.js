// A first test: node --test
"use strict";
const assert = require("node:assert");
const net = require("node:net");
const readline = require("node:readline");
const test = require("node:test");
const { join } = require("./client");

const HERE = { ok: "here", ports: 2, from: null, board: "" };

/** Answers each line of one client by the next of these lists of answers, and keeps what it hears. */
function serve(answers, heard) {
    const server = net.createServer(async (socket) => {
        for await (const line of readline.createInterface({ input: socket })) {
            heard.push(JSON.parse(line));
            for (const answer of answers.shift()) socket.write(JSON.stringify(answer) + "\n");
        }
    });
    return new Promise((listens) => server.listen(0, "127.0.0.1", () => listens(server)));
}

test("a departure is answered twice", async () => {
    const heard = [];
    const server = await serve([[HERE], [{ ok: "gone" }, { ...HERE, from: 1, board: "3 1" }]], heard);
    const { agent, here } = await join("127.0.0.1", server.address().port, "ka");
    assert.deepStrictEqual(here, { ports: 2, came: null, board: "" });
    assert.deepStrictEqual(await agent.depart(0), { ports: 2, came: 1, board: "3 1" });
    agent.close();
    server.close();
    assert.deepStrictEqual(heard, [{ do: "enter", key: "ka" }, { do: "depart", port: 0 }]);
});
