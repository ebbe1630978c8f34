// A client of the arena: connect, enter, look, write, depart, accuse, leave.
//
//     const { agent, here } = await join("127.0.0.1", 4000, "KEY");   // here is { ports: 2, came: null, board: "" }
//     const swap = await agent.write("", "I was here");               // { written: true, board: "I was here" }
//     const next = await agent.depart(0);                             // waits until the agent has arrived
//     await agent.accuse(1);                                          // port 1 leads to a black hole; the agent ends
"use strict";
const net = require("node:net");
const readline = require("node:readline");

/** The server refused a command, or is not there any more. `why` is the word that it said. */
class Refused extends Error {
    constructor(why) {
        super(why);
        this.why = why;
    }
}

/** The match has ended. The agent can do nothing more. */
class MatchOver extends Refused {}

// the server has no room yet, or the first line came late: the key is not used up
const TRY_AGAIN = ["full", "late", "memory"];
const TRIES = 20, FIRST_PAUSE = 50, LONGEST_PAUSE = 2000;

/** One agent of a match. Each call sends a line and waits for its answer. */
class Agent {
    constructor(socket) {
        this.socket = socket;
        this.lines = readline.createInterface({ input: socket })[Symbol.asyncIterator]();
    }

    /** Enters the match of this key at its home base. */
    async enter(key) {
        return hereOf(await this.ask({ do: "enter", key }));
    }

    /** Looks at the node where the agent is. */
    async look() {
        return hereOf(await this.ask({ do: "look" }));
    }

    /** Puts a text on the whiteboard if what stands there is what is expected, else changes nothing. */
    async write(expect, put) {
        const answer = await this.ask({ do: "write", expect, put });
        return answer.ok === "written" ? { written: true, board: put } : { written: false, board: answer.board };
    }

    /** Leaves by this port, and waits until the agent arrives. If it is destroyed, that is until the match ends. */
    async depart(port) {
        await this.ask({ do: "depart", port });
        return hereOf(await this.answer());
    }

    /** Says that the link at this port leads to a black hole, or is dark. The agent ends. */
    async accuse(port) {
        await this.ask({ do: "accuse", port });
    }

    /** Leaves the match. */
    async leave() {
        await this.ask({ do: "leave" });
    }

    close() {
        this.socket.destroy();
    }

    async ask(command) {
        this.socket.write(JSON.stringify(command) + "\n");
        return this.answer();
    }

    async answer() {
        const { value, done } = await this.lines.next();
        if (done) throw new Refused("the server has closed the connection");
        const answer = JSON.parse(value);
        if (answer.no !== undefined) throw new Refused(answer.no);
        if (answer.ok === "over") throw new MatchOver("the match is over");
        return answer;
    }
}

/** A node as an agent sees it. `came` is the port by which the agent came, or null. */
function hereOf(answer) {
    return { ports: answer.ports, came: answer.from, board: answer.board };
}

function connect(host, port) {
    return new Promise((connected, failed) => {
        const socket = net.connect({ host, port, noDelay: true }, () => connected(new Agent(socket)));
        socket.on("error", (fault) => failed(new Refused(fault.message)));
    });
}

/** Connects and enters. Tries again if the server has no room yet. */
async function join(host, port, key) {
    for (let pause = FIRST_PAUSE, left = TRIES; ; pause = Math.min(2 * pause, LONGEST_PAUSE), left -= 1) {
        const agent = await connect(host, port);
        try {
            return { agent, here: await agent.enter(key) };
        } catch (why) {
            agent.close();
            if (left === 0 || !TRY_AGAIN.includes(why.why)) throw why;
        }
        await new Promise((goOn) => setTimeout(goOn, pause));
    }
}

module.exports = { Agent, MatchOver, Refused, join };
