// Searches a ring with two agents that know its number of nodes.
//
//     node careful.js HOST PORT KEY NODES
//     ARENA_HOST=HOST ARENA_PORT=PORT ARENA_KEY=KEY node careful.js NODES
//
// Start it twice, with the keys of both agents. The agent that writes first at the home base explores the side of
// port 0, the other the side of port 1. Each goes out to the next unexplored node of its side and comes back, and
// writes at the home base how many nodes of each side are safe, as "3 1". Once one node is left, that is the black
// hole.
"use strict";
const { MatchOver, Refused, join } = require("./client");

const safeOn = (board) => board.split(" ").map(Number);
const boardOf = (safe) => safe.join(" ");

/** The side of this agent, and what stands at the home base then. */
async function chooseSide(agent, here) {
    if (here.board !== "") return { side: 1, board: here.board };
    const swap = await agent.write("", boardOf([0, 0]));
    return { side: swap.written ? 0 : 1, board: swap.board };
}

/** Goes on in one direction over this many links, at least one. */
async function walk(agent, port, links) {
    let here = await agent.depart(port);
    for (let more = 1; more < links; more += 1) here = await agent.depart(1 - here.came);
    return here;
}

/** Writes how many nodes of this side are safe; what the other agent wrote stays. */
async function note(agent, side, mine, board) {
    for (;;) {
        const safe = safeOn(board);
        safe[side] = mine;
        const swap = await agent.write(board, boardOf(safe));
        board = swap.board;
        if (swap.written) return board;
    }
}

/** Searches until the agent has accused. */
async function search(agent, here, nodes) {
    let { side, board } = await chooseSide(agent, here);
    for (let mine = 0; ; ) {
        const theirs = safeOn(board)[1 - side];
        const ahead = mine === 0 ? side : 1 - (await walk(agent, side, mine)).came;
        if (mine + theirs === nodes - 2) return agent.accuse(ahead);
        const found = await agent.depart(ahead);
        mine += 1;
        board = await note(agent, side, mine, (await walk(agent, found.came, mine)).board);
    }
}

/** HOST, PORT, KEY and NODES. Of the first three, those that are not given are taken from the environment. */
function wordsOf(given) {
    const { ARENA_HOST = "127.0.0.1", ARENA_PORT = "4000", ARENA_KEY = "" } = process.env;
    return given.length === 1 ? [ARENA_HOST, ARENA_PORT, ARENA_KEY, ...given] : given;
}

async function main(given) {
    const words = wordsOf(given);
    if (words.length !== 4) {
        console.error("usage: node careful.js HOST PORT KEY NODES");
        return 2;
    }
    const [host, port, key, nodes] = words;
    let agent;
    try {
        const joined = await join(host, Number(port), key);
        agent = joined.agent;
        await search(agent, joined.here, Number(nodes));
    } catch (why) {
        if (!(why instanceof Refused)) throw why;
        console.error(why instanceof MatchOver ? why.message : `refused: ${why.message}`);
        return why instanceof MatchOver ? 0 : 1;
    } finally {
        if (agent) agent.close();
    }
    return 0;
}

main(process.argv.slice(2)).then((status) => {
    process.exitCode = status;
});
