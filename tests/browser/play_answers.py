"""Answers to the exercises of the page on which one writes agents, as changes of their first
programs."""

# exercises, each with the replacements that mend its program; the last one keeps its first program
EXERCISES = {
    "1-enter-and-look": {
        "    // look, leave\n": "    await agent.look();\n    await agent.leave();\n"
    },
    "2-two-answers": {
        "    // go through port 0, and write there by which port you came\n": (
            "    const next = await agent.depart(0);\n"
            "    await agent.write(next.board, String(next.came));\n"
        )
    },
    "3-compare-and-write": {
        "count += 1) {\n        const now": "count += 0) {\n        const now",
        "        board = swap.board;\n": "        board = swap.board;\n        count += swap.written;\n",
    },
    "4-walk-round": {
        "    // walk round, and count\n": (
            '    await agent.write("", "home");\n    let next = await agent.depart(0);\n'
            '    for (; next.board !== "home"; nodes += 1) next = await agent.depart(1 - next.came);\n'
        ),
        "agent.write(here.board, String(nodes))": 'agent.write("home", String(nodes))',
    },
    "5-two-sides": {
        "const side = 0;": 'const side = (await agent.write("", "taken")).written ? 0 : 1;'
    },
    "6-cautious-step": {
        "    const there =": (
            '    if (!(await agent.write("", "gone")).written) return agent.leave();\n'
            "    const there ="
        )
    },
    "7-triangle": {
        "    await agent.depart(side);\n    await agent.leave();\n": (
            "    const there = await agent.depart(side);\n    await agent.depart(there.came);\n"
            "    await agent.accuse(1 - side);\n"
        )
    },
    "8-why-no-clock": {
        "        await agent.leave();\n": "        await agent.accuse(1);\n",
        "        let { board } = swap;\n": "        await agent.depart((await agent.depart(1)).came);\n",
        'accuse(board === "back" ? 1 : 0)': "accuse(0)",
        "        for (let looks": "        let board = '';\n        if (false) for (let looks",
    },
    "9-every-schedule": {
        "    while (!swap.written) swap = await agent.write(swap.board, boardOf(safe));\n": (
            "    while (!swap.written) {\n        const now = safeOn(swap.board);\n        now[side] = mine;\n"
            "        swap = await agent.write(swap.board, boardOf(now));\n    }\n"
        )
    },
    "10-halves": {},
}
# wrong answers, by what replaces a line of the first program, and a part of what is said of them
WRONG_ANSWERS = (
    (
        "5-two-sides",
        "const side = 0;",
        "const { board } = await agent.look(), side = board ? 1 : 0; await agent.write(board, 'taken');",
        "both saw the whiteboard",
    ),
    (
        "5-two-sides",
        "const side = 0;",
        "const side = Number(key.slice(1)); await agent.write('', 'taken');",
        "agents that had been told the same",
    ),
    (
        "6-cautious-step",
        "    const there =",
        "    const swap = await agent.write('', 'gone');\n"
        "    if (!swap.written) return agent.depart(7).catch(() => agent.leave());\n"
        "    const there =",
        "was refused: port",
    ),
    (
        "7-triangle",
        "await agent.leave();",
        "await agent.depart(1 - side); await agent.accuse(1 - side);",
        "both agents were lost",
    ),
    (
        "9-every-schedule",
        "    while (!swap.written) swap = await agent.write(swap.board, boardOf(safe));\n",
        "",
        "is answered `changed`, and goes on",
    ),
)
