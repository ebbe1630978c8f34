"""Lines of sessions: what clients say, and what an agent at a home base with two ports
is answered. Port 0 leads into the black hole of the matches that are attacked."""

HERE = b'{"board":"","from":null,"ok":"here","ports":2}\n'
LOOK = b'{"do":"look"}\n'
LEAVE = b'{"do":"leave"}\n'
DEPART = b'{"do":"depart","port":0}\n'
GONE, WRITTEN, OVER, BYE = (
    b'{"ok":"%b"}\n' % what for what in (b"gone", b"written", b"over", b"bye")
)
NO_ENTER, NO_KEY, NO_TAKEN, NO_LINE = (
    b'{"no":"%b"}\n' % why for why in (b"enter", b"key", b"taken", b"line")
)
NO_SPENT = b'{"no":"spent"}\n'
NO_TWICE = b'{"no":"twice"}\n'
NO_FULL, NO_LATE, NO_MEMORY = (
    b'{"no":"%b"}\n' % why for why in (b"full", b"late", b"memory")
)
LOOKS = LOOK * 4096
