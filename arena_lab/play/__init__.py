"""Players, schedulers, and matches that they play.

    agents inside, programs over loopback      a scheduler: what happens next
                   |  lines                                |
                   v                                       v
                players  ----------->  play  ----------->  an engine: the program over two pipes, or the Python model
"""
