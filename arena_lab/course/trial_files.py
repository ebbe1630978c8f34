"""What a hall and the process that tries a program (arena_lab/course/trials.py) know of
each other: the kinds of trials, and the names of files in a trial's folder."""

# a match to be watched, a check, and every schedule of a small network
PLAY = "play"
CHECK = "check"
EXPLORE = "explore"
KINDS = (PLAY, CHECK, EXPLORE)
# the files in a trial's folder: the request, the program's files, the findings, why there
# are none, the process's own output, and the replay and page of the match that shows the
# findings
REQUEST_FILE = "asked.json"
FILES = "files"
RESULT_FILE = "found.json"
FAULT_FILE = "fault.txt"
LOG = "log.txt"
REPLAY = "m0.jsonl"
PAGE = "m0.html"
