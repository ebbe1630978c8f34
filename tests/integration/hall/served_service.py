"""Plays the hall's service from inside the system that runs it: starts it, plays a
match, hands in a program, stops it.

    python3 -m tests.integration.hall.served_service FOLDER

Writes what it saw to told.json in the folder, and turns the system off.
"""
import contextlib
import csv
import io
import json
import os
import pathlib
import subprocess
import sys
import time
import urllib.request
import zipfile
from typing import Any, Callable, Dict

ARENA = pathlib.Path("/opt/arena")
HALL = pathlib.Path("/var/lib/arena-hall/hall")
PAGES = "http://127.0.0.1:8000"
SERVICE = "arena-hall.service"
NETWORK = "ring of 8"
PATIENCE = 600.0
EDGE = "edge"
# processes of the system itself
OWN = ("systemd", "served_service")


def wait_until(holds: Callable[[], Any], what: str) -> Any:
    limit = time.monotonic() + PATIENCE
    while time.monotonic() < limit:
        with contextlib.suppress(OSError):
            result = holds()
            if result:
                return result
        time.sleep(0.5)
    log = subprocess.run(
        ["journalctl", "--no-pager", "-u", SERVICE], text=True, capture_output=True
    ).stdout
    raise SystemExit(f"not within {PATIENCE} s: {what}\n{log[-3000:]}")


def ask(token: str, path: str, body: Any = None, kind: str = "") -> Any:
    headers = {
        "Authorization": f"Bearer {token}",
        **({"Content-Type": kind} if kind else {}),
    }
    with urllib.request.urlopen(
        urllib.request.Request(f"{PAGES}{path}", body, headers)
    ) as response:
        return json.load(response)


def is_up() -> bool:
    with urllib.request.urlopen(f"{PAGES}/login") as response:
        return bool(response.status == 200)


def property_of(name: str) -> str:
    return subprocess.run(
        ["systemctl", "show", "--value", "-p", name, SERVICE],
        text=True,
        capture_output=True,
    ).stdout.strip()


def match(token: str) -> str:
    """What came of a match of the sample agents."""
    agents = [
        str(ARENA / "examples" / "agents" / "ring.py"),
        "{host}",
        "{port}",
        "{key}",
        "{nodes}",
    ]
    result = subprocess.run(
        [
            sys.executable,
            str(ARENA / "examples" / "hall" / "practise.py"),
            PAGES,
            NETWORK,
            sys.executable,
            *agents,
        ],
        env={**os.environ, "ARENA_TOKEN": token},
        text=True,
        stdout=subprocess.PIPE,
        stderr=subprocess.STDOUT,
    )
    return "solved" if result.returncode == 0 else result.stdout


def grade(token: str) -> Any:
    """Hands in a program and returns its grading."""
    buffer = io.BytesIO()
    agents = ARENA / "examples" / "agents"
    with zipfile.ZipFile(buffer, "w") as archive:
        archive.write(agents / "ring.py", "agent.py")
        archive.write(agents / "client.py", "client.py")
    head = f'--{EDGE}\r\nContent-Disposition: form-data; name="file"; filename="a.zip"\r\n\r\n'
    body = head.encode() + buffer.getvalue() + f"\r\n--{EDGE}--\r\n".encode()
    number = ask(token, "/api/hand-ins", body, f"multipart/form-data; boundary={EDGE}")[
        "id"
    ]
    message = wait_until(
        lambda: (it := ask(token, f"/api/hand-ins/{number}"))["state"]
        in ("over", "lost")
        and it,
        "graded",
    )
    result = message["result"]
    return (
        [result["solved"] // max(1, result["matches"]), 1]
        if result
        else message["fault"]
    )


def processes_left() -> Any:
    """Returns the command lines of all processes that are not the system's."""
    results = []
    for path in pathlib.Path("/proc").glob("[0-9]*"):
        with contextlib.suppress(OSError):
            words = (
                (path / "cmdline")
                .read_bytes()
                .replace(b"\0", b" ")
                .decode(errors="replace")
                .strip()
            )
            if words and not any(name in words for name in OWN):
                results.append(words)
    return results


def play() -> Dict[str, Any]:
    """What was seen."""
    subprocess.run(
        ["systemctl", "start", "systemd-journald.service", SERVICE], check=True
    )
    wait_until(is_up, "the hall answers")
    with (HALL / "keys.csv").open(encoding="utf-8", newline="") as file:
        token = next(csv.DictReader(file))["token"]
    status = pathlib.Path(f"/proc/{property_of('MainPID')}/status").read_text()
    rights = next(
        line.split()[1] for line in status.splitlines() if line.startswith("CapPrm")
    )
    message = {
        "user": HALL.owner(),
        "capabilities": rights,
        "match": match(token),
        "graded": grade(token),
    }
    began = time.monotonic()
    subprocess.run(["systemctl", "stop", SERVICE], check=True)
    return {
        **message,
        "seconds_to_stop": time.monotonic() - began,
        "result": property_of("Result"),
        "left": processes_left(),
    }


def main() -> None:
    try:
        result = json.dumps(play())
        (pathlib.Path(sys.argv[1]) / "told.json").write_text(result)
    finally:
        os.sync()
        # ending the first process of a namespace ends all others
        subprocess.run(["systemctl", "exit", "--force", "--force"])


if __name__ == "__main__":
    main()
