"""Runs nginx and Caddy before a hall with the configuration files that the hall ships.
Only host name, ports and certificate are local."""
import contextlib
import http.client
import pathlib
import re
import shutil
import socket
import ssl
import subprocess
import time
from typing import Any, List, Sequence

from arena_lab.support.built import LAB
from tests.support.halls import SECONDS, Response

NAME = "arena.example.org"
STARTS = 5
# of a machine with nginx alone: the rest of its file, whose folder is its own
AROUND = """
daemon off;
user root;
worker_processes 2;
worker_rlimit_nofile 20000;
pid {folder}/pid;
error_log {folder}/error.log;
events {{ worker_connections 8192; }}
http {{
    access_log off;
    client_body_temp_path {folder}/body;
    proxy_temp_path {folder}/proxy;
    fastcgi_temp_path {folder}/fastcgi;
    uwsgi_temp_path {folder}/uwsgi;
    scgi_temp_path {folder}/scgi;
    {site}
}}
"""
# takes any certificate
TRUSTING = ssl.SSLContext(ssl.PROTOCOL_TLS_CLIENT)
TRUSTING.check_hostname = False
TRUSTING.verify_mode = ssl.CERT_NONE
CERTIFICATE = (
    "openssl req -x509 -newkey ec -pkeyopt ec_paramgen_curve:prime256v1 -nodes "
    f"-days 2 -subj /CN={NAME} -keyout key.pem -out certificate.pem"
)


def free_everywhere() -> int:
    """A port that nobody has at any address, as connections of other tests may."""
    with socket.create_server(("", 0)) as listener:
        port: int = listener.getsockname()[1]
        return port


def connect(port: int, address: str) -> ssl.SSLSocket:
    """An encrypted connection from this address, by the name of the hall."""
    plain = socket.create_connection(("127.0.0.1", port), SECONDS, (address, 0))
    return TRUSTING.wrap_socket(plain, server_hostname=NAME)


class Proxy:
    """A server before a hall."""

    command = ""

    def __init__(self, folder: pathlib.Path, hall: int) -> None:
        self._folder = folder
        subprocess.run(CERTIFICATE.split(), check=True, capture_output=True, cwd=folder)
        self._said = (folder / "proxy.txt").open("w")
        # another connection may have taken the free port
        if not any(self.starts(hall) for _ in range(STARTS)):
            raise AssertionError((folder / "proxy.txt").read_text())

    def starts(self, hall: int) -> bool:
        """Starts it on ports that are free; gives whether it listens."""
        self.port = free_everywhere()
        self.plain = free_everywhere()
        self.child = subprocess.Popen(
            self.words(hall),
            stdout=self._said,
            stderr=subprocess.STDOUT,
            cwd=self._folder,
        )
        limit = time.monotonic() + SECONDS
        while self.child.poll() is None and time.monotonic() < limit:
            with contextlib.suppress(OSError):
                for port in self.ports():
                    socket.create_connection(("127.0.0.1", port), 5).close()
                return True
            time.sleep(0.1)
        return False

    def ports(self) -> List[int]:
        """Returns the ports that it listens on."""
        return [self.port]

    @classmethod
    def program_path(cls) -> Any:
        """Its program, or None."""
        return shutil.which(cls.command) or shutil.which(cls.command, path="/usr/sbin")

    def words(self, hall: int) -> List[str]:
        """The words that start it."""
        raise NotImplementedError

    def file(self, name: str, *changes: Sequence[str]) -> str:
        """Returns a configuration file with local values."""
        text = (LAB / "hall" / name).read_text(encoding="utf-8")
        for message, here in changes:
            assert message in text, message
            text = text.replace(message, here)
        return text

    def end(self) -> None:
        self.child.terminate()
        self.child.wait()
        self._said.close()

    def ask(
        self, how: str, path: str, address: str, headers: Sequence[Any], body: str = ""
    ) -> Response:
        """Sends a request from an address through the proxy."""
        connection = http.client.HTTPConnection("127.0.0.1", self.port)
        connection.sock = connect(self.port, address)
        with contextlib.closing(connection):
            connection.putrequest(how, path, skip_host=True)
            length = [("Content-Length", len(body))] if body else []
            for name, value in [("Host", NAME), *headers, *length]:
                connection.putheader(name, value)
            connection.endheaders(body.encode() or None)
            answer = connection.getresponse()
            return Response(answer.status, answer.headers, answer.read())


class Nginx(Proxy):
    command = "nginx"

    def ports(self) -> List[int]:
        return [self.plain, self.port]

    def words(self, hall: int) -> List[str]:
        folder = self._folder
        live = f"/etc/letsencrypt/live/{NAME}"
        site = self.file(
            "nginx.conf",
            ("listen 80;", f"listen {self.plain};"),
            ("listen 443 ", f"listen {self.port} "),
            (f"{live}/fullchain.pem", f"{folder}/certificate.pem"),
            (f"{live}/privkey.pem", f"{folder}/key.pem"),
            ("http://127.0.0.1:8000", f"http://127.0.0.1:{hall}"),
        )
        site = re.sub(r"^ *listen \[::\].*\n", "", site, flags=re.M)
        path = folder / "nginx.conf"
        path.write_text(AROUND.format(folder=folder, site=site))
        places = ["-c", str(path), "-p", str(folder), "-e", str(folder / "error.log")]
        return [str(self.program_path()), *places]


class Caddy(Proxy):
    command = "caddy"

    def words(self, hall: int) -> List[str]:
        head = f"https://{NAME}:{self.port} {{\n\ttls certificate.pem key.pem"
        text = self.file(
            "Caddyfile",
            (f"{NAME} {{", head),
            ("\tservers {", "\tadmin off\n\tauto_https off\n\tservers {"),
            ("127.0.0.1:8000", f"127.0.0.1:{hall}"),
        )
        (self._folder / "Caddyfile").write_text(text)
        home = f"HOME={self._folder}"
        words = ["run", "--config", "Caddyfile", "--adapter", "caddyfile"]
        return ["env", home, str(self.program_path()), *words]
