"""Proxies before event-phones, as docs/PHONES.md has them but for TLS, for which a test has no certificate that anybody knows."""
import contextlib
import os
import re
import shutil
import socket
import subprocess

from tests.support.phone_rooms import Gateway
from tests.support.serving import free_port
from tests.support.waiting import comes
from tools import TOP

# the name in that document, and where its proxies find event-phones
NAME, BEHIND = "scores.example.org", "127.0.0.1:8080"
# lines before and after what it has, by which each goes on as a user's process
AROUND = {
    "caddy": ("{\n admin off\n auto_https off\n default_bind 127.0.0.1\n}\n", ""),
    "nginx": ("pid %s/pid;\nerror_log stderr error;\nevents {}\nhttp {\n%s\n", "}\n"),
}
ROOMS_OF_NGINX = ("client_body", "proxy", "fastcgi", "uwsgi", "scgi")


def documented(kind):
    """The configuration that the document shows."""
    with open(f"{TOP}/docs/PHONES.md", encoding="utf-8") as it:
        blocks = re.findall(r"^```\w*\n(.*?)^```$", it.read(), re.M | re.S)
    words = {"caddy": "reverse_proxy", "nginx": "proxy_pass"}[kind]
    return next(it for it in blocks if words in it)


def command_of(kind):
    """What starts it, or nothing if it isn't installed. Debian has nginx where only root looks."""
    return shutil.which(kind, path=f"{os.environ.get('PATH', '')}:/usr/sbin")


def configured(kind, room, port, behind):
    """The same, at this port of this machine and without TLS."""
    text = documented(kind)
    assert NAME in text and BEHIND in text, f"the {kind} of docs/PHONES.md"
    text = (
        re.sub(r"^ *ssl_.*\n", "", text, flags=re.M)
        .replace(BEHIND, behind)
        .replace("listen 443 ssl", f"listen 127.0.0.1:{port}")
    )
    before, after = AROUND[kind]
    if kind == "caddy":
        text = text.replace(NAME, f"http://{NAME}:{port}", 1)
    else:
        before %= room, "\n".join(f"{it}_temp_path {room}/{it};" for it in ROOMS_OF_NGINX)
    return before + text + after


class Proxied(Gateway):
    """event-phones behind a proxy. What phones ask goes through that."""

    def __init__(self, kind, program, file, room):
        port, behind = free_port(), f"127.0.0.1:{free_port()}"
        super().__init__(program, file, "--at", f"https://{NAME}", "--listen", behind, "--behind-proxy")
        # requests go to the proxy from here on
        self.port, self.kind, self.own = port, kind, f"{room}/{kind}"
        try:
            self.begin(room, behind)
        except BaseException:
            self.kill()
            raise

    def begin(self, room, behind):
        os.makedirs(self.own)
        # nginx works as another user, if this one is root
        os.chmod(room, 0o755)
        with open(f"{self.own}/conf", "w", encoding="utf-8") as it:
            it.write(configured(self.kind, self.own, self.port, behind))
        words = {
            "caddy": ["run", "--config", f"{self.own}/conf", "--adapter", "caddyfile"],
            "nginx": ["-p", self.own, "-c", f"{self.own}/conf", "-g", "daemon off;"],
        }[self.kind]
        homes = {"HOME": self.own, "XDG_DATA_HOME": self.own, "XDG_CONFIG_HOME": self.own}
        self.log = open(f"{self.own}/log", "wb")
        self.proxy = subprocess.Popen(
            [command_of(self.kind), *words],
            env={**os.environ, **homes},
            stdin=subprocess.DEVNULL,
            stdout=self.log,
            stderr=self.log,
        )
        if not comes(self.answers, 120):
            self.proxy.kill()
            raise OSError(f"{self.kind} does not listen")

    def answers(self):
        with contextlib.suppress(OSError), socket.create_connection(("127.0.0.1", self.port), timeout=1):
            return True
        return False

    def ask(self, method, target, body=None, source="127.0.0.1", port=None, **fields):
        return super().ask(method, target, body, source, port, **{"Host": NAME, **({} if port else fields)})

    def __exit__(self, *rest):
        self.proxy.terminate()
        self.proxy.wait(60)
        self.log.close()
        super().__exit__(*rest)
