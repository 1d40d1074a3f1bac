"""The page of contrib/audiofile-status as the trials of tools/try-status start it, what they ask it, and servers that lie."""

import contextlib
import http.client
import json
import os
import re
import select
import socket
import subprocess
import sys
import threading

import cards
from cards import Watched, wait_for, waited
from serving import ROOT

PROGRAM = os.path.join(ROOT, "contrib", "audiofile-status")
# how long the page may take to begin, and to answer, in seconds
BEGINS, ANSWERS = 15, 10
RATE = 8000


class Trial(cards.Trial):
    tool = "try-status"
    # the pages and the browsers, which note for how many seconds they had to wait for a processor
    others = []

    def starved(self):
        return super().starved() + sum(each.starved for each in self.others)


class Page:
    """The page of some servers, at a free port of the loopback. Used with `with`, it is ended at the end."""

    def __init__(self, *servers, journal=(), **environment):
        kept = {name: value for name, value in os.environ.items() if name != "AUDIOFILE_SERVER"}
        words = ["--listen=127.0.0.1:0", *("--journal=%s" % each for each in journal), *servers]
        self.process = subprocess.Popen(
            [sys.executable, PROGRAM, *words], stdin=subprocess.DEVNULL, stdout=subprocess.PIPE, stderr=subprocess.PIPE,
            env={**kept, **environment})
        self.starved = 0
        Trial.others.append(self)
        try:
            self.url, self.place = self.begun()
        except BaseException:
            self.end()
            raise

    def begun(self):
        """Waits until it says where it is: its address as a browser has it, and as a socket has it."""
        ready = select.select([self.process.stdout], [], [], BEGINS)[0]
        line = self.process.stdout.readline().decode() if ready else ""
        place = re.fullmatch(r"(http://(127\.0\.0\.1):(\d+)/)\n", line)
        if not place:
            raise OSError("the page does not begin: %r" % line)
        return place[1], (place[2], int(place[3]))

    def __enter__(self):
        return self

    def __exit__(self, *_):
        self.end()

    def end(self):
        self.starved = waited(self.process.pid) or self.starved
        self.process.kill()
        self.process.communicate()

    def ask(self, path, method="GET", **headers):
        """The status, the header and the body of an answer."""
        link = http.client.HTTPConnection(*self.place, timeout=ANSWERS)
        with contextlib.closing(link):
            link.request(method, path, headers=headers)
            answer = link.getresponse()
            return answer.status, answer.headers, answer.read()

    def raw(self, octets):
        """What is answered to these bytes, up to the end of the connection."""
        with socket.create_connection(self.place, ANSWERS) as link:
            link.sendall(octets)
            said = b""
            while piece := link.recv(65536):
                said += piece
            return said

    def servers(self):
        return json.loads(self.ask("/status.json")[2])["servers"]

    def becomes(self, is_so, number=0, seconds=10):
        """Waits until a server is shown so. Whether it is."""
        return wait_for(lambda: is_so(self.servers()[number]), seconds)

    def is_up(self, number=0, seconds=10):
        return self.becomes(lambda server: server["is_up"], number, seconds)

    def ended(self):
        """Whether it ran until now, and said nothing on standard error."""
        runs = self.process.poll() is None
        self.starved = waited(self.process.pid)
        self.process.terminate()
        said = self.process.communicate(timeout=10)[1]
        return runs and said == b"" and self.process.returncode == 143


class Returned(Watched):
    """A server at the address that another one had."""

    def __init__(self, afd, folder, devices, address):
        self.asked = address
        super().__init__(afd, folder, devices)

    def starts(self, words, cwd, folder, devices, patience):
        self.address, self.folder, self.said = self.asked, folder, None
        self.process = subprocess.Popen(
            [*words, "serve", self.address, "1000000000000"], stdin=subprocess.PIPE, stdout=subprocess.DEVNULL,
            stderr=subprocess.DEVNULL, cwd=cwd)
        self.process.stdin.write("".join(line + "\n" for line in devices).encode())
        self.process.stdin.close()
        return self.listens(patience)

    def end(self):
        self.process.kill()
        self.process.wait(20)
        return True


class Liar(threading.Thread):
    """What listens as a server does, and answers what it likes: to a setup these bytes, to each request after it those. It may
    answer without an end, or end the link after the setup."""

    def __init__(self, setup=b"", answer=None, is_endless=False, is_short=False):
        super().__init__(daemon=True)
        self.setup, self.answer, self.is_endless, self.is_short = setup, answer, is_endless, is_short
        self.listener = socket.create_server(("127.0.0.1", 0))
        self.address = "127.0.0.1:%d" % self.listener.getsockname()[1]
        self.start()

    def run(self):
        while True:
            link, _ = self.listener.accept()
            threading.Thread(target=self.talk, args=(link,), daemon=True).start()

    def talk(self, link):
        with link, contextlib.suppress(OSError):
            link.recv(8)
            link.sendall(self.setup)
            number = 0
            while not self.is_short and (request := link.recv(65536)):
                number += 1
                if self.answer:
                    link.sendall(self.answer(number, request[0]))
                while self.is_endless:
                    link.sendall(self.answer(number, request[0]))
