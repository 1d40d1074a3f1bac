"""A telephone line that does what it is told, in place of a real one: the program of a line, for tools/try-phone.

    python3 phone.py NAME [OPTION ..]

It writes what comes at the socket NAME.says in the folder in which it runs, byte for byte and each message at once. At an empty
one it ends, and at one that says `flood` it writes digits without an end. With the option `stays` the first start reads nothing,
and does not go at its end.

NAME.told.K has what the start K did, the first being 0, each with its moment: its process, the bytes that it gave in hexadecimal
digits, each line that it was handed, and its end.
"""

import os
import select
import signal
import socket
import sys
import time

from card_program import started

MOST = 65536
FLOOD = b"flood"


class Phone:
    def __init__(self, name, options):
        self.name, self.start, self.rest = name, 0, b""
        while True:
            try:
                self.told = os.open("%s.told.%d" % (name, self.start), os.O_CREAT | os.O_EXCL | os.O_WRONLY)
                break
            except FileExistsError:
                self.start += 1
        self.stays = "stays" in options and self.start == 0
        self.says = socket.socket(socket.AF_UNIX, socket.SOCK_DGRAM)
        # the trial talks to the last start
        path = "%s.says" % name
        if os.path.exists(path):
            os.unlink(path)
        self.says.bind(path)
        self.tell("process %d" % os.getpid(), started())

    def tell(self, what, moment=None):
        os.write(self.told, b"%.6f %s\n" % (moment or time.monotonic(), what.encode()))

    def give(self, octets):
        self.tell("gave " + octets.hex())
        while octets:
            octets = octets[os.write(1, octets):]

    def flood(self):
        octets = 1000 * b"digit 1\n"
        self.tell("floods")
        while True:
            os.write(1, octets)

    def take(self):
        """Takes what it is handed. Whether there may be more."""
        piece = os.read(0, MOST)
        *lines, self.rest = (self.rest + piece).split(b"\n")
        for line in lines:
            self.tell("handed " + line.decode())
        return bool(piece)

    def run(self):
        links = [self.says] if self.stays else [self.says, 0]
        while True:
            ready = select.select(links, [], [])[0]
            if 0 in ready and not self.take():
                return
            if self.says in ready:
                octets = self.says.recv(MOST)
                if not octets:
                    return
                if octets == FLOOD:
                    self.flood()
                self.give(octets)


def main():
    name, *options = sys.argv[1:]
    phone = Phone(name, options)
    if phone.stays:
        signal.signal(signal.SIGTERM, signal.SIG_IGN)
        # it is not to be there for ever if nobody kills it
        signal.alarm(30)
    try:
        phone.run()
    except OSError:
        phone.tell("nobody takes")
    phone.tell("ends")
    os._exit(0)


if __name__ == "__main__":
    main()
