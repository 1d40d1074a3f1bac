"""The links of the worked cases: what each client sent and what it got, as they stand there and in the other byte order."""

import os

from explaining import Script
from scripts import read_script, read_transcript
from serving import ROOT
from wire import OTHER, ClientSide, ServerSide, turned
from worked_cases import octets_stated


def read(*names):
    with open(os.path.join(ROOT, *names), "rb") as file:
        return file.read()


def links_of_scripts():
    """What each link of the worked scripts sent and got."""
    folder = os.path.join(ROOT, "tests", "scripts")
    for inner, _, names in sorted(os.walk(folder)):
        for name in sorted(names):
            stem = os.path.join(inner, name.removesuffix(".transcript"))
            if name.endswith(".transcript"):
                script = Script(*read_script(read(stem + ".script")), read_transcript(read(stem + ".transcript")))
                for _ in script.lines():
                    pass
                for talk in script.talks:
                    yield os.path.relpath(stem, folder), talk.sent, talk.took


def links_of_tools():
    """The same of the worked runs of the tools."""
    folder = os.path.join(ROOT, "tests", "tools")
    for name in sorted(os.listdir(folder)):
        for server in ("server", "other"):
            if os.path.exists(os.path.join(folder, name, server + ".sent")):
                yield name, *(octets_stated(read(folder, name, server + end).decode()) for end in (".sent", ".gives"))


def items_of(sent, got):
    """What stands in the two directions of a link. The setup tells the order of the answers."""
    client = ClientSide()
    asked = client.feed(sent)
    return asked, ServerSide(client.order).feed(got)


def in_other_order(sent, got):
    """A link as it is in the other order, up to what is bad in it. Where its setup is bad already, nothing is left."""
    client = ClientSide()
    asked = well_formed(client.feed(sent))
    if not asked:
        return b"", b""
    answers = well_formed(ServerSide(client.order).feed(got))
    return tuple(b"".join(turned(item, OTHER[client.order]) for item in items) for items in (asked, answers))


def well_formed(items):
    return [item for item in items if item.kind not in ("bad", "after")]
