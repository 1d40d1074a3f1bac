"""A script and its transcript side by side, and the two directions of a link, line by line in words.

A transcript does not say in which turn a line of it happened. Each line is given to the first step that may have caused it. A
sound goes to the tick that hands it out. A reply goes to a turn after its request, and not before the time that it states. An
event goes to a turn after its change, and the end of a link to one after its cause.
"""

import bisect
from dataclasses import dataclass, field

from scripts import WORD
from wire import EVENTS, ClientSide, ServerSide
from wire_words import Contexts, counted, heard, time_after, words_of_message, words_of_request

KINDS = {name: bit for bit, name in EVENTS.items()}
# with more than this to send, an event drops a link
MOST_UNSENT = 49152
HALF = WORD // 2
SAID = ("reply", "error", "event")
CLOSED = {
    "setup": "a bad setup", "malformed": "a malformed frame", "ended": "its client has no more to send", "fault": "a read or a write failed",
    "overrun": "more events than there is room for",
}


@dataclass
class Asked:
    """A request, and what its context was: the device and the format of its sound."""

    item: object
    device: int | None
    form: object


class Conversation:
    """A link from its setup on. Where the answers are known from the start, what is refused changes no context."""

    def __init__(self, answers=b""):
        self.client, self.server = ClientSide(), ServerSide()
        self.sent = self.took = b""
        self.contexts = Contexts()
        self.asked = {}
        self.count = self.answered = 0
        self.answers = answers
        self.messages, self.ends, self.refused = [], [], set()

    def set_order(self, order):
        """The setup tells the order of the answers."""
        self.server.order = order
        number = end = 0
        for item in ServerSide(order).feed(self.answers):
            number = unwrapped(item.number, number)
            end += len(item.octets)
            self.messages.append((number, item))
            self.ends.append(end)
        self.refused = {number for number, item in self.messages if item.kind == "error"}

    def within(self, count):
        """The messages, with their numbers, of which some part is in the next so many bytes that the client takes, and whether
        the last of them is whole then."""
        last = len(self.took) + count
        place = bisect.bisect_left(self.ends, last)
        begun = self.messages[bisect.bisect_right(self.ends, len(self.took)):place + 1]
        return begun, place < len(self.ends) and self.ends[place] == last

    def sends(self, octets):
        """The words for each thing that is whole with these bytes, each with its number, and for what is not whole."""
        self.sent += octets
        items = self.client.feed(octets)
        if items and self.server.order is None:
            self.set_order(self.client.order)
        for item in items:
            if item.kind == "request":
                self.count += 1
                context = self.contexts.of(item)
                self.asked[self.count] = Asked(item, context.device, context.form)
            yield self.count, words_of_request(item, self.contexts)
            if item.kind == "request" and self.count not in self.refused:
                self.contexts.done(item)

    def takes(self, octets):
        """The words for each message that is whole with these bytes."""
        self.took += octets
        return [self.said(item) for item in self.server.feed(octets)]

    def said(self, item):
        """The words for a message."""
        asked = None
        if item.kind in ("reply", "error"):
            self.answered = unwrapped(item.number, self.answered)
            asked = self.asked.get(self.answered)
        if asked and item.kind == "reply" and asked.item.name != item.name:
            return "bad: a reply to %s, but request %d is %s" % (item.name, item.number, asked.item.name)
        return words_of_message(item, asked.form if asked else None) + self.late(item, asked)

    @staticmethod
    def late(item, asked):
        """What is said of a play some frames of which had come too late, by the time of its reply."""
        if not asked or item.kind != "reply" or item.name != "Play":
            return ""
        frames = len(asked.item.data) // asked.form.frame() if asked.form else HALF
        late = (item.fields["time"] - asked.item.fields["time"]) % WORD
        return ", %s too late to be heard" % counted(min(late, frames), "frame") if 0 < late < HALF and frames else ""

    def unfinished(self):
        """What is left of a request, and of a message, that never became whole."""
        if self.client.rest:
            yield "> %s of a %s that is not whole" % (counted(len(self.client.rest), "byte"), "request" if self.client.is_set_up else "setup")
        if self.server.rest:
            yield "< %s of a message that is not whole" % counted(len(self.server.rest), "byte")


def unwrapped(number, last):
    """The nearest number after the last that has these 16 bits."""
    return last + (number - last) % 65536


@dataclass
class Link:
    """A link of a script: how much its client still takes (None: all), what is stated of it, and how many events it was told."""

    talk: Conversation
    room: int | None = None
    stated: set = field(default_factory=set)
    told: int = 0


@dataclass
class Played:
    """A device of a script as time goes by."""

    device: object
    now: int
    is_dead: bool = False


class Script:
    """A script with its transcript, or None. `lines` gives the words, `astray` counts lines that no step explains."""

    def __init__(self, devices, steps, transcript=None):
        self.devices = [Played(device, device.start) for device in devices]
        self.steps = steps
        self.transcript = transcript
        self.at = 0
        self.astray = 0
        self.links = {}
        self.talks = []
        self.changes = []
        self.hooks = set()
        self.answers = self.sessions()

    def sessions(self):
        """What each link took, from an opening to the next close."""
        taken = {}
        for line in self.transcript or []:
            pieces = taken.setdefault(line.of, [b""])
            if line.name == "link":
                pieces[-1] += line.said
            elif line.name == "closed":
                pieces.append(b"")
        return taken

    def lines(self):
        for number, played in enumerate(self.devices):
            device = played.device
            line = " with a telephone line" if device.has_line else ""
            yield "device %d: %s at %d%s, time begins at %d" % (number, device.form, device.rate, line, device.start)
        for step in self.steps:
            yield from getattr(self, "step_" + step.name)(step)
            yield from self.turn(step)
        while self.next():
            self.astray += 1
            yield from self.happened(self.taken())
        for number, link in sorted(self.links.items()):
            for words in link.talk.unfinished():
                yield "link %d %s" % (number, words)

    # the steps

    def step_open(self, step):
        if step.of in self.links:
            yield "link %d: is open already" % step.of
            return
        answers = self.answers.get(step.of)
        link = self.links[step.of] = Link(Conversation(answers.pop(0) if answers else b""))
        self.talks.append(link.talk)
        yield "link %d: opened" % step.of

    def step_send(self, step):
        link = self.links.get(step.of)
        if link is None:
            yield "link %d > %s, which are gone: it is not open" % (step.of, counted(len(step.octets), "byte"))
            return
        for number, words in link.talk.sends(step.octets):
            yield "link %d > %s" % (step.of, words)
            if number and link.talk.asked[number].item.name == "HookSwitch":
                asked = link.talk.asked[number].item.fields
                self.hooks.add((asked["device"], asked["off"]))
        left = len(link.talk.client.rest)
        if left:
            yield "link %d > %s of a %s that is not whole yet" % (step.of, counted(left, "byte"), "request" if link.talk.client.is_set_up else "setup")

    def stated(self, step, words):
        """Something is stated of a link."""
        link = self.links.get(step.of)
        if link is None:
            return "link %d: %s (it is not open: nothing comes of that)" % (step.of, words)
        link.stated.add(step.name)
        return "link %d: %s" % (step.of, words)

    def step_end(self, step):
        yield self.stated(step, "its client has no more to send")

    def step_failread(self, step):
        yield self.stated(step, "its next read is to fail")

    def step_failwrite(self, step):
        yield self.stated(step, "its next write is to fail")

    def step_room(self, step):
        yield self.stated(step, "takes all" if step.value is None else "takes %s more" % counted(step.value, "byte"))
        if step.of in self.links:
            self.links[step.of].room = step.value

    def step_failcapture(self, step):
        yield "device %d: its next capture is to fail" % step.of

    def step_failemit(self, step):
        yield "device %d: its next sound is to fail to be handed out" % step.of

    def step_failhook(self, step):
        yield "device %d: the next hook that its line is given is to fail" % step.of

    def step_idle(self, step):
        yield "idle"

    def change(self, device, kind, value):
        """A line changed, at the time of its device."""
        self.changes.append((device, kind, value, self.devices[device].now))

    def step_ring(self, step):
        self.change(step.of, "Ring", int(step.value))
        yield "device %d: ringing %s" % (step.of, "begins" if step.value else "ends")

    def step_loop(self, step):
        self.change(step.of, "Current", int(step.value))
        yield "device %d: current in the loop %s" % (step.of, "begins" if step.value else "ends")

    def step_digit(self, step):
        self.change(step.of, "Digit", ord(step.value))
        yield "device %d: digit %s is dialled" % (step.of, step.value)

    def step_tick(self, step):
        played = self.devices[step.of]
        since, form = played.now, played.device.form
        frames = counted(step.value, "frame")
        if step.octets and not played.is_dead:
            yield "device %d: %s captured from %d on, %s" % (step.of, frames, since, heard(form, step.octets, since))
        if self.transcript is None or played.is_dead:
            yield "device %d: %s go by from %d on%s" % (step.of, frames, since, ", unheard: it is dead" if played.is_dead else "")
        else:
            yield from self.ticked(step, played)
        played.now = time_after(since, step.value)

    def ticked(self, step, played):
        """What came of a tick of a live device: its line, and those before it that no step before explained."""
        place = next((at for at in range(self.at, len(self.transcript)) if self.ends_tick(self.transcript[at], step.of)), None)
        if place is None:
            yield "device %d: %s go by from %d on" % (step.of, counted(step.value, "frame"), played.now)
            return
        while self.at < place:
            self.astray += 1
            yield from self.happened(self.taken())
        line = self.taken()
        if line.said == "failed":
            played.is_dead = True
            what = "handed out" if line.name == "emit" else "captured"
            yield "device %d: %s from %d on could not be %s: it is dead" % (step.of, counted(step.value, "frame"), played.now, what)
        else:
            loud = heard(played.device.form, line.said, played.now)
            yield "device %d: %s handed out from %d on, %s" % (step.of, counted(step.value, "frame"), played.now, loud)

    @staticmethod
    def ends_tick(line, device):
        return line.of == device and line.name in ("emit", "capture")

    # the lines of the transcript

    def next(self):
        return self.transcript[self.at] if self.transcript and self.at < len(self.transcript) else None

    def taken(self):
        self.at += 1
        return self.transcript[self.at - 1]

    def turn(self, step):
        """What happened in the turn of a step: what its links did, by rising number, and then its hooks."""
        last = 0
        while (line := self.next()) and line.name in ("link", "read", "write", "closed") and line.of >= last and self.may_be(line, step):
            last = line.of
            yield from self.happened(self.taken())
        last = 0
        while (line := self.next()) and line.name == "hook" and line.of >= last and self.is_wanted(line):
            last = line.of + 1
            yield from self.happened(self.taken())

    def may_be(self, line, step):
        """Whether a line of a link may have happened by now."""
        link = self.links.get(line.of)
        if link is None:
            return False
        if line.name == "link":
            return self.may_take(link, len(line.said))
        if line.name in ("read", "write"):
            return "fail" + line.name in link.stated
        if line.said == "ended":
            # the end is met in a later turn than the last bytes
            return "end" in link.stated and (step.name, step.of) != ("send", line.of)
        if line.said == "overrun":
            return self.unsent(link) > MOST_UNSENT
        return "fault" in link.stated if line.said == "fault" else link.talk.client.ended

    def unsent(self, link):
        """About how many bytes wait for a link: the events that are queued for it, and a header for each answer to come."""
        masks = {asked.device: asked.item.fields["mask"] for asked in link.talk.asked.values() if asked.item.name == "SelectEvents"}
        told = sum(1 for device, kind, _, _ in self.changes[link.told:] if KINDS[kind] & masks.get(device, 0))
        return 20 * told + 8 * (link.talk.count - link.talk.answered)

    def may_take(self, link, count):
        """Whether all messages of which a part is in so many bytes may have been said by now. What is not whole is cut off where
        the room ends."""
        messages, is_whole = link.talk.within(count)
        if link.room is not None and count > link.room or not is_whole and count != link.room:
            return False
        told = link.told
        for number, item in messages:
            if item.kind == "event":
                told = self.told(item, told)
            if told is None or item.kind in ("reply", "error") and not self.may_answer(link, item, number):
                return False
        return link.talk.client.is_set_up or link.talk.client.ended

    def may_answer(self, link, item, number):
        if number > link.talk.count or number == 0 and not (link.talk.client.is_set_up or link.talk.client.ended):
            return False
        device = link.talk.asked[number].device if number else None
        if device is None or "time" not in item.fields:
            return True
        return device < len(self.devices) and (self.devices[device].now - item.fields["time"]) % WORD < WORD // 2

    def told(self, item, told):
        """How many changes there were up to the one that an event reports, after those that were reported before."""
        wanted = (item.fields["device"], item.name, item.fields["value"], item.fields["time"])
        return next((at + 1 for at in range(told, len(self.changes)) if self.changes[at] == wanted), None)

    def is_wanted(self, line):
        """Whether some client has asked for the hook by now, where it is given one."""
        wanted = {"offhook": (1,), "onhook": (0,)}.get(line.said, (0, 1))
        return any((line.of, off) in self.hooks for off in wanted)

    def happened(self, line):
        """The words of a line of the transcript."""
        yield from getattr(self, "happened_" + line.name)(line)

    def happened_link(self, line):
        link = self.links.get(line.of)
        if link is None:
            yield "link %d < %s, and it is not open" % (line.of, counted(len(line.said), "byte"))
            return
        if link.room is not None:
            link.room -= len(line.said)
        for _, item in link.talk.within(len(line.said))[0]:
            if item.kind == "event":
                link.told = self.told(item, link.told) or link.told
        for words in link.talk.takes(line.said):
            yield "link %d < %s" % (line.of, words)
        left = len(link.talk.server.rest)
        if left:
            yield "link %d < %s of a message that is not whole yet" % (line.of, counted(left, "byte"))

    def happened_read(self, line):
        yield from self.failed(line, "failread")

    def happened_write(self, line):
        yield from self.failed(line, "failwrite")

    def failed(self, line, stated):
        if line.of in self.links:
            self.links[line.of].stated.discard(stated)
            self.links[line.of].stated.add("fault")
        yield "link %d: a %s failed" % (line.of, line.name)

    def happened_closed(self, line):
        link = self.links.pop(line.of, None)
        for words in link.talk.unfinished() if link else ():
            yield "link %d %s" % (line.of, words)
        yield "link %d: closed: %s" % (line.of, CLOSED[line.said])

    def happened_hook(self, line):
        if line.said == "failed":
            yield "device %d: its line could not be given a hook: the line is dead" % line.of
            return
        if line.of < len(self.devices):
            self.change(line.of, "Hook", int(line.said == "offhook"))
        yield "device %d: its line is given %s" % (line.of, {"offhook": "off hook", "onhook": "on hook"}[line.said])

    def happened_emit(self, line):
        said = "could not be handed out" if line.said == "failed" else "%s handed out" % counted(len(line.said), "byte")
        yield "device %d: %s, by no step" % (line.of, said)

    def happened_capture(self, line):
        yield "device %d: could not capture, by no step" % line.of


def link_lines(client, server):
    """A link whose bytes are known, in one direction or in both: each request, and then what was sent before the next."""
    talk = Conversation(server)
    sent = list(talk.sends(client))
    messages = talk.server.feed(server)
    place = 0
    for number, words in sent:
        yield "> " + words
        while place < len(messages) and messages[place].kind in SAID and unwrapped(messages[place].number, talk.answered) <= number:
            yield "< " + talk.said(messages[place])
            place += 1
    for item in messages[place:]:
        yield "< " + talk.said(item)
    yield from talk.unfinished()


def folded(lines):
    """Lines that follow each other and are alike as one."""
    last, times = None, 0
    for line in [*lines, None]:
        if line == last:
            times += 1
            continue
        if last is not None:
            yield last if times == 1 else "%s (%d times)" % (last, times)
        last, times = line, 1
