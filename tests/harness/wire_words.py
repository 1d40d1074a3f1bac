"""What stands on the wire, in words: one line for each thing that a client or a server sends."""

from dataclasses import dataclass, replace

from wire import BIG, CHANNELS, EVENTS, ORDER_NAMES, REQUESTS, TYPES, Format, levels

CONTROLS = ((1, "input_gain"), (2, "output_gain"), (4, "input_on"), (8, "output_on"))


def counted(number, word):
    return "%d %s%s" % (number, word, "" if number == 1 else "s")


def joined(*parts):
    return ", ".join(part for part in parts if part)


def heard(form, octets, first=None):
    """How loud sound is: its peak, of 16 bits, and where nothing but silence stands, if the time of the first frame is given."""
    # A-law has no 0: what silence is encoded as means 8
    rest = 8 if form.type == "alaw" else 0
    samples = levels(form.type, octets)
    sounding = [at // form.channels for at, sample in enumerate(samples) if sample != rest]
    if not sounding:
        return "silence"
    said = "peak %d" % max(abs(sample) for sample in samples)
    if first is None:
        return said
    before = "before %d" % time_after(first, sounding[0]) if sounding[0] else ""
    after = "from %d on" % time_after(first, sounding[-1] + 1) if sounding[-1] + 1 < len(octets) // form.frame() else ""
    edges = " and ".join(edge for edge in (before, after) if edge)
    return joined(said, edges and "silence " + edges)


def time_after(time, frames):
    return (time + frames) % (1 << 32)


def frames_of(form, count):
    """So many bytes as frames of a format, where that is known."""
    if form is None:
        return counted(count, "byte")
    if count % form.frame():
        return "%s, which are no whole frames of %s" % (counted(count, "byte"), form)
    return "%s %s" % (counted(count // form.frame(), "frame"), form)


def sound(form, octets):
    return joined(frames_of(form, len(octets)), heard(form, octets) if form and octets and len(octets) % form.frame() == 0 else "")


def gain(name, decibels):
    return "%s gain %d dB" % (name, decibels)


def flag(value, name):
    return name if value == 1 else "%s %d" % (name, value) if value else ""


def named_in(mask):
    return ", ".join(name for bit, name in EVENTS.items() if mask & bit) or "no events"


@dataclass(frozen=True)
class Context:
    """A context: its device, the format of its sound, and whether it preempts; or None for each that is not known."""

    device: int | None = None
    form: Format | None = None
    preempt: int | None = None


class Contexts:
    """The contexts of a link."""

    def __init__(self):
        self.known = {}

    def done(self, item):
        """A request was accepted."""
        fields = item.fields
        if item.name == "CreateAC":
            is_known = fields["type"] < len(TYPES) and fields["channels"] in CHANNELS
            form = Format(TYPES[fields["type"]], fields["channels"]) if is_known else None
            self.known[fields["context"]] = Context(fields["device"], form, fields["preempt"])
        elif item.name == "ChangeAC" and fields["mask"] & 4 and fields["context"] in self.known:
            self.known[fields["context"]] = replace(self.known[fields["context"]], preempt=fields["preempt"])
        elif item.name == "FreeAC":
            self.known.pop(fields["context"], None)

    def of(self, item):
        """The context that a request names. If it is unknown, or there is none, only the device of the request is known."""
        return self.known.get(item.fields.get("context"), Context(item.fields.get("device")))


def words_of_request(item, contexts):
    """What a client sends. The contexts are those that the link has when it is performed."""
    if item.kind == "setup":
        order = item.fields["order"]
        return joined("setup, version %d.%d" % (item.fields["major"], item.fields["minor"]), order != ORDER_NAMES[BIG] and order)
    if item.kind == "bad":
        return "malformed: %s, beginning with %s" % (item.name, item.octets.hex())
    if item.kind == "after":
        return "%s after that, not read" % counted(len(item.octets), "byte")
    return "%s (request %d)" % (ASKED[item.name](item, contexts), item.number)


def create_words(item, _):
    asked = item.fields
    kind = TYPES[asked["type"]] if asked["type"] < len(TYPES) else "sample type %d" % asked["type"]
    return "CreateAC context %d on device %d: %s" % (asked["context"], asked["device"], joined(
        kind, asked["channels"] != 1 and "%d channels" % asked["channels"], flag(asked["preempt"], "preempt"),
        asked["play_gain"] and gain("play", asked["play_gain"]), asked["record_gain"] and gain("record", asked["record_gain"])))


def change_words(item, _):
    asked, mask = item.fields, item.fields["mask"]
    preempt = {0: "mix", 1: "preempt"}.get(asked["preempt"], "preempt %d" % asked["preempt"])
    changes = joined(mask & 1 and gain("play", asked["play_gain"]), mask & 2 and gain("record", asked["record_gain"]), mask & 4 and preempt)
    return "ChangeAC context %d: %s" % (asked["context"], changes or "nothing")


def play_words(item, contexts):
    asked = item.fields
    context = contexts.of(item)
    loud = sound(context.form, item.data).partition(", ")
    return "Play context %d at %d, %s" % (asked["context"], asked["time"], joined(
        loud[0], context.preempt and "preempt", loud[2], asked["quiet"] & 1 and "no reply wanted"))


def record_words(item, contexts):
    asked = item.fields
    return "Record context %d at %d, %s" % (asked["context"], asked["time"], joined(
        frames_of(contexts.of(item).form, asked["count"]), asked["waits"] & 1 and "waits for all"))


def controls_words(item, _):
    asked = item.fields
    said = [controls_word(name, asked[name]) for bit, name in CONTROLS if asked["mask"] & bit]
    return "SetControls of device %d: %s" % (asked["device"], joined(*said) or "nothing")


def controls_word(name, value):
    side, what = name.split("_")
    return gain(side, value) if what == "gain" else "%s %s" % (side, {0: "off", 1: "on"}.get(value, value))


def hook_words(item, _):
    off = item.fields["off"]
    return "HookSwitch of device %d: %s" % (item.fields["device"], {0: "on hook", 1: "off hook"}.get(off, "off %d" % off))


def of_device(item, _):
    return "%s of device %d" % (item.name, item.fields["device"])


ASKED = {
    "NoOp": lambda item, _: "NoOp",
    "GetTime": of_device,
    "CreateAC": create_words,
    "ChangeAC": change_words,
    "FreeAC": lambda item, _: "FreeAC context %d" % item.fields["context"],
    "Play": play_words,
    "Record": record_words,
    "SelectEvents": lambda item, _: "%s: %s" % (of_device(item, _), named_in(item.fields["mask"])),
    "SetControls": controls_words,
    "QueryControls": of_device,
    "HookSwitch": hook_words,
    "QueryPhone": of_device,
}


def words_of_message(item, form=None):
    """What a server sends. The format is that of the context which a Record named, where that is known."""
    fields = item.fields
    if item.kind == "bad":
        return "bad: %s, beginning with %s" % (item.name, item.octets.hex())
    if item.kind == "after":
        return "%s after that, not read" % counted(len(item.octets), "byte")
    if item.kind == "event":
        return "event %s of device %d at %d: %s" % (item.name, fields["device"], fields["time"], value_of_event(item))
    if item.kind == "error":
        return "error to %s: %s, value %d" % (numbered(opcode_name(fields["opcode"]), item.number), item.name, fields["value"])
    return "reply to %s: %s" % (numbered(item.name, item.number), answer_words(item, form))


def value_of_event(item):
    value = item.fields["value"]
    if item.name == "Digit":
        return chr(value) if 32 < value < 127 else "a character of code %d" % value
    return {"Hook": ("on hook", "off hook")}.get(item.name, ("it ends", "it begins"))[value]


def opcode_name(opcode):
    if opcode == 0:
        return "setup"
    return REQUESTS[opcode].name if opcode in REQUESTS else "opcode %d" % opcode


def numbered(name, number):
    return name if name == "setup" and number == 0 else "%s %d" % (name, number)


def answer_words(item, form):
    """The body of a reply."""
    fields = item.fields
    if item.name == "setup":
        devices = fields["devices"]
        return "version %d.%d, %s: %s" % (fields["major"], fields["minor"], counted(len(devices), "device"), ", ".join(map(device_words, devices)))
    if item.name in ("GetTime", "Play"):
        return "device time %d" % fields["time"]
    if item.name == "Record":
        return "device time %d, %s" % (fields["time"], sound(form, item.data))
    if item.name == "QueryControls":
        return joined(*(controls_word(name, fields[name]) for _, name in CONTROLS))
    if item.name == "QueryPhone":
        hooks = ["%s %s hook" % (name, "off" if fields[name] else "on") for name in ("wanted", "given")]
        return joined(*hooks, fields["ringing"] and "rings", fields["current"] and "current flows", fields["dead"] and "the line is dead")
    return "done"


def device_words(device):
    form = Format(device["type"], device["channels"])
    return "%s at %d%s" % (form, device["rate"], " with a telephone line" if device["has_line"] else "")
