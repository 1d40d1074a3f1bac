"""What is known of servers, in the text format of Prometheus (version 0.0.4). A part of contrib/audiofile-status."""


class Metrics:
    """Families of figures, each with its help, its type and its rows."""

    def __init__(self):
        self.families = {}

    def add(self, name, kind, text, value, **labels):
        head = "# HELP audiofile_%s %s\n# TYPE audiofile_%s %s\n" % (name, text, name, kind)
        stated = ",".join('%s="%s"' % (label, escaped(str(it))) for label, it in labels.items())
        self.families.setdefault(head, []).append("audiofile_%s{%s} %s\n" % (name, stated, repr(float(value))))

    def text(self):
        return "".join(head + "".join(rows) for head, rows in self.families.items())


def escaped(text):
    return text.replace("\\", "\\\\").replace('"', '\\"').replace("\n", "\\n")


def metrics(servers):
    """The figures of all servers. Those of the devices of a server that is gone are left out."""
    found = Metrics()
    for server in servers:
        labels = {"server": server["address"]}
        found.add("up", "gauge", "Whether the server answers.", server["is_up"], **labels)
        found.add("gone_total", "counter", "How often the server went away.", server["times_gone"], **labels)
        if server["journal"]:
            add_journal(found, server["journal"], labels)
        for device in server["devices"] if server["is_up"] else ():
            add_device(found, device, {**labels, "device": device["number"]})
    return found.text()


def add_journal(found, journal, labels):
    found.add("connections", "gauge", "Connections of the server, by its log.", len(journal["connections"]), **labels)
    found.add("turned_away_total", "counter", "Connections that found no place, by the log.", journal["turned_away"], **labels)
    found.add("log_lines_left_out_total", "counter", "Lines that the log left out.", journal["lines_left_out"], **labels)


def add_device(found, device, labels):
    stated = {"type": device["type"], "rate": device["rate"], "channels": device["channels"]}
    found.add("device_info", "gauge", "Type, rate and channels of a device.", 1, **labels, **stated)
    found.add("device_time", "gauge", "Time of the device in frames, which wraps at 2^32.", device["time"], **labels)
    found.add("frames_total", "counter", "Frames that went by since the device is watched.", device["frames"], **labels)
    for channel, peak in enumerate(device["captured"]["peaks_of_minute"]):
        text = "Greatest captured sample of the last minute, 32768 for full scale."
        found.add("captured_peak", "gauge", text, peak, **labels, channel=channel)
    if device["drift"]:
        found.add("drift_millionths", "gauge", "By how much the device is faster.", device["drift"]["millionths"], **labels)
        found.add("drift_error_millionths", "gauge", "How far the drift may be wrong.", device["drift"]["error"], **labels)
    for name, value in device["controls"].items():
        unit = "_decibels" if name.endswith("gain") else ""
        found.add(name + unit, "gauge", "The control of the device.", value, **labels)
    for name, value in (device["line"] or {}).items():
        found.add("line_" + name, "gauge", "The flag of the telephone line.", value, **labels)
    found.add("listeners", "gauge", "Browsers that listen to the device by this page.", device["listeners"], **labels)
    if device["lost"]:
        found.add("lost_frames_total", "counter", "Frames that were lost, by the log.", device["lost"]["frames"], **labels)
        found.add("failed", "gauge", "Whether the device is dead, by the log.", device["failed"] is not None, **labels)
