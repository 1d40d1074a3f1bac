"""The page of contrib/audiofile-status in a browser: bars that move and stand, a server that goes and comes back, and what is
heard."""

import tempfile
import threading
import time

from browser import Browser
from cards import audiofile, wait_for
from sounds import tone
from status_page import RATE, Page, Returned
from two_channels import big_endian

# a device that captures what it plays, and one that captures silence
DEVICES = ["device lin16 8000 0 files loop loop", "device mu255 8000 0 line silent"]
# the widths of bars, in hundredths of their room, and the numbers beside them
BARS = "return [...document.querySelectorAll('.bar')].map(it => parseFloat(it.style.width || '0'))"
TEXTS = "return [...document.querySelectorAll('.level output')].map(it => it.textContent)"
STATE = "return document.querySelector('.server') && document.querySelector('.server').dataset.state"
TOLD = "return document.querySelector('.told').textContent"
# notes each piece of sound that the page plays: its frames, its greatest sample and when it is due
NOTES = """
window.played = [];
const start = AudioBufferSourceNode.prototype.start;
AudioBufferSourceNode.prototype.start = function (at) {
  const samples = this.buffer.getChannelData(0);
  window.played.push([samples.length, samples.reduce((most, it) => Math.max(most, Math.abs(it)), 0), at, this.context.state,
    this.context.currentTime]);
  return start.call(this, at);
};"""
SCREEN = (360, 740)


def rising_and_falling(seconds):
    """A tone whose level changes all the time, in linear samples."""
    frames = tone(RATE * seconds, 440)
    return big_endian([frame * (at % RATE) // RATE for at, frame in enumerate(frames)])


class Player(threading.Thread):
    """Plays a tone for so many seconds."""

    def __init__(self, address, seconds):
        super().__init__(daemon=True)
        self.address, self.seconds = address, seconds
        self.start()

    def run(self):
        with audiofile.connect(self.address, timeout=20) as client:
            client.play(0, rising_and_falling(self.seconds), lead=0.3)


def served(trial):
    """A server whose first device captures what it plays."""
    folder = tempfile.mkdtemp(dir=trial.folder)
    trial.file(folder, "loop", b"")
    return trial.serve(*DEVICES, folder=folder)


def seen(browser, script, seconds):
    """What a script returns, as often as can be, for so many seconds."""
    found, until = [], time.monotonic() + seconds
    while time.monotonic() < until:
        found.append(browser.run(script))
        time.sleep(0.05)
    return found


def in_a_browser(trial):
    """The page, from silence over a tone to the end of its server, and back."""
    server = served(trial)
    with server, Page(server.address, "no-such-host.invalid:1701") as page, Browser(1200, 800) as browser:
        trial.others.append(browser)
        trial.holds("the server is there", page.is_up())
        browser.open(page.url)
        trial.holds("the server is shown", wait_for(lambda: browser.run(STATE) == "up"))
        bars_move(trial, browser, server)
        is_heard(trial, browser, server)
        server.end()
        trial.holds("a server that ends is shown as gone", wait_for(lambda: browser.run(STATE) == "gone"))
        shade = browser.run("return getComputedStyle(document.querySelector('.device')).filter")
        trial.holds("and is grey: %s" % shade, shade == "grayscale(1)")
        text = browser.run("return document.querySelector('.state').textContent")
        trial.holds("which a word says: %s" % text, text.startswith("gone since "))
        trial.holds("none listens to it", browser.run("return document.querySelector('button').disabled"))
        with Returned(trial.afd, server.folder, DEVICES, server.address):
            trial.holds("it comes back", wait_for(lambda: browser.run(STATE) == "up"))
            shade = browser.run("return getComputedStyle(document.querySelector('.device')).filter")
            trial.holds("and is grey no more: %s" % shade, shade == "none")
            on_a_telephone(trial, browser, page)
        complaints = browser.complaints()
        trial.holds("the console says nothing: %s" % complaints, complaints == [])
        trial.holds("the page ends, and says nothing", page.ended())


def bars_move(trial, browser, server):
    """Bars stand while nothing plays, move while a tone does, and stand again."""
    quiet = seen(browser, BARS, 0.6)
    trial.holds("bars stand in silence: %s" % quiet, all(it == [0, 0] for it in quiet))
    trial.holds("which a word says", browser.run(TEXTS) == ["silent", "silent"])
    player = Player(server.address, 3)
    trial.holds("a bar moves as a tone plays", wait_for(lambda: browser.run(BARS)[0] > 0))
    loud = seen(browser, BARS, 1.5)
    trial.holds("to several places: %s" % loud, len({it[0] for it in loud}) > 4 and max(it[0] for it in loud) > 50)
    trial.holds("the other one stands", all(it[1] == 0 for it in loud))
    player.join()
    trial.holds("it stands after it", wait_for(lambda: browser.run(BARS) == [0, 0]))


def is_heard(trial, browser, server):
    """Listen plays the sound of the device, without a gap between its pieces, and Stop ends it."""
    browser.run(NOTES)
    player = Player(server.address, 3)
    browser.click("button")
    trial.holds("it plays", wait_for(lambda: browser.run(TOLD).startswith("plays")))
    trial.holds("sound is heard", wait_for(lambda: browser.run("return window.played.some(it => it[1] > 0.05)")))
    player.join()
    browser.click("button")
    played = browser.run("return window.played")
    trial.holds("the clock of the browser goes on", played[-1][4] > played[0][4] and played[-1][3] == "running")
    trial.holds("none is played before it is due", all(due >= now for _, _, due, _, now in played))
    gaps = [abs(after[2] - before[2] - before[0] / RATE) > 1e-6 for before, after in zip(played, played[1:])]
    trial.holds("pieces touch: %d of %d do not" % (sum(gaps), len(gaps)), sum(gaps) <= len(gaps) // 4)
    trial.holds("it stops", browser.run("return document.querySelector('button').textContent") == "Listen")
    count = browser.run("return window.played.length")
    time.sleep(0.3)
    trial.holds("nothing is played then", browser.run("return window.played.length") == count)


def on_a_telephone(trial, browser, page):
    """Nothing is wider than the screen of a telephone, and a thumb hits the button."""
    browser.be_telephone(*SCREEN)
    browser.open(page.url)
    trial.holds("the server is shown on a telephone", wait_for(lambda: browser.run(STATE) == "up"))
    width = browser.run("return [document.documentElement.scrollWidth, innerWidth]")
    trial.holds("nothing is wider than the screen: %s" % width, width == [SCREEN[0], SCREEN[0]])
    height = browser.run("return document.querySelector('button').getBoundingClientRect().height")
    trial.holds("the button is as high as a thumb is wide: %s" % height, height >= 40)
    names = browser.run("return [...document.querySelectorAll('[role=meter]')].map(it => it.getAttribute('aria-valuenow'))")
    trial.holds("a reader of screens is told the levels: %s" % names, names == ["-60", "-60"])
