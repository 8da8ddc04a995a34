#!/usr/bin/env python3
"""Draws a transcript of `mdnsd script` as one page that a browser shows, for whoever would rather look than read.

    contrib/timeline.py [TRANSCRIPT] > PAGE.html
    contrib/timeline.py --svg [TRANSCRIPT] > PICTURE.svg

TRANSCRIPT is a file, or standard input; with --svg the picture alone is written, without the key to its colours. Time goes to the
right; long waits are drawn shorter than they were, and the moments stand at the top, in milliseconds. There is a lane for the link,
for each daemon, and for each session of a daemon. Arrows are packets (link to daemon: heard; daemon to link: sent), calls (session to
daemon), and what a session is given (daemon to session). Point at an arrow or a dot to read it whole. The page holds all that it
needs. It ends with 1 where a line is none of a transcript.
"""
import html
import math
import re
import sys

HEAD = re.compile(r"@(\d+) d(\d+) w(\d+) (.+)")
LANE, TOP, LEFT = 56, 46, 150
COLOURS = {"heard": "#2b6cb0", "sent": "#c05621", "call": "#6b46c1", "add": "#2f855a", "rem": "#c53030", "reply": "#718096", "mark": "#b7791f"}


class BadTranscript(Exception):
    """A line is none of a transcript."""


class Entry:
    """One entry: its moment, daemon, event, and the lines below its head by what they say."""

    def __init__(self, moment, daemon, event):
        self.moment, self.daemon, self.event = moment, daemon, event
        self.marks, self.sent, self.given, self.outcome = [], [], [], []


def put_line(entry, line):
    """Puts a line below a head to where it belongs."""
    if line.startswith(" ! "):
        entry.marks.append(line[3:])
    elif line.startswith(" > "):
        entry.sent.append([line[3:]])
    elif line.startswith((" < ", " = ")):
        (entry.given if line[1] == "<" else entry.outcome).append(line[3:])
    elif line.startswith(("  ? ", "  a ", "  n ", "  x ")) and entry.sent:
        entry.sent[-1].append(line[2:])
    elif line.startswith("  ") and entry.outcome:
        entry.outcome.append(line[2:])
    else:
        raise BadTranscript(line)


def entries(lines):
    """The entries of a transcript. A last line that says which line of the script is bad is passed over."""
    found = []
    for line in lines:
        head = HEAD.fullmatch(line)
        if head:
            found.append(Entry(int(head[1]), int(head[2]), head[4]))
        elif re.fullmatch(r"(bad|not yet) line \d+", line):
            break
        elif not found:
            raise BadTranscript(line)
        else:
            put_line(found[-1], line)
    return found


def session_of(entry):
    """The session that an event is of, if it is one's."""
    words = entry.event.split(" ")
    if words[0] in ("call", "close", "take"):
        return int(words[1])
    opened = next((it for it in entry.outcome if it.startswith("opened ")), None)
    return int(opened.split(" ")[1]) if opened else None


def lanes_of(found):
    """The lanes from the top: the link, then each daemon with its sessions below it."""
    below = {}
    for entry in found:
        sessions = below.setdefault(entry.daemon, set())
        sessions.update(int(it.split(" ")[0]) for it in entry.given)
        if session_of(entry) is not None:
            sessions.add(session_of(entry))
    lanes = [("link", None)]
    for daemon in sorted(below):
        lanes += [(daemon, None), *((daemon, session) for session in sorted(below[daemon]))]
    return {lane: TOP + LANE * place for place, lane in enumerate(lanes)}


class Page:
    """The picture: it grows to the right."""

    def __init__(self, lanes):
        self.lanes, self.parts, self.x, self.moment = lanes, [], LEFT, None

    def go_to(self, moment):
        """Goes to the place of the next arrow at a moment."""
        if self.moment is None or moment != self.moment:
            gap = 0 if self.moment is None else moment - self.moment
            self.x += 34 + min(150, 14 * math.log2(1 + gap))
            self.parts.append(f'<line x1="{self.x:.0f}" x2="{self.x:.0f}" y1="{TOP - 16}" y2="{self.bottom()}" class="at"/>'
                              f'<text x="{self.x:.0f}" y="{TOP - 22}" class="moment">{moment}</text>')
            self.moment = moment
        else:
            self.x += 20

    def bottom(self):
        return max(self.lanes.values()) + 20

    def arrow(self, start, end, kind, said):
        """An arrow between two lanes, with what it says when one points at it."""
        one, other = self.lanes[start], self.lanes[end]
        tip = other - 5 if other > one else other + 5
        self.parts.append(f'<g class="hit"><title>{html.escape(said)}</title><line x1="{self.x:.0f}" x2="{self.x:.0f}" y1="{one}" y2="{tip}" '
                          f'stroke="{COLOURS[kind]}" marker-end="url(#{kind})"/></g>')

    def dot(self, lane, said):
        self.parts.append(f'<g class="hit"><title>{html.escape(said)}</title><circle cx="{self.x:.0f}" cy="{self.lanes[lane]}" r="4" fill="{COLOURS["mark"]}"/></g>')

    def put(self, entry):
        """Draws an entry: its event, then its marks, what it sends and what it gives."""
        daemon, session, at = (entry.daemon, None), session_of(entry), f"{entry.moment} ms: "
        words = entry.event.split(" ")
        self.go_to(entry.moment)
        if words[0] == "hear":
            self.arrow(("link", None), daemon, "heard", f"{at}heard from {words[1]} port {words[2]}, {len(words[3]) // 2} bytes\n{words[3]}")
        elif session is not None:
            self.arrow((entry.daemon, session), daemon, "call", f"{at}{entry.event}\n= " + "\n".join(entry.outcome))
        else:
            self.dot(daemon, at + entry.event)
        if entry.marks:
            self.go_to(entry.moment)
            self.dot(daemon, at + "\n".join(entry.marks))
        for message in entry.sent:
            self.go_to(entry.moment)
            self.arrow(daemon, ("link", None), "sent", f"{at}sent to " + "\n".join(message))
        for gift in entry.given:
            self.go_to(entry.moment)
            number, _, item = gift.partition(" ")
            self.arrow(daemon, (entry.daemon, int(number)), item.split(" ")[0], at + item)

    def picture(self, style=""):
        """The picture, with a style of its own where one is given."""
        width, height = self.x + 60, self.bottom() + 20
        heads = "".join(f'<marker id="{kind}" viewBox="0 0 8 8" refX="6" refY="4" markerWidth="7" markerHeight="7" orient="auto">'
                        f'<path d="M0 0 8 4 0 8z" fill="{colour}"/></marker>' for kind, colour in COLOURS.items())
        rows = ""
        for (owner, session), y in self.lanes.items():
            name = "the link" if owner == "link" else f"daemon {owner}" if session is None else f"session {session}"
            kind = "inner" if session is not None else "outer"
            rows += f'<line x1="{LEFT - 20}" x2="{width:.0f}" y1="{y}" y2="{y}" class="lane {kind}"/><text x="12" y="{y + 4}" class="{kind}">{name}</text>'
        return (f'<svg xmlns="http://www.w3.org/2000/svg" width="{width:.0f}" height="{height}" viewBox="0 0 {width:.0f} {height}">{style}'
                f'<defs>{heads}</defs>{rows}{"".join(self.parts)}</svg>')

    def page(self):
        """The page."""
        key = " ".join(f'<span style="color:{colour}">{kind}</span>' for kind, colour in COLOURS.items())
        return (f'<!doctype html><html lang="en"><meta charset="utf-8"><title>mdnsd: what happened</title><style>{STYLE}</style>'
                f"<p>Moments are in ms. Point at an arrow to read it. {key}</p>"
                f"<div>{self.picture()}</div></html>")

    def alone(self):
        """The picture as a file of its own."""
        return self.picture(f'<style>svg{{font:14px system-ui,sans-serif;fill:#1a202c}}{STYLE.partition(chr(10))[2]}</style><rect width="100%" height="100%" fill="#fff"/>')


STYLE = """body{font:14px system-ui,sans-serif;margin:16px;color:#1a202c;background:#fff}div{overflow-x:auto}p span{margin-left:12px;font-weight:600}
.lane{stroke:#a0aec0}.lane.inner{stroke-dasharray:3 4}.at{stroke:#edf2f7}.moment{font-size:11px;text-anchor:middle;fill:#718096}
text.outer{font-weight:600}text.inner{fill:#4a5568}.hit line{stroke-width:2}.hit:hover line{stroke-width:4}"""


def main(words):
    is_alone, words = words[:1] == ["--svg"], words[words[:1] == ["--svg"]:]
    if len(words) > 1 or words[:1] in (["-h"], ["--help"]):
        print(__doc__, file=sys.stderr)
        return 2 if len(words) > 1 else 0
    try:
        with open(words[0], encoding="utf-8") if words else sys.stdin as it:
            found = entries(it.read().splitlines())
    except (OSError, BadTranscript) as why:
        print(f"no line of a transcript: {why}" if isinstance(why, BadTranscript) else f"{words[0]}: {why.strerror}", file=sys.stderr)
        return 1
    page = Page(lanes_of(found))
    for entry in found:
        page.put(entry)
    print(page.alone() if is_alone else page.page())
    return 0


if __name__ == "__main__":
    sys.exit(main(sys.argv[1:]))
