"""What the trials share: scripts, what they print, and what a store has to hold then."""

import json
import subprocess


def identifier(n):
    return "00000000-0000-0000-0000-%012x" % n


def format_words(form):
    """The words that ask for a new store of a format: none for the one that the program takes by itself."""
    return [] if form == 2 else ["--format", str(form)]


def run(program, options, script):
    """The lines that a script prints, and the exit status."""
    done = subprocess.run([program, "run", *options], input=script, capture_output=True, text=True)
    return done.stdout.splitlines(), done.returncode


def refusal_of(told):
    """Which refusal a command tells on standard error, as text or in JSON, or what else stands there before a colon; None where nothing is told."""
    if told.startswith("{"):
        refused = json.loads(told)
        return f"refused {refused['refused']} {refused['name']}"
    return told.split(":")[0] if told else None


class Model:
    """The shards after each command that was accepted since the store was opened, and how many commands were acknowledged."""

    def __init__(self, start):
        self.maps = [dict(start)]
        self.acknowledged = 0

    def follow(self, script, printed):
        """Takes the lines of a script with what they printed; the last of them may have printed only a part, or nothing."""
        printed = iter(printed)
        for line in script:
            words = line.split()
            if words[0] in ("put", "del"):
                self.command(words, next(printed, None))
            else:
                self.others(words, printed)

    def command(self, words, answer):
        if answer is None or answer.startswith(("refused", "absent")):
            return
        after = dict(self.maps[-1])
        if words[0] == "put":
            after[words[1]] = words[2]
        else:
            del after[words[1]]
        self.maps.append(after)

    def others(self, words, printed):
        for line in printed:
            if line.startswith("acknowledged"):
                self.acknowledged = int(line.split()[1])
            if words[0] != "sync" or line.startswith(("acknowledged", "refused")):
                return

    def allows(self, found):
        """After how many commands the store held this: from those acknowledged on, or None."""
        for n in range(len(self.maps) - 1, self.acknowledged - 1, -1):
            if self.maps[n] == found:
                return n
        return None


def shards(program, path, names):
    """What a store in a file holds, or why it isn't opened, or that a page of it is damaged: where each page is written whole or not at all none is."""
    text = "".join("get %s\n" % name for name in names)
    done = subprocess.run([program, "run", "--file", path], input=text, capture_output=True, text=True)
    lines = done.stdout.splitlines()
    if done.returncode != 0 or len(lines) != len(names):
        return None, "status %d: %s" % (done.returncode, lines[:1])
    if "warning: " in done.stderr:
        return None, done.stderr.strip()
    found = {}
    for name, line in zip(names, lines):
        if line.startswith("value "):
            found[name] = line.split()[1]
        elif line != "absent":
            return None, "%s: %s" % (name, line)
    return found, None
