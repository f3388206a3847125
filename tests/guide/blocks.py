"""Tries the examples of a document in a folder: blocks.py DOCUMENT FOLDER [WORD..].

A fenced block with a file's name is written to that file. A block of kind console has commands after '$ ', each with
what it prints; they are run in turn and compared. No other block is allowed, so that none goes untried. Of a man page
the section EXAMPLES is taken. With words, only commands that begin with one of them are run.
"""

import os
import re
import subprocess
import sys


def fenced(text):
    """The blocks of a guide: kind, file or nothing, text."""
    return re.findall(r"^```(\w+)(?: (\S+))?\n(.*?)^```$", text, re.MULTILINE | re.DOTALL)


def unfilled(text):
    """The blocks of a man page's examples."""
    examples = re.search(r"^\.SH EXAMPLES\n(.*?)^\.SH", text, re.MULTILINE | re.DOTALL).group(1)
    return [("console", "", block.replace("\\-", "-"))
            for block in re.findall(r"^\.nf\n(.*?)^\.fi$", examples, re.MULTILINE | re.DOTALL)]


def commands(block):
    """Each command with the lines that it prints."""
    return re.findall(r"^\$ (.*)\n((?:(?!\$ ).*\n)*)", block, re.MULTILINE)


def run(command, expected, folder):
    """Runs a command; it ends with status 1 where it prints a refusal, and with 0 elsewhere."""
    done = subprocess.run(["bash", "-o", "pipefail", "-c", command], cwd=folder, stdout=subprocess.PIPE,
                          stderr=subprocess.STDOUT, timeout=60, check=False)
    printed = done.stdout.decode()
    if printed != expected:
        sys.exit("guide: %s\nprints\n%snot\n%s" % (command, printed, expected))
    if done.returncode != (1 if expected.startswith("(refused") else 0):
        sys.exit("guide: %s\nends with status %d" % (command, done.returncode))


def main(document, folder, *words):
    with open(document) as file:
        text = file.read()
    blocks = unfilled(text) if document.endswith(".1") else fenced(text)
    files = tried = 0
    for kind, name, block in blocks:
        if name:
            os.makedirs(os.path.dirname(os.path.join(folder, name)), exist_ok=True)
            with open(os.path.join(folder, name), "w") as file:
                file.write(block)
            files += 1
        elif kind != "console" or not commands(block):
            sys.exit("guide: a block of %s that is not tried:\n%s" % (kind, block))
        for command, expected in commands(block) if kind == "console" else []:
            if not words or command.startswith(words):
                run(command, expected, folder)
                tried += 1
    if not tried or text.count("\n```") != 2 * len(fenced(text)):
        sys.exit("guide: %s has no commands, or a block that is not closed" % document)
    print("guide: %s: %d files written, %d commands compared" % (os.path.basename(document), files, tried))


if __name__ == "__main__":
    main(*sys.argv[1:])
