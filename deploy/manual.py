"""Writes the manual page of drop, made from its help texts, to standard output.

    python3 deploy/manual.py PROGRAM VERSION SECONDS

SECONDS since 1970 are the date of the page.
"""

import re
import subprocess
import sys
import time


def help_of(program, *command):
    """The help text of the program, or of one of its commands."""
    words = [program, *command, "--help"]
    return subprocess.run(words, check=True, capture_output=True, text=True).stdout


def escaped(text):
    """The text, escaped so that roff shows it unchanged."""
    text = text.replace("\\", "\\e").replace("-", "\\-")
    return re.sub(r"^(?=[.'])", r"\\&", text, flags=re.MULTILINE)


def as_it_stands(text):
    return f".nf\n{escaped(text.strip())}\n.fi"


def commands_of(text):
    """The names of the commands in the help text, without `help` itself."""
    part = re.search(r"^Commands:\n(.*?)\n\n", text, re.MULTILINE | re.DOTALL)[1]
    return [name for name in re.findall(r"^  (\w+)", part, re.MULTILINE) if name != "help"]


def page(program, version, seconds):
    whole = help_of(program)
    about = whole.partition("\n")[0]
    date = time.strftime("%Y-%m-%d", time.gmtime(int(seconds)))
    yield f'.TH DROP 1 "{date}" "drop {version}" "User Commands"'
    yield f".SH NAME\ndrop \\- file drop for offices"
    yield ".SH SYNOPSIS\n.B drop\n.I COMMAND\n.RI [ WORDS ]"
    yield f".SH DESCRIPTION\n{escaped(about)}."
    yield ".SH COMMANDS"
    for name in commands_of(whole):
        yield f".SS drop {name}\n{as_it_stands(help_of(program, name))}"
    yield ".SH FILES"
    yield ".TP\n.I /var/lib/drop/office\nThe office that the unit\n.B drop.service\nserves."
    yield ".TP\n.I /usr/share/doc/drop\nHow an office is used and set up, and the rules of its answers."
    yield ".TP\n.I /usr/share/drop/page\nThe web page, which a web server in front of the office serves."


if __name__ == "__main__":
    print("\n".join(page(*sys.argv[1:])))
