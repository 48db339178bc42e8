"""What stands in for a machine when the lines of docs/DEPLOY.md are run: its paths are moved into a folder, and some commands
are replaced.
"""

import re
import shutil

from nginx import PAGE

RUNUSER = """#!/bin/sh
[ "$1 $2 $3" = "-u drop --" ] || exit 9
shift 3
exec "$@"
"""
# Files get no other owner.
INSTALL = """#!/bin/sh
for word; do
    shift
    case "$word" in -o | -g | drop | www-data | adm) ;; *) set -- "$@" "$word" ;; esac
done
exec /usr/bin/install "$@"
"""
# Touches nothing outside the machine's folder, and fails if this is the call to fail. Then `cp` still copies, but cuts the
# journal, as on a full disk.
COMMAND = """#!/bin/sh
for last; do
    case "$last" in
    "$MACHINE"/* | /dev/null | [!/]* | "") ;;
    *) echo "outside the machine: NAME $*" >&2 && exit 9 ;;
    esac
done
case "NAME $*" in
$FAILS)
    [ NAME != cp ] || { REAL "$@"; : >"$last"/office-wal; }
    exit 1
    ;;
esac
exec REAL "$@"
"""
# Notes the last call about a unit.
SYSTEMCTL = """#!/bin/sh
case "systemctl $*" in
$FAILS) exit 1 ;;
esac
echo "$1" >"$MACHINE/state/$2"
"""


def lines_to_run():
    """The blocks of lines of the page, in order."""
    return re.findall(r"^```sh\n(.*?)^```$", PAGE.read_text(), re.MULTILINE | re.DOTALL)


def moved(root, text):
    """The text with the machine's paths moved into this folder."""
    return re.sub(r"(?<![\w/.])/(etc|var|root|tmp|usr/share)(?=[/\s])", rf"{root}/\1", text + "\n").removesuffix("\n")


def put(folder, name, text):
    """Puts a command into this folder."""
    file = folder / name
    file.write_text(text)
    file.chmod(0o755)


def fallible(name, real=None):
    """A stand-in for a command, which fails when it is told to."""
    return COMMAND.replace("NAME", name).replace("REAL", str(real or shutil.which(name)))
