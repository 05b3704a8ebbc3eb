#!/bin/sh
# Opens the pages that tools/report makes of some examples in a headless Chromium (Debian's package chromium), looks whether they show what the program
# prints, clicks, types, and tries them without scripts, narrow, dark and printed; and measures a page of 16 tasks and 10,000 lines. With a folder it
# leaves pictures of the pages there, which have to be looked at: `checks/report.sh [FOLDER]`. It isn't part of the gate, since the browser is none of
# what the gate needs. A line for each failure, then a count.
cd "$(dirname "$0")/.." || exit 1
command -v chromium >/dev/null || {
    echo "report: chromium isn't here"
    exit 2
}
exec python3 -B checks/report.py "$@"
