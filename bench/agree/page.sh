#!/bin/sh
# page.sh [FOLDER]: opens pages of examples/page.py in headless Chromium, Debian's package chromium, and
# compares what they say with what the program in $MONTRE prints. Pictures at three sizes go to FOLDER,
# to be looked at. Where there is no Chromium, nothing is looked at.
: "${MONTRE:?the path of the program}"
here=$(cd "$(dirname "$0")" && pwd)
for program in chromium chromium-browser google-chrome; do
    if command -v "$program" > /dev/null; then
        exec python3 "$here/page_seen.py" "$program" "$@"
    fi
done
echo 'page.sh: there is no Chromium here, so no page was looked at'
