#!/usr/bin/env bash
# Opens pages of ./show in a headless Chromium, takes a picture of each, compares what the browser sees, and uses one.
#
#     bench/gate/page.sh [FOLDER]      with the pages and pictures in FOLDER (nothing: a new one below /tmp); docs/page.png is letter.png
#
# The pages are of a text with an error and an edit, of an empty text, and of a text with characters that markup needs.
# The browser must see the text, and the nodes, answers, reports and numbers that bench/shown/page.py reads in the page.
# bench/gate/show.py compares those with what bench/shown/ works out. bench/gate/page.js then folds, searches, follows links, pins
# and walks, in windows of 420 and of 1,600 points and in both modes; and a page is printed. The script runs the proved
# build, or PROGRAM. Where there is no Chromium (Debian's `chromium`), it says so and compares nothing.
set -euo pipefail

top=$(cd "$(dirname "${BASH_SOURCE[0]}")/../.." && pwd)
program=${PROGRAM:-$top/crates/typst_show/out/typst_show}
browser=$(command -v chromium || command -v chromium-browser || true)
if [[ -z $browser ]]; then
  echo "no chromium is here, so no page was opened"
  exit 0
fi
room=${1:-$(mktemp -d)}
mkdir -p "$room"
cd "$room"
cp "$top/examples/mistake.typ" "$top/examples/mistake.edits" .
: >empty.typ
printf 'A <script>alert(1)</script> & "two" &amp; `raw`\n' >marks.typ

# Writes a page: PAGE, and then the words that tell of what.
write_page() {
  "$program" "${@:2}" --page "$1" || (($? == 1))
}

(cd "$top" && "$program" examples/letter.typ --edits examples/letter.edits --page "$room/letter.html")
write_page mistake.html mistake.typ --edits mistake.edits
write_page empty.html empty.typ
write_page marks.html marks.typ

# Runs the browser on a page.
open_page() {
  "$browser" --headless --no-sandbox --disable-gpu --user-data-dir="$room/profile" \
    "${@:2}" "file://$room/$1.html" 2>/dev/null
}

# Says what the browser sees otherwise than it is written.
compare() {
  PYTHONPATH=$top/bench python3 - "$1" "$2" <<'END'
import sys
from pathlib import Path

from shown.page import Page

name, seen = sys.argv[1:]
written, read = Page(Path(f"{name}.html").read_text()), Page(Path(seen).read_text())
text = Path(f"{name}.typ").read_text()
if not read.steps or read.steps[0]["text"] != text:
    sys.exit(f"{name}: the browser sees another text: {[it['text'] for it in read.steps]}")
if (read.title, read.steps, read.wrong) != (written.title, written.steps, written.wrong):
    sys.exit(f"{name}: the browser sees other nodes, answers, reports or numbers than are written")
END
}

# Writes a page with the script of standard input after its own.
with_script() {
  sed -e '/^<\/script>$/,$d' "$1.html" >"$2.html"
  cat >>"$2.html"
  printf '</script>\n</body>\n</html>\n' >>"$2.html"
}

# Uses the page of the mistake in a frame of this width, since a window can't be narrow, in the mode with a number and a name. The
# page must end with the title that bench/gate/page.js gives it where nothing fails.
use_page() {
  local title
  {
    printf '<title></title><iframe width="%s" height="900" style="border: 0" ' "$1"
    printf 'onload="document.title = this.contentDocument.title" srcdoc="'
    sed -e 's/&/\&amp;/g' -e 's/"/\&quot;/g' mistake.used.html
    printf '"></iframe>\n'
  } >framed.html
  open_page framed --window-size=1700,1000 --blink-settings=preferredColorScheme="$2" --virtual-time-budget=5000 --dump-dom >framed.seen
  title=$(sed -n 's/.*<title>\([^<]*\)<\/title>.*/\1/p' framed.seen | head -n 1)
  [[ $title == "right, $3, $1 wide" ]] || {
    echo "mistake: in a frame of $1 points in $3 mode the page says: $title"
    failed=1
  }
}

failed=0
with_script letter letter.edited <<'END'
setDepth(1);
document.body.classList.add('bare');
for (const name of ['.tools', '.legend', '.pair']) document.querySelector(name).remove();
END
open_page letter.edited --window-size=1000,660 --screenshot="$room/letter.png"
for name in mistake empty marks; do
  open_page "$name" --window-size=1400,1000 --screenshot="$room/$name.png"
  [[ -s $name.png ]] || {
    echo "$name: no picture"
    failed=1
  }
  open_page "$name" --dump-dom >"$name.seen"
  compare "$name" "$name.seen" || failed=1
done
with_script mistake mistake.used <"$top/bench/gate/page.js"
for width in 420 1600; do
  use_page "$width" 1 light
  use_page "$width" 0 dark
done
open_page mistake --print-to-pdf="$room/mistake.pdf"
[[ -s mistake.pdf ]] || {
  echo "mistake: nothing is printed"
  failed=1
}
echo "three pages opened, one used and printed; their pictures are in $room"
exit "$failed"
