#!/usr/bin/env bash
# Looks at what `paper show` makes for a browser in a real one, headless Chromium: no part of ./test. The last line is 'N passed, M failed'.
#
#   host/tests/papers/browser.sh [--pictures]
#
# A page is opened at several steps, and its rows and marks have to be those that `--as json` tells of the boards before and behind the call; the
# same without JavaScript for the step that is shown at first; keys, buttons, the slider and the address have to step; pictures of a page and of a
# tree are made, and `--pictures` renews those in docs/pictures. target/host/paper, or $PAPER, is the tool (`host/build.sh paper`).
set -euo pipefail
cd "$(dirname "$0")/../../.."
paper=${PAPER:-target/host/paper}
beside=host/tests/papers/browser
work=$(mktemp -d)
trap 'rm -rf "$work"' EXIT
passed=0
failed=0

[ -x "$paper" ] || { echo "$paper is not there: host/build.sh paper builds it" >&2; exit 1; }
command -v python3 >/dev/null || { echo "python3 is needed" >&2; exit 1; }

# Chromium, from Debian's packages if there is none.
browser() {
    command -v chromium || command -v chromium-browser || true
}
if [ -z "$(browser)" ] && command -v apt-get >/dev/null && [ "$(id -u)" -eq 0 ]; then
    apt-get update -qq && apt-get install -y -qq --no-install-recommends chromium fonts-dejavu-core >/dev/null
fi
[ -n "$(browser)" ] || { echo "chromium is needed: install it" >&2; exit 1; }

# Runs the browser on an address.
chromium() {
    local sandbox=()
    [ "$(id -u)" -ne 0 ] || sandbox=(--no-sandbox)
    timeout 120 "$(browser)" --headless "${sandbox[@]}" --disable-gpu --hide-scrollbars --user-data-dir="$work/profile" \
        --virtual-time-budget=5000 "$@" 2>"$work/errors" || { cat "$work/errors" >&2; return 1; }
}

# Runs a command as one check, and shows what it printed if it fails.
check() {
    if "${@:2}" >"$work/log" 2>&1; then
        echo "ok $1"
        passed=$((passed + 1))
    else
        cat "$work/log"
        echo "FAILED $1"
        failed=$((failed + 1))
    fi
}

# Whether the page of a paper shows a step as JSON tells it.
step() {
    local page=$1 text=$2 number=$3
    chromium --dump-dom "file://$page#$number" >"$work/dom"
    "$paper" show "$text" --as json --after each >"$work/json"
    python3 "$beside/rows.py" "$work/dom" "$work/json" "$number"
}

# The same of a copy of the page that has no script.
still() {
    sed '/^<script/,/^<\/script>/d' "$1" >"$work/still.html"
    step "$work/still.html" "$2" "$3"
}

# Whether keys step: a copy of the page presses them, and writes down what it saw.
keys() {
    {
        sed '/^<\/body>/,$d' "$1"
        echo '<script>//<![CDATA['
        cat "$beside/keys.js"
        echo '//]]></script></body></html>'
    } >"$work/keys.html"
    chromium --dump-dom "file://$work/keys.html" >"$work/dom"
    sed -n 's/.*<pre id="keys">\([^<]*\).*/\1/p' "$work/dom"
    grep -q '<pre id="keys">ok<' "$work/dom"
}

# Makes a picture: it has to be a whole one, and small enough to stand in the repository.
picture() {
    local file=$1 size=$2 address=$3
    rm -f "$file"
    chromium --screenshot="$file" --window-size="$size" "$address"
    python3 "$beside/picture.py" "$file"
}

for text in examples/release.txt "$beside/odd.txt"; do
    name=$(basename "$text" .txt)
    last=$("$paper" show "$text" --as json | python3 -c 'import json, sys; print(json.load(sys.stdin)["calls"])')
    "$paper" show "$text" --as html --out "$work/$name.html"
    for number in 0 1 $((last / 2)) $((last - 1)) "$last"; do
        check "$name: the page at call $number" step "$work/$name.html" "$text" "$number"
    done
    check "$name: the page without JavaScript" still "$work/$name.html" "$text" "$last"
    check "$name: keys, buttons, slider and address" keys "$work/$name.html"
done

pictures=$work
[ "${1:-}" != --pictures ] || pictures=docs/pictures
mkdir -p "$pictures"
"$paper" show examples/release.txt --as html --out "$work/page.html"
"$paper" show examples/release.txt --as svg --out "$pictures/tree.svg"
check "the picture of a page" picture "$pictures/page.png" 1280,1060 "file://$work/page.html#3"
check "the picture of a tree" picture "$pictures/tree.png" 1100,420 "file://$(realpath "$pictures")/tree.svg"
echo "$passed passed, $failed failed"
[ "$failed" -eq 0 ]
