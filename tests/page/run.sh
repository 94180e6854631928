#!/bin/sh
# Tests the page in Chromium and in Firefox without a window; the program checks the page's journals. What is missing here is named: Node, the
# modules (web/build.py makes them), esbuild, wasm-metadce, Chromium, Firefox, the program. The last line is 'N passed, M failed'.
#
#     tests/page/run.sh [FOLDER]    the folder for screenshots of the page
set -u
here=$(cd "$(dirname "$0")" && pwd)
web=$here/../web
. "$here/../lib.sh"
. "$web/modules.sh"
pictures=${1:-}
CHROMIUM=${CHROMIUM:-$(command -v chromium || command -v chromium-browser || true)}
FIREFOX=${FIREFOX:-$(command -v firefox-esr || command -v firefox || true)}
export CHROMIUM FIREFOX

if ! command -v node >/dev/null; then
    echo 'skipped: Node is not there'
    end
fi
program=$("$top/tools/product.sh" program hullbook) || program=
[ -x "$program" ] || program=
take_modules
for module in hull.wasm hull32.wasm; do
    [ -f "$top/web/out/$module" ] && continue
    echo "skipped: web/out/$module is not there, which web/build.py makes"
    end
done
for tool in esbuild wasm-metadce; do
    command -v $tool >/dev/null && continue
    echo "skipped: the page: $tool is not there, which web/page.mjs makes it with"
    end
done
node "$top/web/page.mjs" && node "$top/web/page.mjs" hull.wasm "$room/wide.html"
came 'the page is written, with either module' $? 0
begin size_tests.mjs node "$web/size_tests.mjs" "$top/web/out/index.html"
for browser in chromium firefox; do
    [ "$browser" = chromium ] && there=$CHROMIUM || there=$FIREFOX
    if [ -z "$there" ]; then
        echo "skipped: the page in $browser, which is not there"
        continue
    fi
    mkdir -p "$room/$browser" "$room/$browser.wide"
    begin "$browser.page" node "$web/page_tests.mjs" "$top/web/out/index.html" "$room/$browser" "$browser"
    # with the module as it was proved, whole, where the browser has 64-bit memories
    begin "$browser.whole" env ONLY=Phone node "$web/page_tests.mjs" "$room/wide.html" "$room/$browser.wide" "$browser"
done
wait
counted size_tests.mjs said_by size_tests.mjs
for browser in chromium firefox; do
    [ -f "$room/$browser.page.said" ] || continue
    counted page_tests.mjs said_by "$browser.page"
    echo "the page with hull.wasm, on a phone's size"
    counted page_tests.mjs said_by "$browser.whole"
    for journal in clicks saved; do
        if [ -x "$program" ]; then
            came "the program's verdict on $browser's $journal" "$("$program" check "$room/$browser/$browser-$journal.journal" 2>&1)" legal
        else
            echo "skipped: the program's verdict on $browser's $journal: the program is not there"
        fi
    done
    [ -z "$pictures" ] || { mkdir -p "$pictures" && cp "$room/$browser"/*.png "$pictures"; }
done
end
