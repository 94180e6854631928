#!/bin/sh
# Tests hull.js and the code of the page in Node, with both modules, and the types. What is missing here is named: Node, the modules
# (web/build.py makes them), tsc, the program. The last line is 'N passed, M failed'.
set -u
here=$(cd "$(dirname "$0")" && pwd)
. "$here/../lib.sh"
. "$here/modules.sh"

if ! command -v node >/dev/null; then
    echo 'skipped: Node is not there'
    end
fi
program=$("$top/tools/product.sh" program hullbook) || program=
[ -x "$program" ] || program=
begin judge_tests.mjs node "$here/judge_tests.mjs" "$program"
take_modules
if [ ! -f "$top/web/out/hull.wasm" ]; then
    wait
    counted judge_tests.mjs said_by judge_tests.mjs
    echo 'skipped: web/out/hull.wasm is not there, which web/build.py makes'
    end
fi
# before Node 24 a module with a 64-bit memory has to be asked for
set --
[ "$(node -p 'parseInt(process.versions.node)')" -ge 24 ] || set -- --experimental-wasm-memory64
for tests in hull work many limits methods; do
    begin "$tests.wide" env MODULE=hull.wasm node "$@" "$here/${tests}_tests.mjs"
    [ ! -f "$top/web/out/hull32.wasm" ] || begin "$tests.narrow" env MODULE=hull32.wasm node "$here/${tests}_tests.mjs"
done
if command -v tsc >/dev/null; then
    begin types.sh sh "$here/types.sh"
else
    echo 'skipped: the types: tsc is not there'
fi
wait
counted judge_tests.mjs said_by judge_tests.mjs
for tests in hull work many limits methods; do
    echo "${tests}_tests.mjs on hull.wasm"
    counted "${tests}_tests.mjs" said_by "$tests.wide"
    [ -f "$room/$tests.narrow.said" ] || continue
    echo "${tests}_tests.mjs on hull32.wasm"
    counted "${tests}_tests.mjs" said_by "$tests.narrow"
done
[ ! -f "$room/types.sh.said" ] || counted types.sh said_by types.sh
[ -f "$top/web/out/hull32.wasm" ] || echo 'skipped: web/out/hull32.wasm is not there, which web/build.py makes with wasm-opt'
end
