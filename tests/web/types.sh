#!/bin/sh
# Compiles by tsc --strict what uses the types, and what says each of them exactly, against the package as it is packed: for each target and
# way to look modules up, with and without skipLibCheck. A program with a fault in each line is refused in each line.
set -u
here=$(cd "$(dirname "$0")" && pwd)
. "$here/../lib.sh"
web=$here/../../web
mkdir -p "$room/node_modules/hullbook"
cp "$web"/package.json "$web"/*.d.ts "$web"/hull.js "$web"/heap.js "$web"/journal.js "$web"/exchange.js "$web"/many.js "$room/node_modules/hullbook"
cp "$here/typed.ts" "$here/exact.ts" "$here/mistyped.ts" "$room"
echo '{"type": "module"}' >"$room/package.json"
cd "$room" || exit 1

# writes a project: NAME FILES TARGET MODULE RESOLUTION SKIPS; the libraries of tsc itself are not checked
project() {
    echo "{\"files\": [$2], \"compilerOptions\": {\"strict\": true, \"noEmit\": true, \"lib\": [\"$3\", \"DOM\"], \"target\": \"$3\", \"module\": \"$4\"," \
        "\"moduleResolution\": \"$5\", \"skipLibCheck\": $6, \"skipDefaultLibCheck\": true}}" >"$1.json"
}

# (what compiles without skipLibCheck and did not with it would be a surprise: once is enough)
choices='ES2020 ES2020 node false
ES2020 node16 node16 false
ES2021 ES2020 node false
ES2022 node16 node16 false
ESNext ESNext node false
ESNext node16 node16 true'
while read -r words; do
    # shellcheck disable=SC2086 # the words are separated by spaces
    project "$(echo "$words" | tr ' ' -)" '"typed.ts", "exact.ts"' $words
done <<END
$choices
END
# all in one run, which reads the libraries of tsc once; which of them fail is asked of each
tsc --build --verbose ES*.json >"$room/output" 2>&1 && [ "$(grep -c ' - Building project ' "$room/output")" -eq "$(echo "$choices" | wc -l)" ]
built=$?
while read -r words; do
    if [ "$built" -eq 0 ] || tsc --project "$(echo "$words" | tr ' ' -).json" >"$room/output" 2>&1; then
        said "types, $words" ok
    else
        said "types, $words" "FAILED, $(head -5 "$room/output")"
    fi
done <<END
$choices
END
# a program for Node, which has no types of DOM
echo 'import { load, type Source } from "hullbook"; export const hulls = await load("hull.wasm"), sources: Source[] = [new ArrayBuffer(8)];' >bare.ts
sed 's/, "DOM"//; s/"typed.ts", "exact.ts"/"bare.ts"/; s/"strict"/"types": [], &/' ES2022-node16-node16-false.json >bare.json
attempt 'types, without those of DOM' tsc --project bare.json
project mistyped '"mistyped.ts"' ES2022 ES2022 node false
faults=$(tsc --project mistyped.json 2>&1 | grep -o '^mistyped.ts([0-9]*' | sort -u | wc -l)
lines=$(grep -c '; // wrong' mistyped.ts)
came 'types, how many of the wrong lines are refused' "$faults" "$lines"
end
