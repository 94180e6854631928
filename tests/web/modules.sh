# What the tests of web/ and of the page share: the modules, and commands that run beside one another.
# shellcheck shell=sh

# begins a command that counts by itself, beside the others: NAME COMMAND..
begin() {
    name=$1
    shift
    { "$@" >"$room/$name.said" 2>&1; echo $? >"$room/$name.status"; } &
}

# prints what such a command said, and returns its status
said_by() {
    cat "$room/$1.said"
    return "$(cat "$room/$1.status")"
}

# takes the released modules if they were made of these sources; else those stay that web/build.py made. Another suite may read them meanwhile.
take_modules() {
    mkdir -p "$top/web/out"
    for module in hull.wasm hull32.wasm; do
        released=$("$top/tools/product.sh" find "web/$module") || continue
        cmp -s "$released" "$top/web/out/$module" || { cp "$released" "$room/$module" && mv "$room/$module" "$top/web/out/$module"; }
    done
}
