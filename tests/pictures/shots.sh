#!/bin/sh
# Makes screenshots of docs/pictures/*.svg, of the film at three moments, to look at: shots.sh [FOLDER]. Without Chromium it says so and stops.
set -eu
cd "$(dirname "$0")/../.."
browser=$(command -v chromium || command -v chromium-browser || true)
if [ -z "$browser" ]; then
    echo "skipped: no Chromium here"
    exit 0
fi
shots=${1:-$(mktemp -d)}
mkdir -p "$shots"
for picture in docs/pictures/*.svg; do
    shot="$shots/$(basename "$picture" .svg).png"
    "$browser" --headless --no-sandbox --disable-gpu --window-size=900,900 \
        --screenshot="$shot" "file://$PWD/$picture" > "$shots/browser.txt" 2>&1
    [ -s "$shot" ] || { echo "no screenshot of $picture"; exit 1; }
done
# a page holds the film still at a moment, in tenths of a second
for moment in 65 85 115; do
    {
        cat docs/pictures/film.svg
        echo "<script>f=document.querySelector('svg');f.pauseAnimations();f.setCurrentTime($moment/10)</script>"
    } > "$shots/film.html"
    "$browser" --headless --no-sandbox --disable-gpu --window-size=900,900 \
        --screenshot="$shots/film-$moment.png" "file://$shots/film.html" > "$shots/browser.txt" 2>&1
    [ -s "$shots/film-$moment.png" ] || { echo "no screenshot of the film"; exit 1; }
done
echo "screenshots in $shots"
