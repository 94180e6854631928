#!/bin/sh
# Looks in seconds at what would fail the gate after an hour: the layout of sources, mutants that no longer fit, what repeats the table of
# calls, the documents that are written from comments, and the language of documents and comments. The last line is 'N passed, M failed'.
set -u
here=$(cd "$(dirname "$0")" && pwd)
. "$here/../lib.sh"
for tool in layout table reference language; do
    counted "tools/$tool.py" python3 "$top/tools/$tool.py"
done
counted "tools/product.sh check" "$top/tools/product.sh" check
end
