#!/usr/bin/env bash
# A look before the proof: runs the same sources as ./cyc with these words, by `rt try`, which proves nothing. The first answer
# takes some minutes, and so does each further one, as nothing is kept. Its first line on err says that it isn't proved.
#
#   recipes/look.sh WORDS..     (needs the kit's rt; as recipes/look.sh check F.blif --care F.care)
#
# The status is that of the program. The program has 60 seconds, or as many as the variable RT_SECONDS says.
set -eu -o pipefail
top=$(cd "$(dirname "$(readlink -f "${BASH_SOURCE[0]}")")/.." && pwd)
echo "look: what follows isn't proved: the sources run as they stand; ./cyc proves them first" >&2
command -v rt >/dev/null || { echo "look: the kit's command rt isn't on the path" >&2; exit 1; }

# The program runs in a folder of its own, so files are given by their whole paths.
words=("${1:---help}")
for word in "${@:2}"; do
    if [[ $word != -* && -e $word ]]; then word=$(readlink -f "$word"); fi
    words+=("$word")
done

err=$(mktemp)
trap 'rm -f "$err"' EXIT
status=0
(cd "$top/crates/cyc" && rt try -- "${words[@]}") 2>"$err" || status=$?
# What rt says of the run is told where the run didn't come to its end.
if grep -q '^run=ended' "$err"; then
    sed '/^interpreter: /d; /^checked: /d; /^run=ended/d' "$err" >&2
else
    cat "$err" >&2
    echo "look: the run didn't come to its end" >&2
fi
exit "$status"
