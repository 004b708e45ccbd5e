#!/usr/bin/env bash
# When the launcher ./cyc builds, and when it doesn't: with a stand-in for the kit's command rt, which proves nothing and makes a
# program that says how often it was built. So it takes seconds. Prints a line for each case, and ends with status 1 where one
# is wrong.
#
#   bench/launcher.sh
set -eu -o pipefail
top=$(cd "$(dirname "$0")/.." && pwd)
dir=$(mktemp -d)
trap 'rm -rf "$dir"' EXIT
mkdir "$dir/bin"
echo "stand-in 1" >"$dir/version"
echo 0 >"$dir/builds"
cat >"$dir/bin/rt" <<END
#!/usr/bin/env bash
# The stand-in: it makes the program where it is asked to run it, and tells the crates at the first build.
set -eu
case \$1 in
version) cat "$dir/version" ;;
all) [ "\$(cat "$dir/builds")" != 0 ] || awk '/^[a-z]/ { sub(/:/, ""); print "== " \$1 }' ../../crates.txt; echo "== summary" ;;
lib) ;;
run)
    if [ -e "$dir/fails" ]; then echo "error: not proved"; exit 1; fi
    echo \$((\$(cat "$dir/builds") + 1)) >"$dir/builds"
    mkdir -p out
    printf '%s\n' '#!/usr/bin/env bash' 'case \$1 in --version) echo "proved with \$(cat "$dir/version")" ;; *) echo "ran \$*" ;; esac' "# \$(cat "$dir/builds")" >out/cyc
    chmod +x out/cyc
    ;;
esac
END
chmod +x "$dir/bin/rt"
with_kit=$dir/bin:$PATH
mkdir "$dir/first"
(cd "$top" && git ls-files -z -- cyc crates.txt crates docs/GATE.md | tar -c --null -T -) | tar -x -C "$dir/first"

is_told() {
    if [ "$1" ]; then grep -q -- "$1" "$dir/err"; else [ ! -s "$dir/err" ]; fi
}

# Calls a launcher, and compares the number of builds so far, what is told of the build, and the program's own line. Where
# nothing of a build is wanted, nothing may be told.
call() {
    local name=$1 launcher=$2 wanted=$3 told=$4 said status=0
    said=$(PATH=${path:-$with_kit} "$launcher" check file 2>"$dir/err") || status=$?
    if [ "$(cat "$dir/builds")" != "$wanted" ] || [ "$said" != "${line-ran check file}" ] || ! is_told "$told"; then
        echo "$name: wrong: $(cat "$dir/builds") builds, status $status, said: $said"
        cat "$dir/err"
        exit 1
    fi
    echo "$name: $(cat "$dir/builds") builds, status $status$(sed -n '1s/^cyc: /; /p' "$dir/err")"
}

# How many crates the program is made of: itself, and those of crates.txt that it stands on.
crates=$(awk -F: '
    function visit(crate,    words, n, i) {
        if (crate in seen || !(crate in uses)) return
        seen[crate]
        n = split(uses[crate], words, " ")
        for (i = 1; i <= n; i++) visit(words[i])
    }
    /^[a-z]/ { uses[$1] = $2 }
    END { visit("cyc"); for (crate in seen) count++; print count }' "$top/crates.txt")

call "nothing built" "$dir/first/cyc" 1 "proves $crates crates, .*about [0-9]* minutes"
grep -q "^cyc: $((crates - 1)) of $crates crates after [0-9]* s, about [0-9]* minutes left: " "$dir/err" || { echo "no time left is told"; cat "$dir/err"; exit 1; }
call "again" "$dir/first/cyc" 1 ''
find "$dir/first/crates" "$dir/first/crates.txt" -type f -not -path '*/out/*' -exec touch {} +
call "each source touched" "$dir/first/cyc" 1 ''
cp -r "$dir/first" "$dir/second"
call "a copy by cp -r" "$dir/second/cyc" 1 ''
find "$dir/second" -type f -exec touch -d '2031-01-01' {} +
call "a copy with a clock that is ahead" "$dir/second/cyc" 1 ''
ln -s "$dir/second/cyc" "$dir/link"
(cd / && call "through a symbolic link, from another folder" "$dir/link" 1 '')
cp -p "$dir/second/crates/sat/src/lib.rt" "$dir/kept"
echo "// more" >>"$dir/second/crates/sat/src/lib.rt"
touch -r "$dir/kept" "$dir/second/crates/sat/src/lib.rt"
call "a source changed, its time as before" "$dir/second/cyc" 2 'crates/sat/src/lib.rt'
cp -p "$dir/kept" "$dir/second/crates/sat/src/lib.rt"
touch "$dir/fails"
line='' call "the source as before, and a build that fails" "$dir/second/cyc" 2 'not proved'
rm "$dir/fails"
call "and one that doesn't" "$dir/second/cyc" 3 'crates/sat/src/lib.rt'
echo "file: src/lib.rt" >"$dir/second/crates/sat/must-fail/one.edit"
echo "// a test" >>"$(find "$dir/second/crates/unit_tests" -name '*.rt' | head -n 1)"
call "what the program isn't made of changed" "$dir/second/cyc" 3 ''
rm "$dir/second/crates/cyc/out/cyc"
call "no program" "$dir/second/cyc" 4 "isn't built"
echo "# more" >>"$dir/second/crates/cyc/out/cyc"
call "another program in its place" "$dir/second/cyc" 5 "isn't the one"
echo "stand-in 2" >"$dir/version"
touch "$dir/bin/rt"
call "another kit" "$dir/second/cyc" 6 "the kit is stand-in 2"
mkdir "$dir/none"
for it in bash awk sed grep find sort xargs sha256sum cut cat diff head wc stat readlink dirname mv mktemp nproc rm tee; do ln -s "$(command -v $it)" "$dir/none/$it"; done
path=$dir/none call "no kit on the path" "$dir/second/cyc" 6 ''
chmod -R a-w "$dir/second/crates/cyc/out"
touch "$dir/second/crates.txt"
call "a folder that can't be written" "$dir/second/cyc" 6 ''
chmod -R u+w "$dir/second/crates/cyc/out"
echo "// more" >>"$dir/second/crates/sat/src/lib.rt"
line='' path=$dir/none call "no kit, and a source changed" "$dir/second/cyc" 6 "isn't on the path"
echo "each as it should be"
