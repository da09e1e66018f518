#!/bin/sh
# Tries the gate (.ci/run), tools/build, tools/gate-times, tools/order, tools/edits, tools/progress, tests/valgrind and the first build of ./torzimlak on copies in a folder of its own, with programs of
# its own in place of rt, cargo, cc, valgrind and tests/host. Proves nothing and takes some seconds. The last line is 'gate.sh: N passed, 0 failed'.
CDPATH=
top=$(cd "$(dirname "$0")/.." && pwd -P) || exit 1
work=$(mktemp -d) || exit 1
trap 'rm -rf "$work"' EXIT
trap 'exit 1' HUP INT TERM
LC_ALL=C
export LC_ALL
unset RT_JOBS
passed=0
failed=0

mkdir -p "$work/bin" "$work/a copy/tests" "$work/a copy/docs" && cd "$work/a copy" || exit 1
cp -R "$top/.ci" "$top/tools" "$top/torzimlak" . || exit 1
PATH=$work/bin:$PATH
export PATH

# same WHAT GOT WANTED
same() {
    if [ "$2" = "$3" ]; then
        passed=$((passed + 1))
    else
        failed=$((failed + 1))
        printf 'FAILED: %s\n--- wanted\n%s\n--- got\n%s\n' "$1" "$3" "$2"
    fi
}

# program FILE: a program with the lines of standard input
program() {
    { echo '#!/bin/sh'; cat; } > "$1"
    chmod +x "$1"
}

# try WHAT STATUS OUT COMMAND..: what the command writes, seconds of a gate as N, and how it exits
try() {
    what=$1
    wanted="status $2
$3"
    shift 3
    "$@" > ../out 2>&1
    same "$what" "status $?
$(sed 's/^gate: [0-9]* s$/gate: N s/' ../out)" "$wanted"
}

# The gate.
program ../bin/rt << 'END'
[ "$*" = ci ] || exit 9
mkdir -p crates/tool/out
echo 'rt: base proved'
echo 'rt: told on standard error' >&2
cat ../verdict
exit "$(cat ../status)"
END
echo 'exit 0' | program ../bin/cargo
program tests/host << 'END'
echo "the host: $(ls crates/tool)"
exit "$(cat ../host)"
END
proved='rt: base proved
rt: told on standard error'
well='rt: ok; handles allowed: none; must-fail edits: 5 refused; every proof and must-fail edit was done in this run'
printf '%s\n7 passed, 0 failed\n' "$well" > ../verdict
echo 0 > ../status
echo 0 > ../host
try 'both pass' 0 "$proved
$well
the host: out
gate: N s
7 passed, 0 failed" bash .ci/run
same 'the log of a gate' "$(cat target/log/gate)" "$(cat ../out)"
(cd / && bash "$work/a copy/.ci/run") > ../elsewhere
same 'from another folder' "$(tail -n 1 ../elsewhere)" '7 passed, 0 failed'
echo 3 > ../host
try 'the host tests fail' 1 "$proved
$well
the host: out
gate: N s
gate: FAILED: the host tests" bash .ci/run
echo 'exit 1' | program ../bin/cargo
try 'no cargo' 0 "$proved
$well
host tests: skipped, for cargo is not here
gate: N s
7 passed, 0 failed" bash .ci/run
printf 'rt: FAILED: base\n6 passed, 1 failed' > ../verdict
echo 3 > ../status
try 'rt ci fails' 3 "$proved
rt: FAILED: base
gate: N s
6 passed, 1 failed" bash .ci/run
same 'the log of a gate that fails' "$(cat target/log/gate)" "$(cat ../out)"
echo 0 > ../status
try 'rt ci has no verdict' 2 "$proved
rt: FAILED: base
6 passed, 1 failed
gate: N s
gate: FAILED: rt ci does not end with 'N passed, 0 failed'" bash .ci/run
bad='rt: ok; handles allowed: none; must-fail edits: 5 refused, 1 of them only by a limit, 2 bad; done in this run: 0 of the 3 proofs'
printf '%s\n7 passed, 0 failed\n' "$bad" > ../verdict
try 'an edit is bad' 1 "$proved
$bad
7 passed, 0 failed
gate: N s
gate: FAILED: bad must-fail edits: 2" bash .ci/run
limit='rt: ok; handles allowed: none; must-fail edits: 5 refused, 1 of them only by a limit; done in this run: 0 of the 3 proofs'
printf '%s\n7 passed, 0 failed\n' "$limit" > ../verdict
try 'an edit is refused by a limit' 0 "$proved
$limit
host tests: skipped, for cargo is not here
gate: N s
7 passed, 0 failed" bash .ci/run
echo '7 passed, 0 failed' > ../verdict
try 'rt ci does not say that all is well' 2 "$proved
7 passed, 0 failed
gate: N s
gate: FAILED: rt ci has no line 'rt: ok'" bash .ci/run

# The table, and what grew.
printf '# A page\n\nBudget: under 2 minutes now, under 5 later.\n\n<!-- made by tools/gate-times: begin -->\n<!-- made by tools/gate-times: end -->\n\nThe rest.\n' > docs/GATE.md
rm -rf target
try 'no log' 2 "gate-times: $work/a copy/target/log/gate cannot be read" tools/gate-times
echo 'gate: 5 s' > ../log
try 'no gate' 2 'gate-times: ../log has no gate in it' tools/gate-times ../log
cat > ../log << 'END'
== base
fn base::one: proved
rt: base proved
rt: rules proved
rt: rules: trying its must-fail edits (2)
rt: old is kept: an earlier run on this machine proved the same files over the same libraries
rt: tool proved
rt: must-fail rules/one.edit: refused, as it must be: note: specs/One.antt:3:5: error: no
rt: must-fail rules/two.edit: refused, as it must be
rt: tool ran, and wrote what its file stdout has
rt: ok; handles allowed: none; must-fail edits: 2 refused; done in this run: 3 of the 4 proofs (of crates and of their tests) and 2 of the 2 must-fail edits; the others are kept from earlier runs of the same files on this machine
gate: 119 s
6 passed, 0 failed
END
try 'no table' 2 "gate-times: $work/a copy/docs/GATE.md has no table; tools/gate-times --write makes it" tools/gate-times ../log
try 'a table is written' 0 'gate-times: docs/GATE.md has the table of ../log' tools/gate-times --write ../log
page='# A page

Budget: under 2 minutes now, under 5 later.

<!-- made by tools/gate-times: begin -->
The gate took 119 s. Done in it: 3 of the 4 proofs and 2 of the 2 must-fail edits. 4 crates, 2 edits.

| Crate | Edits |
|---|---:|
| rules | 2 |
| base | 0 |
| old | 0 |
| tool | 0 |
<!-- made by tools/gate-times: end -->

The rest.'
same 'the page' "$(cat docs/GATE.md)" "$page"
try 'nothing changed' 0 'all: 4 crates, were 4; 2 edits, were 2
gate: 119 s, was 119 s; done in it: 3 of the 4 proofs and 2 of the 2 must-fail edits
under the budget of 120 s' tools/gate-times ../log
sed -e 's/^rt: old/rt: fresh/' -e '/two.edit/d' -e 's/; done in this run.*/; every proof and must-fail edit was done in this run/' -e 's/^gate: 119 s/gate: 120 s/' ../log > ../grown
try 'what changed' 1 'rules: 1 edits, were 2
old: gone, 0 edits
fresh: new, 0 edits
all: 4 crates, were 4; 1 edits, were 2
gate: 120 s, was 119 s; done in it: all
OVER THE BUDGET of 120 s' tools/gate-times ../grown
mkdir -p target/log
cp ../log target/log/gate
try 'a table is renewed, from the log of the gate' 0 "gate-times: docs/GATE.md has the table of $work/a copy/target/log/gate" tools/gate-times --write
same 'the page is the same' "$(cat docs/GATE.md)" "$page"
echo 'rt: FAILED: base' >> ../log
try 'no table of a gate that failed' 2 'gate-times: ../log is of a gate that failed' tools/gate-times --write ../log

# The order of the crates, and how far a build is, by the older kit's times.
times='| Crate | Check, s | Edits | One edit, s | All edits, s | Sum, s |
|---|---:|---:|---:|---:|---:|
| tool | 54 | 0 |  | 0 | 54 |
| rules | 6 | 2 | 7.5 | 15 | 21 |
| old | 2 | 0 |  | 0 | 2 |
| base | 1 | 0 |  | 0 | 1 |
| **all** | 63 | 2 | 7.5 | 15 | 78 |'
echo "$times" > docs/GATE.md
printf '# NAME: the crates that it uses\ntool: rules old io\nborder staticlib: tool\nold: base\nrules: base\nnew: base\nbase:\n' > crates.txt
try 'crates in order' 0 '' tools/order
same 'by levels, the longest first' "$(cat crates.txt)" '# NAME: the crates that it uses
base:
new: base
rules: base
old: base
tool: rules old io
border staticlib: tool'
cp crates.txt ../ordered
try 'crates in order again' 0 '' tools/order
same 'nothing moves' "$(cat crates.txt)" "$(cat ../ordered)"
echo 'what is this' >> crates.txt
try 'a line that is no crate' 2 'tools/order: crates.txt has lines that are no crates' tools/order

printf '# NAME: the crates that it uses\nbase:\nrules: base\nold: base\nother: base\ntool: rules old io\n' > crates.txt
: > ../log
same 'nothing is proved' "$(tools/progress tool ../log 0)" 'proving crate 1 of 4, under a minute so far, about 1 min left'
printf 'rt: base: begins with what a check kept in /a/copy\nonly=0 proved=0\nrt: chose --jobs 2 for base\nfn base::one: proved\nlogic=proved functions=1\n' > ../log
same 'one is proved' "$(tools/progress tool ../log 61)" 'proving crate 2 of 4, 1 min so far, about 1 min left'
printf 'rt: chose --jobs 2 for old\nfn old::one: proved\n' >> ../log
same 'what was proved before is passed over' "$(tools/progress tool ../log 61)" 'proving crate 3 of 4, 1 min so far, under a minute left'
printf 'logic=proved functions=1\nrt: chose --jobs 2 for tool\n' >> ../log
same 'the last one is under way' "$(tools/progress tool ../log 61)" 'proving crate 4 of 4, 1 min so far, under a minute left'
echo "$times" | sed 's/^| base | 1 /| base | 30 /; s/^| tool | 54 /| tool | 58 /' > docs/GATE.md
same 'at the pace so far' "$(tools/progress tool ../log 128)" 'proving crate 4 of 4, 2 min so far, about 2 min left'
echo 'logic=proved functions=1' >> ../log
same 'all is proved' "$(tools/progress tool ../log 160)" 'proving crate 4 of 4, 3 min so far, under a minute left'
rm docs/GATE.md
same 'no table' "$(tools/progress tool ../log 160)" 'proving crate 4 of 4, 3 min so far'

# The first build of the command.
rm -rf target
mkdir -p crates/tool/src
: > crates/tool/src/main.rt
log="$work/a copy/target/torzimlak.log"
begins="torzimlak: building the command, which is proved first; $log has what the prover says
torzimlak: proving crate 1 of 4, under a minute so far"
program ../bin/rt << 'END'
[ "$(basename "$PWD"): $*" = 'tool: run -- help' ] || exit 9
sleep 1
echo 'fn base::one: proved'
echo 'src/lib.rt:3:5: error: this does not hold'
echo 'rt: the library rules did not build, so nothing above it was checked' >&2
exit 1
END
try 'a build that fails' 1 "$begins
fn base::one: proved
src/lib.rt:3:5: error: this does not hold
rt: the library rules did not build, so nothing above it was checked
torzimlak: the build failed at crate rules; $log has all that was said" ./torzimlak help
program ../bin/rt << 'END'
mkdir -p out
echo half > out/tool
chmod +x out/tool
(sleep 5 && echo > ../../../goes-on) &
echo > ../../../begun
wait
END
./torzimlak help > ../out 2>&1 &
stopped=$!
while [ ! -e ../begun ]; do sleep 1; done
kill "$stopped"
wait "$stopped"
same 'a build that is stopped' "status $?
$(cat ../out)" "status 143
$begins
torzimlak: the build is stopped; the next call goes on with what is proved"
sleep 5
same 'nothing of it goes on' "$(ls ../goes-on 2> /dev/null)" ''
same 'nothing half-written is left' "$(ls crates/tool/out)" ''
program ../bin/rt << 'END'
mkdir -p out
printf '#!/bin/sh\necho "the tool: $*"\n' > out/tool
chmod +x out/tool
END
try 'the next build' 0 "$begins
the tool: run a b" ./torzimlak run a b
try 'no build again' 0 'the tool: help' ./torzimlak help

# What is built is not built again, until a file of a crate has changed.
program ../bin/rt << 'END'
echo "rt in $(basename "$PWD"): $*"
END
try 'what stands is not built again' 0 '' tools/build tool
touch -d '2001-01-01' crates/tool/out/tool
try 'what is older than a source is' 0 'rt in tool: run -- help' tools/build tool
mkdir -p crates/trial/src
echo 'the cards' > crates/trial/stdin
program ../bin/rt << 'END'
echo "rt in $(basename "$PWD"): $* of $(cat)"
END
try 'the trial' 0 'rt in trial: run of the cards' tools/build trial
try 'no such program' 2 'usage: tools/build tool|trial|library' tools/build vectors

# The library, over what rt ci left, and by rt lib where it left nothing or a source has changed since.
printf '# NAME: the crates that it uses\nbase:\nhost: base io\ntool: host\nhost_c staticlib: base host\n' > crates.txt
touch -d '2002-01-01' crates.txt crates/tool/src/main.rt
mkdir -p crates/host_c/src crates/base/out/rlib/base.rlib crates/host/out/rlib/host.rlib ../kit/bin
: > crates/base/out/rlib/base.rlib/format
: > crates/host/out/rlib/host.rlib/format
touch crates/tool/out/tool
program ../bin/rt << 'END'
case "$(basename "$PWD"): $*" in
    *': doc') echo "$(dirname "$0")/../kit/START-HERE.md" ;;
    'host_c: lib') mkdir -p out && echo 'by rt lib' > out/libhost_c.a ;;
    *) exit 9 ;;
esac
END
program ../kit/bin/rattle << 'END'
[ "$1 $(basename "$PWD")" = 'build host_c' ] || exit 9
echo "$*" | sed "s|[^ =]*/kit/|KIT/|g"
for word; do last=$word; done
echo 'over what rt ci left' > "$last"
END
try 'the library, over what rt ci left' 0 'build --crate-name host_c src/lib.rt --extern std=KIT/rlibs/std.rlib -L dependency=KIT/rlibs --extern base=../base/out/rlib/base.rlib --extern host=../host/out/rlib/host.rlib -L dependency=../base/out/rlib -L dependency=../host/out/rlib --antt-project KIT/rattle/logic/antt-project.json --logic-built KIT/logic_built --links host_c= --jobs 2 --crate-type staticlib --toolchain KIT/toolchain --backend llvm -o out/libhost_c.a' tools/build library
same 'its archive' "$(cat target/staticlib/libhost.a)" 'over what rt ci left'
: > crates/base/out/rlib/stamp
try 'the library, over what rt built itself' 0 '' tools/build library
same 'its archive is of rt lib' "$(cat target/staticlib/libhost.a)" 'by rt lib'
rm crates/base/out/rlib/stamp
touch -d '2100-01-01' crates/tool/src/main.rt
rm target/staticlib/libhost.a
try 'the library, of changed sources' 0 '' tools/build library
same 'its archive is of rt lib, too' "$(cat target/staticlib/libhost.a)" 'by rt lib'

# Valgrind's run: what is missing or fails, and a library that is there already.
cp "$top/tests/valgrind" tests || exit 1
mkdir -p bindings/rust/tests bindings/c target/staticlib
: > bindings/rust/tests/one.rs
: > bindings/rust/tests/two.rs
tools='awk basename cat cp dirname find grep head ls mkdir rm sed sh tail tr'
# without PROGRAM: valgrind's run over an old library, with nothing in PATH but plain tools and the programs of here, less that one
without() {
    rm -rf ../few
    mkdir ../few
    for tool in $tools rt cargo cc valgrind; do
        [ "$tool" = "$1" ] && continue
        if [ -e "../bin/$tool" ]; then ln -s "$work/bin/$tool" "../few/$tool"; else ln -s "$(command -v "$tool")" "../few/$tool"; fi
    done
    echo old > target/staticlib/libhost.a
    PATH=$work/few tests/valgrind
}
program ../bin/rt << 'END'
[ "$(basename "$PWD"): $*" = 'host_c: lib' ] || exit 9
ls ../../target/staticlib
[ ! -e ../../../no-library ] || exit 1
echo new > out/libhost_c.a
END
program ../bin/cc << 'END'
for word; do last=$word; done
echo "a host over $(cat target/staticlib/libhost.a)" > "$last"
END
program ../bin/cargo << 'END'
echo '   Compiling some crate v0.1.0 (/a path/deps/of-it)' >&2
[ -z "$TORZIMLAK_LIBRARY" ] || exit 102
[ ! -e ../no-crate ] || exit 101
echo '  Executable unittests src/lib.rs (a path/deps/lib-0a)' >&2
echo '  Executable tests/one.rs (a path/deps/one-1b)' >&2
[ -e ../no-two ] || echo '  Executable tests/two.rs (a path/deps/two-2c)' >&2
END
program ../bin/valgrind << 'END'
while [ "${1#-}" != "$1" ]; do shift; done
echo "tried: $1, share $TORZIMLAK_SHARE"
[ ! -e "../leaks-$(basename "$1")" ]
END
tried='tried: target/c/visitors, share 20
tried: a path/deps/lib-0a, share 20
tried: a path/deps/one-1b, share 20
tried: a path/deps/two-2c, share 20'
try 'valgrind: all is clean' 0 "$tried
valgrind: clean" without nothing
same 'valgrind: the library is the new one' "$(cat target/c/visitors)" 'a host over new'
TORZIMLAK_LIBRARY=/none
export TORZIMLAK_LIBRARY
try 'valgrind: no other library is taken' 0 "$tried
valgrind: clean" without nothing
unset TORZIMLAK_LIBRARY
for tool in rt cargo cc valgrind; do
    try "valgrind: no $tool" 1 "valgrind: FAILED: $tool is not here" without $tool
done
: > ../no-library
try 'valgrind: no library' 1 'valgrind: FAILED: the library is not built' without nothing
rm ../no-library
: > ../no-crate
try 'valgrind: cargo fails' 1 'tried: target/c/visitors, share 20
   Compiling some crate v0.1.0 (/a path/deps/of-it)
valgrind: FAILED: the tests are not built' without nothing
rm ../no-crate
: > ../no-two
try 'valgrind: a program is missing' 1 'tried: target/c/visitors, share 20
valgrind: FAILED: cargo built no program of bindings/rust/tests/two.rs' without nothing
rm ../no-two
: > ../leaks-one-1b
try 'valgrind: a test is not clean' 1 "$(printf '%s\n' "$tried" | head -n 3)
valgrind: FAILED: a path/deps/one-1b" without nothing
rm ../leaks-one-1b
program ../bin/rt << 'END'
echo 'rt: host NOT PROVED'
exit 1
END
try 'valgrind: the library is not built' 1 'rt: host NOT PROVED
valgrind: FAILED: the library is not built' without nothing
same 'valgrind: the old library is gone' "$(ls target/staticlib)" ''

# tools/edits --texts: a text that stands once, twice, not at all, and one that a replacement before it makes; and each edit of this repository.
mkdir -p crates/one/src crates/one/must-fail
printf 'a\nb\nb\n' > crates/one/src/lib.rt
printf 'file: src/lib.rt\nold: a\nnew: c\nold: c\nnew: d\n' > crates/one/must-fail/lawful.edit
try 'edits: each text stands once' 0 '' tools/edits --texts
printf 'file: src/lib.rt\nold: b\nnew: c\n' > crates/one/must-fail/twice.edit
printf 'file: src/lib.rt\nold: e\nnew: c\n' > crates/one/must-fail/lost.edit
printf 'file: src/gone.rt\nold: a\nnew: c\n' > crates/one/must-fail/no_file.edit
printf 'file: src/lib.rt\nold: a\n' > crates/one/must-fail/half.edit
try 'edits: texts that do not' 1 'one/half
one/lost
one/no_file
one/twice' tools/edits --texts
try 'edits: those of this repository' 0 '' "$top/tools/edits" --texts

printf 'gate.sh: %d passed, %d failed\n' "$passed" "$failed"
[ "$failed" -eq 0 ]
