#!/bin/sh
# Tries what the pages say: README's deck prints what stands below it; the theorems and functions that README and docs/PROOFS.md name stand in the files that they
# name, and every path there is a file's; README names each C function that the command calls; examples/ is what the crate vectors runs; docs/ARCHITECTURE.md and its
# drawing are those of crates.txt, and tools/architecture tells where they are not. Needs the built command.
# The last line is 'docs.sh: N passed, 0 failed'.
CDPATH=
top=$(cd "$(dirname "$0")/.." && pwd -P) || exit 1
work=$(mktemp -d) || exit 1
trap 'rm -rf "$work"' EXIT
trap 'exit 1' HUP INT TERM
LC_ALL=C
export LC_ALL
passed=0
failed=0

# same WHAT GOT WANTED
same() {
    if [ "$2" = "$3" ]; then
        passed=$((passed + 1))
    else
        failed=$((failed + 1))
        printf 'FAILED: %s\n--- wanted\n%s\n--- got\n%s\n' "$1" "$3" "$2"
    fi
}

# try WHAT STATUS OUT COMMAND..: what the command writes, and how it exits
try() {
    what=$1
    wanted="status $2
$3"
    shift 3
    "$@" > "$work/out" 2>&1
    same "$what" "status $?
$(cat "$work/out")" "$wanted"
}

# block KIND: the lines of README's first block of this kind
block() {
    awk -v kind="$1" '$0 == "```" kind { inside = 1; next } inside && $0 == "```" { exit } inside' "$top/README.md"
}

# README's deck.
block cards > "$work/next.min"
block text > "$work/printed"
same 'README has a deck and what it prints' "$(grep -c . "$work/next.min") $(grep -c . "$work/printed")" '22 6'
try "README's deck" 0 "$(cat "$work/printed")" "$top/torzimlak" run "$work/next.min"

# 'NAME FILES' for each name in the claims: of the rows of docs/PROOFS.md, and of README's list, where an item may have a second line.
claims() {
    awk '
        function tell(names, files) {
            gsub(/,/, "", files)
            while (match(names, /`[^`]+`/)) {
                print substr(names, RSTART + 1, RLENGTH - 2), files
                names = substr(names, RSTART + RLENGTH)
            }
        }
        /^\|/ && split($0, cell, / *\| */) == 5 && cell[4] ~ /\// { tell(cell[3], cell[4]) }
        /^ +- `/ { item = "" }
        /^ +(- )?`/ { item = item $0 }
        item ~ /`: [^ ]+$/ { files = item; sub(/.*`: /, "", files); tell(item, files); item = "" }' "$top/docs/PROOFS.md" "$top/README.md"
}

# The names of the claims that stand in none of their files.
lost() {
    cd "$top/crates" || exit 1
    # the files may be patterns
    # shellcheck disable=SC2086
    while read -r name files; do
        grep -rqwF -e "$name" $files 2> /dev/null || echo "$name: $files"
    done < "$work/claims"
}
claims > "$work/claims"
[ "$(grep -c . "$work/claims")" -ge 50 ]
same 'there are names in the claims' "$?" 0
same 'each name stands in its file' "$(lost)" ''

# The paths that a page names, and the goals of its links.
named() {
    grep -oE '[A-Za-z0-9_.*-]+(/[A-Za-z0-9_.*-]+)+' "$1" | sed 's/\.$//' | grep '/.'
    grep -oE '\]\([^)]*\)' "$1" | sed 's/^..\(.*\).$/\1/'
}

# Those of them that are no file: from the top, below crates/, or from the page's own folder.
astray() {
    # a path may be a pattern
    # shellcheck disable=SC2086
    named "$top/$1" | sort -u | while read -r path; do
        for folder in . crates "$(dirname "$1")"; do
            (cd "$top/$folder" && ls -d $path) > /dev/null 2>&1 && continue 2
        done
        echo "$path"
    done
}
for page in README.md docs/PROOFS.md docs/ARCHITECTURE.md "$top"/docs/landings/*.md; do
    page=${page#"$top/"}
    same "the paths of $page" "$(astray "$page")" ''
done

# The C functions that the command calls and README's list of what is assumed leaves out; those of the compiler and the loader are not among them.
assumed=$(sed -n '/^## What is assumed/,/^Not proved/p' "$top/README.md")
unnamed() {
    nm -D -u "$top/crates/tool/out/tool" | awk '{ sub(/@.*/, "", $NF); print $NF }' | while read -r symbol; do
        case $symbol in
            _ITM_* | __cxa_finalize | __gmon_start__ | __libc_start_main | __x86_get_cpuid_feature_leaf | memcpy | memmove | memset) continue ;;
            __xpg_strerror_r) symbol=strerror_r ;;
            __errno_location) symbol=errno ;;
            __sysv_signal) symbol=signal ;;
            __write) symbol=write ;;
        esac
        case $assumed in *"\`$symbol\`"*) ;; *) echo "$symbol" ;; esac
    done
}
if command -v nm > /dev/null; then
    same 'each C function is named' "$(unnamed)" ''
else
    echo 'docs.sh: skipped, for nm is not here: the C functions that are assumed'
fi

# The pages' decks are those that the crate vectors runs: a link is not to be had.
same 'examples/ is crates/vectors/data/examples' "$(diff -r "$top/examples" "$top/crates/vectors/data/examples" 2>&1)" ''

# The drawing and the tables of crates; then the same of a small project with one thing wrong.
try 'the architecture' 0 '' "$top/tools/architecture" --check
mkdir "$work/small" "$work/small/docs" && cd "$work/small" || exit 1
cp -R "$top/tools" . || exit 1
printf '# NAME: the crates that it uses\nbase:\nrules: base\ncards: base\ntables: base rules\nhost: base rules cards tables\ntool: host io\n' > crates.txt
for name in base rules cards tables host tool; do
    mkdir -p crates/$name/src
    echo '// No code.' > crates/$name/src/lib.rt
done
echo 'pub fn check() {' > crates/tables/src/lib.rt
echo 'fn main() {' > crates/tool/src/main.rt
page=docs/ARCHITECTURE.md
cat > $page << 'END'
### Rules

| Crate | Holds |
|---|---|
| base | lists |
| rules | definitions |

### Tables

| Crate | Holds |
|---|---|
| tables | a check |

### Cards

| Crate | Holds |
|---|---|
| cards | a language |

### Host

| Crate | Holds |
|---|---|
| tool | a command |
| host | calls |
END
other='docs/architecture.svg is not what crates.txt and docs/ARCHITECTURE.md give; tools/architecture draws it'
try 'no drawing' 1 "architecture: $other" tools/architecture --check
try 'drawn' 0 '' tools/architecture
try 'as drawn' 0 '' tools/architecture --check
# count CLASS: how many shapes of it the drawing has
count() {
    grep -c "class=\"$1\"" docs/architecture.svg
}
same 'a box a group, an arrow a group that is used at first hand' "$(count box) $(count line)" '4 4'
same 'a name a crate, and its kind with one in the legend' "$(count name) $(count theory) $(count code) $(count program)" '6 5 2 2'
same 'the order in a box is that of use' "$(grep -oE '>(host|tool)<' docs/architecture.svg)" '>host<
>tool<'
sort -r crates.txt > "$work/kept" && cp "$work/kept" crates.txt
try 'the order of crates.txt does not matter' 0 '' tools/architecture --check

# edited WHAT FILE EDIT LINE: what the check says of one file changed by sed
edited() {
    cp "$2" "$work/kept"
    sed "$3" "$work/kept" > "$2"
    try "$1" 1 "architecture: $4" tools/architecture --check
    cp "$work/kept" "$2"
}
edited 'a crate without a row' $page '/^| rules |/d' 'docs/ARCHITECTURE.md has no row for the crate rules'
edited 'a crate with two rows' $page '/^| rules |/p' 'docs/ARCHITECTURE.md has the crate rules twice'
edited 'a row without a crate' $page 's/^| rules |/| nobody | x |\n&/' 'docs/ARCHITECTURE.md has nobody, which crates.txt has not'
edited 'a row that says nothing' $page 's/^| rules |.*/| rules | |/' 'docs/ARCHITECTURE.md does not say what the crate rules holds'
edited 'a crate in another group' $page '/^| rules |/d; s/^| tables |/| rules | x |\n&/' "$other"
edited 'a new crate' crates.txt 's/^tool:/novel: base\n&/' 'docs/ARCHITECTURE.md has no row for the crate novel'
edited 'a group that uses one more' crates.txt 's/^cards:/& tables/' "$other"
edited 'groups in a circle' crates.txt 's/^rules:/& cards/' 'the group Rules stands above itself, by way of Cards; move a crate to another group'
edited 'another drawing' docs/architecture.svg 's/>rules</>rule</' "$other"
try 'wrong use' 2 'architecture: usage: tools/architecture [--check]' tools/architecture --draw

printf 'docs.sh: %d passed, %d failed\n' "$passed" "$failed"
[ "$failed" -eq 0 ]
