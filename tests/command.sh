#!/bin/sh
# Tries every command of `torzimlak`, and every way in which it can fail: what it writes to standard output and to standard error, its exit status, and that no
# file is left half-written. Needs nothing but the built command. What cannot be tried here is named by a line of its own. The last line is
# 'command: N passed, 0 failed'.
CDPATH=
top=$(cd "$(dirname "$0")/.." && pwd -P) || exit 1
work=$(mktemp -d) || exit 1
trap 'chmod -R u+rwx "$work"; rm -rf "$work"' EXIT
trap 'exit 1' HUP INT TERM
LC_ALL=C
export LC_ALL
passed=0
failed=0
torzimlak=$top/torzimlak

# The first call builds the command.
"$torzimlak" help > "$work/help" || exit 1
mkdir "$work/shop" && cd "$work/shop" || exit 1
cp "$top"/examples/*.min . || exit 1

pass() {
    passed=$((passed + 1))
}

fail() {
    failed=$((failed + 1))
    printf 'FAILED: %s\n' "$1"
}

# skip WHY WHAT: what is not tried
skip() {
    printf 'command: skipped, for %s: %s\n' "$1" "$2"
}

# same WHAT GOT WANTED
same() {
    if [ "$2" = "$3" ]; then
        pass
    else
        fail "$1"
        printf -- '--- wanted\n%s\n--- got\n%s\n' "$3" "$2"
    fi
}

# try STATUS OUT ERR COMMAND..: what the command writes, and how it exits
try() {
    status=$1
    out=$2
    err=$3
    shift 3
    "$@" > ../out 2> ../err
    got=$?
    same "$*" "status $got
$(cat ../out)
$(cat ../err)" "status $status
$out
$err"
}

# The files of the folder: nothing else may be there after a failure.
files() {
    ls -A
}

# byte FILE OFFSET VALUE: the byte set
byte() {
    printf "$(printf '\\%03o' "$3")" | dd of="$1" bs=1 seek="$2" conv=notrunc 2> /dev/null
}

# at FILE OFFSET: the byte there
at() {
    od -An -tu1 -j "$2" -N 1 "$1" | tr -d ' '
}

# deck PROGRAM FILE: cards with this section 4
deck() {
    printf ' SEC\nSYSPR EXP E,0\nSYSTW EXP E,2\n SEC\n SEC\nMINUS DIC -5\nONE$$ DAC 1\nABCDE DTC /ABCDE/\n SEC\n SEC\n%s\n SEC\n ERB 1,STACK FULL\n SEC\n BRN START\n END\n' "$1" > "$2"
}

# Wrong use, and help.
see="; see 'torzimlak help'"
for word in help --help -h; do
    try 0 "$(cat ../help)" '' "$torzimlak" $word
done
try 0 "$(cat ../help)" '' "$torzimlak"
same 'help names each command' "$(grep -c '^  torzimlak ' ../help)" 7
try 1 '' "torzimlak: there is no such command$see" "$torzimlak" assembly
try 1 '' "torzimlak: there is no such command$see" "$torzimlak" ''
try 1 '' "torzimlak: there is no such command$see" "$torzimlak" assemble-with-a-long-name
try 1 '' "torzimlak: assemble takes CARDS and TABLE$see" "$torzimlak" assemble greeting.min
try 1 '' "torzimlak: assemble takes CARDS and TABLE$see" "$torzimlak" assemble greeting.min table 7
try 1 '' "torzimlak: check takes TABLE$see" "$torzimlak" check
try 1 '' "torzimlak: check takes TABLE$see" "$torzimlak" check table table
try 1 '' "torzimlak: run takes CARDS, then fresh words$see" "$torzimlak" run
try 1 '' "torzimlak: freeze takes CARDS and SNAPSHOT, then fresh words$see" "$torzimlak" freeze token.min
try 1 '' "torzimlak: wake takes CARDS and SNAPSHOT, then fresh words$see" "$torzimlak" wake token.min
try 1 '' "torzimlak: operations takes nothing, or a MNEMONIC$see" "$torzimlak" operations MOV BRN

# operations: the paper's lines, each alone too; unknown where no row has the letters.
try 0 "$(cat "$top/crates/operations/stdout")" '' "$torzimlak" operations
while IFS= read -r line; do
    name=$(printf '%s' "$line" | cut -c 7-9)
    same "operations $name" "$("$torzimlak" operations "$name")" "$line"
done < "$top/crates/operations/stdout"
for name in EQU DTC DRC SEC XYZ mov MOv MO MOVE '' ' MOV' MOVMOVMOVMOVMOVMOV; do
    try 0 unknown '' "$torzimlak" operations "$name"
done

# assemble and check: every example.
for deck in basket currency discount greeting pricelist replace token; do
    "$torzimlak" assemble $deck.min $deck.table > ../out 2> ../err
    same "assemble $deck.min: status" "$?" 0
    same "assemble $deck.min: errors" "$(cat ../err)" ''
    words=$(($(wc -c < $deck.table) / 4))
    entries=$(($(at $deck.table 0) + 256 * $(at $deck.table 1)))
    same "assemble $deck.min: line" "$(cat ../out)" "$deck.table: $words words, $entries operations"
    try 0 "$deck.table: lawful, $words words, $entries operations" '' "$torzimlak" check $deck.table
done
before=$(files)

# assemble: refusals leave the table that was there.
cp greeting.table ../kept
sed 's/^ MVC  /MVX  /' greeting.min > ../bad.min
try 1 '' "../bad.min:21: refused (1): a byte, the line's length or a field is malformed" "$torzimlak" assemble ../bad.min greeting.table
sed 's/^ MVC  / MVX  /' greeting.min > ../bad.min
try 1 '' '../bad.min:21: refused (2): the operation is unknown, or not of this section' "$torzimlak" assemble ../bad.min greeting.table
sed '/^ END/d' greeting.min > ../bad.min
try 1 '' '../bad.min: refused (8): SEC or END is missing, section 4, 5 or 6 is empty, or a declared name has no place' "$torzimlak" assemble ../bad.min greeting.table
{ cat greeting.min; yes '*' | head -n 16384; } | head -c 32768 > ../long.min
try 0 "greeting.table: $(($(wc -c < greeting.table) / 4)) words, $(at greeting.table 0) operations" '' "$torzimlak" assemble ../long.min greeting.table
printf '*' >> ../long.min
try 1 '' '../long.min: refused (9): the text is over 32,768 bytes, or the program over a limit' "$torzimlak" assemble ../long.min greeting.table
yes '*' | head -c 1000000 > ../long.min
try 1 '' '../long.min: refused (9): the text is over 32,768 bytes, or the program over a limit' "$torzimlak" assemble ../long.min greeting.table
: > ../empty
try 1 '' '../empty: the file is empty' "$torzimlak" assemble ../empty greeting.table
try 1 '' '../missing.min: No such file or directory' "$torzimlak" assemble ../missing.min greeting.table
try 1 '' '..: Is a directory' "$torzimlak" assemble .. greeting.table
try 1 '' 'greeting.min/x: Not a directory' "$torzimlak" assemble greeting.min/x greeting.table
try 1 '' 'CARDS: the name of the file is empty' "$torzimlak" assemble '' greeting.table
try 1 '' 'TABLE: the name of the file is empty' "$torzimlak" assemble greeting.min ''
far=$(printf '%05000d' 0)
try 1 '' 'CARDS: File name too long' "$torzimlak" assemble "$far" greeting.table
try 1 '' 'TABLE: File name too long' "$torzimlak" assemble greeting.min "$far"
far=$(printf '%0300d' 0)
try 1 '' "$far: File name too long" "$torzimlak" assemble greeting.min "$far"
same 'a refusal leaves the table' "$(cmp greeting.table ../kept 2>&1)" ''
same 'a refusal leaves no file' "$(files)" "$before"

# assemble: where the table cannot be written.
mkdir ../folder
try 1 '' '../folder: Is a directory' "$torzimlak" assemble greeting.min ../folder
try 1 '' '../none/table: No such file or directory' "$torzimlak" assemble greeting.min ../none/table
try 1 '' 'greeting.min/table: Not a directory' "$torzimlak" assemble greeting.min greeting.min/table
try 1 '' '/dev/null: this is not a plain file' "$torzimlak" assemble greeting.min /dev/null
same '/dev/null is still a device' "$(ls -l /dev/null | cut -c1)" c
ln -s greeting.table ../link
try 1 '' '../link: this is a link; name the file itself' "$torzimlak" assemble greeting.min ../link
ln -s nowhere ../dangling
try 1 '' '../dangling: this is a link; name the file itself' "$torzimlak" assemble greeting.min ../dangling
mkfifo ../pipe
try 1 '' '../pipe: this is not a plain file' "$torzimlak" assemble greeting.min ../pipe
if [ "$(id -u)" -ne 0 ]; then
    chmod 555 ../folder
    try 1 '' '../folder/table: Permission denied' "$torzimlak" assemble greeting.min ../folder/table
    chmod 755 ../folder
    cp greeting.table ../readonly
    chmod 444 ../readonly
    try 1 '' '../readonly: Permission denied' "$torzimlak" assemble token.min ../readonly
    same 'a table that may not be written stays' "$(cmp greeting.table ../readonly 2>&1)" ''
    cp greeting.min ../secret.min
    chmod 000 ../secret.min
    try 1 '' '../secret.min: Permission denied' "$torzimlak" assemble ../secret.min ../none
else
    skip 'this is root, who may read and write all' 'a folder, a table and cards without permission'
fi
same 'the folder stays empty' "$(ls -A ../folder)" ''
limited() {
    (ulimit -f 1 && "$torzimlak" "$@")
}
deck "START ICV WA
$(yes ' ICV WA' | head -n 200)
 BRN START" ../large.min
try 1 '' 'greeting.table: File too large' limited assemble ../large.min greeting.table
same 'a write that fails half-way leaves the table' "$(cmp greeting.table ../kept 2>&1)" ''
try 1 '' 'new.table: File too large' limited assemble ../large.min new.table
same 'a write that fails half-way leaves no file' "$(files)" "$before"

# assemble: over its own cards, with the mode of any new file, and through a name with blanks.
cp greeting.min 'a deck'
words=$(($(wc -c < greeting.table) / 4))
try 0 "a deck: $words words, $(at greeting.table 0) operations" '' "$torzimlak" assemble 'a deck' 'a deck'
same 'cards become their own table' "$(cmp 'a deck' greeting.table 2>&1)" ''
(umask 027 && "$torzimlak" assemble greeting.min ../mode > ../out)
same 'the mode goes by umask' "$(ls -l ../mode | cut -c1-10)" '-rw-r-----'
rm 'a deck'

# check: what is no table.
try 1 '' '../missing: No such file or directory' "$torzimlak" check ../missing
try 1 '' '../folder: Is a directory' "$torzimlak" check ../folder
try 1 '' '../empty: the file is empty' "$torzimlak" check ../empty
try 1 '' 'TABLE: the name of the file is empty' "$torzimlak" check ''
try 1 '' 'greeting.min: refused (30): the table does not pass its check' sh -c "head -c 400 greeting.min > ../400 && cd .. && cp 400 greeting.min && '$torzimlak' check greeting.min"
head -c 401 basket.table > ../odd
try 1 '' "../odd: the file's length is no multiple of 4 bytes, so it holds no table" "$torzimlak" check ../odd
head -c 67488 /dev/zero > ../zeros
try 1 '' '../zeros: refused (30): the table does not pass its check' "$torzimlak" check ../zeros
head -c 67489 /dev/zero > ../zeros
try 1 '' '../zeros: the file is longer than any table' "$torzimlak" check ../zeros
try 1 '' '/dev/zero: the file is longer than any table' "$torzimlak" check /dev/zero
for word in 0 1 2 3 4 5 6 7; do
    for place in 0 3; do
        cp token.table ../damaged
        byte ../damaged $((4 * word + place)) 255
        try 1 '' '../damaged: refused (30): the table does not pass its check' "$torzimlak" check ../damaged
    done
done

# run: endings, registers, texts.
try 0 'ended 20: waiting for the host at a call of an external procedure
steps 13, place 12, open calls 0
XL 24, XR 36, XS 32768, WA 12, WB 33, WC 0, IA 0, overflow 0
RA 0, overflow 0
waits in EXP 0, exits 0
text: HELLO, ANNA!' '' "$torzimlak" run greeting.min
for line in 'basket 4508' 'currency NO PRICE' 'discount 199.97' 'greeting HELLO, ANNA!' 'pricelist NOT LISTED' 'replace THE DOG SAW A DOGFISH AND ANOTHER DOG'; do
    same "run ${line%% *}.min: text" "$("$torzimlak" run "${line%% *}.min" | sed -n 's/^text: //p')" "${line#* }"
done
deck 'START BRN START' ../loop.min
try 0 'ended 21: the budget is used
steps 1000000, place 0, open calls 0
XL 32508, XR 16, XS 32768, WA 0, WB 0, WC 0, IA 0, overflow 0
RA 0, overflow 0' '' "$torzimlak" run ../loop.min
deck 'START MOV (XS),WA
 BRN START' ../stop.min
try 1 'ended 22: an address past memory, or unaligned for a word
steps 0, place 0, open calls 0
XL 32508, XR 16, XS 32768, WA 0, WB 0, WC 0, IA 0, overflow 0
RA 0, overflow 0' '../stop.min: the program was stopped (22): an address past memory, or unaligned for a word' "$torzimlak" run ../stop.min
deck 'START LDI MINUS
 MOV =ABCDE,XL
 MOV =ONE$$,WA
 JSR SYSTW
 PPM START
 PPM START
 BRN START' ../told.min
try 0 'ended 20: waiting for the host at a call of an external procedure
steps 4, place 3, open calls 0
XL 8, XR 16, XS 32768, WA 4, WB 0, WC 0, IA -5, overflow 0
RA 0, overflow 0
waits in EXP 1, exits 2
text: ABCD' '' "$torzimlak" run ../told.min
deck 'START MOV =ONE$$,XL
 MOV =ONE$$,WA
 JSR SYSPR
 BRN START' ../dumb.min
same 'no text of characters that cannot be printed' "$("$torzimlak" run ../dumb.min | sed -n '/EXP/,$p')" 'waits in EXP 0, exits 0'
deck 'START MOV XS,XL
 MOV =ONE$$,WA
 JSR SYSPR
 BRN START' ../past.min
same 'no text past memory' "$("$torzimlak" run ../past.min | sed -n '/EXP/,$p')" 'waits in EXP 0, exits 0'
try 1 '' '../bad.min: refused (8): SEC or END is missing, section 4, 5 or 6 is empty, or a declared name has no place' "$torzimlak" run ../bad.min
try 1 '' '../missing.min: No such file or directory' "$torzimlak" run ../missing.min

# Fresh words: as given, from the system, and what is no word.
waits='ended 20: waiting for the host at a call of an external procedure
steps 1, place 0, open calls 0
XL 32508, XR 36, XS 32768, WA 0, WB 0, WC 0, IA 0, overflow 0
RA 0, overflow 0
waits in EXP 0, exits 0'
try 0 "fresh words: 1, as given
$waits" '' "$torzimlak" run token.min 4294967295
try 0 "fresh words: 1, as given
$waits" '' "$torzimlak" run token.min 0004294967295
try 0 "fresh words: 1, from the system
$waits" '' "$torzimlak" run token.min
for word in 4294967296 04294967296 99999999999999999999 -1 0x10 1.5 one ' 1' '1 '; do
    try 1 '' "$word: this is no whole number from 0 to 4294967295" "$torzimlak" run token.min "$word"
done
try 1 '' ': this is no whole number from 0 to 4294967295' "$torzimlak" run token.min ''
try 1 '' "token.min: refused (43): the count of fresh words is not the program's: 2 given, 1 needed" "$torzimlak" run token.min 1 2
try 1 '' "greeting.min: refused (43): the count of fresh words is not the program's: 1 given, 0 needed" "$torzimlak" run greeting.min 1

# freeze: what it says, what it writes, what it leaves.
try 0 "fresh words: 1, as given
$waits
token.snapshot: 32848 bytes" '' "$torzimlak" freeze token.min token.snapshot 7
same 'the length of the snapshot' "$(($(wc -c < token.snapshot)))" 32848
"$torzimlak" freeze token.min ../other.snapshot 8 > ../out
same 'machines that differ in fresh words have one file' "$(cmp token.snapshot ../other.snapshot 2>&1)" ''
before=$(files)
try 1 'ended 22: an address past memory, or unaligned for a word
steps 0, place 0, open calls 0
XL 32508, XR 16, XS 32768, WA 0, WB 0, WC 0, IA 0, overflow 0
RA 0, overflow 0' '../stop.min: the program was stopped (22): an address past memory, or unaligned for a word' "$torzimlak" freeze ../stop.min stop.snapshot
try 1 '' 'token.snapshot: File too large' limited freeze token.min token.snapshot 9
try 1 '' '../folder: Is a directory' "$torzimlak" freeze token.min ../folder 9
try 1 '' '../none/token.snapshot: No such file or directory' "$torzimlak" freeze token.min ../none/token.snapshot 9
try 1 '' 'SNAPSHOT: the name of the file is empty' "$torzimlak" freeze token.min ''
same 'a snapshot that cannot be written stays' "$(cmp token.snapshot ../other.snapshot 2>&1)" ''
same 'freeze leaves no other file' "$(files)" "$before"

# wake: the same words give the same token, and none give a new one each time.
try 0 'fresh words: 1, as given
ended 20: waiting for the host at a call of an external procedure
steps 70, place 14, open calls 0
XL 24, XR 24, XS 32768, WA 8, WB 0, WC 0, IA 0, overflow 0
RA 0, overflow 0
waits in EXP 1, exits 0
text: 0000002A' '' "$torzimlak" wake token.min token.snapshot 42
token() {
    "$torzimlak" wake token.min token.snapshot "$@" | sed -n 's/^text: //p'
}
same 'the token of the largest word' "$(token 4294967295)" FFFFFFFF
same 'the same words, the same token' "$(token 123456789)" "$(token 123456789)"
one=$(token)
two=$(token)
same 'a token has eight digits' "$(printf %s "$one" | tr -d 0-9A-F | wc -c | tr -d ' ')${#one}" 08
if [ "$one" != "$two" ]; then pass; else fail 'two wakes have two tokens'; fi
"$torzimlak" freeze ../loop.min ../loop.snapshot > ../out
try 0 'ended 21: the budget is used
steps 1000000, place 0, open calls 0
XL 32508, XR 16, XS 32768, WA 0, WB 0, WC 0, IA 0, overflow 0
RA 0, overflow 0' '' "$torzimlak" wake ../loop.min ../loop.snapshot
# files of before there were reals wake as they did
old=$top/tests/old
same 'an old file of token.min' "$("$torzimlak" wake "$old/token.min" "$old/token.snapshot" 42 | sed -n 's/^text: //p')" 0000002A
for line in 'basket 4508' 'currency NO PRICE' 'discount 15000' 'greeting HELLO, ANNA!' 'pricelist 1999' 'replace THE DOG SAW A DOGFISH AND ANOTHER DOG'; do
    name=${line%% *}
    same "an old file of $name.min" "$("$torzimlak" wake "$old/$name.min" "$old/$name.snapshot" | sed -n 's/^text: //p')" "${line#* }"
done
{ printf 'bytes in front'; cat token.snapshot; } > ../fronted
same 'bytes in front do not matter' "$("$torzimlak" wake token.min ../fronted 42 | sed -n 's/^text: //p')" 0000002A

# wake: snapshots that are damaged, of another program, too long, or none.
trailer=$((32848 - 64))
# name, offset from the build number, byte, refusal
while read -r name offset value reason; do
    cp token.snapshot ../damaged
    byte ../damaged $((trailer + offset)) "$value"
    try 1 '' "../damaged: refused $reason" "$torzimlak" wake token.min ../damaged 1
done << 'END'
build 0 2 (41): the file is of another program or build
entries 4 255 (41): the file is of another program or build
memory 9 0 (40): the file has no lawful trailer
links 12 1 (40): the file has no lawful trailer
fresh 16 0 (40): the file has no lawful trailer
place 20 255 (42): the frozen state does not pass its check
waiting 24 2 (40): the file has no lawful trailer
flag 56 2 (40): the file has no lawful trailer
length 60 255 (40): the file has no lawful trailer
fresh-address -16 255 (41): the file is of another program or build
real-flag -4 2 (40): the file has no lawful trailer
END
cp token.snapshot ../damaged
byte ../damaged $((trailer - 5)) 127
byte ../damaged $((trailer - 6)) 240
try 1 '' '../damaged: refused (40): the file has no lawful trailer' "$torzimlak" wake token.min ../damaged 1
cp token.snapshot ../damaged
byte ../damaged 20 1
try 1 '' '../damaged: refused (42): the frozen state does not pass its check' "$torzimlak" wake token.min ../damaged 1
head -c 32847 token.snapshot > ../damaged
try 1 '' '../damaged: refused (40): the file has no lawful trailer' "$torzimlak" wake token.min ../damaged 1
try 1 '' 'token.min: refused (40): the file has no lawful trailer' "$torzimlak" wake token.min token.min 1
try 1 '' 'token.snapshot: refused (41): the file is of another program or build' "$torzimlak" wake greeting.min token.snapshot
try 1 '' '../empty: the file is empty' "$torzimlak" wake token.min ../empty 1
try 1 '' '../folder: Is a directory' "$torzimlak" wake token.min ../folder 1
try 1 '' '../missing: No such file or directory' "$torzimlak" wake token.min ../missing 1
try 1 '' '/dev/zero: the file is longer than any snapshot' "$torzimlak" wake token.min /dev/zero 1
try 1 '' "token.min: refused (43): the count of fresh words is not the program's: 2 given, 1 needed" "$torzimlak" wake token.min token.snapshot 1 2

# Standard input and output.
closed() {
    "$@" <&-
}
try 0 'text: HELLO, ANNA!' '' sh -c '"$1" run greeting.min <&- | tail -n 1' sh "$torzimlak"
try 0 "token.table: $(($(wc -c < token.table) / 4)) words, $(at token.table 0) operations" '' closed "$torzimlak" assemble token.min token.table
try 0 'text: HELLO, ANNA!' '' sh -c 'cat greeting.min | "$1" run /dev/stdin | tail -n 1' sh "$torzimlak"
full() {
    "$torzimlak" "$@" > /dev/full
}
try 1 '' 'standard output: No space left on device' full run greeting.min
try 1 '' 'standard output: No space left on device' full help
mute() {
    "$torzimlak" "$@" >&-
}
try 1 '' 'torzimlak: standard output is closed' mute help

# The script: from any folder, by any path, through a link, in a folder with blanks, and where it cannot build.
mkdir -p '../a b/c' '../bin'
same 'by a relative path' "$(cd "$top" && ./torzimlak help)" "$(cat ../help)"
ln -s "$torzimlak" '../a b/torzimlak'
same 'through a link' "$('../a b/torzimlak' help)" "$(cat ../help)"
ln -s ../torzimlak '../a b/c/tz'
same 'through a link of a link' "$(cd '../a b/c' && ./tz help)" "$(cat ../help)"
same 'by PATH' "$(PATH="../a b:$PATH" && export PATH && torzimlak run greeting.min | tail -n 1)" 'text: HELLO, ANNA!'
cp "$torzimlak" '../a b/c/torzimlak'
away=$(cd '../a b/c' && pwd -P)
if ! PATH=/usr/bin:/bin command -v rt > /dev/null; then
    try 1 '' 'torzimlak: the command is not built yet, and rt, the Rattle toolchain that builds it, is not in PATH' env PATH=/usr/bin:/bin "$away/torzimlak" help
else
    skip 'rt is in /usr/bin or /bin' 'a command that is not built, and no rt to build it'
fi
mkdir "$away/target" && mkdir "$away/target/torzimlak.log"
printf '#!/bin/sh\nexit 1\n' > ../bin/rt
chmod +x ../bin/rt
try 1 '' "torzimlak: the command is not built yet, and $away/target/torzimlak.log cannot be written" env PATH="$work/bin:/usr/bin:/bin" "$away/torzimlak" help
rm -r "$away/target"
printf '#!/bin/sh\necho no proof\nexit 1\n' > ../bin/rt
cp -R "$top/tools" "$away"
mkdir -p "$away/crates/tool"
echo 'tool: io' > "$away/crates.txt"
building="torzimlak: building the command, which is proved first; $away/target/torzimlak.log has what the prover says
torzimlak: proving crate 1 of 1, under a minute so far"
try 1 '' "$building
no proof
torzimlak: the build failed; $away/target/torzimlak.log has all that was said" env PATH="$work/bin:/usr/bin:/bin" "$away/torzimlak" help
same 'the log of the build' "$(cat "$away/target/torzimlak.log")" 'no proof'
printf '#!/bin/sh\nexit 0\n' > ../bin/rt
try 1 '' "$building
torzimlak: the build left no $away/crates/tool/out/tool; remove $away/crates/tool/out and try again" env PATH="$work/bin:/usr/bin:/bin" "$away/torzimlak" help
printf '#!/bin/sh\nmkdir -p out\nprintf "#!/bin/sh\\necho built: \\"\\$@\\"\\n" > out/tool\nchmod +x out/tool\n' > ../bin/rt
try 0 'built: run a deck' "$building" env PATH="$work/bin:/usr/bin:/bin" "$away/torzimlak" run 'a deck'
try 0 'built: run a deck' '' env PATH=/usr/bin:/bin "$away/torzimlak" run 'a deck'

printf 'command: %d passed, %d failed\n' "$passed" "$failed"
[ "$failed" -eq 0 ]
