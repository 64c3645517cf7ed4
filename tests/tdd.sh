#!/bin/sh
# Runs the program as a user does, by ./tdd: its options, and its build where one is due; each lesson gives the answers of its file .out and
# those that its comments quote; README and manual show what the program says; a script from a file, a pipe or several files gives the same;
# what cannot be read or written is told; --check finds what differs; answers have the manual's words, and come before the next line is
# waited for; 10,000 calls take a few seconds. (rt ci runs the program on the scripts of crates/tdd/data.)
set -eu
cd "$(dirname "$0")/.."
room=$(mktemp -d)
trap 'rm -rf "$room"' EXIT
mkdir "$room/tmp"
export room TMPDIR="$room/tmp" # where the command's own files would be left
tdd=$PWD/tdd
first=lessons/first-slot

fail() {
    echo "tdd: $1" >&2
    exit 1
}

# same WHAT FOUND DUE: two files
same() {
    cmp -s "$2" "$3" || {
        diff "$2" "$3" | head -n 10 >&2
        fail "$1 (above: < what was found, > what is due)"
    }
}

# runs COMMAND...: keeps its status, what it prints and what it says on standard error
runs() {
    status=0
    "$@" >"$room/found" 2>"$room/said" || status=$?
}

# told WHAT STATUS WORDS: what the last run ended with and said on standard error
told() {
    [ "$status" = "$2" ] || fail "$1 ends with status $status, and should end with $2; it says '$(cat "$room/said")'"
    [ "$(cat "$room/said")" = "$3" ] || fail "$1 says '$(cat "$room/said")', and should say '$3'"
}

# printed WHAT LINES: what the last run printed
printed() {
    printf '%s\n' "$2" >"$room/due"
    same "what is printed by $1" "$room/found" "$room/due"
}

# narrow WHAT FILE: it has lines, and none of more than 80 columns
narrow() {
    [ -s "$2" ] || fail "$1 is empty"
    ! LC_ALL=C grep '.\{81\}' "$2" >&2 || fail "$1 has lines of more than 80 columns (above)"
}

# A copy of the command with nothing built, and a path on which there is little.
mkdir -p "$room/copy/crates/tdd/src" "$room/copy/host" "$room/little" "$room/rt"
cp tdd crates.txt "$room/copy"
cp crates/tdd/src/main.rt "$room/copy/crates/tdd/src"
sed 's/^version = .*/version = "7.8.9"/' host/Cargo.toml >"$room/copy/host/Cargo.toml"
for tool in dirname readlink sed; do ln -s "$(command -v $tool)" "$room/little"; done
bare() { runs env PATH="$room/little" "$room/copy/tdd" "$@"; }
bare --help <&-
told "--help with no build and no standard input" 0 ""
narrow "what --help says" "$room/found"
[ "$(wc -l <"$room/found")" -le 24 ] || fail "--help says more than 24 lines"
for words in './tdd [SCRIPT]...' './tdd --check SCRIPT...' './tdd --help' './tdd --version' 'The script - is' '# -> ' 'status  0' ' 141  ' \
    'help for the list' 'docs/TDD.md'; do
    grep -qF -- "$words" "$room/found" || fail "--help does not have '$words'"
done
cp "$room/found" "$room/help"
bare --help open
told "--help with a word after it" 0 ""
same "--help with a word after it" "$room/found" "$room/help"
bare --version <&-
told "--version with no build and no standard input" 0 ""
printed "--version, which is that of host/Cargo.toml" "tdd 7.8.9"
runs sh -c './tdd --help >&-'
told "--help without standard output" 1 "tdd: cannot write to standard output: it is closed"
runs sh -c './tdd --help >/dev/full'
told "--help that cannot be written" 1 "tdd: cannot write to standard output"

for word in --chek -h -- -x.txt '-a\n%s'; do
    due="tdd: $word is no option; right is: --check, --help, --version, or ./$word for a file of that name"
    bare "$word"
    told "the option $word" 2 "$due"
    bare --check $first.txt "$word"
    told "the option $word after a name" 2 "$due"
done
for word in --check --help --version; do
    due="tdd: $word is not the first word; right is: one option, before all names, or ./$word for a file of that name"
    bare $first.txt $word
    told "$word after a name" 2 "$due"
    bare --check $word
    told "$word after another option" 2 "$due"
done
bare --check
told "--check without a script" 2 "tdd: --check has no script to check; right is: ./tdd --check SCRIPT..., where - is standard input"

bare $first.txt
told "a run with no program and no rt" 2 \
    "tdd: the program is not built, and rt is not on the path: install the Rattle toolchain that README.md names"
./tdd </dev/null # proves and builds the program
# In the copy, an rt that hands out the program with its old time, or fails where crates/wrong is there.
printf '%s\n' '#!/bin/sh' 'echo "rt $*"' '[ ! -e ../wrong ] && mkdir -p out && cp -p "$proved" out/tdd' >"$room/rt/rt"
chmod +x "$room/rt/rt"
export proved="$PWD/target/bin/tdd"
proving="tdd: proving and building the program, which takes some minutes the first time"
# copied WHAT STATUS WORDS: what a run of the copy ends with and says; where that is 0, it gives the answers that it must
copied() {
    runs env PATH="$room/rt:$PATH" "$room/copy/tdd" $first.txt
    told "$1" "$2" "$3"
    [ "$2" != 0 ] || same "$1" "$room/found" $first.out
}
copied "the first run" 0 "$proving"
copied "the second run" 0 ""
touch -d '1 hour' "$room/copy/crates/tdd/out/kept"
copied "a run after rt kept something" 0 ""
touch -d '1 hour' "$room/copy/crates/tdd/src/main.rt"
copied "a run after a source was changed" 0 "$proving"
touch "$room/copy/crates/wrong"
copied "a run of a program that is not proved" 2 "$proving
rt run --cpu x86-64
tdd: the program is not proved; target/tdd.log says why"
[ ! -e "$room/copy/target/bin/tdd" ] || fail "a program that is not proved stays"
rm -r "$room/copy/crates"
mkdir "$room/copy/crates"
printf '%s\n' '#!/bin/sh' 'exit 7' >"$room/copy/target/bin/tdd"
chmod +x "$room/copy/target/bin/tdd"
copied "a run of a program that breaks off" 7 "tdd: the program ended with status 7"
runs "$room/copy/tdd" --check $first.txt
told "--check with a program that breaks off" 1 "tdd: the program ended with status 7"
echo "tdd: --help, --version, options that are none; the program is built where it must be"

lessons=0
for lesson in lessons/*.txt; do
    runs ./tdd "$lesson"
    told "the run of $lesson" 0 ""
    same "the answers of $lesson" "$room/found" "${lesson%.txt}.out"
    runs ./tdd --check "$lesson"
    told "the check of $lesson" 0 ""
    printed "the check of $lesson" "$lesson: $(wc -l <"${lesson%.txt}.out") answers, all as quoted"
    lessons=$((lessons + 1))
done
[ $lessons -gt 0 ] || fail "lessons has no script"
echo "tdd: $lessons lessons give the answers that they must, and quote them"

# block WORD: the first indented block of README.md whose first line begins with it
block() {
    awk -v word="    $1" '
        /^    / { if (!inside++) shown = index($0, word) == 1; if (shown) print substr($0, 5) }
        !/^    / { if (shown) exit; inside = 0 }' README.md
}
block set-cell >"$room/script"
block ok >"$room/due"
[ -s "$room/script" ] && [ -s "$room/due" ] || fail "README.md has no indented script that begins with set-cell, or no answers that begin with ok"
runs ./tdd "$room/script"
told "README's script" 0 ""
same "the answers of README's script" "$room/found" "$room/due"
case $(cat README.md) in *"$(sed 's/^/    /' $first.out)"*) ;; *) fail "README.md does not show, indented, the answers of $first.txt" ;; esac
for call in help refusals; do
    echo $call | ./tdd >"$room/found"
    sed -n "/^## What $call says\$/,/^## /s/^    //p" docs/TDD.md >"$room/due"
    same "what $call says, and docs/TDD.md shows" "$room/found" "$room/due"
    narrow "what $call says" "$room/found"
done
printf 'brief\nrefusals\n' | ./tdd | sed 1d >"$room/found"
same "what refusals says in brief" "$room/found" "$room/due"
echo "tdd: README shows the first lesson's answers and a script that runs as it stands, docs/TDD.md what help and refusals say"

./tdd <$first.txt >"$room/found"
same "a script on standard input" "$room/found" $first.out
while IFS= read -r line; do printf '%s\n' "$line"; done <$first.txt | ./tdd | cat >"$room/found"
same "a script through a pipe" "$room/found" $first.out
runs ./tdd - <$first.txt
told "a run of -" 0 ""
same "the script -" "$room/found" $first.out
(cd lessons && ../tdd first-slot.txt - refused-plan.txt <two-codes.txt) >"$room/found"
{
    echo "==> first-slot.txt <=="
    cat $first.out
    echo "==> - <=="
    cat lessons/two-codes.out
    echo "==> refused-plan.txt <=="
    cat lessons/refused-plan.out
} >"$room/due"
same "three scripts, the second on standard input, each from a fresh bench" "$room/found" "$room/due"
printf 'start\n' >"$room/--chek"
runs sh -c 'cd "$room" && "$0" ./--chek' "$tdd"
told "a script whose name begins with a dash" 0 ""
printed "a script whose name begins with a dash" ok

runs ./tdd nowhere.txt lessons $first.txt
told "a run with a script that is not there and a folder" 1 "tdd: cannot open nowhere.txt: No such file or directory
tdd: cannot read lessons: Is a directory"
{
    echo "==> nowhere.txt <=="
    echo "==> lessons <=="
    echo "==> $first.txt <=="
    cat $first.out
} >"$room/due"
same "the script after two that cannot be read" "$room/found" "$room/due"
./tdd nowhere.txt $first.txt >"$room/found" 2>&1 || :
{
    echo "==> nowhere.txt <=="
    echo "tdd: cannot open nowhere.txt: No such file or directory"
    echo "==> $first.txt <=="
    cat $first.out
} >"$room/due"
same "an error in its place between the answers" "$room/found" "$room/due"
closed="tdd: cannot read standard input: it is closed"
runs ./tdd <&-
told "a run without standard input" 1 "$closed"
runs ./tdd $first.txt - <&-
told "a run of - without standard input" 1 "$closed"
runs ./tdd $first.txt <&-
told "a run that needs no standard input" 0 ""
same "a run that needs no standard input" "$room/found" $first.out
runs sh -c './tdd "$0" >&-' $first.txt
told "a run without standard output" 1 "tdd: cannot write to standard output: it is closed"
runs sh -c './tdd "$0" 2>&-' $first.txt
same "a run without standard error" "$room/found" $first.out
full="tdd: cannot write the answers: No space left on device"
runs sh -c './tdd "$0" "$0" >/dev/full' $first.txt
told "a run whose answers cannot be written" 1 "$full"
runs sh -c 'echo start | ./tdd >/dev/full'
told "a run from standard input whose answers cannot be written" 1 "$full"
echo "tdd: file, pipe, several scripts; what cannot be read or written is told"

# checked WHAT STATUS WORDS TEXT: what --check tells of a script with this text (a format of printf), after its name
checked() {
    printf "$4" >"$room/lesson.txt"
    runs sh -c 'cd "$room" && "$0" --check lesson.txt' "$tdd"
    case $2 in
    0)
        told "the check of $1" 0 ""
        printed "the check of $1" "lesson.txt$3"
        ;;
    *)
        told "the check of $1" "$2" "tdd: lesson.txt$3"
        [ ! -s "$room/found" ] || fail "the check of $1 prints '$(cat "$room/found")'"
        ;;
    esac
}
checked "an empty script" 0 ": 0 answers, all as quoted" ''
checked "one call" 0 ": 1 answer, all as quoted" 'start # -> ok'
checked "quotes beside the calls and below, and of empty lines" 0 ": 5 answers, all as quoted" \
    'start\ndraw 1 # -> ok\n# -> ok 1\nshow 0 0 # ->\nshow 0 0 # -> \nshow 0 0\n#\t# ->\t \n'
checked "line ends with carriage returns, the last without a line feed" 0 ": 4 answers, all as quoted" \
    'start # -> ok\r\ndraw 1 # -> ok 1 \t\r\nshow 0 0 # ->\r\nshow 0 0\r\n# -> \r'
checked "bytes that are no text" 0 ": 1 answer, all as quoted" \
    "\\000\\377 # \\000\\377 # -> line 1: '??' is no call; right is: one of those that help lists\n"
checked "lines of 65,536 bytes and of more" 0 ": 2 answers, all as quoted" \
    'start%65524s# -> ok\nstart%65525s# -> line 2: the line has more than 65536 bytes; right is: at most 65536\n#%65535s\n'
checked "a quote that is cut short" 1 " line 4: quoted '12,0', answered '12,0 -12,0 0,-12 0,12'" \
    'record 12 0 -12 0 0 -12 0 12 # -> ok\nshow 0 4\n\n# -> 12,0\n'
checked "answers without a quote" 1 " after line 2: answered 'ok 1', which is not quoted; right is: a quote for each of 3 answers, not 1" '\nstart # -> ok\ndraw 1\nerase\n'
checked "an arrow with no blank behind it, which is no quote" 1 ": answered 'ok', which is not quoted; right is: a quote for each of 1 answer, not 0" 'start # ->ok\n'
checked "a quote too many" 1 " line 3: quoted 'ok', but there is only 1 answer" 'start # -> ok\n\n# -> ok\n# -> ok\n'
checked "quotes too many" 1 " line 3: quoted '', but there are only 2 answers" 'start # -> ok\ndraw 1 # -> ok 1\n# ->\n'
checked "quotes alone" 1 " line 1: quoted 'ok', but there are only 0 answers" '# -> ok'
checked "a second arrow in a line" 1 " line 1: quoted 'ok # -> ok', answered 'ok'" 'start # -> ok # -> ok\n'
checked "a blank before the answer" 1 " line 1: quoted ' ok', answered 'ok'" 'start # ->  ok\n'
checked "another text for the same number" 1 " line 1: quoted '1.0', answered '1'" 'element 4 1 0 # -> 1.0\n'
checked "signs that mean something elsewhere" 1 " line 1: quoted '\\n%s&*\$(ls)\"', answered 'ok'" 'start # -> \\n%%s&*$(ls)"\n'
checked "a quote with bytes that are no text" 1 " line 1: quoted 'o??k$(printf '\377')', answered 'ok'" 'start # -> o\000\033k\377\n'
x20=xxxxxxxxxxxxxxxxxxxx
checked "a quote of 60 characters" 1 " line 1: quoted '$x20$x20$x20', answered 'ok'" "start # -> $x20$x20$x20\n"
checked "a quote of 61 characters" 1 " line 1: quoted '$x20$x20$x20...', answered 'ok'" "start # -> $x20$x20${x20}x\n"
chips=$(printf '1,2 %.0s' 1 2 3 4 5 6 7 8 9 10)
shown="record$(printf ' 1 2%.0s' $(seq 40)) # -> ok\nshow 0 40\n# -> "
checked "a difference far into texts that are not long" 1 " line 3: quoted '${chips}9', answered '${chips}1,2'" \
    "${shown%show*}show 0 11\n# -> ${chips}9\n"
checked "a difference within long texts" 1 \
    " line 3: quoted '...1,2 1,2 1,2 1,2 1,2 9,2 ${chips%1,2 }...', answered '...1,2 1,2 1,2 1,2 1,2 $chips...'" \
    "$shown${chips}9,2 $chips$chips\n"
checked "a long quote that lacks the end" 1 \
    " line 3: quoted '... 1,2 1,2 1,2 1,2 1,2', answered '... 1,2 1,2 1,2 1,2 1,2 ${chips% }'" "$shown$chips$chips$chips\n"

# tries WHAT STATUS PRINTED SAID SCRIPT...: --check of these
tries() {
    what="the check of $1" due=$2 lines=$3 words=$4
    shift 4
    runs ./tdd --check "$@"
    told "$what" "$due" "$words"
    printf '%s' "$lines" >"$room/due"
    same "what is printed by $what" "$room/found" "$room/due"
}
for name in 'a b.txt' -x 'x=1' 'b\n%s&'; do
    printf 'start # -> ok\n' >"$room/$name"
    tries "a script named $name" 0 "$room/$name: 1 answer, all as quoted
" "" "$room/$name"
done
good="$first.txt: $(wc -l <$first.out) answers, all as quoted
"
printf 'start # -> ok 1\n' >"$room/wrong.txt"
tries "scripts good and bad, each from a fresh bench" 1 "$good$good" "tdd: cannot open nowhere.txt: No such file or directory
tdd: $room/wrong.txt line 1: quoted 'ok 1', answered 'ok'
tdd: cannot read lessons: Is a directory" $first.txt nowhere.txt "$room/wrong.txt" lessons $first.txt
tries "- among others" 1 "$good" "tdd: - line 1: quoted 'ok 1', answered 'ok'" - $first.txt <"$room/wrong.txt"
tries "/dev/stdin, which can be read only once" 0 "/dev/stdin: 1 answer, all as quoted
" "" /dev/stdin <<END
start # -> ok
END
tries "- without standard input" 1 "" "$closed" - $first.txt <&-
tries "a script without standard input" 0 "$good" "" $first.txt <&-
runs sh -c './tdd --check "$0" >&-' $first.txt
told "--check without standard output" 1 "tdd: cannot write to standard output: it is closed"
runs sh -c './tdd --check "$0" >/dev/full' $first.txt
told "--check that cannot be written" 1 "tdd: cannot write to standard output"
for script in $first.txt:0 "$room/wrong.txt:1"; do
    runs sh -c './tdd --check "$0" 2>&-' "${script%:*}"
    [ "$status" = "${script##*:}" ] || fail "--check of ${script%:*} without standard error ends with status $status"
done
runs env TMPDIR="$room/nowhere" ./tdd --check $first.txt
[ "$status $(tail -n 1 "$room/said")" = "1 tdd: cannot make a temporary folder in $room/nowhere" ] ||
    fail "--check does not tell that TMPDIR is not there, but ends with status $status and '$(cat "$room/said")'"

# clean WHAT: nothing of the command's own is left
clean() { [ -z "$(ls "$TMPDIR")" ] || fail "$1 leaves files in TMPDIR: $(ls -R "$TMPDIR")"; }
clean "--check"
# gone WHAT COMMAND...: ends with 141, and tells nothing, where nobody reads what it prints
gone() {
    what="$1 that nobody reads"
    shift
    {
        status=0
        env --default-signal=PIPE "$@" 2>"$room/said" || status=$?
        echo $status >"$room/status"
    } | :
    status=$(cat "$room/status")
    told "$what" 141 ""
    clean "$what"
}
gone "--check" ./tdd --check $(for i in $(seq 20); do echo $first.txt; done)
gone "a run" ./tdd $(for i in $(seq 100); do echo $first.txt; done)
# A signal comes while standard input is read, which never ends; timeout sends it on to all that ./tdd has started.
mkfifo "$room/never"
exec 5<>"$room/never"
for signal in HUP:129 INT:130 TERM:143; do
    timeout 20 ./tdd --check - <&5 2>"$room/said" &
    for i in $(seq 100); do [ -z "$(find "$TMPDIR" -name script)" ] && sleep 0.1 || break; done
    [ -n "$(find "$TMPDIR" -name script)" ] || fail "--check does not read standard input into a file in TMPDIR"
    kill -s ${signal%:*} $!
    status=0
    wait $! || status=$?
    [ $status = ${signal#*:} ] || fail "--check that is sent ${signal%:*} ends with status $status"
    clean "--check that is sent ${signal%:*}"
done
exec 5<&-
echo "tdd: --check tells what differs and where, and leaves nothing behind"

# answered SCRIPT: it is answered as it quotes, in lines of at most 80 columns
answered() {
    runs ./tdd --check "$1"
    told "the check of $1" 0 ""
    printed "the check of $1" "$1: $(grep -c '# ->' "$1") answers, all as quoted"
    sed -n 's/.*# -> //p' "$1" >"$room/quoted"
    narrow "what $1 quotes" "$room/quoted"
}
for script in tests/answers/*.txt; do answered "$script"; done
printf 'record 3 4,5\n' >"$room/script"
runs ./tdd "$room/script"
told "a chip in one word that stands where an im is due" 0 ""
printed "a chip in one word that stands where an im is due" \
    "line 1: '4,5' is no number from -2147483648 to 2147483647; right is: record RE IM [RE IM]..."
# A byte order mark is passed over at the start of a script, and of each of several, but nowhere else.
mark=$(printf '\357\273\277')
printf '%s\n' "${mark}start # -> ok" "${mark}start # -> line 2: '???start' is no call; right is: one of those that help lists" >"$room/marked.txt"
answered "$room/marked.txt"
printf '%sstart\n' "$mark" >"$room/marked.txt"
runs ./tdd "$room/marked.txt" "$room/marked.txt"
told "two scripts with a byte order mark" 0 ""
printed "two scripts with a byte order mark" "==> $room/marked.txt <==
ok
==> $room/marked.txt <==
ok"
runs ./tdd lesson.txt
told "a run of a file that is not there" 1 "tdd: cannot open lesson.txt: No such file or directory"
echo "tdd: refusals, settings, forms of bits and chips, misspelt calls and other faults are answered in the manual's words"

command -v script >/dev/null || fail "there is no script, of util-linux, by which a terminal is tried"
# terminal WHAT COMMAND WORDS: what a command says on standard error at a terminal, where this function's input is typed
terminal() {
    SHELL=/bin/sh timeout 20 script -qec "{ $2; } 2>\"\$room/said\"" /dev/null >"$room/screen" || fail "$1, at a terminal, fails or does not end"
    status=0
    told "$1, at a terminal," 0 "$3"
    tr -d '\r' <"$room/screen" | grep -qx ok || fail "$1, at a terminal, does not answer start with ok"
}
hint="tdd: type a call a line, help lists them; Ctrl-D ends"
printf 'start\n\004' >"$room/typed"
terminal "a run without a script" ./tdd "$hint" <"$room/typed"
terminal "a run of -" './tdd -' "$hint" <"$room/typed"
printf 'start\n' >"$room/script"
terminal "a run from a pipe" 'cat "$room/script" | ./tdd' "" </dev/null
terminal "a run from a file" './tdd - <"$room/script"' "" </dev/null
terminal "a run of a script" './tdd "$room/script"' "" </dev/null
[ ${#hint} -le 80 ] || fail "what is said at a terminal has more than 80 columns"
echo "tdd: at a terminal it says what to type, and elsewhere it does not"

# Each line is sent once the line before it is answered; a program that kept an answer back would wait forever.
mkfifo "$room/lines" "$room/answers"
timeout 20 ./tdd <"$room/lines" >"$room/answers" &
exec 3>"$room/lines" 4<"$room/answers"
for word in start start draw; do
    echo $word >&3
    IFS= read -r answer <&4 || fail "no answer before the next line"
    echo "$answer"
done >"$room/found"
exec 3>&- 4<&-
wait
printf '%s\n' 'ok' 'refused 10: a slot is under way' 'line 3: a word is missing; right is: draw N [M]' >"$room/due"
same "the answers one by one" "$room/found" "$room/due"
echo "tdd: each line is answered before the next one comes"

# 20 calls 500 times: 10,000 calls, 500 whole slots with a burst, read, hardened and searched.
for call in 'set-cell 8 1' 'load-plan 4,1,3 16,1,5 16,2,7' 'set-sync 2 1 0 9 9' 'start' 'set-gain 4 1 9' 'close 16 2' 'draw 976' 'draw 512' \
    'draw 5000' 'draw 1' 'read 8 4 1 0 976' 'harden' 'read 8 16 2 1488 976' 'find 0 2560' 'read-sync 2 96 256' 'open 2 0 1' 'clear-sync' \
    'load-bits 4 1 01' 'show 0 16' 'erase'; do
    echo "$call"
done >"$room/calls"
for i in $(seq 500); do cat "$room/calls"; done >"$room/script"
began=$(date +%s)
timeout 30 ./tdd "$room/script" >"$room/found" || fail "10,000 calls take more than 30 seconds"
took=$(($(date +%s) - began))
[ "$(grep -c '^ok group 2 frame 1 half 0$' "$room/found")" = 500 ] || fail "of 500 bursts not all are named"
[ "$(grep -c '^refused' "$room/found")" = 1500 ] || fail "of 10,000 calls not 1,500 are refused"
sed 's/^/# -> /' "$room/found" >>"$room/script"
began=$(date +%s)
runs timeout 30 ./tdd --check "$room/script"
checking=$(($(date +%s) - began))
told "the check of 10,000 calls, of 30 seconds at most," 0 ""
printed "the check of 10,000 calls" "$room/script: 11500 answers, all as quoted"
echo "tdd: 10,000 calls in $took s, checked in $checking s"
