#!/usr/bin/env bash
# The printed page docs/FORMAT.md beside the code: its list of tests is docs/format-tests.txt, its dumps are as tools/dump.sh prints them, and the program
# `cases` answers each test as printed. Run after `rt ci`, or `rt run` in crates/cases; silent where all is well. With --fill it prints the tests with the code's answers.
set -euo pipefail
cd "$(dirname "$0")/.."
page=docs/FORMAT.md
tests=docs/format-tests.txt
program=crates/cases/out/cases
[ -x "$program" ] || { echo "page.sh: no $program: run rt ci, or rt run in crates/cases, first" >&2; exit 1; }
work=$(mktemp -d)
trap 'rm -r "$work"' EXIT
failed=0

# What a name stands for: the bytes of a dump, in decimal, or the line that writes it and its length.
declare -A dump wrote length

differs() {
    echo "page: $1"
    failed=1
}

# The tests, a line each: what is too long for the page goes on in the next line, behind four spaces.
joined() {
    awk '/^    / { line = line substr($0, 4); next } NR > 1 { print line } { line = $0 } END { print line }' "$tests"
}

# A test as the page has it: where it is too long for a line, the answer begins the next.
wrapped() {
    if [ ${#1} -le 100 ]; then echo "$1"; else sed 's/ |\([^|]*\)$/\n|\1/' <<<"$1" | fold -s -w 96 | sed -e 's/ *$//' -e '2,$s/^/    /'; fi
}

# The dumps of the page: a line `NAME: SIZE bytes, check figure XXXX`, then the lines with an offset, bytes and a figure.
read_dumps() {
    local line name='' text=''
    while IFS= read -r line; do
        if [[ $line =~ ^([A-Z]):\ [0-9]+\ bytes,\ check\ figure ]]; then
            name=${BASH_REMATCH[1]}
            text=$line
            dump[$name]=''
        elif [[ -n $name && $line =~ ^\ *[0-9]+\ ((\ [0-9A-F]{2})+)\ +[0-9A-F]{4}$ ]]; then
            text+=$'\n'$line
            dump[$name]+=${BASH_REMATCH[1]}
        elif [[ -n $name ]]; then
            check_dump "$name" "$text"
            name=''
        fi
    done <"$page"
}

# A dump is as the tool prints its bytes; its name then stands for these.
check_dump() {
    local byte numbers=''
    : >"$work/archive"
    for byte in ${dump[$1]}; do
        printf "\\x$byte" >>"$work/archive"
        numbers+=" $((16#$byte))"
    done
    dump[$1]=$numbers
    [ "$(tools/dump.sh "$1" "$work/archive")" = "$2" ] || differs "dump $1 is not as tools/dump.sh prints it"
}

# The archive of a test, as a line of `cases` in `made`, and its size: NAME, then OFFSET=XX for a byte that is changed, `first K` or `and XX`.
make_archive() {
    local name=$1 bytes
    shift
    made='' size=0
    [ "$name" != - ] || return 0
    if [ -z "${dump[$name]-}" ]; then
        make_written "$name" "$@"
        return
    fi
    read -ra bytes <<<"${dump[$name]}"
    while [ $# -gt 0 ]; do
        case $1 in
        first) bytes=("${bytes[@]:0:$2}") && shift ;;
        and) bytes+=($((16#$2))) && shift ;;
        *=*) bytes[${1%=*}]=$((16#${1#*=})) ;;
        *) differs "no such change: $1" ;;
        esac
        shift
    done
    size=${#bytes[@]}
    made="archive $size bytes ${bytes[*]-}"
}

# The same of an archive that a test wrote. Its one change is `and 09`: the byte behind it, which was 9 before.
make_written() {
    size=${length[$1]}
    case ${*:2} in
    '') ;;
    'and 09') size=$((size + 1)) ;;
    *) differs "no such change of a written archive: ${*:2}" ;;
    esac
    made="${wrote[$1]}"$'\n'"cut $size"
}

# The question as a line of `cases`, which wants the number of bytes for some.
line_of() {
    case $1 in
    open) echo "open $size bytes" ;;
    report*first*) echo "$1" ;;
    report*) echo "$1 of $((size + 16)) bytes" ;;
    *) echo "$1" ;;
    esac
}

# What `cases` says of a question, each line feed of a report as ` /`.
answer_of() {
    local line said
    line=$(line_of "$1")
    said=$(printf '%s\n%s\n' "$made" "$line" | "$program" && echo .)
    said=${said#*"$line: "}
    said=${said%$'\n'.}
    echo "${said//$'\n'/ / }" | sed 's/ *$//'
}

# An answer with four or more equal numbers after each other written as 16*0.
shortened() {
    sed 's/;/ ;/g' <<<"$1" | awk '{
        for (i = 1; i <= NF; i += n) {
            for (n = 1; i + n <= NF && $(i + n) == $i; n++);
            if (n > 3) out = out " " n "*" $i; else for (k = 0; k < n; k++) out = out " " $i
        }
        print substr(out, 2)
    }' | sed 's/ ;/;/g'
}

# A line with `write`: its answer, and behind it the bytes of the target that are not the archive's. What is written under the name of a dump has its bytes.
try_write() {
    local name=$1 question=$2 room written behind
    made=''
    found=$(answer_of "$question")
    read -r _ _ room _ <<<"$question"
    written=${found##refused*}
    made=$question
    behind=$((room - ${written:-0}))
    [ "$behind" -eq 0 ] || found+="; $(answer_of "bytes $behind")"
    [ "$name" != - ] || return 0
    wrote[$name]=$question
    length[$name]=$written
    [ -n "${dump[$name]-}" ] || return 0
    made+=$'\n''cut 0'
    [ "$(answer_of "bytes $written")" = "${dump[$name]}" ] || differs "dump $name is not what is written"
}

# One line of the tests: archive, question, answer.
tried=0
try() {
    local archive=${1%% | *} rest=${1#* | } question answer short
    question=${rest%% |*}
    answer=${rest#* | }
    if [[ $question = write* ]]; then
        try_write "$archive" "$question"
    else
        make_archive $archive
        found=$(answer_of "$question")
    fi
    tried=$((tried + 1))
    short=$(shortened "$found")
    if [ "$fill" = yes ]; then
        wrapped "$archive | $question | $short"
    elif [ "$short" != "$answer" ]; then
        differs "$1: found $short"
    fi
}

fill=no
[ "${1-}" != --fill ] || fill=yes
read_dumps
[ "$fill" = yes ] || [ "$(awk '/^```tests$/ { on = 1; next } /^```$/ { on = 0 } on' "$page")" = "$(cat "$tests")" ] || differs "its tests are not those of $tests"
while IFS= read -r line; do
    case $line in
    '#'* | '') [ "$fill" = no ] || echo "$line" ;;
    *) try "$line" ;;
    esac
done < <(joined)
tr "\n" " " <"$page" | grep -q "there are $tried tests" || differs "it does not say that there are $tried tests"
exit "$failed"
