# shellcheck shell=bash
# Functions for bash that share work among processors by GNU parallel, and find with jq which identities documents share
# (in Debian the packages `parallel` and `jq`). docs/performance.md says when to use them. tests/test_recipes.py runs the
# commands below. Read the functions into a bash:
#
#     $ . examples/parallel.sh
#
# They run the program that BALISECHECK names, if that is exported, else ./balisecheck of a clone, else the one on the path.
# For many small documents, `export BALISECHECK=$(BALISECHECK_PATH=1 ./balisecheck)` is faster in a clone, because
# the sources are then hashed only once.
#
# check_documents writes the report of each document, each line after the name of the document. A status counts only with
# the line of the report that goes with it, such as `yes: groups 2, messages 0` with status 0. In each document groups
# and messages count from 0. It checks as many documents at once as there are processors, which all take memory:
# `export PARALLEL=-j2` makes it two at once. From PARALLEL the functions take only `-j` or `--jobs`, and no other option.
#
# shared_identities compares NID_C and NID_BG of the first balise in the first aspect of each group. All documents
# together are sound if it and check_documents end with 0. For 100,000 groups it took 3.1 s and 160 MiB, most of it in jq
# (measured with an earlier program).
#
# run_in_blocks hands blocks of whole lines to a command. For a long file 10 MB are a good size (`10M`). These files are
# short, and so are their blocks:
#
#     $ run_in_blocks 60 examples/duplicated-pair.txt ./balisecheck decode | cmp - examples/duplicated-pair.json && echo same
#     same
#     $ run_in_blocks 200 examples/duplicated-pair.json ./balisecheck encode | cmp - examples/duplicated-pair.txt && echo same
#     same
#     $ run_in_blocks 60 examples/pad-bits-set.txt ./balisecheck decode; echo "status $?"
#     {"m_dup":0,"m_mcount":255,"m_version":33,"n_pig":0,"n_total":0,"nid_bg":1,"nid_c":1,"packets":[],"q_link":1,"user_bits":210}
#     refused: line 1: pad bits set
#     status 2
#     $ ./balisecheck decode < examples/pad-bits-set.txt | tail -n 1
#     refused: line 3: pad bits set
#
# The answers are in the order of the file. With status 0 the output equals a single run's, byte for byte. A refusal ends its
# block: the lines after it in this block have no answer. All other blocks are answered. A refusal counts lines from
# the beginning of its block. There is little to gain, because parallel copies all that is read and written: with an earlier
# program, for 200,000 telegrams, parallel took 0.6 s and `decode` 0.4 s; with `encode` 1.3 s and 1.5 s. Its start takes
# 0.2 s. Answers wait for their turn in the folder that TMPDIR names.
#
# check_tables has balisekit check many tables, as at night, each with its file of accepted findings: `line.csv` with
# `line.accepted.csv`. What is written for a table goes into a file of FOLDER, which must be new or empty. Options such as
# --timeout=600 go to balisekit; end them with `--`. It prints the summary: status, table and last line, then how many
# tables had each status. Status 0 without a line `account:` counts as 3. Each file that is named has a line, except the
# accepted findings of a table that is named too. `nice` in front of bash leaves the processors to others.
#
#     $ check_tables /tmp/night.$$ examples/links/line.csv examples/links/distance-differs.csv; echo "status $?"
#     0	examples/links/line.csv	program: "yes: groups 4, messages 0"
#     1	examples/links/distance-differs.csv	program: "yes: groups 4, messages 0"; links: 1 found (L2 1)
#     tables 2: status 0: 1, status 1: 1, status 2: 0, status 3: 0
#     status 1
#
# check_documents, run_in_blocks and check_tables end with the greatest exit status of their parts, 0 to 3 as the program's.
# shared_identities ends with 0, with 1 if it has found something, and else with 2 or 3. Status 3 also means that a part
# ended otherwise or did not run. parallel itself would end otherwise:
#
#   What happens                                                    parallel itself                   these functions
#   some parts end with a status above 0                            the number of these parts         the greatest status
#   a block is refused while more than a pipe holds is unread       logs signal 13 and status 0       2
#   a document is not there                                         logs status 1, as of findings     3
#   no document is named, or the file cannot be read                0                                 3
#   another program ends with 0, and writes no line of a yes        0                                 3
#   the answers cannot be written, as on a full disk                0                                 3

# With a CDPATH cd could lead to another folder, and writes its name.
unset CDPATH
# check_tables runs this.
check_tables_hook=$(cd "$(dirname "${BASH_SOURCE[0]}")" && pwd)/hooks/check-tables

# the_program: the program that these functions run.
the_program() {
    if [ -z "${BALISECHECK:-}" ] && [ ! -x ./balisecheck ]; then
        echo balisecheck
    else
        echo "${BALISECHECK:-./balisecheck}"
    fi
}

# shared_out OPTION..: parallel with the number of jobs that PARALLEL has. Its other options, and those of its files of
# settings, could run nothing or something else.
shared_out() {
    local jobs=()
    if [[ ${PARALLEL:-} =~ ^(-j|--jobs[ =])\ *([0-9]+%?)$ ]]; then
        jobs=(-j "${BASH_REMATCH[2]}")
    elif [ -n "${PARALLEL:-}" ]; then
        echo "PARALLEL=$PARALLEL is not used: these functions take only -j or --jobs with a number from it" >&2
    fi
    PARALLEL_SHELL=$BASH parallel --plain "${jobs[@]}" "$@"
}

# status_of_parts LOG COLUMN WHOLE PARALLEL CAT: ends with the greatest status in parallel's log. This column of the log
# has to add up to the whole; column 0 counts its lines. The last two are the statuses of parallel and of the cat after it.
status_of_parts() {
    [ "$4" -le 101 ] && [ "$5" -eq 0 ] || return 3
    awk -F '\t' -v column="$2" -v whole="$3" '
        NR > 1 {
            status = $7 ~ /^[0-2]$/ && $8 == 0 ? $7 : 3
            if (status > greatest) greatest = status
            sum += column ? $column : 1
        }
        END { exit sum + 0 == whole ? greatest + 0 : 3 }' "$1"
}

# report_of DOCUMENT: the program's report, with its status if the report has the line that goes with it, and otherwise 3.
report_of() {
    local statuses
    # Without this test a document that is not there would end with 1, as one with findings does.
    [ -r "$1" ] || { echo 'check_documents: the document cannot be read' >&2; return 3; }
    "$BALISECHECK" check <"$1" | awk '
        NR == 1 { first = $0 }
        { print; last = $0 }
        END {
            if (NR == 1 && first ~ /^yes: groups [0-9]+, messages [0-9]+$/) exit 10
            exit first ~ /^no: findings [0-9]+$/ ? 11 : last ~ /^refused: / ? 12 : 13
        }'
    statuses=("${PIPESTATUS[@]}")
    [ "$((statuses[0] + 10))" -ne "${statuses[1]}" ] || return "${statuses[0]}"
    echo "check_documents: $BALISECHECK ended with status ${statuses[0]}, without the line of a report that goes with it" >&2
    return 3
}

# check_documents DOCUMENT..: the reports of the documents, in this order, each line after the document's name.
check_documents() (
    [ $# -gt 0 ] || { echo 'check_documents DOCUMENT..' >&2; exit 3; }
    log=$(mktemp) && trap 'rm -f "$log"' EXIT || exit 3
    BALISECHECK=$(the_program)
    export BALISECHECK
    export -f report_of
    printf '%s\0' "$@" | shared_out -0 -k --tag --joblog "$log" report_of {} | cat
    status_of_parts "$log" 0 $# "${PIPESTATUS[@]:1}"
)

# run_in_blocks SIZE FILE COMMAND WORD..: what the command writes for each block of whole lines of the file, in the order
# of the file. SIZE is about the size of a block in bytes, such as 10M. A command without further words is a line of a shell.
run_in_blocks() (
    [ $# -gt 2 ] || { echo 'run_in_blocks SIZE FILE COMMAND WORD..' >&2; exit 3; }
    size=$1 file=$2
    shift 2
    [ $# -eq 1 ] || set -- "${*@Q}"
    bytes=$(wc -c <"$file") && log=$(mktemp) && trap 'rm -f "$log"' EXIT || exit 3
    # What a refused block leaves is read too. Else parallel cannot hand it over, and logs a signal instead of status 2.
    shared_out --pipe --block "$size" -k --joblog "$log" "$1; ended=\$?; cat >/dev/null; exit \$ended" <"$file" | cat
    status_of_parts "$log" 5 "$bytes" "${PIPESTATUS[@]}"
)

# shared_identities DOCUMENT..: each group whose NID_C and NID_BG another group of these documents has too, with both
# numbers, its document and its number there. Ends with 1 if there is one, and with 2 if a telegram is refused. It
# is for documents that `check` has read: what else is wrong with one may stay unseen.
shared_identities() (
    [ $# -gt 0 ] || { echo 'shared_identities DOCUMENT..' >&2; exit 3; }
    set -o pipefail
    room=$(mktemp -d) && trap 'rm -rf "$room"' EXIT || exit 3
    jq -r 'input_filename as $name | .groups | to_entries[]
        | "\(.value | (.aspects[0] // .).balises[0])\t\($name) group \(.key)"' "${@/#-/./-}" >"$room/first" || exit 3
    cut -f 1 "$room/first" | "$(the_program)" decode | cut -d , -f 6,7 >"$room/numbers" ||
        exit $(($? == 2 ? 2 : 3))
    [ "$(grep -cE '^"nid_bg":[0-9]+,"nid_c":[0-9]+$' "$room/numbers")" -eq "$(wc -l <"$room/first")" ] || exit 3
    cut -f 2 "$room/first" | paste "$room/numbers" - | LC_ALL=C sort -s -t $'\t' -k 1,1 >"$room/sorted" || exit 3
    awk -F '\t' '
        $1 != numbers { numbers = $1; first = $0; next }
        first { print first; first = "" }
        { print; shared = 1 }
        END { exit shared + 0 }' "$room/sorted" || exit $(($? == 1 ? 1 : 3))
)

# is_read_with FILE TABLE..: whether the hook reads the file as the accepted findings of one of these tables.
is_read_with() {
    local file=$1 stem table
    [[ $file == *.accepted.csv ]] || return 1
    shift
    for table; do
        stem=$table
        [[ ${table##*/} != *.* ]] || stem=${table%.*}
        [[ $table == *.accepted.csv || $stem.accepted.csv != "$file" || ! -e $file ]] || return 0
    done
    return 1
}

# check_tables FOLDER [OPTION.. --] TABLE..: a file of the FOLDER for each table, and the summary.
check_tables() (
    options=() tables=() place=0
    [ $# -gt 0 ] && folder=$1 && shift
    for word; do
        [ "$word" != -- ] || { options=("${@:1:place}") && shift $((place + 1)) && break; }
        place=$((place + 1))
    done
    for word; do is_read_with "$word" "$@" || tables+=("$word"); done
    [ ${#tables[@]} -gt 0 ] || { echo 'check_tables FOLDER [OPTION.. --] TABLE..' >&2; exit 3; }
    if ! mkdir -p "$folder" || ! folder=$(cd "$folder" && pwd) || [ -n "$(ls -A "$folder")" ]; then
        echo "check_tables: $folder is not empty, or cannot be written" >&2
        exit 3
    fi
    words="${options[*]@Q}" # (bash exports no array)
    export folder words check_tables_hook
    # Without the test a file that cannot be written would end with 1, as a table with findings does.
    # shellcheck disable=SC2016
    printf '%s\0' "${tables[@]}" |
        shared_out -0 --joblog "$folder/jobs" 'file=$folder/{#}-{/.}.txt; true >"$file" || exit 3
            eval "options=($words)" || exit 3
            "$check_tables_hook" "${options[@]}" -- {} >"$file" 2>&1 </dev/null'
    [ $? -le 101 ] || exit 3
    summary_of_tables "$folder" "${tables[@]}"
)

# summary_of_tables FOLDER TABLE..: a line for each table, in this order, by the log of parallel in the folder. A table
# without a last line, or without status 0 to 2, counts with 3, and so does status 0 without an account.
summary_of_tables() {
    local folder=$1 number=0 table file last status counts=(0 0 0 0) greatest=0
    shift
    for table; do
        number=$((number + 1)) file=${table##*/}
        file=$folder/$number-${file%.*}.txt
        last=$(tail -n 1 "$file") || last=
        status=$(awk -F '\t' -v number="$number" '$1 == number && $7 ~ /^[0-2]$/ && $8 == 0 { print $7 }' "$folder/jobs")
        [ -n "$last" ] && [ -n "$status" ] || status=3
        [ "$status" != 0 ] || grep -aq '^account: ' "$file" || { status=3 && last="no line of an account; the last is: $last"; }
        counts[status]=$((counts[status] + 1))
        [ "$status" -le "$greatest" ] || greatest=$status
        printf '%s\t%s\t%s\n' "$status" "$table" "${last:-no answer}" || return 3
    done
    echo "tables $number: status 0: ${counts[0]}, status 1: ${counts[1]}, status 2: ${counts[2]}, status 3: ${counts[3]}" ||
        return 3
    return "$greatest"
}
