# Runs a program of this repository. `wcpwatch`, `wcptrace` and `wcpdraw` read this file. It wants the words that the call
# has and, of the program:
#   name           its name
#   look_at        looks at the words and sets `asked` to what they ask for: `help`, `version` or `usage`, which are
#                  answered without a build; `input`, where the program reads its input; or `other`. `usage` comes only
#                  where the program answers so, and `why` is then how the rest of its line begins
#   most           how many bytes of input a build without proofs takes
#   refuse_longer  what is done where there are more: it ends the call, or lets these and one more be handed on
#   beside         the option that names a file which is read besides the input, where there is such an option
#   several        `yes` where the input may stand in several files
top=$(dirname -- "$(readlink -f -- "$0")")
folder=$top/crates/$name
program=$folder/out/$name
toolchain='rattle-kit-13f logic dac8208d650f15bf'

# The places, among the words from 1, of the files that they name, which are read in place of standard input.
places='' why=''

say() {
    echo "$name: $*" >&2
}

is_among() {
    case " $2 " in *" $1 "*) return 0 ;; esac
    return 1
}

refuse() {
    asked=usage why=$1
}

# Looks at words that are options and files. `valued` and `flags` are the options with a value and without
# one; those that the words have stand in `seen`.
look_at_options() {
    asked=input at=0 seen=
    while [ $# -gt 0 ]; do
        at=$((at + 1))
        case $1 in
            --) shift; at=$((at + 1)); look_at_files "$@"; return ;;
            -h* | --help | -V* | --version | --=*) asked=other ;;
            -?*) look_at_option "$1" "${2--}" ;;
            *) look_at_files "$1" ;;
        esac
        [ "$asked" = input ] || return 0
        if is_among "$1" "$valued"; then at=$((at + 1)); shift; fi
        shift
    done
}

# Looks at an option, and the word behind it.
look_at_option() {
    option=${1%%=*}
    seen="$seen $option"
    if ! is_among "$option" "$valued $flags"; then
        case $1 in
            --*) refuse "unexpected argument '$option' found" ;;
            -[a-zA-Z0-9]*) refuse "unexpected argument '${1%"${1#??}"}' found" ;;
            *) asked=other ;;
        esac
    elif [ "$1" != "$option" ]; then
        is_among "$option" "$valued" || refuse "unexpected value '${1#*=}' for '$option' found"
    elif is_among "$option" "$valued"; then
        case $2 in -*) asked=other ;; esac
    fi
}

# Looks at words that are no options.
look_at_files() {
    for word; do
        if [ -n "$places" ] && [ -z "${several-}" ]; then
            refuse "unexpected argument '$word' found"
            return
        fi
        places="$places $at"
        at=$((at + 1))
        [ -n "$word" ] || asked=other
    done
    at=$((at - 1))
}

# The program and the crates that it stands on, a line each.
crates() {
    awk -v program="$name" '
        { sub(/#.*/, "") }
        NF { name = $1; sub(/:.*/, "", name); sub(/^[^:]*:?/, ""); needs[name] = $0 }
        function visit(name, words, count, i) {
            if (!(name in needs) || name in seen) return
            seen[name] = 1
            count = split(needs[name], words, /[ \t,]+/)
            for (i = 1; i <= count; i++) visit(words[i])
            print name
        }
        END { visit(program) }' "$top/crates.txt"
}

# A source that is newer than the program, where there is one.
newer_source() {
    # shellcheck disable=SC2046
    (cd "$top" && find crates.txt $(crates | sed 's,^,crates/,') -name out -prune -o \
        \( -name '*.rt' -o -name '*.antt' -o -name crates.txt \) -newer "$program" -print) | head -n 1
}

# A folder for what a call keeps until it ends, however it ends.
make_room() {
    room=$(mktemp -d) || exit 2
    trap 'rm -rf "$room"' EXIT
    trap 'exit 129' HUP
    trap 'exit 130' INT
    trap 'exit 143' TERM
}

# Another version may do as well, so it gets a line and no more.
look_for_toolchain() {
    found=$(rt version 2>/dev/null)
    case $found in
        "$toolchain") ;;
        rattle-kit-*) say "the toolchain is another than the one that this is proved with: \`rt version\` prints" \
            "\`$found\`, and not \`$toolchain\`" ;;
        *) say "there is no toolchain: put one on PATH of which \`rt version\` prints \`$toolchain\`"; exit 2 ;;
    esac
}

# Answers what needs no build: the help and the version are the stored ones.
answer_at_once() {
    case $asked in
        usage) say "usage${why:+: $why}"; exit 2 ;;
        *) cat "$folder/runs/$asked" 2>/dev/null || { say write; exit 2; } ;;
    esac
    exit 0
}

# Keeps the input to its end, or one byte more than is taken of it. `rt try` hands on whole what is less than 64 MiB.
keep_input() {
    head -c "$((most + 1))" >"$room/input" 2>/dev/null || { say read; exit 2; }
    [ "$(wc -c <"$room/input")" -le "$most" ] || refuse_longer
}

# Keeps the files that the words name, one behind the other, each from the beginning of a line.
keep_files() {
    at=0 kept=''
    : >"$room/input"
    for word; do
        at=$((at + 1))
        is_among "$at" "$places" || continue
        [ -z "$kept" ] || begin_file "$word"
        kept=yes
        if [ "$word" = - ]; then head -c "$((most + 1))"; else head -c "$((most + 1))" <"$word"; fi \
            >>"$room/input" 2>/dev/null || { say read; exit 2; }
    done
    [ "$(wc -c <"$room/input")" -le "$most" ] || refuse_longer
}

# Says with which line a further file begins.
begin_file() {
    [ "$1" = - ] || [ -s "$1" ] || return 0
    [ -z "$(tail -c 1 "$room/input")" ] || echo >>"$room/input"
    say "$1 begins at line $(($(wc -l <"$room/input") + 1))"
}

# Looks whether the files that the words name can be read.
look_at_names() {
    at=0
    for word; do
        at=$((at + 1))
        is_among "$at" "$places" || continue
        [ "$word" = - ] || (: <"$word") 2>/dev/null || { say "$word: it can't be opened"; exit 2; }
    done
}

# Whether the words name only standard input, or no file at all.
reads_input() {
    at=0
    for word; do
        at=$((at + 1))
        ! is_among "$at" "$places" || [ "$word" = - ] || return 1
    done
}

# Makes ready for a build without proofs: keeps the input, where the program reads it, and says what is done.
prepare() {
    reason=$1
    shift
    build="building it without proofs for this call, in a minute or two (./$name --prove proves it and keeps it)"
    if [ "$asked" != input ]; then
        : >"$room/input"
        say "$reason: $build"
    elif ! reads_input "$@"; then
        look_at_names "$@"
        keep_files "$@"
        say "$reason: $build"
    elif [ -f /dev/stdin ]; then
        keep_input
        say "$reason: $build"
    else
        say "$reason: waiting for the end of standard input, and then $build"
        keep_input
    fi
}

# Looks whether the file beside the input can be read, and where it is.
look_at_data() {
    if [ "$data" = - ]; then
        say "$beside - is for the proved program: call ./$name --prove first"
        exit 2
    fi
    (: <"$data") 2>/dev/null || { say "$data: it can't be opened"; exit 2; }
    data=${data##*/}=$(readlink -f -- "$data")
}

# Answers by a build without proofs, of which nothing is kept. `rt try` runs the program for this call alone, and what the
# program wrote comes with lines of its own on standard error: first the program's, then its own, of which the last has the
# status.
answer_unproved() {
    look_for_toolchain
    make_room
    prepare "$@"
    shift
    # The bytes of the files are handed on as the input, so one `-` stands in the place of their names. The file beside
    # it is handed on under the last part of its name.
    at=0 previous='' data='' named=''
    for word; do
        shift
        at=$((at + 1))
        if is_among "$at" "$places"; then
            [ -z "$named" ] || continue
            named=yes word=-
        fi
        if [ -n "${beside-}" ]; then
            case $previous/$word in
                "$beside"/*) data=$word word=${word##*/} ;;
                */"$beside"=*) data=${word#*=} word=$beside=${data##*/} ;;
            esac
        fi
        previous=$word
        set -- "$@" "$word"
    done
    [ -z "$data" ] || look_at_data
    (cd "$folder" && rt try --seconds 600 ${data:+--data "$data"} -- "$@") <"$room/input" >"$room/output" 2>"$room/errors"
    status=$(sed -n '$s/^run=ended status=\([0-9]*\) .*proved=no$/\1/p' "$room/errors")
    if [ -z "$status" ]; then
        say "there is no answer, since the build without proofs did not come to an end:"
        tail -n 20 "$room/errors" >&2
        exit 2
    fi
    cat "$room/output" 2>/dev/null || { say write; exit 2; }
    sed -E '/^(rt|interpreter|checked|races): /d; /^run=/d' "$room/errors" >&2
    exit "$status"
}

# How many crates are proved side by side: as many as there are processors, with 2 GiB of free memory each.
jobs() {
    awk -v most="$(nproc)" '
        /^MemAvailable:/ { most = int($2 / 2097152) < most ? int($2 / 2097152) : most }
        END { print most < 1 ? 1 : most }' /proc/meminfo
}

# Passes on from the lines of `rt all check` how far it is. It prints the lines of a crate once that crate is checked.
tell_progress() {
    checked=0
    while IFS= read -r line; do
        printf '%s\n' "$line" >>"$room/log"
        case $line in
            '== summary') ;;
            '== '*) checked=$((checked + 1))
                say "checked ${line#== }, crate $checked of $total, after $(($(date +%s) - start)) s" ;;
            'rt: waiting '*) say "${line#rt: }" ;;
        esac
    done
}

# The last lines on the first crate that is not proved, or those of all where no crate is said to have failed.
show_failure() {
    failed=$(sed -n 's/^\(.*\): failed (.*)$/\1/p' "$room/log" | head -n 1)
    say "${failed:-the program} could not be proved:"
    awk -v head="== $failed" -v all="$([ -n "$failed" ] || echo 1)" '
        /^== / { within = $0 == head; next }
        /^(statements|library|crate) .*: modules loaded=|^logic \/|^fn .*: proved$/ { next }
        within || all' "$room/log" | tail -n 20 >&2
}

# Proves the program and all that it stands on, builds it, and prints where it is.
prove() {
    look_for_toolchain
    make_room
    total=$(crates | wc -l)
    jobs=$(jobs)
    start=$(date +%s)
    say "proving $total crates, at most $jobs at a time, which takes half an hour or more"
    touch "$room/start"
    { (cd "$folder" && rt all check --jobs "$jobs") 2>&1 </dev/null; echo $? >"$room/status"; } | tell_progress
    [ "$(cat "$room/status")" = 0 ] || { show_failure; exit 2; }
    say "all $total crates are proved; building the program"
    (cd "$folder" && rt run -- --help) >"$room/log" 2>&1 </dev/null \
        || { say "the program could not be built:"; tail -n 20 "$room/log" >&2; exit 2; }
    # As old as the start, so that a source that was edited meanwhile is newer.
    touch -r "$room/start" "$program"
    newer=$(newer_source)
    [ -z "$newer" ] || { say "$newer is newer than the start of the proof, so prove it once more"; exit 2; }
    echo "$program"
}

is_built() {
    [ -x "$program" ] && newer=$(newer_source) && [ -z "$newer" ]
}

# Answers at once where that is possible, and else by a build without proofs.
answer() {
    look_at "$@"
    case $asked in
        help | version | usage) answer_at_once ;;
    esac
    if [ -n "${newer-}" ]; then
        answer_unproved "$newer is newer than the proved program" "$@"
    fi
    answer_unproved "the program isn't proved yet" "$@"
}

case $#:${1-} in
    1:--prove) if is_built; then echo "$program"; else prove; fi ;;
    *:--prove) say "--prove stands alone"; exit 2 ;;
    *) if is_built; then exec "$program" "$@"; fi
        answer "$@" ;;
esac
