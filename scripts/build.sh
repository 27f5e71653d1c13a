#!/bin/sh
# Proves the libraries below the program whose name is the first word, side by side if none depends on another, and then builds it
# in its out/. A program that was built before stays there until the new one is built. How far the build is, and about how many minutes
# are left, goes to standard error. What rt prints goes to out/NAME.log, which is shown if the crate NAME fails.

program=$1
crates=$(CDPATH='' cd -- "$(dirname -- "$0")/../crates" && pwd) || exit 1
list=$crates/../crates.txt
out=$crates/$program/out
rooms=$out/rooms
turns=$crates/dnscanon/out

# The program and each library below it, one crate a line with the libraries below that, in the order of the list.
plan() {
    awk -v program="$program" '
        function visit(name, top,    count, of, i) {
            count = split(uses[name], of)
            for (i = 1; i <= count; i++)
                if (of[i] in uses && !((top, of[i]) in seen)) {
                    seen[top, of[i]]
                    below[top] = below[top] " " of[i]
                    visit(of[i], top)
                }
        }
        { sub(/#.*/, "") }
        split($0, half, ":") > 1 { split(half[1], word); uses[word[1]] = half[2]; name[++count] = word[1] }
        END {
            visit(program, program)
            for (at = 1; at <= count; at++)
                if (name[at] == program || ((program, name[at]) in seen)) {
                    if (name[at] != program) visit(name[at], name[at])
                    print name[at] below[name[at]]
                }
        }' "$list"
}

below() {
    sed -n "s/^$1 //p" "$rooms/plan"
}

# Whether the list $2 has the word $1.
has() {
    case " $2 " in *" $1 "*) return 0 ;; esac
    return 1
}

has_all() {
    for it in $1; do
        has "$it" "$2" || return 1
    done
}

# Seconds from nothing on four idle processors for which each crate holds up the build; crates that are proved side by side
# share them. The estimate of what is left goes by these.
seconds_of() {
    case $1 in
    dns_wire) echo 71 ;;
    dns_num | dns_label) echo 35 ;;
    dns_name | dns_record) echo 82 ;;
    dns_rdata | dns_canon) echo 256 ;;
    dns_message) echo 160 ;;
    dns_zone) echo 41 ;;
    dns_dispatch) echo 60 ;;
    dnscanon | dnslines) echo 50 ;;
    *) echo 41 ;;
    esac
}

# As many processes as there are processors, and as memory allows at 2 GB each.
processors() {
    count=$(nproc 2>/dev/null || getconf _NPROCESSORS_ONLN 2>/dev/null || echo 1)
    most=$(awk '/^MemAvailable:/ { print int($2 / 2000000) }' /proc/meminfo 2>/dev/null)
    [ "${most:-$count}" -ge "$count" ] || count=$most
    [ "$count" -ge 1 ] || count=1
    echo "$count"
}

# A library is up to date if its proof began after the last change of its sources and of the toolchain, and after the proofs of
# those below it. Only time hangs on this: rt itself goes by what the files hold.
is_up_to_date() {
    mark=$crates/$1/out/proved
    [ -f "$mark" ] && [ -d "$crates/$1/out/rlib" ] || return 1
    set -- "$crates/$1" $(below "$1" | sed "s|[^ ]*|../&/out/proved|g")
    cd "$1" && shift && [ -z "$(find -L "$(command -v rt)" "$list" . "$@" -name out -prune -o \
        ! -path '*/must-fail*' -newer "$mark" -print)" ]
}

# A crate's folder is as old as the last change in it, so what lies in its out/ is moved, and not that folder.
move_work() {
    for part in incremental rlib; do
        [ ! -d "$1/$part" ] || { rm -rf "${2:?}/$part" && mv "$1/$part" "$2/"; } || return 1
    done
}

# Libraries are some hundred megabytes each, and rt replaces their files but never writes into them: links do, where the system has them.
link_all() {
    cp -Rl "$1" "$2" 2>/dev/null || { rm -rf "${2:?}/${1##*/}" && cp -R "$1" "$2"; }
}

# rt works on a crate, and on those below it, for one caller at a time. So each crate is proved in a room of its own: a copy
# of the sources, links to the libraries below, and the crate's own earlier work.
furnish() {
    mkdir "$rooms/$1" "$rooms/$1/crates" && cp "$list" "$crates/../HANDLES" "$rooms/$1" || return 1
    for crate in "$crates"/*; do
        name=${crate##*/}
        room=$rooms/$1/crates/$name
        mkdir "$room" || return 1
        for part in src specs proofs; do
            [ ! -d "$crate/$part" ] || cp -R "$crate/$part" "$room" || return 1
        done
        has "$name" "$(below "$1")" || continue
        mkdir "$room/out" && link_all "$crate/out/rlib" "$room/out" || return 1
    done
    mkdir "$rooms/$1/crates/$1/out" && move_work "$crates/$1/out" "$rooms/$1/crates/$1/out"
}

# Puts a crate's work back from its room.
clear_room() {
    move_work "$rooms/$1/crates/$1/out" "$crates/$1/out" && rm -rf "${rooms:?}/$1"
}

clear_rooms() {
    for room in "$rooms"/*/; do
        [ ! -d "$room" ] || clear_room "$(basename "$room")"
    done
    rm -rf "$rooms"
}

# Proves the library $1 with $2 processes, in the background. When it ends, its status is in a file. A mark tells when it
# began.
start() {
    : >"$rooms/$1.mark"
    (
        trap 'kill $! 2>/dev/null; exit 1' TERM
        furnish "$1" && cd "$rooms/$1/crates/$1" &&
            { rt lib --jobs "$2" & wait $!; }
        echo $? >"$rooms/$1.status"
    ) </dev/null >"$out/$1.log" 2>&1 &
    echo $! >"$rooms/$1.pid"
    echo "$2" >"$rooms/$1.jobs"
    echo "$seconds" >"$rooms/$1.began"
    free=$((free - $2))
    running="$running $1"
    waiting=$(echo " $waiting " | sed "s/ $1 / /")
}

# Starts what waits and depends on proved libraries alone. What comes in the list after a crate that is not ready is needed later: it
# fills processors that are left, with one process, and does not count when the others have the processors divided among them. Where each of
# several gets one process, the first of them, which holds the build up longest, gets two.
start_ready() {
    ready=
    later=
    unready=
    for name in $waiting; do
        if ! has_all "$(below "$name")" "$proved"; then
            unready=yes
        elif [ -z "$unready" ]; then
            ready="$ready $name"
        else
            later="$later $name"
        fi
    done
    count=$(echo $ready | wc -w)
    share=$((free + $(echo $filling | wc -w)))
    first=1
    for name in $ready; do
        [ $share -ge 0 ] || return 0
        jobs=$((share < count ? 1 : share / count))
        start "$name" $((jobs == 1 && count > 1 && share > 1 && first == 1 ? 2 : jobs))
        share=$((share - jobs))
        count=$((count - 1))
        first=0
    done
    for name in $later; do
        [ $free -gt 0 ] || return 0
        start "$name" 1
        filling="$filling $name"
    done
}

# Takes in the crates that have ended, and fails where one has failed, or was ended before it could report.
gather() {
    for name in $running; do
        kill -0 "$(cat "$rooms/$name.pid")" 2>/dev/null || [ -s "$rooms/$name.status" ] || echo 1 >"$rooms/$name.status"
        [ -s "$rooms/$name.status" ] || continue
        running=$(echo " $running " | sed "s/ $name / /")
        filling=$(echo " $filling " | sed "s/ $name / /")
        free=$((free + $(cat "$rooms/$name.jobs")))
        clear_room "$name"
        [ "$(cat "$rooms/$name.status")" = 0 ] || { failed=$name && return 1; }
        mv "$rooms/$name.mark" "$crates/$name/out/proved"
        proved="$proved $name"
        spent=$((spent + $(seconds_of "$name")))
        change=yes
    done
}

# How many functions of the crate $1 are checked, of how many, as two numbers.
progress() {
    sed -n 's/^so far: \([0-9]*\) of \([0-9]*\) .*/\1 \2/p' "$out/$1.log" 2>/dev/null | tail -n 1
}

# About how many minutes are left: the seconds of the crates that are not proved, at the pace of those that this run has proved. Of a crate
# at work that says nothing of its progress, the seconds since it began count, up to nine tenths of it. Crates that stood already make no pace
# of less than half of what is expected.
minutes_left() {
    for name in $waiting $running "$program"; do
        began=$(cat "$rooms/$name.began" 2>/dev/null)
        echo "$(seconds_of "$name") $((seconds - ${began:-$seconds})) $(progress "$name")"
    done | awk -v passed="$seconds" -v spent="$spent" -v workers="$workers" '
        {
            share = $4 > 0 ? $3 / $4 : $2 / $1
            if (share > 0.9) share = 0.9
            left += $1 * (1 - share); spent += $1 * share
        }
        END {
            pace = spent > 60 ? passed / spent : 4 / workers
            if (pace < 2 / workers) pace = 2 / workers
            print int(left * pace / 60) + 1
        }'
}

# A line with the minutes that are left, which do not rise on the way, and the crates at work, and how many functions of each are checked, of how many. On a
# terminal it is written over itself; elsewhere it comes when a crate is proved, and each minute.
show() {
    [ -t 2 ] || [ -n "$change" ] || [ $((seconds % 60)) = 0 ] || return 0
    left=$(minutes_left)
    [ -n "$shown" ] && [ "$left" -gt "$shown" ] || shown=$left
    line="$program: $(echo $proved | wc -w) of $all crates proved, about $shown min left"
    for name in $running; do
        count=$(progress "$name" | tr ' ' /)
        line="$line, $name${count:+ $count}"
    done
    if [ -t 2 ]; then
        printf '\r%.79s\033[K' "$line" >&2
    else
        echo "$line" >&2
    fi
    change=
}

stop() {
    trap '' INT TERM HUP
    for name in $running; do
        kill "$(cat "$rooms/$name.pid")" 2>/dev/null
    done
    wait
    clear_rooms
    [ ! -t 2 ] || echo >&2
    [ -z "$failed" ] || cat "$out/$failed.log" >&2
    exit 1
}

# One build at a time: a second one waits, and then finds the libraries up to date. A file with its process number is there for each.
take_turn() {
    mkdir -p "$out" "$turns" && echo $$ >"$turns/builder.$$" || exit 1
    trap 'rm -f "$turns/builder.$$"' EXIT
    until ln "$turns/builder.$$" "$turns/builder" 2>/dev/null; do
        [ -z "$change" ] || echo "$program: another run builds; waiting for it" >&2
        change=
        kill -0 "$(cat "$turns/builder" 2>/dev/null)" 2>/dev/null || rm -f "$turns/builder"
        sleep 1
    done
    change=yes
    trap 'rm -f "$turns/builder.$$" "$turns/builder"' EXIT
    trap stop INT TERM HUP
}

# What is up to date, and what waits.
take_stock() {
    for name in $(sed 's/ .*//' "$rooms/plan"); do
        if [ "$name" = "$program" ]; then
            continue
        elif has_all "$(below "$name")" "$proved" && (is_up_to_date "$name"); then
            proved="$proved $name"
        else
            waiting="$waiting $name"
        fi
    done
}

prove_libraries() {
    while [ -n "$(echo $waiting $running)" ]; do
        start_ready
        show
        sleep 1
        seconds=$((seconds + 1))
        gather || stop
    done
}

build_program() {
    : >"$out/$program.log"
    running=$program change=yes
    show
    furnish "$program" || { failed=$program && return; }
    (cd "$rooms/$program/crates/$program" && rt check --jobs "$workers" && exec rt run -- "$(cat args)") </dev/null >"$out/$program.log" 2>&1 &
    echo $! >"$rooms/$program.pid"
    wait $!
    running=
    mv "$rooms/$program/crates/$program/out/$program" "$out/$program" || failed=$program
}

running='' filling='' failed='' proved='' waiting='' shown='' seconds=0 spent=0 change=yes
take_turn
clear_rooms
for crate in "$crates"/*/; do
    mkdir -p "$crate/out" || exit 1
done
# The mark is as old as the start of the build, so that a change meanwhile is seen the next time.
: >"$out/current.new" && rm -f "$out"/*.log && mkdir "$rooms" && plan >"$rooms/plan" || exit 1
all=$(wc -l <"$rooms/plan")
workers=$(processors)
free=$workers
take_stock
prove_libraries
build_program
[ -z "$failed" ] || stop
clear_rooms
mv "$out/current.new" "$out/current" || exit 1
[ ! -t 2 ] || echo >&2
