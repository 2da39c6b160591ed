# shellcheck shell=bash
# Sourced by scripts in the tree's root, behind host.sh: proves crates, several at a time, each as
# soon as those that it names are, and says in one line on standard error which are at work, how
# many are done and the seconds. What is proved already, and has not changed since, is passed in
# silence.

# What rt says of each crate is kept here, and of what each product was built.
proofs=target/proofs

# The crates of crates.txt that are named, and those that they stand on, each above those that name
# it: first those with most crates one on the other above them.
crates_for() {
    awk -v named="$*" '
        BEGIN { split(named, first, " "); for (k in first) wanted[first[k]] = 1 }
        { sub(/#.*/, "") }
        /:/ { split($0, side, ":"); split(side[1], left, " "); name[++count] = left[1]; below[count] = side[2] }
        END {
            for (k = count; k > 0; k--) if (name[k] in wanted) {
                split(below[k], each, " ")
                for (m in each) {
                    wanted[each[m]] = 1
                    if (above[each[m]] <= above[name[k]]) above[each[m]] = above[name[k]] + 1
                }
            }
            for (k = 1; k <= count; k++) if (name[k] in wanted) print above[name[k]] + 0, name[k]
        }' crates.txt | sort -s -k1,1nr | cut -d ' ' -f 2
}

# The lines of crates.txt of these crates.
lines_for() {
    awk -v named="$*" '
        BEGIN { split(named, each, " "); for (k in each) wanted[each[k]] = 1 }
        { sub(/#.*/, "") }
        /:/ { split($0, side, ":"); split(side[1], left, " "); if (left[1] in wanted) print }
    ' crates.txt
}

# How many crates are proved at a time: as many as there are processors, each of which wants this
# much memory, in kilobytes; or what RT_JOBS says, by which rt ci goes too.
memory_of_one=2500000
at_a_time() {
    local most room
    most=$(nproc)
    room=$(($(sed -n 's/^MemAvailable: *\([0-9]*\) kB$/\1/p' /proc/meminfo) / memory_of_one))
    [ "$room" -ge "$most" ] || most=$((room > 1 ? room : 1))
    [[ ! ${RT_JOBS:-} =~ ^[1-9][0-9]*$ ]] || most=$RT_JOBS
    echo "$most"
}

# What rt says of a crate, less what it says of all that is proved.
complaints() {
    grep -vE ': proved( where its callers give what it asks)?$|^(statements|library|crate) [a-z_0-9]*: modules|^(logic|axioms) |^rt: (chose|[a-z_]*: begins with)|^so far: ' "$1" || true
}

# ---- Places. rt works at one crate at a time in the folders that it reads. So what is at work has
# a place of its own, with the folders of all crates as they stand, by second names of their files,
# or copies where there can be none; the work that was kept of a crate is moved there, and back
# behind it.

place() { echo "$proofs/place-$1"; }

# Gives a place these folders of the tree.
give_place() {
    local copies=(cp -a --parents)
    [ ! "$proofs/lock" -ef "$proofs/linked" ] || copies+=(-l)
    "${copies[@]}" "${@:2}" "$(place "$1")"
}

lay_out_place() {
    local name part folders=()
    for name in "${crates[@]}"; do
        for part in src specs proofs out/rlib; do
            [ ! -d "crates/$name/$part" ] || folders+=("crates/$name/$part")
        done
    done
    mkdir -p "$(place "$1")"
    lines_for "${crates[@]}" >"$(place "$1")/crates.txt"
    give_place "$1" "${folders[@]}"
}

# Moves the work of the crate that is at a place back to where it belongs.
clear_place() {
    local at name
    at=$(place "$1")
    name=$(cat "$at/at-work" 2>/dev/null) || return 0
    if [ -d "$at/crates/$name/out" ]; then
        rm -rf "crates/$name/out"
        mv "$at/crates/$name/out" "crates/$name/out"
    fi
    rm -f "$at/at-work"
}

# Removes the places, since rt ci takes a tree for one with files that nobody proves while they are
# there. What a run that was killed has left in them is put back.
remove_places() {
    local at
    for at in "$proofs"/place-*; do
        clear_place "${at##*-}"
        rm -rf "$at"
    done
}

lay_out_places() {
    local number
    remove_places
    ln -f "$proofs/lock" "$proofs/linked" 2>/dev/null || rm -f "$proofs/linked"
    for ((number = 1; number <= most; number++)); do
        lay_out_place "$number"
    done
}

# Has the others find the library that was made of a crate.
hand_on() {
    local number
    [ -d "crates/$1/out/rlib" ] || return 0
    for ((number = 1; number <= most; number++)); do
        rm -rf "$(place "$number")/crates/$1/out"
        give_place "$number" "crates/$1/out/rlib"
    done
}

# ---- Crates. In a run of `prove` each has a state: it waits, works or is done.

# Becomes rt that proves and builds a crate at a place, by the words behind them. Until it ends no
# other rt works in the crate's own folder. A program is run by rt as well, here on an empty text.
work_at() {
    local at name=$1 verb=lib held
    at=$(place "$2")
    [ ! -f "crates/$name/src/main.rt" ] || verb=run
    exec {held}<"crates/$name" && flock "$held"
    echo "$name" >"$at/at-work" && mkdir -p "crates/$name/out" && rm -rf "$at/crates/$name/out" &&
        mv "crates/$name/out" "$at/crates/$name/out" && cd "$at/crates/$name" &&
        exec rt "$verb" "${@:3}"
}

# Whether a crate waits for nothing but its turn.
is_ready() {
    local name
    [ "${state[$1]}" = waits ] || return 1
    for name in ${names_of[$1]}; do
        [ "${state[$name]:-done}" = "done" ] || return 1
    done
}

# Begins what is ready, as long as a place is free. What is alone has as many jobs as rt finds good.
begin_crates() {
    local name number ready=() jobs
    for name in "${crates[@]}"; do ! is_ready "$name" || ready+=("$name"); done
    for name in "${ready[@]}"; do
        for ((number = 1; number <= most; number++)); do [ -n "${taken[number]:-}" ] || break; done
        [ "$number" -le "$most" ] || return 0
        jobs=(--jobs 1)
        [ $((${#ready[@]} + ${#process[@]})) -gt 1 ] || [ "$most" -eq 1 ] || jobs=()
        : >"$proofs/$name.log"
        work_at "$name" "$number" "${jobs[@]}" </dev/null >>"$proofs/$name.log" 2>&1 &
        process[$name]=$! taken[number]=$name state[$name]=works since[$name]=$SECONDS
    done
}

# Waits until one of them ends, at most a second.
wait_a_while() {
    sleep 1 <&- >&- 2>&- {turn}>&- &
    wait -n "${process[@]}" $! 2>/dev/null || true
}

# Takes what has ended.
end_crates() {
    local name status
    for name in "${!process[@]}"; do
        ! kill -0 "${process[$name]}" 2>/dev/null || continue
        status=0
        wait "${process[$name]}" 2>/dev/null || status=$?
        end_crate "$name" "$status" || return
    done
}

# Takes a crate that has ended with this status. One that was killed is proved once more, with fewer
# beside it.
end_crate() {
    local name=$1 number
    unset "process[$name]"
    for number in "${!taken[@]}"; do
        [ "${taken[number]}" = "$name" ] || continue
        clear_place "$number"
        unset "taken[number]"
    done
    if [ "$2" -eq 0 ]; then
        [ ! -s "$proofs/$name.log" ] || tell
        state[$name]="done" finished=$((finished + 1))
        hand_on "$name"
    elif [[ $2 == 137 || $2 == 247 ]] && [ "$most" -gt 1 ]; then
        state[$name]=waits most=$((most / 2))
        say "rt was killed at $name, most likely for memory: once more, with at most $most at a time"
    else
        sed -i "s|$PWD/$proofs/place-[0-9]*/|$PWD/|g" "$proofs/$name.log"
        say
        complaints "$proofs/$name.log" >&2
        say "the crate $name is not proved and built; $proofs/$name.log has all that rt says of it," \
            "and above is what it complains of"
        return 1
    fi
}

# Ends what is at work.
stop_crates() {
    [ ${#process[@]} -eq 0 ] || { kill "${process[@]}" && wait "${process[@]}"; } 2>/dev/null ||
        true
}

stop_at() {
    trap - INT TERM HUP
    stop_crates
    remove_places
    say "stopped; what is proved is kept"
    kill -s "$1" $$
}

# ---- What is said.

is_terminal() { [ -t 2 ] && [ "${TERM:-dumb}" != dumb ]; }

# Says a sentence in a line of its own, below that which is written over.
say() {
    ! is_terminal || [ -z "$told" ] || echo >&2
    told=
    [ $# -eq 0 ] || echo "$script: $*" >&2
}

# Says how many are done and what is at work: at a terminal over what was said last, and else where
# other crates are at work than then. A crate of which rt says nothing is passed in silence.
tell() {
    local name working=() words
    for name in "${crates[@]}"; do
        [ "${state[$name]}" = works ] || continue
        [ ! -s "$proofs/$name.log" ] && [ $((SECONDS - since[$name])) -lt 2 ] || working+=("$name")
    done
    [ ${#working[@]} -gt 0 ] || return 0
    words="$(how_far), proving ${working[*]}"
    if is_terminal; then
        printf '\r\e[K%s' "${words:0:$(($(columns) - 1))}" >&2
    elif [ "${working[*]}" != "$told" ]; then
        echo "$words" >&2
    fi
    told=${working[*]}
}

how_far() { echo "$script: $finished of ${#crates[@]} crates done, $((SECONDS - begun_at)) s"; }

# How many letters a line of the terminal has.
columns() {
    local size
    size=$(stty size <&2 2>/dev/null) && [ "${size#* }" -gt 1 ] && echo "${size#* }" || echo 80
}

# The last line, where there was one.
tell_end() {
    [ -n "$told" ] || return 0
    ! is_terminal || printf '\r\e[K' >&2
    how_far >&2
}

# ---- Runs

# One run proves in a tree at a time.
take_turn() {
    exec {turn}>>"$proofs/lock"
    flock -n "$turn" && return
    say "another run proves in this tree: this one waits for it, and takes what it proves"
    flock "$turn" || true
}

# Proves and builds the products that are named behind the script that wants them, and the crates
# that they stand on, up to the first that is not proved.
prove() {
    local script=$1 crates finished taken told='' begun_at=$SECONDS most status=0 turn
    local -A names_of=() state=() since=() process=() sources=()
    mkdir -p "$proofs"
    take_turn
    most=$(at_a_time)
    [ -n "${RT_JOBS:-}" ] || [ "$most" -eq "$(nproc)" ] ||
        say "there is memory for $most at a time, on $(nproc) processors"
    prove_until_still "${@:2}" || { status=1; stop_crates; }
    trap - INT TERM HUP
    remove_places
    exec {turn}>&-
    return "$status"
}

# Proves all, and once more as long as a source is changed while it does: a crate that was done
# before is built of what stood there then, and the places show what is changed to some crates alone.
prove_until_still() {
    local name
    while true; do
        for name in "$@"; do sources[$name]=$(sources_of "$name"); done
        mapfile -t crates < <(crates_for "$@")
        lay_out_places
        prove_all || return
        ! note_built "$@" || return 0
        say "a source was changed meanwhile: what stands on it is proved anew"
    done
}

# Each crate as soon as those that it names are done.
prove_all() {
    local name
    finished=0 taken=()
    for name in "${crates[@]}"; do
        names_of[$name]=$(lines_for "$name" | cut -d : -f 2)
        state[$name]=waits
    done
    trap "stop_at INT" INT
    trap "stop_at TERM" TERM
    trap "stop_at HUP" HUP
    while [ "$finished" -lt ${#crates[@]} ]; do
        begin_crates
        if [ ${#process[@]} -eq 0 ]; then
            say "no crate of crates.txt stands on those that are done alone"
            return 1
        fi
        tell
        wait_a_while
        end_crates || return
    done
    tell_end
}

# What a product is made of, in one sum: the kit, the files of its crate and of those below it.
sources_of() {
    local folders
    mapfile -t folders < <(crates_for "$1" | sed 's|^|crates/|')
    { rt version && find crates.txt "${folders[@]}" \( -name out -o -name must-fail \) -prune -o -type f -print0 | LC_ALL=C sort -z | xargs -0 sha256sum; } | sha256sum
}

# A product as it is there now, in one sum with that of its sources.
made_of() {
    { echo "$2" && sha256sum "$(product_of "$1")"; } | sha256sum
}

# Whether a product is there and was built of what is there now.
is_built() {
    [ -f "$(product_of "$1")" ] &&
        [ "$(cat "$proofs/$1.built" 2>/dev/null)" = "$(made_of "$1" "$(sources_of "$1")")" ]
}

# Notes of what the products were built; of none that has other sources now than when they were
# begun. Whether each was noted.
note_built() {
    local name all=0
    for name in "$@"; do
        if [ "$(sources_of "$name")" = "${sources[$name]}" ]; then
            made_of "$name" "${sources[$name]}" >"$proofs/$name.built"
        else
            all=1
        fi
    done
    return "$all"
}

# What a crate is built to, of which something is built.
product_of() { if [ "$1" = ringkit_c ]; then echo "$library"; else program_of "$1"; fi; }

# Proves and builds the products behind the script that wants them that are not there or not built of
# what is there now.
make_products() {
    local crate stale=()
    for crate in "${@:2}"; do
        is_built "$crate" || stale+=("$crate")
    done
    [ ${#stale[@]} -eq 0 ] || prove "$1" "${stale[@]}"
}

# The archive, for tests and benchmarks. Where it is built already it stays as it is, so that who reads it meanwhile is not disturbed.
make_library() { make_products library ringkit_c; }
