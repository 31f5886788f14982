# Proves and builds the program by `rt run` in its folder, and keeps it in built/. The script `herdspiral` reads this
# file where the program is missing or old; it has found the kit, and has say, fail, content and is_built.
# shellcheck shell=sh disable=SC2154
#
# One start builds at a time: it holds a lock on crates.txt, which the system takes back when whoever holds it has ended, in
# whatever way, `rt` among them. The gate holds it too while `rt ci` runs (.ci/run). An `rt` that somebody else started in
# this folder holds locks of its own, on the folders of the crates that it is at; it is waited for.

folder=$root/built
place=$root/crates/herdspiral
made=$place/out/herdspiral

# Waits until no other start builds. 9 holds the lock until it is closed, also for the rt that is started here.
lock() {
    exec 9<"$root/crates.txt"
    if ! command -v flock >/dev/null; then
        say "flock is not found, and nothing keeps two starts apart: begin no other until this one has built"
    elif ! flock -n 9; then
        say "the program is being built already, or the gate is running: waiting for it"
        flock 9
    fi
}

# Whether some rt is at work on a crate that is to be proved. Without flock that is not seen here; rt then waits by
# itself.
rt_at_work() {
    command -v flock >/dev/null || return
    for crate in $crates; do
        [ -d "$root/crates/$crate" ] || continue
        flock -n "$root/crates/$crate" true 2>/dev/null
        [ $? -ne 1 ] || return 0
    done
    return 1
}

say_at_work() { say "rt is at work in $root: waiting for it to end"; }

wait_for_rt() {
    rt_at_work || return
    say_at_work
    while rt_at_work; do sleep 1; done
}

# Prints the crates that are proved for the program, in the order in which rt goes, worked out as rt does: each after
# those that it needs. Where another rt goes otherwise, what is said of the progress is off, and nothing else.
crates_to_prove() {
    awk '
        { sub(/#.*/, "") }
        (i = index($0, ":")) { crate = substr($0, 1, i - 1); gsub(/[ \t]/, "", crate); needs[crate] = substr($0, i + 1) }
        function visit(crate,    own, many, i) {
            if (crate in met || !(crate in needs)) return
            met[crate] = 1
            many = split(needs[crate], own, " ")
            for (i = 1; i <= many; i++) visit(own[i])
            print crate
        }
        END { visit("herdspiral") }' "$root/crates.txt"
}

# Says that a crate is being proved: on a terminal always on one line.
progress() { # CRATE
    at=0
    for crate in $crates; do
        at=$((at + 1))
        [ "$crate" = "$1" ] || continue
        if [ -t 2 ]; then printf '\rherdspiral: proving %-30s' "$at of $count: $crate" >&2; else say "proving $at of $count: $crate"; fi
        return
    done
}

# Clears that line.
no_progress() { [ ! -t 2 ] || printf '\r%-50s\r' '' >&2; }

# Takes what rt says line by line, and tells of the progress. Where rt fails, all that it said is shown, unless another
# rt came between. Answers whether it proved and built the program: it then goes on to run it, and nothing is asked of
# that run.
follow() {
    log='' proved='' waiting=''
    while IFS= read -r line; do
        case $line in
        '') continue ;;
        'herdspiral: rt ended '*) break ;;
        'rt: chose --jobs '*' for '*) progress "${line##* }" ;;
        'rt: waiting for another rt '*)
            [ -n "$waiting" ] || { no_progress; say_at_work; }
            waiting=yes
            ;;
        'rt: running out/herdspiral;'*) proved=yes ;;
        esac
        log=$log$line$newline
    done
    no_progress
    [ -z "$proved" ] || return 0
    rt_at_work || printf '%s' "$log" >&2
    return 1
}

# What a shell has to say of an rt that was killed is not shown.
prove() {
    {
        (cd "$place" && exec "$rt" run 2>&1 </dev/null)
        printf '\nherdspiral: rt ended %s\n' $?
    } 2>/dev/null | follow
}

# Proves the program and keeps it; where that fails, `reason` says why.
make_program() {
    reason='the program could not be proved and built: rt run in crates/herdspiral says why, above'
    prove || return
    reason="rt run in crates/herdspiral left no $made"
    [ -f "$made" ] || return
    reason="cannot write in $folder"
    { cp "$made" "$program.new" && mv -f "$program.new" "$program" && mv -f "$stamp.new" "$stamp"; } 2>/dev/null
}

# How long it took, in words.
took() { # SECONDS
    if [ "$1" -lt 60 ]; then echo "$1 s"; else echo "$(($1 / 60)) min $(($1 % 60)) s"; fi
}

# Builds, unless another start did meanwhile; once more where another rt came between.
build() {
    lock
    is_built && return
    [ -x "$rt" ] || fail 1 "there is no $rt: this needs the Rattle kit"
    crates=$(crates_to_prove)
    wait_for_rt
    { mkdir -p "$folder" && printf '%s\n' "$(content)" >"$stamp.new"; } 2>/dev/null || fail 1 "cannot write in $folder"
    say "proving and building the program; the first time this takes some minutes"
    began=$(date +%s)
    # shellcheck disable=SC2086
    set -- $crates
    count=$#
    until make_program; do
        rt_at_work || { rm -f "$program.new" "$stamp.new" 2>/dev/null; fail 1 "$reason"; }
        wait_for_rt
    done
    say "proved and built in $(took $(($(date +%s) - began)))"
}

build
exec 9<&-
