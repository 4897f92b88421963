# Read by scripts that set `top`, the top of the repository: `build` proves and builds the program, says on standard error
# what it is at and how long is left, and sets `program`. The first run proves some thirty crates; a later one only what has changed.
# It can be stopped at any time: the next run goes on with the crate that it was at.

# The crates that the program stands on, itself last, in the order of crates.txt.
crates_below() {
    awk '
        function mark(name, names, number, count) {
            if (name in marked) return
            marked[name]
            count = split(below[name], names)
            for (number = 1; number <= count; number++) mark(names[number])
        }
        /^[a-z]/ { name = $1; sub(/:/, "", name); order[++lines] = name; $1 = ""; below[name] = $0 }
        END { mark("auditor"); for (line = 1; line <= lines; line++) if (order[line] in marked) print order[line] }
    ' "$top/crates.txt"
}

# Proves and builds one crate, in a process of its own. The program is also started, in a folder without files for it: it then ends with 5.
prove() {
    cd "$top/crates/$1" || exit 1
    case $1 in
    auditor) exec rt run -- serve </dev/null ;;
    *) exec rt lib </dev/null ;;
    esac
}

# The file of each crate's seconds that counts here: that of the last run on this machine which proved them all, or the repository's.
shares() {
    for file in "$top/crates/auditor/out/shares.txt" "$top/demo/shares.txt"; do
        [ ! -f "$file" ] || { echo "$file"; return; }
    done
}

# How long is left, if these crates are: their shares, at the pace of the last five that were proved on this machine.
time_left() {
    crates_below | tail -n "+$number" | awk -v took="$took" -v shares="$(shares)" '
        BEGIN {
            while ((getline <shares) > 0) if ($1 !~ /^#/) share[$1] = $2
            while ((getline <took) > 0) if ($1 in share) { last = last + 1; name[last] = $1; seconds[last] = $2 }
            for (place = last > 5 ? last - 4 : 1; place <= last; place++) { spent += seconds[place]; due += share[name[place]] }
        }
        { left += share[$1] }
        END {
            minutes = left * (spent + 60) / (due + 60) / 60
            if (minutes < 1) print "less than a minute is left"
            else printf "about %d min are left\n", minutes + 0.5
        }'
}

# Whether all of the crate was proved just now, and nothing of it before.
is_new() {
    grep -q ': proved$' "$proved.said" && ! grep -q 'begins with what a check kept' "$proved.said"
}

# Says which crate is being proved, after how many were proved before, unless that is said.
say_crate() {
    [ ! -f "$proved.crate" ] || return 0
    : >"$proved.crate"
    left=$(time_left)
    [ "$kept" = "$told" ] || printf '%d of %d were proved before; %s\n' "$kept" "$of" "$left" >&2
    printf '%d of %d, %s: proving %s: ' "$number" "$of" "$left" "$crate" >&2
}

# Names a crate that isn't done in ten seconds, as one that was proved before would be, and says every ten seconds that it is still at work.
tell_time() {
    seconds=10
    while sleep 10 >/dev/null 2>&1; do
        say_crate
        printf '%d s, ' "$seconds" >&2
        seconds=$((seconds + 10))
    done
}

# A clock that has hardly begun may miss every other signal.
stop_clock() {
    kill -KILL "$clock" 2>/dev/null
    wait "$clock" 2>/dev/null
}

# At a signal the crate that is being proved is left, and then the run. One that has hardly begun may miss the first signal.
stop_prover() {
    stopped=1
    [ -n "$prover" ] || return 0
    kill "$prover" 2>/dev/null
    (sleep 1; kill "$prover") >/dev/null 2>&1 &
    again=$!
}

leave_off() {
    wait "$prover" 2>/dev/null
    kill "$again" 2>/dev/null
    say_crate
    printf 'stopped\nrun it again to go on with %s\n' "$crate" >&2
    clear_away
    exit 130
}

clear_away() {
    rm -f "$proved" "$proved.said" "$proved.crate"
}

# What the program is made from, and the program: the kit, the crates and their files, and what was built of them, as one sum.
sum_of_all() {
    (
        cd "$top" || exit 1
        rt version
        cat crates.txt
        find crates/*/src crates/*/specs crates/*/proofs crates/auditor/out/auditor -type f -print0 | LC_ALL=C sort -z | xargs -0 sha256sum
    ) 2>/dev/null | sha256sum
}

build() {
    command -v rt >/dev/null || { echo "the Rattle kit is missing, which has rt: without it take a package, which has the built program" >&2; return 1; }
    proved=$(mktemp) || return 1
    # What each crate took on this machine, of this run and of earlier ones.
    took=$top/crates/auditor/out/took.txt
    mkdir -p "$top/crates/auditor/out" || return 1
    program=$top/crates/auditor/out/auditor
    # rt itself looks at each crate by way of each that stands on it, which takes minutes though nothing has changed.
    built=$top/crates/auditor/out/built.txt
    if [ -x "$program" ] && [ "$(sum_of_all)" = "$(cat "$built" 2>/dev/null)" ]; then
        rm -f "$proved"
        echo 'the program is proved and built, and nothing has changed since' >&2
        return 0
    fi
    began=$(date +%s)
    number=0 kept=0 told=0
    of=$(crates_below | wc -l)
    printf 'proving and building %d crates; stop it when you like, and run it again to go on\n' "$of" >&2
    stopped=
    trap stop_prover HUP INT TERM
    for crate in $(crates_below); do
        number=$((number + 1))
        since=$(date +%s)
        rm -f "$proved.crate"
        prover=
        prove "$crate" >"$proved.said" 2>&1 &
        prover=$!
        tell_time &
        clock=$!
        # The signal may have come before its number was known.
        [ -z "$stopped" ] || stop_prover
        wait "$prover"
        status=$?
        stop_clock
        [ -z "$stopped" ] || leave_off
        [ "$crate" != auditor ] || status=$((status - 5))
        if [ "$status" != 0 ]; then
            say_crate
            printf 'failed\n' >&2
            cat "$proved.said" >&2
            clear_away
            return 1
        fi
        seconds=$(($(date +%s) - since))
        if is_new; then
            say_crate
            echo "$crate $seconds" | tee -a "$took" >>"$proved"
        else
            kept=$((kept + 1))
            [ -f "$proved.crate" ] || continue
        fi
        told=$kept
        printf 'done in %d s\n' "$seconds" >&2
    done
    trap - HUP INT TERM
    [ "$kept" = "$told" ] || printf '%d of %d were proved before\n' "$kept" "$of" >&2
    [ "$(wc -l <"$proved")" != "$of" ] || cp "$proved" "$top/crates/auditor/out/shares.txt"
    clear_away
    sum_of_all >"$built"
    printf 'the program is built, after %d s\n' $(($(date +%s) - began)) >&2
}
