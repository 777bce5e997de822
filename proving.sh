# For ./bench and ./salvage, which read it: proves the program that they run where it is missing or older than its sources, and
# runs it. They set: root, the project's folder; tool, their own name; crate, the program's crate.
program=$root/target/bin/$crate
made=$root/crates/$crate/out/$crate
log=$root/target/proving.txt
begun=$root/target/proving.begun

fail() { # STATUS SENTENCE
    echo "$tool: $2" >&2
    exit "$1"
}

stale() {
    [ ! -x "$program" ] || [ -n "$(find "$root/crates.txt" "$root/crates" -path '*/out' -prune -o -newer "$program" \
        \( -name '*.rt' -o -name '*.antt' -o -name crates.txt \) -print -quit)" ]
}

# The crates that the program is made of, in the order of crates.txt, where a crate stands below what it depends on.
needed() {
    tac "$root/crates.txt" | awk -F '[: ]+' -v program="$crate" '/^[a-z]/ && ($1 == program || $1 in need) {
        print $1
        for (i = 2; i <= NF; i++) need[$i]
    }' | tac
}

# What is left to prove, from the times of the last gate that was measured, two crates at a time: a line that moves at a
# terminal, elsewhere a line now and then.
tell() {
    local crate next='' left=0 text
    for crate in "${crates[@]}"; do
        [ -n "${proved[$crate]-}" ] || { next=${next:-$crate}; left=$((left + ${took[$crate]:-5})); }
    done
    left=$((left / 120 + 1))
    text="proving $((${#proved[@]} + 1)) of ${#crates[@]}: $next (about $left minute$([ $left -eq 1 ] || echo s), once)"
    if [ -t 2 ]; then
        printf '\r%s\033[K' "${next:+$text}" >&2
    elif [ -n "$next" ] && [ "$SECONDS" -ge "$again" ]; then
        echo "$text" >&2
        again=$((SECONDS + 30))
    fi
}

prove() {
    local -A took=() proved=()
    local crates kind name seconds line status again=0
    command -v rt >/dev/null || fail 1 "rt is missing, which proves and builds the program: it comes with the Rattle kit"
    mapfile -t crates < <(needed)
    while read -r kind name seconds _; do
        [ "$kind" != crate ] || took[$name]=$seconds
    done < "$root/figures.d/gate.txt"
    mkdir -p "$root/target"
    touch "$begun"
    # `rt` proves and builds what the crate stands on and the crate, and runs the program on nothing.
    (cd "$root/crates/$crate" && rt run) 2>&1 < /dev/null | tee "$log" | while tell; read -r line; do
        [[ ! $line =~ ^crate\ ([a-z0-9_]+):\  ]] || proved[${BASH_REMATCH[1]}]=1
    done
    status=${PIPESTATUS[0]}
    [ ! -t 2 ] || printf '\r\033[K' >&2
    if [ "$status" -ne 0 ]; then
        tail -n 12 "$log" >&2
        fail 1 "'rt run' in crates/$crate failed; all that it said: $log"
    fi
    # Under its name at once, since another run may be at the one that is there.
    [ -x "$made" ] || fail 1 "'rt run' in crates/$crate made no program; all that it said: $log"
    mkdir -p "${program%/*}"
    cp "$made" "$program.new" && mv -f "$program.new" "$program" || fail 1 "$program could not be written"
    # As old as the proof's beginning: a source that changed while it ran is newer.
    touch -c -r "$begun" "$program"
}

# Programs are compiled for x86-64. In a process of its own: it becomes the program.
run() {
    exec "$program" "$@"
}
