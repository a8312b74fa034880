# Sourced by the measuring scripts: rows of a Markdown table, both sides measured in one run.
# `speed` is the program to run: speed SIDE CASE TIMES prints nanoseconds (speed.rs).
command -v valgrind >/dev/null || { apt-get update -qq && apt-get install -y -qq --no-install-recommends valgrind; }

# The instructions of a run, by callgrind.
instructions() { # SIDE CASE TIMES
    valgrind --tool=callgrind --callgrind-out-file=/dev/null "$speed" "$@" 2>&1 >/dev/null |
        sed -n 's/.*Collected *: *\([0-9]*\).*/\1/p'
}

# The instructions of one call: start-up, measured with no call at all, is subtracted.
cost() { # SIDE CASE TIMES
    echo $((($(instructions "$1" "$2" "$3") - $(instructions "$1" "$2" 0)) / $3))
}

# The nanoseconds of one call: the best of five runs.
wall() { # SIDE CASE TIMES
    for _ in 1 2 3 4 5; do "$speed" "$@"; done | sort -n | awk -v n="$3" 'NR == 1 { printf "%.1f", $1 / n }'
}

header() {
    echo "| what | Rust, instructions | ours | ours / Rust | at most | Rust, ns | ours, ns | ours / Rust |"
    echo "|---|---|---|---|---|---|---|---|"
}

# One row. The numbers are divided by UNIT (bytes of a case, where the row is by the byte).
row() { # WHAT CASE TIMES-COUNTED TIMES-TIMED UNIT MOST
    awk -v what="$1" -v unit="$5" -v most="$6" \
        -v ri="$(cost rust "$2" "$3")" -v oi="$(cost ours "$2" "$3")" \
        -v rt="$(wall rust "$2" "$4")" -v ot="$(wall ours "$2" "$4")" '
        function n(x) { return unit > 1 ? sprintf("%.2f", x / unit) : sprintf("%d", x) }
        function t(x) { return unit > 1 ? sprintf("%.2f", x / unit) : sprintf("%.0f", x) }
        BEGIN {
            if (most == "rust") most = n(ri)
            over = oi / unit > most + 0 && n(oi) != most ? " (missed)" : ""
            printf "| %s | %s | %s | %.2f | %s%s | %s | %s | %.2f |\n", what, n(ri), n(oi), oi / ri, most, over, t(rt), t(ot), ot / rt
        }'
}
