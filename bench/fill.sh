#!/bin/sh
# Counts what it costs to find how terms can be deduced, by the program of tables on a row, less what it takes to read the row.
#
#   chain   so many keys, each encrypted by the one before, and the last of them as goal, the first being known
#   back    the same with the entries in the other order
#   wide    so many entries of 255 nodes, which differ at their innermost, and a goal of 256 over one of them
#   again   a goal of 256 nodes, so many times of one search
#   twin    so many keys, each encrypted by a pair of the one before with itself, so that each is needed twice
#   goals   so many goals of one line each, of one search that knows a hundred times as many terms
#
# Sizes double. For each it tells the instructions, by valgrind, and their ratio to the size before, which is to be at most 2.2; for
# `back` also the ratio to `chain`, which is to be at most 1.2.
#
# usage: bench/fill.sh [KIND..]     TABLES names a program of tables that is built; without it the one of crates/sap_tables is
set -eu
here=$(cd "$(dirname "$0")" && pwd)
. "$here/growth.sh"
tables=${TABLES:-}
if [ -z "$tables" ]; then
    tables=$here/../crates/sap_tables/out/sap_tables
    (cd "$here/../crates/sap_tables" && rt run -- numbers) > /dev/null 2>&1 || {
        echo "crates/sap_tables cannot be built" >&2
        exit 1
    }
fi

# row KIND SIZE: the row of that kind and size, with what is to be found of it
row() {
    awk -v kind="$1" -v n="$2" '
        function key(k) { return "k(\047" k "\047)" }
        function secret(k) { return "senc(" key(k) "," key(k - 1) ")" }
        function tuple(last,    t, j) { for (j = 1; j <= 63; j++) t = t "\047a\047,"; return "<" t last ">" }
        function wide(k, f,    t) { t = tuple("x"); return (f == "" ? t : f "(" t ")") " where x = " tuple("k(h(\047" k "\047))") }
        BEGIN {
            if (kind == "chain" || kind == "back") {
                printf "derive %% symmetric -k/1 %% "
                if (kind == "chain") { printf "%s", key(0); for (k = 1; k <= n; k++) printf " | %s", secret(k) }
                else { for (k = n; k >= 1; k--) printf "%s | ", secret(k); printf "%s", key(0) }
                printf " %% %s %% ", key(n)
                for (k = 1; k <= n; k++) {
                    opened = kind == "chain" ? k : n - k
                    by = k > 1 ? n + k - 1 : kind == "chain" ? 0 : n
                    printf "app sdec %d %d; ", opened, by
                }
                printf "entry %d\n", 2 * n
            } else if (kind == "twin") {
                printf "derive %% symmetric -k/1 %% %s", key(0)
                for (k = 1; k <= n; k++) printf " | senc(%s,<%s,%s>)", key(k), key(k - 1), key(k - 1)
                printf " %% %s %% ", key(n)
                for (k = 1; k <= n; k++) {
                    by = k > 1 ? n + 2 * k - 2 : 0
                    printf "app pair %d %d; app sdec %d %d; ", by, by, k, n + 2 * k - 1
                }
                printf "entry %d\n", 3 * n
            } else if (kind == "wide") {
                printf "derive %% hashing -k/1 %% "
                for (k = 1; k <= n; k++) printf "%s%s", (k > 1 ? " | " : ""), wide(k)
                printf " %% %s %% app h %d; entry %d\n", wide(n / 2, "h"), n / 2 - 1, n
            } else if (kind == "again") {
                printf "search %% hashing -k/1 %% %s %% ", wide(0, "h")
                for (k = 1; k <= n; k++) printf "%s%s", (k > 1 ? " | " : ""), wide(0, "h")
                printf " %% {%d:entry 0^}\n", n
            } else {
                printf "search %% hashing -k/1 %% "
                for (k = 1; k <= 100 * n; k++) printf "%s%s", (k > 1 ? " | " : ""), key(k)
                printf " %% "
                for (k = 1; k <= n; k++) printf "%sh(%s)", (k > 1 ? " | " : ""), key(100 * k)
                printf " %% "
                for (k = 1; k <= n; k++) printf "app h %d; entry %d^", 100 * k - 1, 100 * n + k - 1
                print ""
            }
        }'
}

# read_alone: the same row, of which only the goals are counted
read_alone() {
    awk -F' % ' '{ goals = split($4, each, / \| /); printf "read %% %s %% %s %% %s %% %d\n", $2, $3, $4, goals }'
}

# counted: the instructions of the table that is in the working folder, in which no row may differ
counted() {
    (cd "$work" && program=$tables && instructions derivations)
    (cd "$work" && "$tables" derivations) | grep -q '^derivations: 1 rows, 0 differ$' || {
        echo "a row differs" >&2
        exit 1
    }
}

# costs KIND SIZE: the instructions of the row, less those of reading it
costs() {
    row "$1" "$2" > "$work/derivations"
    all=$(counted)
    read_alone < "$work/derivations" > "$work/alone"
    mv "$work/alone" "$work/derivations"
    echo "$((all - $(counted)))"
}

wished=" $* "
printf '%-7s %7s %14s %7s %9s\n' kind size instructions growth 'to chain'

# kind KIND SIZES..: a line for each size, where this kind is asked for
kind() {
    what=$1 old=0
    shift
    case $wished in *" $what "* | "  ") ;; *) return 0 ;; esac
    for size in "$@"; do
        now=$(costs "$what" "$size")
        beside=0
        [ "$what" != back ] || beside=$(costs chain "$size")
        awk -v kind="$what" -v size="$size" -v now="$now" -v old="$old" -v beside="$beside" 'BEGIN {
            growth = (old > 0) ? sprintf("%.2f", now / old) : "-"
            printf "%-7s %7d %14.0f %7s %9s\n", kind, size, now, growth, (beside > 0 ? sprintf("%.2f", now / beside) : "-")
        }'
        old=$now
    done
}

kind chain 2500 5000 10000
kind back 2500 5000 10000
kind twin 2500 5000 10000
kind wide 2500 5000 10000
kind again 2500 5000 10000
kind goals 125 250 500
