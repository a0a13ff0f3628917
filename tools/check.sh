#!/usr/bin/env bash
# Checks what no proof sees: quotations, the list of what is believed, numbers that stand in several places, that must-fail edits fit
# their files, that the tables are laid out as they are. Then reports what is unused.
# An argument names the folder of the Rust parser's sources, as for consts.py. The last line says how many checks passed and failed.
set -u
tools="$(cd "$(dirname "$0")" && pwd)"
passed=0
failed=0

check() {
    echo "== $*"
    if python3 "$tools/$@"; then
        passed=$((passed + 1))
    else
        failed=$((failed + 1))
    fi
}

check quotations.py
check closure.py
check consts.py "$@"
check edits.py
check layout.py
echo "== unused.py"
python3 "$tools/unused.py" | tail -n 1
echo "$passed passed, $failed failed"
[ "$failed" -eq 0 ]
