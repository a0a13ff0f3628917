#!/usr/bin/env bash
# Tests the bindings against libexports.a: the header and its example with C and C++ compilers, then the crate.
# PLANK_LIB names the library's folder, target/staticlib without it. What is built goes to target/.
set -eu
project="$(cd "$(dirname "$0")/.." && pwd)"
PLANK_LIB="$(realpath -m "${PLANK_LIB:-$project/target/staticlib}")"
CARGO_TARGET_DIR="$(realpath -m "${CARGO_TARGET_DIR:-$project/target/bindings}")"
export PLANK_LIB CARGO_TARGET_DIR
cd "$project"
# What needs no prover: quotations, what must be believed, constants (PLANK_SRC names the folder of the Rust's sources).
tools/check.sh ${PLANK_SRC:+"$PLANK_SRC"}
if [ ! -e "$PLANK_LIB/libexports.a" ]; then
    echo "$PLANK_LIB/libexports.a is not there: \`bindings/library.sh\` writes it, PLANK_LIB names its folder" >&2
    exit 2
fi
built="$CARGO_TARGET_DIR/c"
mkdir -p "$built"

for compiler in "cc -std=c11" "c++ -x c++ -std=c++11"; do
    for program in test example; do
        $compiler -Wall -Wextra -Werror -pedantic "bindings/c/$program.c" -x none "$PLANK_LIB/libexports.a" -o "$built/$program"
    done
    "$built/test"
    diff <("$built/example" scripts/plot.plank) <(printf 'const PLOT_RADIUS_CM\nconst basal\n')
    diff <("$built/example" < scripts/radius.plank) <(printf 'const radius\n')
    diff <(printf 'const a 1;' | "$built/example") <(printf 'report 2 detail 67 from 8 to 9\nconst a\n')
    diff <(printf '\357\273\277const a 1;' | "$built/example") <(printf 'report 2 detail 67 from 11 to 12\nconst a\n')
    diff <(printf '\200' | "$built/example" || echo "status $?") <(printf 'refused 1 place 0\nstatus 1\n')
    diff <(printf 'a\342\202b' | "$built/example" || echo "status $?") <(printf 'refused 9 place 1\nstatus 1\n')
    diff <(printf 'a\342\202' | "$built/example" || echo "status $?") <(printf 'refused 10 place 1\nstatus 1\n')
done

cd bindings/rust
cargo test --offline --quiet
diff <(cargo run --offline --quiet --example constants -- ../../scripts/radius.plank) <(printf 'radius = (* 2 (- 630 bark))\n')
echo "the bindings are as they should be"
