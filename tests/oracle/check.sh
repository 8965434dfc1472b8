#!/bin/sh
# Checks that html5ever's files are unchanged, builds the oracle, and compares.
#
#   ./check.sh             a short comparison, under a minute
#   ./check.sh gate        20,000 streams, states and damaged states from a fixed seed and from a fresh one, at once; every name,
#                          every short stream; each intended difference on both sides
#   ./check.sh long [N]    streams of N records in all, ten million if not said, from two fresh seeds at once
#   ./check.sh mistakes    deliberate mistakes in a copy of the model, one at a time: each must be found
#
# The proved builder is compared too where the library is there (tools/libraries.sh); gate and long ask for it.
# GIVEN=DIR: the folder with the sources as given (its src/ has tree_builder/mod.rs and so on); they are then compared byte for
# byte too. SEED=N: another fixed seed. FRESH=N: the fresh seed, to see a run again.
set -e
cd "$(dirname "$0")"
root=../..

(cd oracle && sha256sum --check --quiet SHA256SUMS)
echo "html5ever's five files: unchanged"
if [ -n "$GIVEN" ]; then
    while read -r _ file; do
        cmp "oracle/$file" "$GIVEN/${file#html5ever/}"
    done < oracle/SHA256SUMS
    cmp oracle/html5ever/LICENSE-MIT "$GIVEN/LICENSE-MIT"
    cmp oracle/html5ever/LICENSE-APACHE "$GIVEN/LICENSE-APACHE"
    echo "html5ever's files: equal to the given ones"
fi

(cd oracle && cargo build --release --offline --quiet)
mkdir -p target

what=${1:-short}
[ $# -gt 0 ] && shift
seed=${SEED:-1}
fresh=${FRESH:-$(od -An -N4 -tu4 /dev/urandom | tr -d ' ')}
library=$root/target/staticlib
proved=
if [ -f $library/libexported.a ]; then
    rustc --edition 2021 -O -o target/proved proved.rs -L $library -l static=exported
    proved="--other target/proved"
    [ ! -x $root/target/bin/dozenpurse ] || proved="$proved --program $root/target/bin/dozenpurse"
elif [ "$what" = gate ] || [ "$what" = long ]; then
    echo "no $library/libexported.a: tools/libraries.sh makes it" >&2
    exit 1
fi

# Two comparisons at once; what the second says comes after the first.
both() {
    log=$(mktemp)
    status=0
    python3 compare.py --seed "$fresh" $2 $proved > "$log" 2>&1 &
    second=$!
    python3 compare.py --seed "$first" $1 $proved || status=1
    wait $second || status=1
    cat "$log"
    rm -f "$log"
    return $status
}

case $what in
short)
    python3 corners.py
    python3 differences.py ${proved:+target/proved}
    python3 compare.py --seed "$seed" --streams 2000 --states 5000 --damaged 5000 --runs 1000 --programs 50 --every 4 $proved "$@"
    ;;
gate)
    first=$seed
    echo "seeds $first and $fresh (fresh)"
    python3 corners.py
    python3 differences.py target/proved
    all="--streams 20000 --states 20000 --damaged 20000 --runs 4000 --programs 200"
    both "$all --names --every 4" "$all"
    ;;
long)
    first=$((fresh + 1))
    echo "seeds $first and $fresh (fresh)"
    half=$((${1:-10000000} / 2))
    all="--records $half --states $((half / 50)) --damaged $((half / 50)) --runs $((half / 500)) --programs 400"
    both "$all" "$all"
    ;;
mistakes)
    python3 mistakes.py "$@"
    ;;
*)
    echo "short, gate, long or mistakes" >&2
    exit 2
    ;;
esac
