#!/bin/sh
# tapes.sh PROGRAM SEED: what document 02, (ii), claims of tapes, on a script and on tapes that PROGRAM writes for itself.
# Prints the first claim that fails and ends with status 1.
set -eu
program=$1
seed=$2
work=build/tapes
mkdir -p $work

fails() {
    echo "$*"
    exit 1
}

# shown TAPE: prints its lines; status 1 where it is refused.
shown() {
    "$program" read <"$1"
}

# --- Writing then reading returns the slots: those that `run` prints, up to a second accepted config.
"$program" script "$seed" 20000 >$work/script
"$program" run <$work/script >$work/lines
awk 'function put_run() { if (run > 0) print slot - run + 1, "NOP", run; run = 0 }
    /^config 0$/ && configured++ { exit }
    !/^slot 0 / { next }
    { sub(/^slot 0 /, ""); sub(/ (-|read [0-9]+ [0-9]+|write [0-9]+)$/, "") }
    /^NOP$/ { if (run == 65535) put_run(); run++; slot++; next }
    { put_run(); print ++slot, $0 }
    END { put_run(); print "end", slot + 0 }' $work/lines >$work/expected
"$program" tape <$work/script >$work/tape 2>/dev/null
shown $work/tape >$work/got || fails "the tape of a script is refused"
cmp -s $work/expected $work/got || fails "the tape of a script does not hold its slots"

# --- Accepted tapes have one spelling. Of a refused one, what stands before the refused record is accepted.
"$program" random-tape "$seed" 2000 >$work/tape
shown $work/tape >$work/got || fails "a random tape is refused"
"$program" copy <$work/tape | cmp -s - $work/tape || fails "a random tape is spelled otherwise when its slots are written anew"
"$program" random-tape "$seed" 12 >$work/tape
for spoiled in 1 2 3 4 5 6 7 8 9 10 11 12 13 14 15 16 17 18 19 20; do
    "$program" spoil "$seed$spoiled" <$work/tape >$work/spoiled
    if shown $work/spoiled >$work/got; then
        "$program" copy <$work/spoiled | cmp -s - $work/spoiled || fails "an accepted tape is spelled otherwise when its slots are written anew"
    else
        head -c "$(sed -n 's/^refused .* //p' $work/got)" $work/spoiled >$work/before
        shown $work/before >$work/lines || fails "what stands before a refused record is refused"
        sed '$d' $work/got >$work/expected
        sed '$d' $work/lines | cmp -s - $work/expected || fails "what stands before a refused record is shown otherwise"
    fi
done

# --- Slots are counted beyond 32 bits: 65,540 full runs, then DEAC.
awk 'BEGIN { for (n = 0; n < 65540; n++) printf "xyy"; printf "z" }' | LC_ALL=C tr 'xyz' '\000\377\005' >$work/long
[ "$(shown $work/long | tail -n 2 | tr '\n' ,)" = '4295163901 DEAC,end 4295163901,' ] || fails "a tape of 65540 full runs is shown with other slots"
"$program" copy <$work/long | cmp -s - $work/long || fails "a tape of 65540 full runs is spelled otherwise when its slots are written anew"
