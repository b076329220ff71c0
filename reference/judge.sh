#!/bin/sh
# judge.sh PROGRAM SEED CASES: what document 02, (v), claims of the judge, on cases and tapes that PROGRAM writes for itself.
# Prints the first claim that fails and ends with status 1.
set -eu
program=$1
seed=$2
cases=$3
work=build/judge
mkdir -p $work

fails() {
    echo "$*"
    exit 1
}

# --- Tapes of our own machine from its first slot, with its own words, are accepted.
"$program" own-cases "$seed" "$cases" | "$program" judge-cases >$work/lines
[ "$(sort -u $work/lines)" = 'judge 0 0 0 0' ] || fails "a tape of our own is not accepted"

# --- Accepted exactly if the plain SDRAM rejects nothing; otherwise the first slot that it rejects, by the lowest rule, in the lowest bank.
"$program" cases "$seed" "$cases" >$work/cases
"$program" check-cases <$work/cases >$work/lines 2>$work/message || fails "$(sed 's/^claim failed: case [0-9]*, slot [0-9]*: //' $work/message)"
"$program" judge-cases <$work/cases | cmp -s - $work/lines || fails "judge-cases and check-cases differ"

# full_runs COUNT: so many runs of 65,535 NOPs.
full_runs() {
    yes xyy | head -n "$1" | tr -d '\n' | LC_ALL=C tr 'xy' '\000\377'
}

# gives LINE CFG ROW REF TIM: for the tape in $work/tape.
gives() {
    line=$1
    shift
    [ "$("$program" judge "$@" <$work/tape)" = "$line" ] || fails "$what: another line than '$line'"
}

# --- Slots are counted beyond 32 bits, and so are distances: 65,537 full runs have 2^32 - 1 slots.
what="a tape of 65537 full runs and READ"
{ full_runs 65537 && printf '\002\000\000\000'; } >$work/tape
gives 'judge 0 4294967296 8 0' 0x4400 0 27 0
what="a tape with 65537 full runs from ACT to PRE"
{ printf '\007\040\000\000\001\000\001\000\000\000' && full_runs 65537 && printf '\004\000'; } >$work/tape
gives 'judge 0 0 0 0' 0x4400 0 27 0
what="a tape with 65537 full runs from ACT to PRE, twice"
printf '\004\000' >>$work/tape
gives 'judge 0 4294967300 11 0' 0x4400 0 27 0

# --- 16,777,216 bytes are judged, whatever they say; with one more it is 19, whatever they say, unless the words are refused.
what="a tape of 16777216 bytes"
{ full_runs 5592404 && printf '\002\000\000\000'; } >$work/tape
gives "judge 0 $((5592404 * 65535 + 1)) 8 0" 0x4400 0 27 0
{ full_runs 5592405 && printf '\010'; } >$work/tape
gives 'judge 11 0 0 0' 0x4400 0 27 0
what="a tape of 16777217 bytes"
printf '\010' >>$work/tape
gives 'judge 19 0 0 0' 0x4400 0 27 0
gives 'judge 3 0 0 0' 0x4400 0 26 0
{ printf '\000\104\000\000\000\000\000\000\033\000\000\000\000\000\000\000\001\000\000\001' && cat $work/tape; } >$work/cases
printf '\000\104\000\000\000\000\000\000\033\000\000\000\000\000\000\000\001\000\000\000\005' >>$work/cases
[ "$("$program" judge-cases <$work/cases | tr '\n' ,)" = 'judge 19 0 0 0,judge 0 0 0 0,' ] || fails "$what, as a case, gives another number than 19"
rm $work/tape $work/cases # they are large
