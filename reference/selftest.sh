#!/bin/sh
# selftest.sh PROGRAM: the sound program against the examples and against generated scripts, tapes and cases.
# Prints a line for each part and ends with status 1 at the first thing that is wrong.
set -eu
cd "$(dirname "$0")"
program=$1
work=build/selftest
mkdir -p $work

wrong() {
    echo "WRONG: $*"
    exit 1
}

# --- Examples: `run` and `check` both print the expected lines.
examples=0
for script in examples/*.script; do
    name=$(basename "$script" .script)
    [ "$name" = last-number-8 ] && continue # a build of its own, see damages.sh
    for command in run check; do
        "$program" $command <"$script" >$work/lines || wrong "$command ends with $? on example $name"
        cmp -s $work/lines "examples/$name.expected" || wrong "$command differs on example $name"
    done
    examples=$((examples + 1))
done
echo "examples: $examples as expected"

# --- Examples of tapes: each file of bytes that stands beside a script, its lines, or the ends of its damaged copies.
# gives STATUS COMMAND INPUT OUTPUT: does nothing where there is no such example.
pairs=0
gives() {
    [ -e "$3" ] && [ -e "$4" ] || return 0
    status=0
    "$program" "$2" <"$3" >$work/got 2>/dev/null || status=$?
    [ $status = "$1" ] || wrong "$2 ends with $status on $3"
    cmp -s $work/got "$4" || wrong "$2 differs on $3"
    pairs=$((pairs + 1))
}
for tape in examples/*.tape; do
    name=${tape%.tape}
    gives 0 tape "$name.script" "$tape"
    case $(tail -n 1 "$name.shown" 2>/dev/null) in
    end*) gives 0 read "$tape" "$name.shown" ;;
    *) gives 1 read "$tape" "$name.shown" ;;
    esac
    gives 0 damage "$tape" "$name.damaged"
done
echo "examples of tapes: $pairs as expected"

# --- Examples of cases: `judge-cases` and `check-cases` both print the expected lines, and `judge` prints that of each alone.
cases=0
for file in examples/*.cases; do
    name=${file%.cases}
    for command in judge-cases check-cases; do
        "$program" $command <"$file" >$work/lines || wrong "$command ends with $? on $file"
        cmp -s $work/lines "$name.judged" || wrong "$command differs on $file"
    done
    if command -v python3 >/dev/null; then
        rm -rf $work/split
        mkdir $work/split
        python3 split-cases.py "$file" $work/split
        n=0
        while read -r line; do
            n=$((n + 1))
            status=0
            # shellcheck disable=SC2046
            got=$("$program" judge $(cat $work/split/$n.words) <$work/split/$n.tape) || status=$?
            [ "$got" = "$line" ] || wrong "judge differs on case $n of $file: $got"
            case "$status $line" in
            '0 judge 0 0 0 0' | '1 judge 0 '[1-9]* | '1 judge '[1-9]*) ;;
            *) wrong "judge ends with $status on case $n of $file: $line" ;;
            esac
        done <"$name.judged"
    fi
    cases=$((cases + $(wc -l <"$name.judged")))
done
echo "examples of cases: $cases as expected"

# --- The stored examples are those that make-examples.py writes.
if command -v python3 >/dev/null; then
    mkdir -p $work/examples
    cp examples/make-examples.py $work/examples/
    python3 $work/examples/make-examples.py
    for file in examples/*.script examples/*.expected examples/*.tape examples/*.shown examples/*.damaged examples/*.cases examples/*.judged; do
        cmp -s "$file" "$work/$file" || wrong "$file is not what make-examples.py writes"
    done
fi

# --- The rules, written twice: no difference; each of them is the first one broken somewhere; MRS does not wait for tRC, REFR does.
for seed in 1 2 3 4 5 6 7 8; do
    "$program" rules $seed 100000 >$work/counts || wrong "rules, seed $seed: $(cat $work/counts)"
    awk '{ for (n = 1; n < NF; n++) count[$n] = $(n + 1) + 0 }
        END { for (n = 1; n <= 16; n++) if (count["R" n] == 0) exit 1
            exit !(("REFR" in count) && count["REFR"] == 0 && count["MRS"] > 0) }' $work/counts || wrong "rules, seed $seed, comes by too little: $(cat $work/counts)"
done
echo "rules: both writings agree about 8 times 100000 commands, and each of R1 to R16 is the first one broken"

# --- Generated scripts: every claim holds, `run` and `check` agree, the same seed gives the same script.
: >$work/all-lines
played=
for seed in 1 2 3 4 5 6 7 8; do
    script=$work/$seed.script
    lines=$work/$seed.lines
    "$program" script $seed 100000 >$script
    "$program" script $seed 100000 | cmp -s - $script || wrong "seed $seed gives two scripts"
    "$program" check <$script >$lines || wrong "check ends with $? on seed $seed"
    "$program" run <$script | cmp -s - $lines || wrong "run and check differ on seed $seed"
    [ "$(wc -l <$lines)" = 100000 ] || wrong "seed $seed does not give 100000 lines"
    cat $lines >>$work/all-lines
    played="$played $script $lines"
done
echo "generated scripts: 8 of 100000 calls, every claim holds"

# --- They come by every answer, every command, every backlog that a run can reach, and rows of every length.
for line in 'config 0' 'config 1' 'config 2' 'config 3' 'error' \
    'read 0' 'read 4' 'read 5' 'read 6' 'read 8' 'write 0' 'write 4' 'write 5' 'write 6' 'write 8' \
    'cell 0' 'cell 1' 'cell 2' 'cell 4' 'cell 5' 'address 0' 'address 1' 'address 2' 'address 10' \
    'slot 8' 'slot 0 NOP' 'slot 0 ACT 3' 'slot 0 READ 3' 'slot 0 WRT 3' 'slot 0 PRE 3' \
    'slot 0 DEAC' 'slot 0 REFR' 'slot 0 MRS 32' 'slot 0 MRS 48' 'backlog 8' \
    'backlog 0 0' 'backlog 0 1' 'backlog 0 2' 'backlog 0 3' 'backlog 0 4' 'backlog 0 5' 'backlog 0 6' \
    'backlog 0 7' 'backlog 0 8' 'backlog 0 9' 'backlog 0 10' 'backlog 0 11' 'backlog 0 12' \
    'bus 1' 'bus 126' 'bus 4096' 'slots 8 0' 'slots 0 0' 'slots 0 1' 'slots 0 4096'; do
    grep -q "^$line\( \|\$\)" $work/all-lines || wrong "no generated script comes by '$line'"
done
echo "generated scripts: come by every answer, every command, backlog 0 to 12 and rows of 0 to 4096 slots"

# --- Within a row: the end of the start, both reports, and a Must run, which is five refreshes and then a read that has waited for them.
awk '/^slots /{ left = $3; refreshes = 0; next }
    left == 0 { next }
    { left-- }
    / MRS /{ refreshes = 0; seen["the end of the start"] = 1 }
    / REFR /{ refreshes++ }
    / WRT /{ refreshes = 0; seen["a write"] = 1 }
    / READ /{ if (refreshes >= 5) seen["a Must run"] = 1; refreshes = 0 }
    / read /{ seen["a read"] = 1 }
    END { for (what in seen) print what }' $work/all-lines >$work/in-rows
for what in 'the end of the start' 'a write' 'a read' 'a Must run'; do
    grep -qx "$what" $work/in-rows || wrong "no row of a generated script has $what"
done
echo "generated scripts: their rows run past the end of the start and through Must runs"

# --- R16 decides when many of their refreshes are sent: by other banks than bank 0 and than the last one used, by several at once, at each
# level of the backlog.
if command -v python3 >/dev/null; then
    # shellcheck disable=SC2086
    python3 held-back.py $played >$work/held-back || wrong "held-back.py ends with $?"
    awk '$1 < 10 { exit 1 }' $work/held-back || wrong "the generated scripts come by too little: $(cat $work/held-back)"
    echo "generated scripts: of $(sed -n 1p $work/held-back) $(sed -n '2s/ .*//p' $work/held-back) are held back by R16"
fi

# --- A halfword that the SDRAM does not have on the bus is the script's error.
sed 's/^slot 4711$/slot 4712/' examples/E5.script >$work/script
status=0
"$program" check <$work/script >/dev/null 2>&1 || status=$?
[ $status = 2 ] || wrong "check takes a halfword that the SDRAM does not have"
"$program" run <$work/script >/dev/null || wrong "run does not take any halfword"
sed 's/^\(bus .*\)4711 /\14712 /' examples/slots-one-row.script >$work/script
status=0
"$program" check <$work/script >/dev/null 2>$work/message || status=$?
[ $status = 2 ] || wrong "check takes a row with a halfword that the SDRAM does not have"
grep -q '^script error: line 14, slot 231: ' $work/message || wrong "check does not name line and slot: $(cat $work/message)"
echo "check tells a script's error from a claim's failure"

# --- Tapes: the claims of document 02, (ii), on scripts and tapes of the program's own.
: >$work/records
for seed in 1 2 3 4 5 6 7 8; do
    ./tapes.sh "$program" $seed >$work/message || wrong "tapes, seed $seed: $(cat $work/message)"
    "$program" random-tape $seed 3000 >$work/tape
    "$program" random-tape $seed 3000 | cmp -s - $work/tape || wrong "seed $seed gives two random tapes"
    "$program" read <$work/tape | sed '$d' >$work/lines
    [ "$(wc -l <$work/lines)" = 3000 ] || wrong "random-tape $seed 3000 does not give 3000 records"
    cat $work/lines >>$work/records
done
for record in 'ACT 255 65535' 'READ 255 ' 'WRT 255 ' 'PRE 255$' 'DEAC$' 'REFR$' 'MRS 65535$' 'MRS 0$' 'NOP 1$' 'NOP 256$' 'NOP 65534$' 'NOP 65535$'; do
    grep -q "^[0-9]* $record" $work/records || wrong "no random tape comes by '$record'"
done
awk '/ NOP 65535$/{ full++; next } / NOP /{ if (full >= 2) after["a shorter run"] = 1 } !/ NOP /{ if (full >= 2) after["a command"] = 1 } { full = 0 }
    END { exit !("a shorter run" in after && "a command" in after) }' $work/records || wrong "no random tape has full runs before a shorter one and before a command"
echo "tapes: every claim holds on 8 scripts of 20000 calls, on random tapes, which come by every kind and by full runs, and on a tape of 2^32 slots and more"

# --- The longest run that a script can have: RR 8191 gives 65528 NOPs. In rows of 4096, in rows of 4095 with a single slot between them, in single slots.
long_script() { # rows' LENGTH, SINGLE slots after each
    echo 'config 0x4400 0 8191 0'
    awk -v length_="$1" -v single="$2" 'BEGIN {
        for (slots = 0; slots < 65560; slots += length_ + single) {
            for (n = 0; n < length_; n++) printf "%s%d%s", n % 100 ? " " : "bus ", n % 7, n % 100 == 99 || n == length_ - 1 ? "\n" : ""
            print "slots 4096 4096"
            for (n = 0; n < single; n++) print "slot 0"
        }
    }'
}
for shape in '4096 0' '4095 1' '4096 5' '1 400' '333 0'; do
    # shellcheck disable=SC2086
    long_script $shape >$work/script
    "$program" tape <$work/script | "$program" read >$work/lines
    [ "$(sed -n 1,2p $work/lines | tr '\n' ,)" = '1 NOP 65528,65529 DEAC,' ] || wrong "the longest run, rows of $shape: $(head -n 2 $work/lines)"
done
echo "tapes: a run of 65528 slots goes on over rows and single slots"

# --- The judge on the table of rule cases: each gets the line that stands in the table, and legality.c and sdram.c say the same.
"$program" rule-cases >$work/cases
"$program" rule-lines >$work/lines
"$program" judge-cases <$work/cases >$work/got
cmp $work/got $work/lines >$work/message || wrong "a rule case gets another line: $(cat $work/message)"
"$program" check-cases <$work/cases | cmp -s - $work/lines || wrong "check-cases differs on the rule cases"

# comes_by LINES LEAST: accepted tapes, and each rule with each bank that it can name, so often each; status 1 and the first that is missing.
comes_by() {
    awk -v least="$2" 'function want(what, illegal, rule, bank) { if (seen[0, illegal, rule, bank] < least) { print what; exit 1 } }
        { seen[$2, $3 > 0, $4, $5]++ }
        END {
            want("accepted tapes", 0, 0, 0)
            for (rule = 1; rule <= 16; rule++)
                for (bank = 0; bank <= (rule <= 3 || rule == 10 || rule == 15 ? 0 : 3); bank++) want("R" rule " of bank " bank, 1, rule, bank)
        }' "$1"
}
missing=$(comes_by $work/lines 5) || wrong "the rule cases do not come by $missing"
echo "judge: $(wc -l <$work/lines) rule cases get the lines of the table, which come by every rule and every bank that it can name"

# --- The judge on random cases: the claims of document 02, (v).
: >$work/all-lines
for seed in 1 2 3 4 5 6 7 8; do
    ./judge.sh "$program" $seed 2000 >$work/message || wrong "judge, seed $seed: $(cat $work/message)"
    "$program" cases $seed 2000 >$work/cases
    "$program" cases $seed 2000 | cmp -s - $work/cases || wrong "seed $seed gives two case files"
    "$program" cases $seed 100 | cmp -s -n "$("$program" cases $seed 100 | wc -c)" - $work/cases || wrong "seed $seed: the first cases depend on how many follow"
    "$program" judge-cases <$work/cases >>$work/all-lines
done
missing=$(comes_by $work/all-lines 10) || wrong "the random cases do not come by $missing"
for number in 1 2 3 11 12 13; do
    [ "$(grep -c "^judge $number 0 0 0\$" $work/all-lines)" -ge 100 ] || wrong "the random cases do not come by number $number"
done
accepted=$(grep -c '^judge 0 0 0 0$' $work/all-lines)
illegal=$(grep -c '^judge 0 [1-9]' $work/all-lines)
echo "judge: every claim holds on 8 times 2000 random cases, $accepted of them accepted, $illegal illegal by every rule, the others refused, on as many tapes of our own, and" \
    "on tapes of 2^32 slots and of 16,777,216 bytes and one more"

# --- What a person is told.
# says STATUS TEXT COMMAND ..: on the input in $work/script
says() {
    expected=$1
    text=$2
    shift 2
    status=0
    "$program" "$@" <$work/script >/dev/null 2>$work/message || status=$?
    [ $status = "$expected" ] || wrong "$* ends with $status, not $expected"
    [ -z "$text" ] || grep -q "$text" $work/message || wrong "$* does not say '$text': $(cat $work/message)"
}
cp examples/tape-only-slots.script $work/script
says 0 'line 25 is a second accepted config' tape
cp examples/tape-none.script $work/script
says 0 'no config is accepted' tape
"$program" random-tape 1 3000 | head -c 4097 >$work/script
says 2 'more than 4096 bytes' damage
head -c 4096 $work/script >$work/tape
[ "$("$program" damage <$work/tape | head -n 1)" = 'cut 0 end 0' ] || wrong "damage refuses 4096 bytes"
says 2 usage
says 2 usage tapes
says 2 usage random-tape 1
says 2 usage rules 1
says 2 usage spoil 1x
echo "tapes: messages and statuses"
"$program" cases 1 3 >$work/cases
"$program" judge-cases <$work/cases >$work/lines
length=$(wc -c <$work/cases)
for cut in $((length - 1)) $((length - 100)) 19; do
    head -c $cut $work/cases >$work/script
    for command in judge-cases check-cases; do
        says 2 'ends within case [13]: give it whole' $command
        "$program" $command <$work/script 2>/dev/null >$work/got || true
        head -n "$(wc -l <$work/got)" $work/lines | cmp -s - $work/got || wrong "$command gives other lines where the file is cut"
    done
done
: >$work/script
"$program" judge-cases <$work/script | cmp -s - $work/script || wrong "judge-cases gives lines for no cases"
says 0 '' judge-cases
says 0 '' judge 0x4400 0x0 0x1b 0
says 1 '' judge 0x4400 0 26 0
for words in '' '0x4400 0 27' '0x4400 0 27 0 0' '0x4400 0 27 4294967296' '0x4400 0 27 0x100000000' '0x4400 0 27 0x' '0X4400 0 27 0' '-1 0 27 0' '17408 0 27 x'; do
    # shellcheck disable=SC2086
    says 2 usage judge $words
done
echo "judge: messages and statuses"
