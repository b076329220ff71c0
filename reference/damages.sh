#!/bin/sh
# damages.sh: builds every damage of src/damage.h and wants each one found,
#   by an example that it answers with other lines or another tape, or
#   by a claim that `check`, tapes.sh or judge.sh finds broken on a script, a tape or cases that the damaged build wrote for itself, or
#   by a command about which its legality.c and the SDRAM, which is never damaged, differ in `rules`, or
#   by a line of the judge's that is not the one of the table of rule cases.
# The table names the first of each. Its last column says for which of the sound program's scripts, random tapes and
# random cases the damaged build gives other lines or another tape; that is how another program would be
# compared with this one. The judge's damages are looked for by what concerns the judge.
set -eu
cd "$(dirname "$0")"
: "${CC:=gcc}" "${CFLAGS:=-std=c99}"
work=build/damages
damaged=$work/reference
seeds='5 6 8 12'
calls=60000
commands=20000
cases=1000
mkdir -p $work

# Only these and the judge know of damages; the rest is linked as it is.
sources='words legality machine play tape show'
rest='main command script sdram memory check rules bytes casefile casecheck rulecases random configs traffic scrap generate cases'

wrong() {
    echo "WRONG: $*" >&2
    exit 1
}

# files FOLDER ENDING NAME ..
files() {
    folder=$1
    ending=$2
    shift 2
    for file in "$@"; do echo "$folder/$file.$ending"; done
}

# build NAME [FLAG]
build() {
    # shellcheck disable=SC2086,SC2046
    $CC $CFLAGS -O0 -DDAMAGE="$1" ${2:-} -o $damaged $(files src c $sources) build/judge.o $(files build o $rest)
}

# build_judge NAME
build_judge() {
    # shellcheck disable=SC2086,SC2046
    $CC $CFLAGS -O0 -DDAMAGE="$1" -o $damaged src/judge.c $(files build o $sources $rest)
}

# gives COMMAND INPUT OUTPUT: where there are two such files, COMMAND makes the second of the first.
gives() {
    [ ! -e "$2" ] || [ ! -e "$3" ] || $damaged "$1" <"$2" 2>/dev/null | cmp -s - "$3"
}

differs_on() {
    ! { gives run "$1.script" "$1.expected" && gives tape "$1.script" "$1.tape" && gives read "$1.tape" "$1.shown" &&
        gives copy "$1.tape" "$1.copied" && gives damage "$1.tape" "$1.damaged" && gives judge-cases "$1.cases" "$1.judged"; }
}

find_example() {
    for file in examples/E?.script examples/E??.script examples/[a-z]*.script examples/*.tape examples/*.cases; do
        example=${file%.*}
        if [ "$example" != examples/last-number-8 ] && differs_on "$example"; then
            echo "${example#examples/}"
            return
        fi
    done
}

find_claim() {
    for seed in $seeds; do
        status=0
        $damaged script $seed $calls >$work/own || wrong "$1: script ends with $? on seed $seed"
        $damaged check <$work/own 2>$work/message >/dev/null || status=$?
        case $status in
        0) ;;
        1)
            sed 's/^claim failed: line [0-9]*, slot [0-9]*: //' $work/message
            return
            ;;
        *) wrong "$1: check ends with $status on seed $seed" ;;
        esac
        ./tapes.sh $damaged $seed || return 0
    done
}

find_rule() {
    for seed in $seeds; do
        status=0
        $damaged rules $seed $commands >$work/message || status=$?
        case $status in
        0) ;;
        1)
            sed 's/^config .*, slot [0-9]*, \([A-Z]*\).*, sdram/\1, sdram/' $work/message
            return
            ;;
        *) wrong "$1: rules ends with $status on seed $seed" ;;
        esac
    done
}

find_script() {
    for name in $seeds $tapes; do
        if differs_on "$work/$name"; then
            echo "$name"
            return
        fi
    done
}

# The same for the judge's damages. What takes long comes last.
find_judge_example() {
    for file in examples/*.cases; do
        example=${file%.*}
        if differs_on "$example"; then
            echo "${example#examples/}"
            return
        fi
    done
}

find_judge_claim() {
    for seed in $seeds; do
        ./judge.sh $damaged $seed 300 || return 0
    done
}

# first_case CASES LINES: the first case that gets another line.
first_case() {
    $damaged judge-cases <"$1" 2>/dev/null | cmp - "$2" 2>&1 | sed -n 's/.*line \([0-9]*\)$/case \1/p; s/.*EOF.*/a line missing/p'
}

for seed in $seeds; do
    ./reference script $seed $calls >$work/$seed.script
    ./reference run <$work/$seed.script >$work/$seed.expected
    ./reference tape <$work/$seed.script >$work/$seed.tape 2>/dev/null
done
tapes=
for seed in 1 2 3 4 5 6 7 8 9 10 11 12; do
    tapes="$tapes tape-$seed"
    ./reference random-tape $seed 40 | ./reference spoil $seed >$work/tape-$seed.tape
    ./reference read <$work/tape-$seed.tape >$work/tape-$seed.shown || [ $? = 1 ]
    ./reference copy <$work/tape-$seed.tape >$work/tape-$seed.copied || [ $? = 1 ]
    ./reference damage <$work/tape-$seed.tape >$work/tape-$seed.damaged
done
./tapes.sh ./reference 1 # and leaves a tape of more slots than 32 bits count
tapes="$tapes tape-long"
cp build/tapes/long $work/tape-long.tape
./reference read <$work/tape-long.tape >$work/tape-long.shown

./reference rule-cases >$work/rule.cases
./reference rule-lines >$work/rule.lines
for seed in $seeds; do
    ./reference cases $seed $cases
done >$work/random.cases
./reference judge-cases <$work/random.cases >$work/random.lines

# The sound build is not found, nor is the one that differs only in its last request number.
build SOUND
[ -z "$(find_example)$(find_claim SOUND)$(find_rule SOUND)$(find_script)" ] || wrong "the sound build is found"
build SOUND -DLAST_NUMBER=8
if differs_on examples/last-number-8; then wrong "example last-number-8"; fi
build_judge SOUND
[ -z "$(find_judge_example)$(find_judge_claim)$(first_case $work/rule.cases $work/rule.lines)$(first_case $work/random.cases $work/random.lines)" ] ||
    wrong "the sound judge is found"

count=0
found=0
row='%-30s %-23s %-75s %-32s %s\n'
# shellcheck disable=SC2059
printf "$row" 'damage' 'first example' 'first claim' 'rules, or rule case' 'script, tape or case'
for name in $(sed -n '/^enum damage/,/^}/s/^    \([A-Z][A-Z0-9_]*\),\{0,1\}.*/\1/p' src/damage.h); do
    case $name in
    SOUND) continue ;;
    USED_UP_BEFORE_FULL)
        build $name -DLAST_NUMBER=8
        example=$(if differs_on examples/last-number-8; then echo last-number-8; fi)
        claim=
        rule=
        script=
        ;;
    JUDGE_*)
        build_judge "$name"
        example=$(find_judge_example)
        claim=$(find_judge_claim)
        rule=$(first_case $work/rule.cases $work/rule.lines)
        script=$(first_case $work/random.cases $work/random.lines)
        ;;
    *)
        build "$name"
        example=$(find_example)
        claim=$(find_claim "$name")
        rule=$(find_rule "$name")
        script=$(find_script)
        ;;
    esac
    # shellcheck disable=SC2059
    printf "$row" "$name" "${example:--}" "${claim:--}" "${rule:--}" "${script:--}"
    count=$((count + 1))
    if [ -n "$example$claim$rule" ]; then found=$((found + 1)); else echo "NOT FOUND: $name"; fi
done
echo "damages: $count built, $found found"
[ $found = $count ]
