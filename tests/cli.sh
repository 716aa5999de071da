#!/usr/bin/env bash
# Runs the built program from outside, and compares its exit status, its standard output and its standard error: words,
# files, names, pipes, full disks, little memory. No clause and no test of the crates speaks of these for the built program.
# Ends at the first difference.
set -u

top=$(cd "$(dirname "${BASH_SOURCE[0]}")/.." && pwd)
program=$top/crates/radix/out/radix
texts=$top/tests/texts
folder=$(mktemp -d) || exit 1
trap 'rm -rf "$folder"' EXIT
count=0

if [ ! -x "$program" ]; then
    "$top/tools/build.sh" || exit 1
fi
cd "$folder" || exit 1
cp "$top/examples/first/first.elf" "$top/examples/first/first.sched" . || exit 1

# Ends the script with what was wanted and what came.
fail() {
    echo "cli: $1"
    echo "  wanted: $2"
    echo "  came:   $3"
    echo "Run the command by hand. Where the new answer is right, change docs/FORMATS.md and tests/cli.sh; else mend the program."
    exit 1
}

# Compares a file with a text: what it is, the file, the text.
compare() {
    printf '%s' "$3" >wanted
    if ! cmp -s "$2" wanted; then
        fail "$1" "$(cat -v wanted)" "$(cat -v "$2")"
    fi
}

# Runs the program and compares: the status, the standard output, the standard error, then the words.
expect() {
    local status=$1 out=$2 err=$3 came
    shift 3
    "$program" "$@" >out 2>err </dev/null
    came=$?
    count=$((count + 1))
    [ "$came" -eq "$status" ] || fail "exit status of radix $*" "$status" "$came, $(cat -v err)"
    compare "standard output of radix $*" out "$out"
    compare "standard error of radix $*" err "$err"
}

line=$'\n'
hint="Try 'radix --help' for what can be asked.$line"
report=$(cat "$top/examples/first/first.report")$line
help=$(cat "$texts/help.txt")$line
version=$(cat "$texts/version.txt")$line

# A wrong command line: the number of the word, what is said of it, then the words.
expect_usage() {
    local place=$1 said=$2
    shift 2
    expect 2 "fault usage $place$line" "radix: $said$line$hint" "$@"
}

# Help, version, and the run of README.
expect 0 "$report" '' run first.elf first.sched 3
expect 0 "$help" '' --help
expect 0 "$version" '' --version
awk '/^    radix 1$/ { on = 1 } on && /^    / { print substr($0, 5) } /^    \.$/ { on = 0 }' "$top/README.md" >readme
compare 'the report in README.md' readme "$report"

# Wrong words.
expect_usage 0 'a command is missing'
expect_usage 0 "'RUN' is no command of this version" RUN first.elf first.sched 1
for word in gen mon audit ASM run.; do
    expect_usage 0 "'$word' is no command of this version" "$word" first.elf
done
expect_usage 0 "'help' is no command of this version" help
expect_usage 0 "'' is no command of this version" ''
expect_usage 0 "'--help' takes no further word" --help --version
expect_usage 1 'the image, the schedule and N are missing' run
expect_usage 2 'the schedule and N are missing' run first.elf
expect_usage 3 'N is missing' run first.elf first.sched
for word in x 0x10 1,000 1048577 100000000000000000000000 '' ' 1' 1.0; do
    expect_usage 3 "N is '$word', and must be 0 to 1048576 in decimal" run first.elf first.sched "$word"
done
expect_usage 3 "N is '01', and must be 0 to 1048576 in decimal, without a leading zero" run first.elf first.sched 01
expect_usage 3 "N is '-1', and must be 0 to 1048576 in decimal, without a sign" run first.elf first.sched -1
expect_usage 3 "N is '+1', and must be 0 to 1048576 in decimal, without a sign" run first.elf first.sched +1
expect_usage 4 "unexpected '2'" run first.elf first.sched 1 2
expect_usage 1 'the source is missing' asm
expect_usage 1 'the image is missing' dis
expect_usage 2 "unexpected 'b'" asm a b
expect_usage 2 "unexpected '--trace'" dis first.elf --trace
expect_usage 2 "unexpected '--guest'" asm a --guest b@0
expect 2 "fault usage 0$line" "$help" -h
expect 2 "fault usage 2$line" "$help" run --help
expect 2 "fault usage 2$line" "$help" run -h

# A word that is not UTF-8 text, and an earlier wrong word.
expect_usage 0 'word 0 is not UTF-8 text' $'\xff'
expect_usage 1 'word 1 is not UTF-8 text' run $'\xff' first.sched 3
expect_usage 3 'word 3 is not UTF-8 text' run first.elf first.sched $'3\xc0'
expect_usage 4 'word 4 is not UTF-8 text' run first.elf first.sched 3 $'\xff'
expect_usage 3 "N is 'x', and must be 0 to 1048576 in decimal" run first.elf first.sched x $'\xff'
expect_usage 0 "'gen' is no command of this version" gen $'\xff'
expect_usage 1 'word 1 is not UTF-8 text' asm $'\xff'
expect_usage 2 'word 2 is not UTF-8 text' dis first.elf $'\xff'
expect_usage 5 'word 5 is not UTF-8 text' run first.elf first.sched 3 --guest $'\xff'

# Files that cannot be read, with the reason of the system.
expect 3 "fault read 1$line" "radix: 'missing': no such file$line" run missing first.sched 3
expect 3 "fault read 2$line" "radix: 'missing': no such file$line" run first.elf missing 3
expect 3 "fault read 1$line" "radix: '': no such file$line" run '' first.sched 3
expect 3 "fault read 1$line" "radix: '.': is a directory$line" run . first.sched 3
expect 3 "fault read 1$line" "radix: 'first.elf/x': a part of its path is not a directory$line" run first.elf/x first.sched 3
long=$(printf 'n%.0s' {1..300})
expect 3 "fault read 1$line" "radix: '$long': the name is too long$line" run "$long" first.sched 3
ln -s loop loop
expect 3 "fault read 1$line" "radix: 'loop': too many symbolic links$line" run loop first.sched 3
# A file that may not be read: by a user who is not root, since root may read all.
: >closed
chmod 0 closed
if [ "$(id -u)" -ne 0 ]; then
    expect 3 "fault read 1$line" "radix: 'closed': permission denied$line" run closed first.sched 3
elif command -v setpriv >/dev/null; then
    chmod 755 .
    cp "$program" copied && chmod 755 copied
    setpriv --reuid=65534 --regid=65534 --clear-groups ./copied run closed first.sched 3 >out 2>err
    [ $? -eq 3 ] || fail 'exit status at a file that may not be read' 3 "other, $(cat -v err)"
    compare 'the line at a file that may not be read' out "fault read 1$line"
    compare 'what is said of a file that may not be read' err "radix: 'closed': permission denied$line"
    count=$((count + 1))
fi

# Names with control bytes, line ends, quotes and letters beyond ASCII.
expect 3 "fault read 1$line" "radix: 'a\\u{1b}[31m\\nfault image Form': no such file$line" \
    run $'a\e[31m\nfault image Form' first.sched 3
expect 3 "fault read 1$line" "radix: 'it\\'s\\t\\\\': no such file$line" run $'it\'s\t\\' first.sched 3
expect 3 "fault read 1$line" "radix: 'größe': no such file$line" run 'größe' first.sched 3
expect_usage 0 "'\\u{7}\\r' is no command of this version" $'\a\r'
cp first.elf $'odd \e\nname'
expect 0 "$report" '' run $'odd \e\nname' first.sched 3

# Files that are read and are no image or no schedule.
see='(docs/FORMATS.md, "The image")'
not_schedule='not a schedule that this version reads, from byte 0 on (docs/FORMATS.md, "The schedule")'
: >empty
head -c 131 first.elf >short
{ cat first.elf; printf 'x'; } >longer
# A file that is no image: the name of the fault, what is said of it, the file.
expect_image() {
    expect 5 "fault image $1$line" "radix: '$3': $2 $see$line" run "$3" first.sched 3
}
expect_image Short 'shorter than the header of an ELF file' empty
expect_image Short 'shorter than the header of an ELF file' first.sched
expect_image 'Segment 0' 'header 0 has more bytes in the file than in memory, or leaves the file or the address space' short
expect 0 "$report" '' run longer first.sched 3
printf 'threads 1\r\n0\r\nrepeat\r\n' >crlf
printf 'threads 1\n0\nrepeat' >cut
printf 'threads 2\n0\nrepeat\n' >two
for name in empty crlf cut two first.elf; do
    expect 6 "fault schedule 0$line" "radix: '$name': $not_schedule$line" run first.elf "$name" 3
done
truncate -s 67108864 zeros
expect_image Magic 'not an ELF file' zeros
truncate -s 67108865 zeros
expect 4 "fault long 1$line" "radix: 'zeros': longer than 64 MiB$line" run zeros first.sched 3
rm zeros
expect 4 "fault long 2$line" "radix: '/dev/zero': longer than 64 MiB$line" run first.elf /dev/zero 3

# Images that differ from the first one in one number: a name for the file, the place of a byte, its new value.
change_byte() {
    cp first.elf "$1"
    printf "\\x$3" | dd of="$1" bs=1 seek="$2" conv=notrunc status=none
}
change_byte more_memory.elf 104 10
expect 0 "$report" '' run more_memory.elf first.sched 3
change_byte odd_entry.elf 24 02
expect 0 "${report/r12 0000000000010000/r12 0000000000010002}" '' run odd_entry.elf first.sched 3
change_byte not_written.elf 68 05
expect 0 "$report" '' run not_written.elf first.sched 3
change_byte less_memory.elf 104 08
expect_image 'Segment 0' 'header 0 has more bytes in the file than in memory, or leaves the file or the address space' less_memory.elf
change_byte first_abi.elf 48 01
expect_image Abi 'not of the second version of the ABI' first_abi.elf
change_byte big_endian.elf 5 02
expect_image Order 'not a little-endian ELF file' big_endian.elf
"$top/tools/make_image.sh" 0xfffff8 0xfffff8 0x38600001 0x7C831A14 0x48000000 >beyond.elf
expect 10 "fault place 0000000000fffff8 0000000001000004 0000000000000000 0000000001000000$line" \
    "radix: 'beyond.elf': addresses fffff8 to 1000004 leave RAM, 0 to 1000000 $see$line" run beyond.elf first.sched 3
"$top/tools/make_image.sh" 0xfffff4 0xfffff4 0x38600001 0x7C831A14 0x48000000 >last.elf
last=${report/nia 0000000000010008/nia 0000000000fffffc}
expect 0 "${last/r12 0000000000010000/r12 0000000000fffff4}" '' run last.elf first.sched 3
head -c 120 first.elf >no_bytes.elf
printf '\x00' | dd of=no_bytes.elf bs=1 seek=96 conv=notrunc status=none
"$program" run no_bytes.elf first.sched 1 >out 2>err || fail 'a segment without bytes' 0 $?
[ "$(sed -n 6p out)" = 'nia 0000000000000e40 msr 9000000000001001' ] || fail 'a segment without bytes' 'nia e40' "$(sed -n 6p out)"
count=$((count + 1))

# An image and a schedule from pipes.
mkfifo pipe
cat first.elf >pipe &
expect 0 "$report" '' run pipe first.sched 3
wait
"$program" run /dev/stdin first.sched 3 <first.elf >out 2>err || fail 'an image from standard input' 0 $?
compare 'an image from standard input' out "$report"

# Stops. The first: the word c8000000 at 10008; then a fetch outside RAM.
"$top/tools/make_image.sh" 0x10000 0x10000 0x38600001 0x7C831A14 0xC8000000 >float.elf
"$program" run float.elf first.sched 9 >out 2>err
[ $? -eq 13 ] || fail 'exit status of a stop' 13 other
[ "$(sed -n 2p out)" = 'end stopped Unsupported 00000000c8000000' ] || fail 'the report of a stop' 'end stopped ..' "$(sed -n 2p out)"
compare 'what is said of a stop' err "radix: stopped in step 2, at address 10008, word c8000000: Unsupported, this machine has no such instruction (docs/MACHINE.md, \"Stops\")$line"
"$top/tools/make_image.sh" 0x1000000 0x10000 0x48000000 >outside.elf
"$program" run outside.elf first.sched 9 >out 2>err
[ $? -eq 13 ] || fail 'exit status of a stop' 13 other
compare 'what is said of a stop' err "radix: stopped in step 0, at address 1000000: NoStorage, there is no RAM at real address 1000000 (docs/MACHINE.md, \"Stops\")$line"
count=$((count + 3))

# The trace of a store across a page, and a console's line of all that a journal can hold.
"$top/tools/make_image.sh" 0x10000 0x10000 0x3860FFFF 0x3C800002 0xF864FFFC 0xE8A4FFFC >store.elf
"$program" run store.elf first.sched 4 --trace >out 2>err || fail 'a trace' 0 $?
tail -n 7 out >tail
compare 'the rows of a trace' tail "s 0 0 ran 0000000000010000 3860ffff R0000000000010000 - -
s 1 0 ran 0000000000010004 3c800002 R0000000000010004 - -
s 2 0 ran 0000000000010008 f864fffc R0000000000010008 R000000000001fffc R0000000000020000
s 3 0 ran 000000000001000c e8a4fffc R000000000001000c R000000000001fffc R0000000000020000
w 2 0 000000000001fffc 4 0000000000000000 00000000ffffffff
w 2 0 0000000000020000 4 0000000000000000 00000000ffffffff
.$line"
for words in '--trace --walks' '--walks --trace'; do
    "$program" run store.elf first.sched 4 $words >both 2>err || fail "a run with $words" 0 $?
    cmp -s both out || fail "a run without walks, with $words" "$(cat out)" "$(cat both)"
    count=$((count + 1))
done
expect_usage 5 "unexpected '--trace'" run store.elf first.sched 4 --trace --trace
expect_usage 3 "N is '--trace', and must be 0 to 1048576 in decimal, before all options" run store.elf first.sched --trace 4
expect_usage 5 "unexpected '--walks'" run store.elf first.sched 3 --walks --walks
expect_usage 3 "N is '--walks', and must be 0 to 1048576 in decimal, before all options" run store.elf first.sched --walks 3
expect_usage 2 "unexpected '--walks'" dis first.elf --walks
"$top/tools/make_image.sh" 0x10000 0x10000 0x3C801000 0x98640000 0x4BFFFFFC >full.elf
"$program" run full.elf first.sched 1048576 >out 2>err
[ $? -eq 14 ] || fail 'exit status of a full journal' 14 other
[ "$(sed -n 2,4p out | tr '\n' ' ')" = 'end full devices 262144 steps 524288 tb 0000000000080000 ' ] || fail 'a full journal' 'end full devices 262144' "$(sed -n 2,4p out)"
[ "$(wc -c <out)" -eq 1049818 ] || fail 'the length of a report' 1049818 "$(wc -c <out)"
{ printf 'console 0 262144 '; yes '\x00' | head -n 262144 | tr -d '\n'; echo; } >shown
sed -n 25p out | cmp -s - shown || fail "the console's line" 'console 0 262144, and 262144 times \x00' "$(sed -n 25p out | head -c 80) .."
compare 'what is said of a full journal' err "radix: no room in the journal after step 524287, at address 10004, word 98640000: its list of devices has 262144 rows (docs/MACHINE.md, \"Limits\")$line"
count=$((count + 2))

# Output that is not taken: a closed pipe, a full disk, no standard output, no standard error.
{ sleep 0.2; "$program" run first.elf first.sched 3 2>err; echo $? >status; } | true
[ "$(cat status)" -eq 0 ] || [ "$(cat status)" -eq 11 ] || fail 'exit status at a closed pipe' '0 or 11' "$(cat status)"
compare 'what is said at a closed pipe' err ''
"$program" run first.elf first.sched 3 >/dev/full 2>err
[ $? -eq 11 ] || fail 'exit status at a full disk' 11 other
compare 'what is said at a full disk' err "radix: the output could not be written$line"
"$program" run first.elf first.sched 3 2>err >&-
[ $? -eq 11 ] || fail 'exit status without standard output' 11 other
compare 'what is said without standard output' err "radix: the output could not be written$line"
"$program" --help >/dev/full 2>err
[ $? -eq 11 ] || fail 'exit status of --help at a full disk' 11 other
"$program" run $'\xff' >/dev/full 2>err
[ $? -eq 11 ] || fail 'exit status of wrong words at a full disk' 11 other
compare 'what is said at a full disk' err "radix: the output could not be written$line"
"$program" run missing first.sched 3 >out 2>&-
[ $? -eq 3 ] || fail 'exit status without standard error' 3 other
compare 'the line of a refusal without standard error' out "fault read 1$line"
count=$((count + 6))

# Little memory.
(ulimit -v 12000 && exec "$program" run first.elf first.sched 3 >out 2>err)
[ $? -eq 12 ] || fail 'exit status with little memory' 12 "other, $(cat -v err)"
compare 'the line with little memory' out "fault memory$line"
compare 'what is said with little memory' err "radix: out of memory$line"

# The trace of a store to the console after it was ejected.
"$top/tools/make_image.sh" 0x10000 0x10000 0x3C801000 0x60851000 0x38C00000 0xF8C50008 0x98C40000 >ejected.elf
"$program" run ejected.elf first.sched 9 --trace >out 2>err
[ $? -eq 13 ] || fail 'exit status of a stop at an ejected device' 13 other
head -n 4 out >head
compare 'the head of a run that stopped at an ejected device' head "radix 1
end stopped NoStorage 0000000010000000
steps 5
tb 0000000000000004$line"
tail -n 3 out >tail
compare 'the rows of a run that stopped at an ejected device' tail "s 4 0 stop 0000000000010010 98c40000 NoStorage 0000000010000000 R0000000000010010 R0000000010000000 -
d 3 1 00000008 8 store 0000000000000000 eject 0
.$line"
compare 'what is said of a stop at an ejected device' err "radix: stopped in step 4, at address 10010, word 98c40000: NoStorage, there is no RAM at real address 10000000 (docs/MACHINE.md, \"Stops\")$line"
count=$((count + 1))

# Two segments at one place, one that ends behind the last address, and a journal that has no room for one more step of a program
# that sets cache blocks to zero.
{ head -c 120 first.elf; tail -c +65 first.elf; } >twice.elf
printf '\x02' | dd of=twice.elf bs=1 seek=56 conv=notrunc status=none
expect_image 'Overlap 0 1' 'the segments of headers 0 and 1 have a common address' twice.elf
"$top/tools/make_image.sh" 0 0xfffffffffffffff8 0x38600001 0x48000000 >highest.elf
expect 10 "fault place fffffffffffffff8 ffffffffffffffff 0000000000000000 0000000001000000$line" \
    "radix: 'highest.elf': addresses fffffffffffffff8 to ffffffffffffffff leave RAM, 0 to 1000000 $see$line" run highest.elf first.sched 3
"$top/tools/make_image.sh" 0x10000 0x10000 0x3C800002 0x7C0027EC 0x4BFFFFFC >blocks.elf
"$program" run blocks.elf first.sched 1048576 >out 2>err
[ $? -eq 14 ] || fail 'exit status of a journal full of writes' 14 other
[ "$(sed -n 2,4p out | tr '\n' ' ')" = 'end full writes 2097152 steps 262144 tb 0000000000040000 ' ] || fail 'a journal full of writes' 'end full writes 2097152' "$(sed -n 2,4p out)"
compare 'what is said of a journal full of writes' err "radix: no room in the journal after step 262143, at address 10004, word 7c0027ec: its list of writes has 2097152 rows (docs/MACHINE.md, \"Limits\")$line"
count=$((count + 1))

# asm: an image, byte for byte; then each kind of fault in a source, with its line.
cp "$top/examples/asm/first.s" . || exit 1
"$program" asm first.s >out 2>err </dev/null || fail 'asm of the first source' 0 $?
cmp -s out first.elf || fail 'asm of the first source' 'the bytes of first.elf' "$(head -c 200 out | cat -v)"
compare 'what is said of the first source' err ''
"$program" asm /dev/stdin <first.s >out 2>err || fail 'asm of standard input' 0 $?
cmp -s out first.elf || fail 'asm of standard input' 'the bytes of first.elf' "$(head -c 200 out | cat -v)"
printf '.seg 0\na: b a\n.entry a' >own
"$program" asm own >own.elf 2>err || fail 'asm of a source whose last newline is missing' 0 $?
expect 0 "0000000000000000 48000000 b .+0$line" '' dis own.elf
count=$((count + 3))

# A source that is wrong: the line, the kind, and the source as a format of printf.
expect_asm() {
    local number=$1 kind=$2 where="in line $1"
    [ "$number" -ne 0 ] || where='as a whole'
    printf "$3" >source
    "$program" asm source >out 2>err </dev/null
    [ $? -eq 7 ] || fail "exit status of asm of '$3'" 7 "other, $(cat -v err)"
    compare "the line of asm of '$3'" out "fault asm $number $kind$line"
    case $(cat err) in
        "radix: the source 'source' is wrong $where: "*" ($kind)") ;;
        *) fail "what is said of asm of '$3'" "radix: the source 'source' is wrong $where: .. ($kind)" "$(cat -v err)" ;;
    esac
    count=$((count + 1))
}
expect_asm 2 Lex '.seg 0\n.word 1;\n'
expect_asm 1 Lex '.seg 0\r\n.word 1\r\n'
expect_asm 2 Form '.seg 0\nnop\n'
expect_asm 3 Twice '.seg 0\ne: .word 1\n.equ e, 2\n'
expect_asm 1 NoSegment '.word 1\n.seg 0\n'
expect_asm 2 Unknown '.seg 0\n.space n\n.equ n, 4\n'
expect_asm 2 Range '.seg 0\naddi r3,0,65536\n'
expect_asm 3 Overlap '.seg 0x1000\n.word 1\n.seg 0x1002\n.word 2\n.entry a\n'
expect_asm 0 Entry '.seg 0\ne: .word 1\n'
expect_asm 0 Entry ''
expect_asm 0 Empty '.seg 0\ne: .entry e\n'
expect_asm 9 Form '.seg 0\naddi r3,0,65536\n\n\n\n\n\n\nnop\n'
printf -v many '.seg 0\n.word 1\n%.0s' {1..64}
expect_asm 3 Overlap "$many"
many=
for k in {0..64}; do
    many+=".seg $((16 * k))\n.word 1\n"
done
expect_asm 129 Segments "$many"
printf -v many '\n%.0s' {1..65536}
expect_asm 65537 Lines ".seg 0$many\n"
"$program" asm first.elf >out 2>err
[ $? -eq 7 ] || fail 'exit status of asm of an image' 7 "other, $(cat -v err)"
compare 'the line of asm of an image' out "fault asm 1 Lex$line"
count=$((count + 1))

# dis: a line for each whole word of the bytes of each segment, and the same image from its own texts.
listing="0000000000010000 38600001 addi r3,0,1
0000000000010004 7c831a14 add r4,r3,r3
0000000000010008 48000000 b .+0$line"
expect 0 "$listing" '' dis first.elf
expect 0 "$listing" '' dis more_memory.elf
expect 0 '' '' dis no_bytes.elf
expect 0 "0000000000fffff8 38600001 addi r3,0,1
0000000000fffffc 7c831a14 add r4,r3,r3
0000000001000000 48000000 b .+0$line" '' dis beyond.elf
expect 0 "fffffffffffffff8 38600001 addi r3,0,1
fffffffffffffffc 48000000 b .+0$line" '' dis highest.elf
expect 5 "fault image Overlap 0 1$line" "radix: 'twice.elf': the segments of headers 0 and 1 have a common address $see$line" dis twice.elf
expect 5 "fault image Short$line" "radix: 'empty': shorter than the header of an ELF file $see$line" dis empty
expect 5 "fault image Magic$line" "radix: 'first.s': not an ELF file $see$line" dis first.s
expect 5 "fault image Abi$line" "radix: 'first_abi.elf': not of the second version of the ABI $see$line" dis first_abi.elf
cp first.elf three_bytes.elf
printf '\x0b' | dd of=three_bytes.elf bs=1 seek=96 conv=notrunc status=none
expect 0 "${listing%0000000000010008*}" '' dis three_bytes.elf
{ printf '.seg 0x10000\n.equ e, 0x10000\n.entry e\n'; "$program" dis first.elf | cut -c27-; } >again.s
"$program" asm again.s >again.elf 2>err || fail 'asm of the texts of a listing' 0 $?
cmp -s again.elf first.elf || fail 'asm of the texts of a listing' 'the bytes of first.elf' "$(cat again.s)"
for command in 'asm first.s' 'dis first.elf'; do
    "$program" $command >/dev/full 2>err
    [ $? -eq 11 ] || fail "exit status of $command at a full disk" 11 other
    compare "what is said of $command at a full disk" err "radix: the output could not be written$line"
    count=$((count + 1))
done
count=$((count + 1))

# Guests: files that are loaded as they are.
printf '\x01\x02\x03\x04' >g
: >nothing
"$top/tools/make_image.sh" 0x10000 0x10000 0x3C800002 0x80A40000 0x48000000 >word.elf
loaded() {
    "$program" run word.elf first.sched 2 "$@" >out 2>err || fail "a run with $*" 0 "$?, $(cat -v err)"
    sed -n 10p out >tail
    compare "registers 4 to 7 of a run with $*" tail "r04 0000000000020000 00000000$value 0000000000000000 0000000000000000$line"
    count=$((count + 1))
}
value=00000000
loaded
loaded --guest g@1fffc
value=04030201
loaded --guest g@20000
loaded --guest g@0000000000020000
loaded --guest nothing@20000 --guest g@20000
loaded --guest nothing@FFFFFFFFFFFFFFFF --guest nothing@10008 --guest g@20000 --guest g@fffffc
cp g a@b
loaded --guest a@b@20000
loaded --guest ./a@b@20000
value=00000403
loaded --guest g@1fffe
expect 0 "$report" '' run first.elf first.sched 3 --guest g@20000
"$program" run word.elf first.sched 2 --trace >traced 2>err || fail 'a trace' 0 $?
for words in '--trace --guest nothing@0' '--guest nothing@0 --trace'; do
    "$program" run word.elf first.sched 2 $words >out 2>err || fail "a run with $words" 0 $?
    cmp -s out traced || fail "a run with $words" "$(cat traced)" "$(cat out)"
    count=$((count + 1))
done

# Guests that have no place: the ranges that are told, what is said of them, then the words of the guests.
expect_place() {
    local told=$1 said=$2
    shift 2
    expect 10 "fault place $told$line" "radix: the guest $said (docs/FORMATS.md, \"Guests\")$line" run first.elf first.sched 3 "$@"
}
expect_place '0000000000010008 000000000001000c 0000000000010000 000000000001000c' \
    "'g' at 10008: addresses 10008 to 1000c meet 10000 to 1000c" --guest g@10008
expect_place 'ffffffffffffffff ffffffffffffffff 0000000000000000 0000000001000000' \
    "'g' at ffffffffffffffff: addresses ffffffffffffffff to ffffffffffffffff leave RAM, 0 to 1000000" --guest g@FFFFFFFFFFFFFFFF
expect_place '0000000000fffffd 0000000001000001 0000000000000000 0000000001000000' \
    "'g' at fffffd: addresses fffffd to 1000001 leave RAM, 0 to 1000000" --guest g@fffffd
expect_place '0000000000020003 0000000000020007 0000000000020000 0000000000020004' \
    "'g' at 20003: addresses 20003 to 20007 meet 20000 to 20004" --guest g@30000 --guest g@20000 --guest g@20003 --guest g@30000

# Words that announce no guest, a fifth guest, and guests that are not read.
expect_usage 5 'FILE@HEX is missing behind --guest' run first.elf first.sched 3 --guest
expect_usage 6 'FILE@HEX is missing behind --guest' run first.elf first.sched 3 --trace --guest
for word in g @0 g@ @ '' g@0x10 g@-1 'g@ 1' g@12345678901234567 g@1g g@20000@ --trace; do
    expect_usage 5 "the guest is '$word', and must be FILE@HEX: a name, '@', and an address of 1 to 16 hexadecimal digits" \
        run first.elf first.sched 3 --guest "$word"
done
expect_usage 12 "unexpected '--guest'" run first.elf first.sched 3 --guest g@0 --guest g@10 --guest g@20 --guest g@30 --guest g@40
expect_usage 6 "unexpected 'g@0'" run first.elf first.sched 3 --guest g@0 g@0
expect_usage 7 "unexpected '--trace'" run first.elf first.sched 3 --trace --guest g@0 --trace
expect_usage 3 "N is '--guest', and must be 0 to 1048576 in decimal, before all options" run first.elf first.sched --guest g@0 3
expect 3 "fault read 5$line" "radix: 'missing': no such file$line" run first.elf first.sched 3 --guest missing@0
expect 3 "fault read 8$line" "radix: '.': is a directory$line" run first.elf first.sched 3 --guest g@0 --trace --guest .@10008
truncate -s 67108865 zeros
expect 4 "fault long 5$line" "radix: 'zeros': longer than 64 MiB$line" run first.elf first.sched 3 --guest zeros@0
expect 4 "fault long 1$line" "radix: 'zeros': longer than 64 MiB$line" asm zeros
expect 4 "fault long 1$line" "radix: 'zeros': longer than 64 MiB$line" dis zeros
rm zeros
expect 6 "fault schedule 0$line" "radix: 'two': $not_schedule$line" run first.elf two 3 --guest missing@0
expect 3 "fault read 1$line" "radix: 'missing': no such file$line" asm missing
expect 3 "fault read 1$line" "radix: '.': is a directory$line" dis .

# The most steps, and none.
"$program" run first.elf first.sched 1048576 >out 2>err || fail 'a run of 1,048,576 steps' 0 $?
[ "$(sed -n 2,3p out | tr '\n' ' ')" = 'end all steps 1048576 ' ] || fail 'a run of 1,048,576 steps' 'all steps' "$(sed -n 2,3p out)"
"$program" run first.elf first.sched 0 >out 2>err || fail 'a run of no steps' 0 $?
[ "$(sed -n 2,3p out | tr '\n' ' ')" = 'end all steps 0 ' ] || fail 'a run of no steps' 'no steps' "$(sed -n 2,3p out)"
count=$((count + 3))

# The launcher, where nothing is built and the kit is not there.
mkdir -p copy/tests copy/tools copy/crates && cp "$top/radix" "$top/crates.txt" copy/
cp -r "$texts" copy/tests/ && cp "$top/tools/build.sh" copy/tools/
bare=/usr/bin:/bin
if [ ! -e /usr/bin/rt ] && [ ! -e /bin/rt ]; then
    PATH=$bare copy/radix --help >out 2>err || fail 'the launcher with --help' 0 $?
    compare 'the help of the launcher' out "$help"
    PATH=$bare copy/radix run first.elf first.sched 3 >out 2>err
    [ $? -eq 17 ] || fail 'the launcher without the kit' 17 other
    compare 'the output of the launcher without the kit' out ''
    compare 'what the launcher says without the kit' err "radix: the program is not built for these sources; that takes the Rattle kit, whose command rt is not on the path$line"
    count=$((count + 2))
fi

echo "cli: $count runs of the program from outside are as they should be"
