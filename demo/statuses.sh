#!/bin/sh
# Brings the program to each of its exit codes, and compares the code, the text on standard error and what was sent to standard output
# with those that STATUSES.md names. Prints a line for each, and ends with 0 if all are as it says.
#
#   demo/statuses.sh [PROGRAM]
set -u
. "$(dirname "$0")/ends.sh"

# Compares the end of a run with what is due: `due CODE TEXT COMMAND..`. Its input is `asked`, and `replies` has what is to be sent.
# If `limit` is set, the run has so many KiB of memory.
due() {
    code=$1
    text=$2
    shift 2
    (
        [ -z "$limit" ] || ulimit -v "$limit"
        exec "$program" "$@"
    ) <asked >sent 2>said
    tell "$*" "$code" $?
    printf '%s' "${text:+$text
}" | cmp -s - said || complain "the text of $code is not '$text'"
    cmp -s replies sent || complain "what was sent at $code is not what was due"
    case $* in
    compact* | restore* | *--twin*) ;;
    *) [ ! -e answers.spare ] || complain "there is a spare after $*" ;;
    esac
}

# A fresh folder, with nothing to ask and nothing to reply.
begin() {
    fresh
    limit=
    : >asked
    : >replies
}

echo "  command                                                      status  text"

begin
cp questions.jsonl asked
cp "$demo/replies.jsonl" replies
due 0 '' serve
cp "$demo/explained.jsonl" replies
cp answers.journal served.journal
due 0 '' explain
cmp -s answers.journal served.journal || complain 'the journal was written by explain'

usage='usage: auditor init, serve [--batch N] [--twin], audit, simulate, drill N, grow, explain, compact, restore'
begin
for words in 'help nothing' 'help serve 3' 'help --help' 'serve --help' '--version serve' -v 'serve 3' '--batch 65 serve' 'audit --batch 2' 'grow 7' 'compact 3' 'explain 3' 'explain --batch 2' drill 'drill x' 'drill 4294967296' 'audit --twin' 'restore --twin' 'restore 3'; do
    due 2 "$usage" $words
done


# What the program says of itself needs no file: on standard output if it is asked, and as what is wrong if there are no arguments.
fresh
rm schema.json table.csv answers.journal
limit=
: >asked
cat >replies <<'END'
usage: auditor COMMAND

  init                         make the journal of a table, once
  serve [--batch N] [--twin]   answer or deny the questions of standard input
  audit                        show each secret number to be open
  explain                      tell why questions are denied
  simulate                     compute the verdicts on a transcript again
  grow                         take over rows that came at the table's end
  compact                      write a shorter journal to answers.spare
  restore                      write the lost one of two journals anew
  drill N                      take a drawn table and 600 questions through the program

It works in the folder that it is started in, on schema.json, table.csv and answers.journal.
`auditor help COMMAND` says more of a command. To ask in words, use front/ask.py.
END
for words in --help -h help; do
    due 0 '' $words
done
commands=$(cat replies)
: >replies
due 2 "$commands"
"$program" --version >sent 2>said
tell --version 0 $?
grep -Eqx 'auditor [0-9]+\.[0-9]+\.[0-9]+' sent || complain '--version is no name and version'
cat >replies <<'END'
usage: auditor drill N
Draws a table and 600 questions from the number N, 0 to 4294967295, and sends one line that counts the answers and the denials.
No file is read or written. The line is the same on every machine.
END
due 0 '' help drill
"$program" --help >/dev/full 2>said
tell '--help on a full disk' 6 $?
echo 'journal or output failed' | cmp -s - said || complain 'a text that could not be printed is not told'

begin
echo '{"columns":[{"name":"age","is":"secret"}]}' >schema.json
due 3 'schema: fault 3' serve

begin
sed -i 's/35,39000/35,3900O/' table.csv
due 4 'table: fault 5 at line 4 column 2' serve

for file in schema table; do
    begin
    rm "$file".*
    due 5 "cannot read $file" serve
done
begin
rm asked && mkdir asked
due 5 'cannot read input' serve
due 5 'cannot read input' explain

begin
rm answers.journal && mkdir answers.journal
due 6 'journal or output failed' serve

begin
rm answers.journal
due 7 'no journal' serve
due 7 'no journal' explain
[ ! -e answers.journal ] || complain 'a run that makes no journal made a file'

begin
due 8 'journal is already there' init

begin
printf X | dd of=answers.journal bs=1 seek=3 conv=notrunc 2>/dev/null
due 9 'journal damaged at byte 3' audit

begin
sed -i '$d' table.csv
due 10 'journal is of another table: rows 6, now 5' serve

begin
echo '{"ask":"sum","column":"salary","where":"all"}' | "$program" serve >/dev/null
sed -i 's/,48000,/,48001,/' table.csv
due 11 'record 0 holds 320500, table gives 320501' serve

# The second record, over three rows, is made one over the first row alone, which is 48000.
begin
{
    echo '{"ask":"sum","column":"salary","where":"all"}'
    echo '{"ask":"sum","column":"salary","where":"age > 40"}'
} | "$program" serve >/dev/null
printf '\0\0\0\0\0\0\273\200\001' | dd of=answers.journal bs=1 seek=35 conv=notrunc 2>/dev/null
due 12 'record 1 should not have been released' serve

begin
rm asked && mkfifo asked
for command in serve explain; do
    head -c 1073741825 /dev/zero >asked &
    due 13 'input is too long' "$command"
done

begin
cp "$demo/public.csv" table.csv
printf '%s\n' '{"ask":"sum","column":"salary","where":"age = 30"}' '{"sum":48000}' >asked
echo '{"verdict":"unsafe"}' >replies
due 14 'line 2 disagrees, due unsafe' simulate

begin
yes 'a,1,1,1' | head -c 16000000 >>table.csv
limit=12000
due 15 'out of memory' serve

begin
sed -i '$s/.*/],"protect":[{"column":"salary","where":"team = 1"}]}/' schema.json
due 16 'schema: group 0 is bad' serve
due 16 'schema: group 0 is bad' explain

begin
due 17 'nothing to grow: rows 6' grow

begin
"$program" compact >/dev/null || complain 'compact over no spare failed'
due 18 'spare is already there' compact

begin
mkdir answers.spare
due 19 'spare failed' compact
due 19 'spare failed' serve --twin
due 19 'spare failed' restore

# Both journals of twins.
begin_twins() {
    begin
    "$program" restore || complain 'restore over no spare failed'
}

begin_twins
cp questions.jsonl asked
cp "$demo/replies.jsonl" replies
due 0 '' serve --twin
: >asked
: >replies
due 0 '' serve --twin --batch 64
cmp -s answers.journal answers.spare || complain 'the spare is another file than the journal'

begin
due 20 'spare: no journal' serve --twin
[ ! -e answers.spare ] || complain 'a spare was made'

begin_twins
printf X | dd of=answers.spare bs=1 seek=3 conv=notrunc 2>/dev/null
due 20 'spare: journal damaged at byte 3' serve --twin
rm answers.journal
due 20 'spare: journal damaged at byte 3' restore

# The rows are in bytes 9 and 10.
begin_twins
printf '\005' | dd of=answers.spare bs=1 seek=10 conv=notrunc 2>/dev/null
due 20 'spare: journal is of another table: rows 5, now 6' serve --twin

begin_twins
cp answers.spare other.journal
echo '{"ask":"sum","column":"salary","where":"all"}' | "$program" serve >/dev/null
mv answers.journal first.journal
mv other.journal answers.journal
echo '{"ask":"sum","column":"salary","where":"age > 40"}' | "$program" serve >/dev/null
mv answers.journal answers.spare
mv first.journal answers.journal
due 21 'journals differ at record 0' serve --twin

begin_twins
due 22 'no journal is lost' restore
rm answers.journal answers.spare
due 7 'no journal' restore

conclude
