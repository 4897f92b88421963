#!/bin/sh
# Shows a table that lives over three months. In November somebody moves and somebody comes; in December somebody leaves and somebody gets
# a raise. Each month's table is written from an export by prepare.py renew, one journal goes on over all of them, and the replies are
# compared with those due, worked out by hand from demo/months. It needs front/ and a python3 of 3.10 or later. Works in a folder of its own.
#
#   demo/months.sh PROGRAM
set -u
demo=$(cd "$(dirname "$0")" && pwd)
prepare=$(dirname "$demo")/front/prepare.py
AUDITOR=$(cd "$(dirname "$1")" && pwd)/$(basename "$1")
export AUDITOR
folder=$(mktemp -d) || exit 1
trap 'rm -rf "$folder"' EXIT
cp "$demo"/months/*.csv "$folder" && chmod 600 "$folder"/*.csv && cd "$folder" || exit 1

fail() {
    echo "demo: $*" >&2
    exit 1
}

# The replies to questions, each a line of a kind and a condition, have to be those that follow, all in one argument.
asks() {
    month=$1 due=$2
    sed -e 's/^count \(.*\)/{"ask":"count","where":"\1"}/' -e 's/^sum \(.*\)/{"ask":"sum","column":"salary","where":"\1"}/' |
        (cd office && "$AUDITOR" serve) >replies.jsonl || fail "auditor serve ended with status $? in $month"
    [ "$(cat replies.jsonl)" = "$due" ] || fail "in $month the replies were $(cat replies.jsonl)"
}

# The next month's table in the place of this one's, and the journal over its rows.
renew() {
    "$prepare" renew "$1.csv" october.choices.json office next key=staff_no >said || fail "the table wasn't renewed in $1: $(cat said)"
    grep -Fqx "$2" said || fail "in $1 renew said: $(cat said)"
    cp next/schema.json next/table.csv next/keys.csv office/ && cp next/public/* office/public/ && rm -r next || exit 1
    (cd office && "$AUDITOR" grow) || fail "auditor grow ended with status $? in $1"
}

{
    "$prepare" look october.csv &&
    "$prepare" choose october.choices.json "staff_no=leave out" team=text age=number salary=sum range="0 to none" protect=none askers=outside &&
    "$prepare" make october.csv october.choices.json office key=staff_no
} >said || fail "the table wasn't made: $(cat said)"
(cd office && "$AUDITOR" init) || fail "auditor init ended with status $?"

# Rows 0 and 1 are Ann's, 2 is Design, 3 and 4 are Support, 5 is Tea: in the order of their public cells.
asks October '{"sum":320500}
{"sum":99500}
{"sum":121000}' <<'QUESTIONS'
sum all
sum team = 'Support'
sum team = 'Ann''s'
QUESTIONS

# 0103 moves from Tea to Design, and 0107 comes to Support, in row 6. The total of everybody is row 6 more than October's, and so is Support's:
# both are denied. Design and who came to it, rows 2 and 5, are what October's answers leave: 61,000 and 39,000.
renew november "people: 7 now; 1 came, 0 left, 0 came back, 0 with another number"
asks November '{"count":7}
{"denied":"unsafe"}
{"sum":100000}
{"denied":"unsafe"}
{"sum":189000}' <<'QUESTIONS'
count all
sum all
sum team = 'Design'
sum team = 'Support'
sum age < 40
QUESTIONS

# 0104 leaves, and 0102 has 54,000, in row 7. Nobody who isn't there is in any sum. The total of everybody is answered: rows 0, 2, 3, 5, 6, 7.
# Support's, rows 3, 6 and 7, is denied: everybody less Support and Design is 0105, and October's total of Ann's less her is 0104, who left.
renew december "people: 6 now; 0 came, 1 left, 0 came back, 1 with another number"
grep -q "one person's number changed, and two rows of one person tell of each other" said || fail "renew didn't say what a raise tells"
asks December '{"count":6}
{"sum":304000}
{"sum":100000}
{"denied":"unsafe"}
{"denied":"unsafe"}
{"refused":"empty"}' <<'QUESTIONS'
count all
sum all
sum team = 'Design'
sum team = 'Support'
sum team = 'Ann''s'
sum current = 0
QUESTIONS

# 0102 stands in rows 4 and 7; each of the eight numbers is open.
printf 'row,key\n0,0105\n1,0104\n2,0106\n3,0101\n4,0102\n5,0103\n6,0107\n7,0102\n' >keys.csv
tr -d '\r' <office/keys.csv | cmp - keys.csv || fail "the keys are $(cat office/keys.csv)"
cd office || exit 1
"$AUDITOR" audit >report.jsonl || fail "auditor audit ended with status $?"
python3 "$demo/check_report.py" <report.jsonl >&2 || exit 1
[ "$(tail -n 1 report.jsonl)" = '{"audited":7,"columns":1,"rows":8}' ] || fail "the report ends with $(tail -n 1 report.jsonl)"
echo "over three months somebody moved, somebody came, somebody left and somebody got a raise, and each number is open" >&2
