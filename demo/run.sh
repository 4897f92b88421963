#!/bin/sh
# Makes a journal beside copies of the demo's files in a fresh folder, asks the demo's questions, compares the replies with
# those due, has the report checked, and shows for each number another table that sends the same bytes, if there is a python3. The
# questions are explained after their answers: each denial has a certificate, which a script checks. Then a table gets a row at its end.
# The questions are asked twice, and the journal compacted, so that each answer stands in it once; the replies stay. The journal gets a
# twin, is lost, and is written anew from it. In a folder with the public columns alone the decisions of the transcript are computed
# again: it agrees, and with one reply changed it doesn't. Then a schema protects a team's total, and that total is denied. The table is
# prepared anew from its CSV, as with a table of your own, and asked about in plain words. At last one is renewed over three months, in
# which somebody moves, comes, leaves and gets a raise. The exit status is 0 if all is as it should be. If no program is given it is built
# first, which takes the source and the kit; in a package it is the package's own.
#
#   demo/run.sh [PROGRAM]
set -u
usage() {
    cat <<'WORDS'
usage: demo/run.sh             proves the program and builds it, half an hour or more the first time, and shows the demo with it
       demo/run.sh PROGRAM     shows the demo with a built program, in some ten seconds
It works in a folder that it removes, and says how long is left. Ctrl-C is safe: the next run goes on with the crate that it was at.
WORDS
}
case ${1-} in
-h | --help) usage; exit 0 ;;
-*) usage >&2; exit 2 ;;
esac
demo=$(cd "$(dirname "$0")" && pwd)
if [ $# -gt 0 ]; then
    if [ ! -f "$1" ] || [ ! -x "$1" ]; then
        echo "demo: there is no program $1" >&2
        exit 1
    fi
    program=$(cd "$(dirname "$1")" && pwd)/$(basename "$1")
elif [ -f "$demo/build.sh" ]; then
    top=$(dirname "$demo")
    . "$demo/build.sh"
    build || exit 1
elif [ -x "$demo/../../../bin/auditor" ]; then
    program=$(cd "$demo/../../../bin" && pwd)/auditor
else
    echo "demo: give the program: run.sh PROGRAM" >&2
    exit 1
fi

folder=$(mktemp -d) || exit 1
trap 'rm -rf "$folder"' EXIT
cp "$demo/schema.json" "$demo/table.csv" "$demo/questions.jsonl" "$folder" || exit 1
cd "$folder" || exit 1
"$program" init || { echo "demo: auditor init ended with status $?" >&2; exit 1; }
# try.sh begins with this journal.
made=$(dirname "$demo")/crates/auditor/data/answers.journal
[ ! -f "$made" ] || cmp answers.journal "$made" || exit 1
"$program" serve <questions.jsonl >replies.jsonl || { echo "demo: auditor serve ended with status $?" >&2; exit 1; }
cat replies.jsonl
cmp replies.jsonl "$demo/replies.jsonl" || exit 1
"$program" audit >report.jsonl || { echo "demo: auditor audit ended with status $?" >&2; exit 1; }
if command -v python3 >/dev/null; then
    python3 "$demo/check_report.py" <report.jsonl >&2 || exit 1
    python3 "$demo/twin.py" "$program" >&2 || exit 1
fi

# Why the two denials are due: of these salaries the answers give the third person's, and a maximum of 5 would be one person's own.
"$program" explain <questions.jsonl >explained.jsonl || { echo "demo: auditor explain ended with status $?" >&2; exit 1; }
cmp explained.jsonl "$demo/explained.jsonl" || exit 1
grep unsafe explained.jsonl >&2
if command -v python3 >/dev/null; then
    python3 "$demo/check_certificate.py" questions.jsonl <explained.jsonl >&2 || exit 1
    # With one number changed the certificate comes to nothing.
    sed 's/"asked":1/"asked":2/' explained.jsonl | python3 "$demo/check_certificate.py" questions.jsonl >complaint
    [ $? = 1 ] && grep -q '^line 6: the sets come to ' complaint || { echo "demo: a changed certificate was taken" >&2; exit 1; }
fi

"$demo/grow.sh" "$program" || { echo "demo: the table didn't grow" >&2; exit 1; }

# Asked twice, each answer stands twice in the journal: of twelve records six say nothing new.
mkdir twice && cp schema.json table.csv questions.jsonl answers.journal twice && cd twice || exit 1
"$program" serve <questions.jsonl | cmp - "$demo/replies.jsonl" || exit 1
"$demo/replace.sh" . "$program" >counts 2>said || { cat said >&2; echo "demo: the journal wasn't replaced" >&2; exit 1; }
[ "$(cat counts)" = '{"records":12,"kept":6}' ] || { echo "demo: auditor compact sent $(cat counts)" >&2; exit 1; }
"$program" serve <questions.jsonl | cmp - "$demo/replies.jsonl" || exit 1
echo "the journal is compacted, and the replies stay: $(cat counts)" >&2
cd ..

# Each answer is in two journals before it leaves, so the one that is lost is written anew from the other.
mkdir pair && cp schema.json table.csv questions.jsonl answers.journal pair && cd pair || exit 1
"$program" restore || { echo "demo: auditor restore ended with status $?" >&2; exit 1; }
"$program" serve --twin <questions.jsonl | cmp - "$demo/replies.jsonl" || exit 1
cp answers.spare kept.spare && rm answers.journal || exit 1
"$program" restore || { echo "demo: a lost journal wasn't restored, status $?" >&2; exit 1; }
cmp answers.spare kept.spare || exit 1
"$program" serve --twin <questions.jsonl | cmp - "$demo/replies.jsonl" || exit 1
echo "the journal was lost and written anew from its twin, and the replies stay" >&2
cd ..

# Blank lines have no reply.
LC_ALL=C grep -av "^$(printf '\r')\{0,1\}$" questions.jsonl | paste -d '\n' - replies.jsonl >transcript.jsonl
mkdir outside && cp schema.json outside && cp "$demo/public.csv" outside/table.csv && cd outside || exit 1
"$program" simulate <../transcript.jsonl >verdicts.jsonl || { echo "demo: auditor simulate ended with status $?" >&2; exit 1; }
echo "the transcript agrees: $(wc -l <verdicts.jsonl) decisions" >&2

# Line 12 is the denial of the sum over two of three people, of whom the third is known then.
sed '12s/.*/{"sum":112500}/' ../transcript.jsonl >changed.jsonl
"$program" simulate <changed.jsonl 2>complaint >verdicts.jsonl
[ $? = 14 ] && [ "$(cat complaint)" = "line 12 disagrees, due unsafe" ] || { echo "demo: a changed reply wasn't told" >&2; exit 1; }
echo "with that denial made an answer: $(cat complaint)" >&2

# With the group in the schema the total that was answered above isn't any more, over a journal of its own.
mkdir ../protected && cd ../protected && cp "$demo/table.csv" . || exit 1
sed "\$s/.*/],\"width\":4,\"reach\":50,\"protect\":[{\"column\":\"salary\",\"where\":\"team = 'Support, Leeds'\"}]}/" "$demo/schema.json" >schema.json || exit 1
"$program" init || { echo "demo: auditor init ended with status $?, with a protected total" >&2; exit 1; }
grep -a "'Support, Leeds'" "$demo/questions.jsonl" | "$program" serve >denied.jsonl || { echo "demo: auditor serve ended with status $?, with a protected total" >&2; exit 1; }
[ "$(cat denied.jsonl)" = '{"denied":"unsafe"}' ] || { echo "demo: a protected total was answered: $(cat denied.jsonl)" >&2; exit 1; }
echo "with the total of that team protected: $(cat denied.jsonl)" >&2

# From a CSV file to the first answer without an editor: the scripts in front/ need a python3 of 3.10 or later.
front=$(dirname "$demo")/front
if [ ! -f "$front/prepare.py" ] || ! python3 -c 'import sys; sys.exit(sys.version_info < (3, 10))' 2>/dev/null; then
    echo "not shown: preparing a table, asking in words and renewing it, which take front/ and a python3 of 3.10 or later" >&2
    exit 0
fi
AUDITOR=$program
export AUDITOR
mkdir ../staff && cd ../staff && cp "$demo/table.csv" staff.csv || exit 1
{
    python3 "$front/prepare.py" look staff.csv &&
    python3 "$front/prepare.py" choose staff.choices.json team=text age=number salary=sum bonus=max \
        range="0 to none" protect=none askers=outside &&
    python3 "$front/prepare.py" make staff.csv staff.choices.json table
} >&2 || { echo "demo: the table wasn't prepared" >&2; exit 1; }
(cd table && "$program" init) || exit 1
python3 "$front/ask.py" table "count by team" "sum salary where age >= 41" "sum salary where age >= 41 and not team = 'Design'" \
    "avg salary" "max bonus" "count where age == 41" >said
[ $? = 1 ] || { echo "demo: ask.py ended with another status than 1, which a denial and a wrong condition give" >&2; exit 1; }
cat said >&2
# Why a question is denied is said in a sentence of front/words.json.
sed 's/^not answered: .*/not answered/' said | cmp - "$demo/said.txt" || exit 1

"$demo/months.sh" "$program" || { echo "demo: the table wasn't renewed" >&2; exit 1; }
