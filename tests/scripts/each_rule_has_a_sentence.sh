# Each rule of scenarios and each point of journals has exactly one row in the tables of docs/formats.md, and it is the one found.
top=$PWD script=run
source scripts/program.sh
source scripts/words.sh
check() {
    local rows
    rows=$(awk -v head="| $1 |" -v begin="| $2 | " \
        '/^[^|]/ || /^$/ { within = 0 } index($0, head) == 1 { within = 1 } within && index($0, begin) == 1' docs/formats.md)
    [[ $rows == "| $2 | "* ]] && find_row "$1" "$2" && [[ $rows == "| $2 | $row |"* ]] || echo "$1 $2: $rows"
}
for rule in {1..30}; do
    check Rule "$rule"
done
for point in {0..8}; do
    check Point "$point"
done
find_row Rule 31 || echo 'no rule 31'
find_row Point 9 || echo 'no point 9'
find_row Number 1 || echo 'no table of numbers'
