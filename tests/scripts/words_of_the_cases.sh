# What the scripts say of words agrees with what the program takes, on all cases of tests/words.
top=$PWD script=run
source scripts/program.sh
source scripts/words.sh
for case in "$repository"/tests/words/*.args; do
    mapfile -t given < "$case"
    status=0
    [ ! -f "${case%.args}.status" ] || read -r status < "${case%.args}.status"
    find_wrong_word v_run "${given[@]}"
    refused=
    [ "$status" != 7 ] || refused=1
    [ "${wrong:+1}" = "$refused" ] || echo "${case##*/}: the status is $status, and the words say '$wrong'"
    wrong=
done
