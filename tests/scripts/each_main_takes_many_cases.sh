# What becomes of the main of each program where one program takes cases of all, and what that program is.
mkdir -p crates
for name in v_drive v_run v_show; do
    mkdir -p "crates/$name" && cp -R "$repository/crates/$name/src" "crates/$name/"
done
source scripts/many_cases.sh
make_program_of_many . many v_drive v_run v_show
tail -n 1 crates.txt
for name in v_drive v_run v_show; do
    ls "crates/$name/src"
    sed -n '/^mod /p; /^use /p; /fn answer/,/^}/p' "crates/$name/src/lib.rt"
done
sed -n '/^use /p; /^fn answer</,/^}/p' crates/many/src/main.rt
