# Read by the scripts beside it: makes a program over crates of this repository in a temporary folder, and lets rt
# prove and build it there.

top="$(cd "$(dirname "${BASH_SOURCE[0]}")/.." && pwd)"
source "$top/scripts/usage.sh"
take_help "$@"
place="$(mktemp -d)"
trap 'rm -rf "$place"' EXIT

# begin_program NAME 'CRATE..' ['KIT CRATE..']: lays out the program with copies of the crates that it stands on, and
# sets program to its folder.
begin_program() {
    local crate part
    cp "$top/HANDLES" "$place/"
    for crate in $2; do
        grep "^$crate[ :]" "$top/crates.txt" >> "$place/crates.txt"
        mkdir -p "$place/crates/$crate"
        for part in src specs proofs; do
            if [ -d "$top/crates/$crate/$part" ]; then
                cp -r "$top/crates/$crate/$part" "$place/crates/$crate/"
            fi
        done
    done
    echo "$1: $2 ${3:-}" >> "$place/crates.txt"
    program="$place/crates/$1"
    mkdir -p "$program/src"
}

# crates_below NAME..: the crates of this repository that these stand on, and themselves.
crates_below() {
    awk -v names="$*" '
        /^[a-z]/ { crate = $1; sub(/:$/, "", crate); order[++count] = crate; deps[crate] = $0 }
        function take(crate,    parts, n, i) {
            if (!(crate in deps) || crate in taken) return
            taken[crate]
            n = split(deps[crate], parts, " ")
            for (i = 2; i <= n; i++) take(parts[i])
        }
        END {
            wanted = split(names, name, " ")
            for (i = 1; i <= wanted; i++) take(name[i])
            for (i = 1; i <= count; i++) if (order[i] in taken) printf "%s ", order[i]
        }
    ' "$top/crates.txt"
}

# run_program PATTERN: proves, builds and runs the program, and prints the lines of its output with the pattern; where
# that fails, all that rt said.
run_program() {
    cd "$program"
    rt fmt > /dev/null
    if ! rt run > "$place/log" 2>&1; then
        cat "$place/log"
        exit 1
    fi
    grep "$1" "$place/log"
}

# answer_depend NAME: writes what proves the function depend of that program, which makes a child of a parent in a
# Depends with room for 69,000 pairs.
answer_depend() {
    mkdir -p "$program/proofs/depend"
    cat > "$program/proofs/depend/Answers.antt" <<PROOF
use Rattle.std.proofs.Common.{◌≡◌, ◌∙◌, ap, arith}
use Rattle.depend_lists.specs.Pairs.{Dependence}
use Rattle.depend_lists.proofs.RoomyLemmas.{absent_without, parents_none, within_more}
use Rattle.$1.specs.declared.TheConstants.{CAPS}
use Rattle.$1.proofs.depend.Goals as goal

pub add-requires-clause-absent : goal.add-requires-clause-absent
add-requires-clause-absent c = rw c.remove.ensures (absent_without c.args.depends.now.pairs _ c.args.child)

pub add-requires-clause-class : goal.add-requires-clause-class
add-requires-clause-class c = rw c.remove.ensures (parents_none c.args.depends.now.pairs c.args.child).one_class

pub add-requires-clause-parents : goal.add-requires-clause-parents
add-requires-clause-parents c = rw c.remove.ensures (omega (arith, (parents_none c.args.depends.now.pairs c.args.child).count))

pub add-requires-clause-within : goal.add-requires-clause-within
add-requires-clause-within c =
    let caps : c.remove.new.self.caps ≡ CAPS = ap (λ (d : Dependence). d.caps) c.remove.ensures ∙ c.requires in
    rw caps (within_more CAPS 69000 _ c.remove.new.self.pairs (omega (arith, c.len.ensures.len, c.if-len-lt69000.true)) (omega arith, omega arith, omega arith, omega arith))
PROOF
}
