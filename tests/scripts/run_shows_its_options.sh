# Each option of docs/formats.md stands in the usage with the numbers that it takes.
sed -n '/^## Words$/,/^A number is/s/^| `\(--[a-z]*\)` | \([^:]*\):.* | \(.*\) |$/\1 \2 \3/p' docs/formats.md | tr -d '`' > options
cat options
while read -r option values; do
    default=${values##* }
    values=${values% *}
    ./run --help | grep -F -e "  $option " | grep -F -e "$values" | grep -c -F -e "($default)"
done < options
