for script in ./run ./drive ./show ./build .ci/run tests/run scripts/elf_block; do
    "$script" --help | head -n 1
    "$script" --help | sed -n '$!d;s/.*/ends with a line/p'
done
./run --mode gen --help | head -n 1
./drive -h | head -n 1
tests/run faults --help | head -n 1
