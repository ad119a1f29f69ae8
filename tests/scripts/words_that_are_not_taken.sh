proved v_run 7 'usage'
./run --speed 5
./run --cpus 9
./run --cpus=
./run --steps 1000001
./run --steps 0
./run --steps
./run --seed 4294967296
./run --seed 99999999999999999999
./run --mode pages
./run --mode run --mode=gen
./run -- --cpus 2
./run ''
proved v_drive 7 'usage'
./drive --steps -1
./drive --cpus 2
