usage='usage: v_run [--mode run|journal|gen|check|page] [--cpus N] [--steps N] [--seed N] [--frames N]'
proved v_run 7 "$usage"
touch 'my scenario'
./run 'my scenario'
./run --mode journal 'my scenario' --steps=5
