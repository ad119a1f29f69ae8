# The word is told before rt is started.
unproved 7 'usage'
touch scenario
./run scenario < /dev/null
