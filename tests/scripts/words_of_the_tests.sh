tests/run --proved 2> said
status=$?
head -n 2 said
exit "$status"
