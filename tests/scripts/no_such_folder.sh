mkdir -p tests/words
tests/run words/ nowhere
