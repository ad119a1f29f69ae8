stand_in bin/rt << 'END'
[ "$1" = version ] && echo 'a stand-in' && exit
echo '7 passed, 2 failed'
exit 1
END
.ci/run
