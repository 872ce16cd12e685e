# Runs the program with room for so many bytes of output, and tells what was written, then a dot, and the status.
room=$1
shift
trap '' XFSZ
head -c $((512 - room)) /dev/zero > output
(ulimit -f 1 && "$PROGRAM" "$@" >> output)
status=$?
tail -c +$((513 - room)) output
echo .
exit $status
