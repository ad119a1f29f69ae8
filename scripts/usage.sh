# shellcheck shell=bash
# Read by the scripts, and by those of bench/: the usage of each is the comment at its head.

# Writes the usage of the script that this one was called as, which is the comment at its head.
show_usage() {
    sed -n '2,/^[^#]/s/^# \{0,1\}//p' -- "$0"
}

# take_help WORD..: shows the usage and ends, where one of the words asks for it. It is called before the folder is changed.
take_help() {
    local word
    for word in "$@"; do
        if [ "$word" = --help ] || [ "$word" = -h ]; then
            show_usage
            exit 0
        fi
    done
}
