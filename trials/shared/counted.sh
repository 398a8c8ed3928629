# How many passed and how many failed by the last line of a file; nothing where that doesn't count.
counted_in() {
    tail -n 1 "$1" | sed -n 's/^\([0-9][0-9]*\) passed, \([0-9][0-9]*\) failed$/\1 \2/p'
}
