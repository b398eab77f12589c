# Makes of samples two files: LOUD, in which each third record is one step beyond its bounds, and KEPT, the same with each
# word taken into its bound. Puts how many words of LOUD were beyond.
#
#     awk -F , -v bounds=16384,1000 -v loud=LOUD -v kept=KEPT -f beyond.awk SAMPLES

function within(word, most) {
    return word > most ? most : word < -most ? -most : word
}

BEGIN {
    split(bounds, bound, ",")
}

{
    loud_line = kept_line = ""
    for (j = 1; j <= NF; j++) {
        word = NR % 3 ? $j + 0 : -bound[j] - 1
        beyond += within(word, bound[j]) != word
        comma = j < NF ? "," : ""
        loud_line = loud_line word comma
        kept_line = kept_line within(word, bound[j]) comma
    }
    print loud_line >loud
    print kept_line >kept
}

END {
    print beyond + 0
}
