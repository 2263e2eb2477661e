# From an emulator's trace of bench/both, a line for each executed instruction, to lines 'call who function address times' of one
# call: what three calls take more than one, halved. The second file has the lines that bench/both printed.
FNR != NR {
    if ($1 == "section") { printed++; call[printed] = $2 " " $3; repeat[printed] = $4 }
    next
}
$1 != "Trace" { next }
$NF == "section_begins" { if (!inside) { inside = 1; traced++ }; next }
$NF == "section_ends" { inside = 0; next }
inside {
    # What has no name is the way to the C library's functions.
    split($4, words, "/")
    place = (NF > 4 ? $5 : "(link)") " " words[2]
    count[traced, place]++
    if (!(place in known)) { known[place] = 1; places[++many] = place }
}
END {
    if (traced != printed || printed == 0) { print "count.awk: " traced + 0 " sections traced, " printed + 0 " printed" > "/dev/stderr"; exit 1 }
    for (k = 2; k <= printed; k += 2)
        for (n = 1; n <= many; n++) {
            more = count[k, places[n]] - count[k - 1, places[n]]
            if (more != 0) print call[k], places[n], more / (repeat[k] - repeat[k - 1])
        }
}
