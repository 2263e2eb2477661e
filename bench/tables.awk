# The tables of docs/PERFORMANCE.md from what bench/measure counted. Each stands between two lines that name it.
FILENAME ~ /counts$/ {
    input = $1 " " $2
    sizes[input] = $2 " | " $3 " | " with_commas($4) " | " with_commas($5)
    total[input, $6, $7] += $10
    if (input == shown_input($6) && $7 == "ours") {
        part[$6, $8] += $10
        if (!($8 in known)) { known[$8] = 1; functions[++many] = $8 }
        # A block: instructions of one function that follow each other and are executed equally often.
        if (last[$6] != $8 " " $10) { last[$6] = $8 " " $10; blocks[$6]++ }
        block_function[$6, blocks[$6]] = $8
        block_times[$6, blocks[$6]] = $10
        block_length[$6, blocks[$6]]++
    }
    next
}
FILENAME ~ /nights$/ { done[$1 " " $2, $3] = $4; next }
FILENAME ~ /times$/ { time[$1 " " $2, $3, $4] = $5; timed = 1; next }
FILENAME ~ /stack$/ { if ($1 == "stack") { calls[++stacks] = $2; painted[$2] = $3 } else { sub(/^answers /, ""); answers = $0 } next }
FILENAME ~ /lent-frames$/ { lent_lines = lent_lines frame_line(); most["lent-step"] = $1 == "lentrun::step_in" ? $4 : most["lent-step"]; next }
FILENAME ~ /frames$/ { frame_lines = frame_lines frame_line(); if (sub(/^gateway_/, "", $1)) most[$1] = $4; next }
{ undefined = undefined (undefined == "" ? "" : ", ") "`" $1 "`"; if ($1 !~ /^mem(cpy|set|move|cmp)$/) strange = 1 }

function with_commas(number, text) {
    text = sprintf("%d", number + 0.5)
    while (match(text, /[0-9][0-9][0-9][0-9]+/)) {
        match(text, /^[0-9]+/)
        text = substr(text, 1, RLENGTH - 3) "," substr(text, RLENGTH - 2)
    }
    return text
}
function frame_line() { return sprintf("| `%s` | %s | %s |\n", $1, with_commas($2), with_commas($3)) }
# A name of several words.
function plain_words(name) { gsub(/-/, " ", name); return name }
function begin(name) { print "<!-- table " name " -->" }
function end() { print "<!-- end -->" }
# The input whose functions and blocks are shown.
function shown_input(call) { return call ~ /^draw/ ? "desk 32" : (call ~ /^speeds/ ? "meter 1000" : "usual 32") }
# The largest file is one that the judge refuses.
function input_of(call, size) { return size != "largest" ? "usual " size : (call ~ /read|write/ ? "file 32" : "full 32") }

function met(ratio, limit) { return ratio <= limit ? "met" : "not met" }
function goal_of(call) { return call ~ /read|write/ ? 1 : 0.9 }
function speed(n, list, m, names, i, k, call, input, ratio, goal, ours, plain, n_rates, rates) {
    n = split("read write judge slack step", list, " ")
    m = split("1 8 16 32 largest", names, " ")
    begin("speed")
    print "| call | input | jobs | intervals | rows | file, bytes | plain Rust | ours | ours / plain | goal |"
    print "|---|---|---|---|---|---|---|---|---|---|"
    for (i = 1; i <= n; i++)
        for (k = 1; k <= m; k++) {
            call = list[i]
            input = input_of(call, names[k])
            ours = total[input, call, "ours"]
            plain = total[input, call, "plain"]
            ratio = ours / plain
            goal = goal_of(call)
            printf "| %s | %s | %s | %s | %s | %.2f | %.1f, %s |\n", call, names[k], sizes[input], with_commas(plain), with_commas(ours), ratio, goal, met(ratio, goal)
            plain = time[input, call, "plain"]
            ours = time[input, call, "ours"]
            if (timed) times = times sprintf("| %s | %s | %s | %s | %.2f |\n", call, names[k], with_commas(plain), with_commas(ours), ours / plain)
        }
    end()
    # Nanoseconds, where the machine could take them.
    if (timed) {
        for (k = 1; k < m; k++) {
            plain = time["desk " names[k], "draw:filled", "plain"]
            ours = time["desk " names[k], "draw:filled", "ours"]
            times = times sprintf("| draw | %s | %s | %s | %.2f |\n", names[k], with_commas(plain), with_commas(ours), ours / plain)
        }
        n_rates = split("2 100 1000", rates, " ")
        for (k = 1; k <= n_rates; k++) {
            plain = time["meter " rates[k], "speeds:read", "plain"]
            ours = time["meter " rates[k], "speeds:read", "ours"]
            times = times sprintf("| speeds | n = %s | %s | %s | %.2f |\n", with_commas(rates[k]), with_commas(plain), with_commas(ours), ours / plain)
        }
        begin("times")
        print "| call | input | plain Rust, ns | ours, ns | ours / plain |"
        print "|---|---|---|---|---|"
        printf "%s", times
        end()
    }
    begin("ratios")
    print "| call | goal, at most | 1 job | 8 jobs | 16 jobs | 32 jobs | largest |"
    print "|---|---|---|---|---|---|---|"
    for (i = 1; i <= n; i++) {
        printf "| %s | %.1f |", list[i], goal_of(list[i])
        for (k = 1; k <= m; k++) printf " %.2f |", total[input_of(list[i], names[k]), list[i], "ours"] / total[input_of(list[i], names[k]), list[i], "plain"]
        print ""
    }
    end()
    begin("decode")
    print "| | 1 | 8 | 16 | 32 |"
    print "|---|---|---|---|---|"
    printf "| from words to a plan |"
    for (k = 1; k < m; k++) printf " %s |", with_commas(total["usual " names[k], "decode", "ours"])
    print ""
    end()
}
# The step by what its slot is like, and the outcome.
function slots(n, list, m, names, i, k, input, call, ratio, greatest, sentence) {
    n = split("quiet just-over crowded idle sets-the-mark slow slow-and-crowded standing late refused-by-19 refused-by-20 refused-by-22 refused-by-21-at-the-last-job refused-by-21-at-the-first-job refused-by-21-for-no-job", list, " ")
    m = split("1 8 16 32 largest", names, " ")
    begin("slots")
    print "| slot | input | plain Rust | ours | ours / plain | limit 1.0 | goal 0.9 |"
    print "|---|---|---|---|---|---|---|"
    for (i = 1; i <= n; i++)
        for (k = 1; k <= m; k++) {
            input = input_of("step", names[k])
            call = "step:" list[i]
            ratio = total[input, call, "ours"] / total[input, call, "plain"]
            if (ratio > greatest) { greatest = ratio; sentence = sprintf("%.2f, in the slot `%s` of input %s", ratio, plain_words(list[i]), names[k]) }
            printf "| %s | %s | %s | %s | %.2f | %s | %s |\n", plain_words(list[i]), names[k], with_commas(total[input, call, "plain"]), with_commas(total[input, call, "ours"]), ratio, met(ratio, 1), met(ratio, goal_of("step"))
        }
    end()
    begin("greatest")
    printf "Of all the slots that the step is measured in, %d kinds with each of the %d inputs, the greatest ratio is\n%s. The limit of 1.0 is %s, and the goal of %.1f is %s.\n", n, m, sentence, met(greatest, 1), goal_of("step"), met(greatest, goal_of("step"))
    end()
    begin("outcome")
    print "| | 1 | 8 | 16 | 32 | largest |"
    print "|---|---|---|---|---|---|"
    printf "| outcome of the last job |"
    for (k = 1; k <= m; k++) printf " %s |", with_commas(total[input_of("step", names[k]), "outcome", "ours"])
    print ""
    end()
}
# The desk by what its jobs are like. One job alone has no other release beside its own.
function desks(n, list, m, names, i, k, input, call, sized, plain, ours) {
    n = split("filled refused-by-29 refused-by-28", list, " ")
    m = split("1 8 16 32", names, " ")
    begin("desk")
    print "| desk | input | jobs | intervals | plain Rust | ours | ours / plain | goal 1.0 |"
    print "|---|---|---|---|---|---|---|---|"
    for (i = 1; i <= n; i++)
        for (k = 1; k <= m; k++) {
            input = "desk " names[k]
            call = "draw:" list[i]
            if (!((input, call, "ours") in total)) continue
            split(sizes[input], sized, / \| /)
            plain = total[input, call, "plain"]
            ours = total[input, call, "ours"]
            printf "| %s | %s | %s | %s | %s | %s | %.2f | %s |\n", plain_words(list[i]), names[k], sized[1], sized[2], with_commas(plain), with_commas(ours), ours / plain, met(ours / plain, 1)
        }
    end()
}
# The meter: one reading, a log of as many as there may be, and one whose last reading is refused.
function meters(n, list, m, rates, i, k, input, plain, ours) {
    n = split("meter speeds:read speeds:refused-by-31", list, " ")
    m = split("2 100 1000", rates, " ")
    begin("meter")
    print "| call | readings | normal rate | plain Rust | ours | ours / plain | goal 1.0 |"
    print "|---|---|---|---|---|---|---|"
    for (i = 1; i <= n; i++)
        for (k = 1; k <= m; k++) {
            input = "meter " rates[k]
            plain = total[input, list[i], "plain"]
            ours = total[input, list[i], "ours"]
            printf "| %s | %s | %s | %s | %s | %.2f | %s |\n", meter_word(list[i]), i == 1 ? 1 : 256, with_commas(rates[k]), with_commas(plain), with_commas(ours), ours / plain, met(ours / plain, 1)
        }
    end()
}
function meter_word(call) { sub(/:read$/, "", call); sub(/:/, ", ", call); return plain_words(call) }
# A shift beside single calls of the step at the same speeds, all of a night at a time. The goal is that of 32 jobs.
function shift_ratio(night, input) { return total[input, "shift:" night, "ours"] / total[input, "shift:" night, "single"] }
function shift_goal(night, input) { return input ~ / 32$/ ? "0.6, " met(shift_ratio(night, input), 0.6) : "" }
function shift_line(first, night, input, ours, plain) {
    ours = total[input, "shift:" night, "ours"]
    plain = total[input, "shift:" night, "plain"]
    printf "| %s | %s | %s | %s | %.2f | %s | %s | %.1f |\n", first, done[input, night], with_commas(total[input, "shift:" night, "single"]), with_commas(ours), shift_ratio(night, input), shift_goal(night, input), with_commas(plain), ours / plain
}
function shifts(n, list, m, names, i, k) {
    n = split("normal idle slow-half-way crowded past-the-last-deadline refused-by-20", list, " ")
    m = split("1 8 16 32 largest", names, " ")
    begin("shift")
    print "| night | input | slots done | single calls | shift | shift / single | goal | plain Rust's shift | ours / plain |"
    print "|---|---|---|---|---|---|---|---|---|"
    for (i = 1; i <= n; i++)
        for (k = 1; k <= m; k++) shift_line(plain_words(list[i]) " | " names[k], list[i], input_of("shift", names[k]))
    end()
    begin("shift-32")
    print "| night | slots done | single calls | shift | shift / single | goal | plain Rust's shift | ours / plain |"
    print "|---|---|---|---|---|---|---|---|"
    for (i = 1; i <= n; i++) shift_line(plain_words(list[i]), list[i], "usual 32")
    end()
}
# The call that a count is of: of a shift, all of the first night; of the desk and the log reader, the first of its inputs.
function call_word(call) { sub(/:.*/, "", call); return call }
function where(n, list, i, f, call, rest, shown) {
    n = split("read write judge slack draw:filled step shift:normal speeds:read", list, " ")
    begin("functions")
    print "| call | function, with all that is inlined into it | instructions | part |"
    print "|---|---|---|---|"
    for (i = 1; i <= n; i++) {
        call = list[i]
        rest = total[shown_input(call), call, "ours"]
        for (f = 1; f <= many; f++)
            if (part[call, functions[f]] >= 0.02 * total[shown_input(call), call, "ours"]) {
                shown = part[call, functions[f]]
                printf "| %s | `%s` | %s | %d %% |\n", call_word(call), functions[f], with_commas(shown), 100 * shown / total[shown_input(call), call, "ours"] + 0.5
                rest -= shown
            }
        printf "| %s | all others | %s | %d %% |\n", call_word(call), with_commas(rest), 100 * rest / total[shown_input(call), call, "ours"] + 0.5
    }
    end()
}
# The four blocks of each call that take most.
function hottest(n, list, i, call, k, b, best, most) {
    n = split("read write judge slack draw:filled step shift:normal speeds:read", list, " ")
    begin("blocks")
    print "| call | function | times | instructions each | instructions | part |"
    print "|---|---|---|---|---|---|"
    for (i = 1; i <= n; i++) {
        call = list[i]
        for (k = 1; k <= 4; k++) {
            most = 0
            for (b = 1; b <= blocks[call]; b++)
                if (block_times[call, b] * block_length[call, b] > most) { most = block_times[call, b] * block_length[call, b]; best = b }
            printf "| %s | `%s` | %s | %d | %s | %d %% |\n", call_word(call), block_function[call, best], with_commas(block_times[call, best]), block_length[call, best], with_commas(most), 100 * most / total[shown_input(call), call, "ours"] + 0.5
            block_times[call, best] = 0
        }
    }
    end()
}
function growth(table, who, k, m, n, names, shapes, s, input, list, i) {
    m = split("1 2 4 8 16 32", names, " ")
    split("usual full file", shapes, " ")
    n = split("read write judge slack step", list, " ")
    begin(table)
    print "| plan | jobs | intervals | rows | file, bytes | read | write | judge | slack | step |"
    print "|---|---|---|---|---|---|---|---|---|---|"
    for (s = 1; s <= 3; s++)
        for (k = 1; k <= m; k++) {
            input = shapes[s] " " names[k]
            # Of one job both shapes are the same plan.
            if (!(input in sizes) || input == "full 1") continue
            printf "| %s | %s |", shapes[s], sizes[input]
            for (i = 1; i <= n; i++) printf " %s |", (input, list[i], who) in total ? with_commas(total[input, list[i], who]) : "refused"
            print ""
        }
    end()
}
function factor(words, from, to, list, n, i) {
    n = split("read write judge slack step", list, " ")
    printf "| %s |", words
    for (i = 1; i <= n; i++)
        printf " %s |", (to, list[i], "ours") in total ? sprintf("%.2f", total[to, list[i], "ours"] / total[from, list[i], "ours"]) : "refused"
    print ""
}
function factors() {
    begin("factors")
    print "| from, to | read | write | judge | slack | step |"
    print "|---|---|---|---|---|---|"
    factor("8 to 16 jobs, few rows", "usual 8", "usual 16")
    factor("16 to 32 jobs, few rows", "usual 16", "usual 32")
    factor("8 to 16 jobs, many rows", "full 8", "full 16")
    factor("16 to 32 jobs, many rows", "full 16", "full 32")
    factor("31 to 63 intervals and 127 to 1,024 rows, 32 jobs", "usual 32", "full 32")
    factor("1,024 to 2,016 rows, 32 jobs, 63 intervals", "full 32", "file 32")
    end()
}
function frame_table(table, lines) {
    begin(table)
    print "| function | bytes, its own | with what it calls |"
    print "|---|---|---|"
    printf "%s", lines
    end()
}
function stack(k, call) {
    begin("stack")
    print "| call | bytes, painted | bytes at most, by frames |"
    print "|---|---|---|"
    for (k = 1; k <= stacks; k++) {
        call = calls[k]
        printf "| %s | %s | %s |\n", call == "lent-step" ? "step on a lent record" : call, with_commas(painted[call]), with_commas(most[call])
    }
    end()
    frame_table("frames", frame_lines)
    frame_table("lent-frames", lent_lines)
    begin("outside")
    print "Answers seen: " answers ". What the archive needs from outside: " undefined "."
    end()
}
END {
    speed()
    slots()
    desks()
    meters()
    shifts()
    where()
    hottest()
    growth("growth", "ours")
    growth("growth-plain", "plain")
    factors()
    stack()
    if (strange) { print "tables.awk: the archive needs more than copying and filling memory" > "/dev/stderr"; exit 1 }
}
