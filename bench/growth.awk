# Draws how the calls grow with the plan, from the tables of docs/figures/growth.md: a panel for each call, instructions over jobs. On both
# scales equal distances are equal factors.
/^<!-- table growth -->$/ { who = "ours" }
/^<!-- table growth-plain -->$/ { who = "plain" }
/^<!-- end -->$/ { who = "" }
who != "" && /^\| (usual|full) / {
    gsub(/[|,]/, "")
    # The fields: plan, jobs, intervals, rows, bytes of the file, and a count for each call.
    for (k = 1; k <= CALLS; k++) note($1, $2, call_of[k], who, $(5 + k))
    # Of one job both shapes are the same plan.
    if ($1 == "usual" && $2 == 1) for (k = 1; k <= CALLS; k++) note("full", 1, call_of[k], who, $(5 + k))
}

BEGIN {
    CALLS = split("read write judge slack step", call_of, " ")
    MOST_JOBS = 32
    LEFT = 96; TOP = 84; WIDE = 132; APART = 164; HIGH = 300
    OURS = "stroke=\"#1f5fa8\" stroke-width=\"2\""
    PLAIN = "stroke=\"#b5651d\" stroke-width=\"2\""
    FULL = " stroke-dasharray=\"5 4\""
}

function note(shape, jobs, call, who, count) {
    total[shape, jobs, call, who] = count
    if (lowest == "" || count + 0 < lowest) lowest = count + 0
    if (count + 0 > highest) highest = count + 0
}
function x_of(panel, jobs) { return LEFT + APART * panel + WIDE * log(jobs) / log(MOST_JOBS) }
function y_of(count) { return TOP + HIGH * (log(top) - log(count)) / (log(top) - log(bottom)) }
# The numbers of the grid: 1, 2 and 5 times each power of ten.
function grid_number(k) { return 10 ^ int(k / 3) * (k % 3 == 0 ? 1 : (k % 3 == 1 ? 2 : 5)) }
function with_commas(number, text) {
    text = sprintf("%d", number)
    while (match(text, /^[0-9][0-9][0-9][0-9]+/)) text = substr(text, 1, RLENGTH - 3) "," substr(text, RLENGTH - 2)
    return text
}
function text(x, y, anchor, words) { printf "<text x=\"%.1f\" y=\"%.1f\" text-anchor=\"%s\">%s</text>\n", x, y, anchor, words }
function bold(words) { return "<tspan font-weight=\"bold\">" words "</tspan>" }
function stroke(x1, y1, x2, y2, style) { printf "<line x1=\"%.1f\" y1=\"%.1f\" x2=\"%.1f\" y2=\"%.1f\" %s/>\n", x1, y1, x2, y2, style }
function curve(panel, shape, call, who, style, jobs, points) {
    points = ""
    for (jobs = 1; jobs <= MOST_JOBS; jobs *= 2)
        if ((shape, jobs, call, who) in total) points = points sprintf("%.1f,%.1f ", x_of(panel, jobs), y_of(total[shape, jobs, call, who]))
    printf "<polyline points=\"%s\" fill=\"none\" %s/>\n", points, style
}
function panel_of(panel, call, k, jobs) {
    text(x_of(panel, 1) + WIDE / 2, TOP - 12, "middle", bold(call))
    for (k = first; k <= last; k++) {
        stroke(x_of(panel, 1), y_of(grid_number(k)), x_of(panel, MOST_JOBS), y_of(grid_number(k)), "stroke=\"#ddd\"")
        if (panel == 0) text(LEFT - 8, y_of(grid_number(k)) + 4, "end", with_commas(grid_number(k)))
    }
    for (jobs = 1; jobs <= MOST_JOBS; jobs *= 2) {
        stroke(x_of(panel, jobs), TOP + HIGH, x_of(panel, jobs), TOP + HIGH + 4, "stroke=\"#888\"")
        text(x_of(panel, jobs), TOP + HIGH + 18, "middle", jobs)
    }
    stroke(x_of(panel, 1), TOP + HIGH, x_of(panel, MOST_JOBS), TOP + HIGH, "stroke=\"#888\"")
    curve(panel, "usual", call, "ours", OURS)
    curve(panel, "full", call, "ours", OURS FULL)
    curve(panel, "usual", call, "plain", PLAIN)
    curve(panel, "full", call, "plain", PLAIN FULL)
}
function legend(x, style, words) {
    stroke(x, TOP + HIGH + 70, x + 36, TOP + HIGH + 70, style)
    text(x + 44, TOP + HIGH + 74, "start", words)
}
function axes(wide) {
    print "<text x=\"20\" y=\"30\" font-size=\"18\" font-weight=\"bold\">How the calls grow with the plan</text>"
    text(20, 50, "start", "instructions executed by one call; on both axes equal distances are equal factors")
    text(LEFT + (wide - LEFT - 20) / 2, TOP + HIGH + 42, "middle", "jobs in the plan")
    printf "<text transform=\"translate(24 %.1f) rotate(-90)\" text-anchor=\"middle\">instructions per call</text>\n", TOP + HIGH / 2
}
END {
    if (highest == "") { print "growth.awk: the page has no table of counts" > "/dev/stderr"; exit 1 }
    while (grid_number(first + 1) <= lowest) first++
    for (last = first; grid_number(last) < highest; ) last++
    bottom = grid_number(first)
    top = grid_number(last)
    wide = LEFT + APART * (CALLS - 1) + WIDE + 20
    printf "<svg xmlns=\"http://www.w3.org/2000/svg\" viewBox=\"0 0 %d %d\" font-family=\"sans-serif\" font-size=\"12\">\n", wide, TOP + HIGH + 90
    printf "<rect width=\"%d\" height=\"%d\" fill=\"white\"/>\n", wide, TOP + HIGH + 90
    axes(wide)
    for (k = 1; k <= CALLS; k++) panel_of(k - 1, call_of[k])
    legend(LEFT, OURS, "ours, few rows")
    legend(LEFT + 190, OURS FULL, "ours, many rows")
    legend(LEFT + 380, PLAIN, "plain Rust, few rows")
    legend(LEFT + 570, PLAIN FULL, "plain Rust, many rows")
    print "</svg>"
}
