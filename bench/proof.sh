#!/bin/sh
# Writes a task and a correct proof of it: proof.sh LINES WIDTH SHAPE, with LINES lines at most.
# `blocks` and `terms` take two sentences of about WIDTH bytes out of their conjunction and join them again, over and
# over: conjunctions of sentences about blocks, or atomic sentences with as many names as fit, which have the most tokens a
# byte. `nested` opens subproofs to depth 29, repeats line 1 in the innermost, and closes one after another by conditional
# introduction, over and over; it takes no heed of WIDTH. `boxed` opens a boxed constant, takes the instance of line 1, a
# sentence of about WIDTH bytes, and generalizes it again, over and over. `cases` goes from a disjunction of 399 parts by
# 63 subproofs, of which all but the last end in another sentence behind ten deeper lines, over and over; `letters` cites
# premises of 399 sentence letters each, all apart, in one step by tautological consequence, which has too many letters. The
# last two take no heed of WIDTH.
exec awk -v lines="$1" -v width="$2" -v shape="${3:-blocks}" '
function atom(letter,    text) {
    text = letter "(a"
    while (length(text) + 2 < width) text = text ",a"
    return text ")"
}
function conjunction(first,    text) {
    text = first
    while (length(text) + 14 < width) text = text " & Larger(b,c)"
    return text
}
function heading(premise, goal) {
    print "task 1"
    print "premise " premise
    print "goal " goal
    print "proof 1"
}
function bars(depth,    text) {
    while (depth-- > 0) text = text "| "
    return text
}
function conditional(level) {
    return level > deepest ? "P" : level == deepest ? "Q $ P" : "Q $ (" conditional(level + 1) ")"
}
function nested(    line, level) {
    deepest = 28
    heading("P", conditional(1))
    print "1 | P ; Premise"
    for (line = 1; line + 2 * deepest + 1 <= lines; line += 2 * deepest + 1) {
        for (level = 1; level <= deepest; level++) print line + level " " bars(level + 1) "Q ; Assume"
        print line + deepest + 1 " " bars(deepest + 1) "P ; Reit: 1"
        for (level = deepest; level >= 1; level--)
            print line + 2 * deepest + 2 - level " " bars(level) conditional(level) " ; $ Intro: " \
                line + level "-" line + 2 * deepest + 1 - level
    }
}
function flat(left, right, both,    line) {
    heading(both, both)
    print "1 | " both " ; Premise"
    for (line = 2; line + 2 <= lines; line += 3) {
        print line " | " left " ; & Elim: " line - 1
        print line + 1 " | " right " ; & Elim: " line - 1
        print line + 2 " | " both " ; & Intro: " line ", " line + 1
    }
}
function joined(count, mark, from,    text, i) {
    for (i = 0; i < count; i++) text = text (i ? mark : "") (from ? "P" from + i : "P")
    return text
}
function cases(    parts, cited, line, i, k) {
    parts = joined(399, " | ", 0)
    heading(parts, "P | P")
    print "1 | " parts " ; Premise"
    line = 2
    for (i = 0; i < 62; i++) {
        cited = cited ", " line "-" line + 10
        print line++ " | | P ; Assume"
        for (k = 0; k < 10; k++) print line++ " | | | P ; Assume"
    }
    cited = cited ", " line "-" line + 1
    print line " | | P ; Assume"
    print line + 1 " | | P | P ; | Intro: " line
    for (line += 2; line <= lines; line++) print line " | P | P ; | Elim: 1" cited
}
function letters(    line, cited) {
    print "task 1"
    for (line = 1; line <= lines; line++) print "premise " joined(399, " & ", 1 + 399 * (line - 1))
    print "goal P"
    print "con Taut"
    print "proof 1"
    for (line = 1; line <= lines; line++) {
        print line " | " joined(399, " & ", 1 + 399 * (line - 1)) " ; Premise"
        cited = cited (line > 1 ? ", " : ": ") line
    }
    print lines + 1 " | P ; Taut Con" cited
}
function boxed(    body, general, line) {
    body = "P(x)"
    while (length(body) + 10 < width) body = body " & R(x,x)"
    general = "@x (" body ")"
    heading(general, general)
    print "1 | " general " ; Premise"
    gsub("x", "c", body)
    for (line = 2; line + 2 <= lines; line += 3) {
        print line " | | [c] ; Box"
        print line + 1 " | | " body " ; @ Elim: 1"
        print line + 2 " | " general " ; @ Intro: " line "-" line + 1
    }
}
BEGIN {
    if (shape == "nested") nested()
    else if (shape == "boxed") boxed()
    else if (shape == "cases") cases()
    else if (shape == "letters") letters()
    else if (shape == "terms") flat(atom("P"), atom("Q"), atom("P") " & " atom("Q"))
    else flat(conjunction("Cube(a)"), conjunction("Tet(b)"), \
        "(" conjunction("Cube(a)") ") & (" conjunction("Tet(b)") ")")
}'
