# Runs of tests/answers/runs.txt as laws for the proof checker, one a record and of its name: what is computed of the run is what is stored. A run is
# safe where it meets no companion and no word with an operand that is not inside, and does not leave before the first word.
# Variables: chunk (from 0), size (runs a chunk), unfolding (the definitions to compute with).

# the line's fields from the third on, each after a prefix; the second says how many they are
function list(prefix,   k, s) {
    if ($2 != NF - 2) wrong = wrong " " $1
    for (k = 3; k <= NF; k++) s = s prefix $k " ∷ "
    return "(" s "[])"
}

function booleans(   s) {
    s = list("")
    gsub(/0 ∷/, "false ∷", s)
    gsub(/1 ∷/, "true ∷", s)
    return s
}

function integer(z) { return z < 0 ? "(negsuc " (-z - 1) ")" : "(pos " z ")" }

# how the run stands at its end; one of no words has come past the last word at once
function exit_of(how, pc) {
    if (how == "return" || how == "tailcall") return "(ended_at " pc ")"
    if (how == "left") return "(no_word_at " integer(pc) ")"
    if (how == "none") return "(no_word_at (pos 0))"
    if (how == "gave-out" && pc == last) return "out_of_choices"
    wrong = wrong " end"
    return "?"
}

/^run / { here = int(seen / size) == chunk; seen++; name = $2; wrong = figures = children = words = choices = met = end = companions = outside = "" }
!here { next }
/^prototype / { figures = "constants = " $2 "; upvalues = " $3 "; stack = " $4 ";" }
/^children / { children = list("") }
/^words / { words = list("0x") }
/^choices / { choices = booleans() }
/^met / { met = list(""); last = $NF }
/^end / { end = exit_of($2, $3); before = $2 == "left" && $3 < 0 }
/^companions / { companions = list(""); owned = $2 }
/^outside / { outside = list(""); safe = owned + $2 + before == 0 ? "true" : "false" }
/^$/ {
    if (wrong != "" || figures == "" || children == "" || words == "" || choices == "" || met == "" || end == "" || companions == "" || outside == "") {
        print "run " name " is out of form:" wrong >"/dev/stderr"
        exit 1
    }
    print name " : result (record { code = " words "; " figures " children = " children " }) " choices \
        " ≡ record { trace = record { met = " met "; exit = " end " }; companions = " companions "; outside = " outside "; safe = " safe " }"
    print "unfolding " unfolding
    print name " = refl\n"
}
