# Images of tests/answers/small.txt as cases for the proof checker: each with its answers, and with its buffers after the calls as bytes, lent full of 170.
# Variables: chunk (from 0), size (images a chunk).

function list(from, to,   k, s) {
    for (k = from; k <= to; k++) s = s $k " ∷ "
    return "(" s "[])"
}

function hexList(from, to,   k, s) {
    for (k = from; k <= to; k++) s = s "0x" $k " ∷ "
    return "(" s "[])"
}

function hexBytes(hex,   k, s) {
    for (k = 1; k < length(hex); k += 2) s = s "0x" substr(hex, k, 2) " ∷ "
    return "(" s "[])"
}

function integers(from, to,   k, s) {
    for (k = from; k <= to; k++) s = s ($k < 0 ? "negsuc " (-$k - 1) : "pos " $k) " ∷ "
    return "(" s "[])"
}

# the line's i32 from field 3 on as bytes, least first, in a buffer of so many
function written(room,   k, v, s) {
    for (k = 3; k <= NF; k++) {
        v = $k < 0 ? $k + 4294967296 : $k
        s = s (v % 256) " ∷ " (int(v / 256) % 256) " ∷ " (int(v / 65536) % 256) " ∷ " int(v / 16777216) " ∷ "
    }
    return "(" s "replicate " (room - 4 * (NF - 2)) " 170)"
}

function untouched(room) { return "(replicate " room " 170)" }

function answer(number, figure) {
    return number == 0 ? "(accepted " figure ")" : "(refused (record { number = " number "; figure = " figure " }))"
}

/^image / { here = int(seen / size) == chunk; seen++; name = $2; tail = "[]"; wtail = "[]"; records = "none" }
!here { next }
/^incoming / { warnings = $2; errors = $3 }
/^table / { table = list(3, NF) }
/^tail / { tail = hexBytes($2) }
/^words / { words = hexList(3, NF) }
/^wtail / { wtail = hexBytes($2) }
/^buffers / { room = $2; bindingRoom = $3; diagnostic_room = $4 }
/^roles / { rolesNumber = $2; roles = answer($2, $3); role_buffer = untouched(room) }
/^bindings / { bindingsNumber = $2; bindings = answer($2, $3); binding_buffer = untouched(bindingRoom) }
/^check / {
    checkNumber = $2; diagnostic_buffer = untouched(diagnostic_room)
    check = $2 == 0 ? "(accepted (record { verdict = " $4 "; count = " $3 " }))" : answer($2, $3)
}
/^R / { role_fields = integers(3, NF); if (rolesNumber == 0) role_buffer = written(room) }
/^B / { binding_fields = integers(3, NF); if (bindingsNumber == 0) binding_buffer = written(bindingRoom) }
/^D / {
    records = "(some (record { roles = " role_fields "; bindings = " binding_fields "; diagnostics = " integers(3, NF) " }))"
    if (checkNumber == 0) diagnostic_buffer = written(diagnostic_room)
}
/^$/ {
    print "    -- " name
    print "    " (count++ ? "∷ " : "") "record {"
    print "      image = record { table = u32_record " table " ++ " tail "; words = u32_record " words " ++ " wtail "; warnings = " warnings "; errors = " errors " };"
    print "      role_length = " room "; binding_length = " bindingRoom "; diagnostic_length = " diagnostic_room ";"
    print "      expected = record { roles = " roles "; bindings = " bindings "; check = " check ";"
    print "        role_buffer = " role_buffer "; binding_buffer = " binding_buffer "; diagnostic_buffer = " diagnostic_buffer ";"
    print "        records = " records " };"
    print "    }"
}
END { print "    ∷ []" }
