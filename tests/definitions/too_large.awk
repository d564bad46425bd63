# Images of tests/answers/large.txt that are refused with 3, as cases for the proof checker. They are too large to be computed word by word: repeated groups
# stay as they are, and the lengths follow by laws.

# items from field 3 on, with the repetition of large.txt, as lists end to end
function pieces(prefix,   k, s, item, stop, times, group) {
    s = ""
    for (k = 3; k <= NF; k++) {
        item = $k
        if (item ~ /^\(/) {
            while (item !~ /\)\*/) item = item " " $(++k)
            stop = index(item, ")")
            times = substr(item, stop + 2)
            group = substr(item, 2, stop - 2)
            gsub(/ /, " ∷ " prefix, group)
            group = prefix group
        } else {
            times = item ~ /\*/ ? substr(item, index(item, "*") + 1) : 1
            group = prefix (item ~ /\*/ ? substr(item, 1, index(item, "*") - 1) : item)
        }
        s = s "(times " times " (" group " ∷ [])) ∷ "
    }
    return "flatten (" s "[])"
}

function hexBytes(hex,   k, s) {
    for (k = 1; k < length(hex); k += 2) s = s "0x" substr(hex, k, 2) " ∷ "
    return "(" s "[])"
}

/^image / { name = $2; gsub(/-/, "", name); tail = "[]"; wtail = "[]" }
/^incoming / { incoming = $2 " " $3 }
/^table / { bytes = $2; table = pieces("") }
/^tail / { tail = hexBytes($2) }
/^words / { wordBytes = $2; words = pieces("0x") }
/^wtail / { wtail = hexBytes($2) }
/^buffers / { room = $2; bindingRoom = $3; diagnostic_room = $4 }
/^roles / { roles = $2 " " $3 }
/^bindings / { bindings = $2 " " $3 }
/^check / { check = $2 " " $3 }
/^$/ && roles == "3 0" && bindings == "3 0" && check == "3 0" {
    print "table-" name " : List ℕ"
    print "table-" name " = u32_record (" table ") ++ " tail "\n"
    print "words-" name " : List ℕ"
    print "words-" name " = u32_record (" words ") ++ " wtail "\n"
    print name "-table : length table-" name " ≡ " bytes
    print "unfolding table-" name " flatten"
    print name "-table = simp (length-append, length_u32_record, length-times)\n"
    print name "-words : length words-" name " ≡ " wordBytes
    print "unfolding words-" name " flatten"
    print name "-words = simp (length-append, length_u32_record, length-times)\n"
    print name "-refused : Three table-" name " words-" name " " incoming " " room " " bindingRoom " " diagnostic_room
    print name "-refused = three table-" name " words-" name " " bytes " " wordBytes " " incoming " " room " " bindingRoom " " diagnostic_room " " name "-table " name "-words tt\n"
}
