# Holds what c/stack says of c/deep.c to what is known of it: of each function its own bytes and what its caller passes,
# and, with whole=yes, the compiler's figures of frames, which are the whole truth where it puts nothing below the stack
# pointer. Input: those figures, and then the table. c/check runs it.

function must(holds, what) {
    if (holds) return
    print what
    wrong++
}

FNR == NR { sub(/.*:/, "", $1); frame[$1] = $2; next }
{ needs[$1] = $2 + 0; passed[$1] = $3 }

END {
    must(needs["deep_300"] >= 308 && passed["deep_300"] == 24, "deep_300 has 300 bytes and 24 passed")
    must(needs["deep_many"] >= 128 && passed["deep_many"] == 200, "deep_many has 120 bytes and 200 passed")
    must(needs["deep_back"] >= 108, "deep_back has 100 bytes")
    must(needs["deep_tail"] == needs["deep_back"], "deep_tail goes on in deep_back")
    must(needs["deep_call"] >= needs["deep_300"] + 32, "deep_call passes 24 bytes to deep_300")
    must(needs["deep_switch"] >= needs["deep_300"] + 32, "deep_switch does so too")
    must(needs["odd_minus"] == 136, "odd_minus takes 128 bytes")
    must(needs["odd_copy"] == 152, "odd_copy pushes a word and calls memcpy")
    must(needs["odd_move"] == 136, "odd_move goes on in memmove")
    must(needs["odd_named"] == 16, "odd_named pushes a word in one of its cases")
    if (whole != "yes") exit wrong > 0
    must(needs["deep_300"] == frame["deep_300"], "the compiler has another figure for deep_300")
    must(needs["deep_many"] == frame["deep_many"], "and for deep_many")
    must(needs["deep_call"] == frame["deep_call"] + needs["deep_300"], "and for deep_call")
    must(needs["deep_switch"] == frame["deep_switch"] + needs["deep_300"], "and for deep_switch")
    exit wrong > 0
}
