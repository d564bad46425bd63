-- Images on which luad and Lua 5.1's own check or VM differ, each with the fewest words that show it.
-- A case is a prototype: words; constants (a list); upvalues 0, stack 2, params 0 and vararg 2 unless said; children, which have one
-- RETURN, one upvalue and vararg 0 unless said. luad: its diagnostics, row pc code value each; none unless said.
local CHILD = { words = "0080001e", upvalues = 1, vararg = 0 }

-- return f(true), but for a SETLIST after the TAILCALL: local t = {f(true)} return t
local TAILCALL = "0000000a 00000045 00800082 0100005d 00004022 0100001e"

-- A table, and the number whose bits are its address
local TABLE = {}
local ADDRESS = tonumber(tostring(TABLE):match("0x%x+")) * 2 ^ -1074

return {
    -- Lua refuses it as bad code; `rule` is the line in ldebug.c. With the fields of `but` in place of its own Lua loads it. `gives`: the
    -- values where it is called without that check.
    only_lua = {
        { name = "move-c", rule = 306, words = "00004000 0080001e", but = { words = "00000000 0080001e" } },
        { name = "loadnil-c", rule = 306, words = "00004003 0080001e", but = { words = "00000003 0080001e" } },
        { name = "getupval-c", rule = 306, words = "00004004 0080001e", upvalues = 1, but = { words = "00000004 0080001e" } },
        { name = "setupval-c", rule = 306, words = "00004008 0080001e", upvalues = 1, but = { words = "00000008 0080001e" } },
        { name = "unm-c", rule = 306, words = "00004012 0080001e", but = { words = "00000012 0080001e" } },
        { name = "not-c", rule = 306, words = "00004013 0080001e", but = { words = "00000013 0080001e" } },
        { name = "len-c", rule = 306, words = "00004014 0080001e", but = { words = "00000014 0080001e" } },
        { name = "return-c", rule = 306, words = "0080401e", but = { words = "0080001e" } },
        { name = "tforloop-b", rule = 306, words = "00804021 7fffc016 0080001e", stack = 4, but = { words = "00004021 7fffc016 0080001e" } },
        { name = "close-b", rule = 306, words = "00800023 0080001e", but = { words = "00000023 0080001e" } },
        { name = "close-c", rule = 306, words = "00004023 0080001e", but = { words = "00000023 0080001e" } },
        { name = "vararg-c", rule = 306, words = "00804025 0080001e", but = { words = "00800025 0080001e" } },
        { name = "jmp-a", rule = 329, words = "7fffc096 0080001e", but = { stack = 3 } },
        { name = "eq-a-above-stack", rule = 329, words = "00000057 7fffc016 0080001e", stack = 1, but = { stack = 2 } },
        { name = "lt-a-above-stack", rule = 329, words = "00000058 7fffc016 0080001e", stack = 1, but = { stack = 2 } },
        { name = "le-a-above-stack", rule = 329, words = "00000059 7fffc016 0080001e", stack = 1, but = { stack = 2 } },
        { name = "test-b", rule = 308, words = "0100001a 7fffc016 0080001e", but = { stack = 3 } },
        { name = "eq-without-jmp", rule = 371, words = "00000017 00000000 0080001e", but = { words = "00000017 7fffc016 0080001e" } },
        { name = "lt-without-jmp", rule = 371, words = "00000018 00000000 0080001e", but = { words = "00000018 7fffc016 0080001e" } },
        { name = "le-without-jmp", rule = 371, words = "00000019 00000000 0080001e", but = { words = "00000019 7fffc016 0080001e" } },
        { name = "test-without-jmp", rule = 371, words = "0000001a 00000000 0080001e", but = { words = "0000001a 7fffc016 0080001e" } },
        {
            name = "test-before-newtable", rule = 371, words = "0000001a 8000000a 0080001e 00800002 0100001e", gives = "true",
            but = { words = "0000001a 80000016 0080001e 00800002 0100001e" },
        },
        { name = "testset-without-jmp", rule = 371, words = "0000001b 00000000 0080001e", but = { words = "0000001b 7fffc016 0080001e" } },
        { name = "tforloop-without-jmp", rule = 371, words = "00004021 00000000 0080001e", stack = 4, but = { words = "00004021 7fffc016 0080001e" } },
        { name = "eq-skips-off-the-end", rule = 370, words = "00000017 0080001e", but = { words = "00000017 7fffc016 0080001e" } },
        { name = "loadbool-skips-off-the-end", rule = 376, words = "00004002 0080001e", but = { words = "00004002 0080001e 0080001e" } },
        { name = "call-not-open", rule = 296, words = "0080001c 0080001e", but = { words = "0080001c 0000001e" } },
        { name = "call-before-move", rule = 430, words = "0080001c 00000000 0080001e", but = { words = "0080401c 00000000 0080001e" } },
        { name = "tailcall-not-open", rule = 296, words = "0080001d 0080001e", but = { words = "0080001d 0000001e" } },
        { name = "tailcall-c", rule = 433, words = "0081001d 0080001e", but = { stack = 3 } },
        { name = "vararg-not-open", rule = 467, words = "00000025 00000000 0080001e", but = { words = "00000025 0000001e" } },
        { name = "vararg-in-0", rule = 464, words = "00800025 0080001e", vararg = 0, but = { vararg = 2 } },
        { name = "vararg-in-1", rule = 464, words = "00800025 0080001e", vararg = 1, but = { vararg = 3 } },
        { name = "vararg-in-7", rule = 464, words = "00800025 0080001e", vararg = 7, but = { vararg = 3 } },
        { name = "concat-of-one", rule = 403, words = "00000015 0080001e", but = { words = "00004015 0080001e" } },
        { name = "tforloop-c-0", rule = 407, words = "00000021 7fffc016 0080001e", stack = 6, but = { words = "00004021 7fffc016 0080001e" } },
        { name = "getglobal-of-number", rule = 394, words = "00000005 0080001e", constants = { 0 }, but = { constants = { "x" } } },
        { name = "setglobal-of-number", rule = 394, words = "00000007 0080001e", constants = { 0 }, but = { constants = { "x" } } },
        { name = "binding-word-a", rule = 329, words = "00000024 00000080 0080001e", children = { CHILD }, but = { stack = 3 } },
        { name = "binding-word-c", rule = 306, words = "00000024 00004000 0080001e", children = { CHILD }, but = { words = "00000024 00000000 0080001e" } },
        { name = "stack-251", rule = 277, words = "0080001e", stack = 251, luad = "0 -1 3 251", but = { stack = 250 } },
        { name = "params-3", rule = 278, words = "0080001e", params = 3, vararg = 0, but = { params = 2 } },
        { name = "params-2-and-arg", rule = 278, words = "0080001e", params = 2, vararg = 3, but = { params = 1 } },
        { name = "vararg-4", rule = 279, words = "0080001e", vararg = 4, but = { vararg = 5 } },
        { name = "vararg-6", rule = 279, words = "0080001e", vararg = 6, but = { vararg = 7 } },
        { name = "no-words", rule = 283, words = "", but = { words = "0080001e" } },
        { name = "ends-in-move", rule = 283, words = "00000000", but = { words = "00000000 0080001e" } },
        { name = "ends-in-jmp", rule = 283, words = "7fff8016", but = { words = "7fff8016 0080001e" } },
        { name = "ends-in-tailcall", rule = 283, words = "0080001d", but = { words = "0080001d 0000001e" } },
        { name = "ends-in-binding-word", rule = 283, words = "00000024 00000000", children = { CHILD }, but = { words = "00000024 00000000 0080001e" } },
        { name = "ends-in-extra-word", rule = 446, words = "00800022 0080001e", but = { words = "00800022 00000001 0080001e" } },
    },

    -- Lua loads it; luad finds it Invalid
    only_luad = {
        { name = "eq-a-2", words = "00000097 7fffc016 0080001e", stack = 3, luad = "0 0 9 2" },
        { name = "lt-a-2", words = "00000098 7fffc016 0080001e", stack = 3, luad = "0 0 9 2" },
        { name = "le-a-2", words = "00000099 7fffc016 0080001e", stack = 3, luad = "0 0 9 2" },
        { name = "jmp-to-binding-word", words = "80000016 00000024 00000000 0080001e", children = { CHILD }, luad = "0 0 6 2" },
        { name = "forloop-to-binding-word", words = "8000001f 00000024 00000000 0080001e", stack = 4, children = { CHILD }, luad = "0 0 6 2" },
        { name = "forprep-to-binding-word", words = "80000020 00000024 00000000 0080001e", stack = 4, children = { CHILD }, luad = "0 0 6 2" },
        { name = "loadbool-to-binding-word", words = "00004002 00000024 00000000 0080001e", children = { CHILD }, luad = "0 0 6 2" },
        { name = "loadbool-2-to-extra-word", words = "00008002 00800022 00000001 0080001e", luad = "0 0 6 2" },
    },

    -- Lua refuses it too: one case for each code but 3 and 9
    both_refuse = {
        { name = "code-1", words = "00000024 00000000 0080001e", children = { { words = "0080001e", upvalues = 3, vararg = 0 } }, luad = "0 0 1 3 0 2 17 30" },
        { name = "code-2", words = "00800022", luad = "0 0 2 0" },
        { name = "code-4", words = "00000026 0080001e", luad = "0 0 4 38" },
        { name = "code-5", words = "80000016 0080001e", luad = "0 0 5 2" },
        { name = "code-6", words = "80000016 00800022 00000022 0080001e", luad = "0 0 6 2" },
        { name = "code-7", words = "00000001 0080001e", luad = "0 0 7 0" },
        { name = "code-8", words = "00000004 0080001e", luad = "0 0 8 0" },
        { name = "code-10", words = "00000080 0080001e", luad = "0 0 10 2" },
        { name = "code-11", words = "0000004b 0080001e", luad = "0 0 11 2" },
        { name = "code-12", words = "01000000 0080001e", luad = "0 0 12 2" },
        { name = "code-13", words = "00008015 0080001e", luad = "0 0 13 2" },
        { name = "code-14", words = "8000000c 0080001e", luad = "0 0 14 0" },
        { name = "code-15", words = "0040000c 0080001e", luad = "0 0 15 0" },
        { name = "code-16", words = "00000024 0080001e", luad = "0 0 16 0" },
        { name = "code-17", words = "00000024 00000001 0080001e", constants = { 0 }, children = { CHILD }, luad = "0 1 17 1" },
        { name = "code-8-at-binding-word", words = "00000024 00000004 0080001e", children = { CHILD }, luad = "0 1 8 0" },
        { name = "code-12-at-binding-word", words = "00000024 01000000 0080001e", children = { CHILD }, luad = "0 1 12 2" },
    },

    -- Lua loads it, and it gives these values when it is called; `f`: the only global there is, and the only argument
    executed = {
        { name = "loadbool-c-2-skips", words = "00008002 0080001e 0100001e", gives = "false" },
        { name = "loadbool-c-256-skips", words = "00400002 0080001e 0100001e", gives = "false" },
        { name = "eq-a-1-equal", words = "00000057 80000016 0080001e 00800002 0100001e", gives = "true" },
        { name = "eq-a-2-equal", words = "00000097 80000016 0080001e 00800002 0100001e", stack = 3, gives = "", luad = "0 0 9 2" },
        { name = "eq-a-2-unequal", words = "00800042 00004097 80000016 0080001e 00800002 0100001e", stack = 3, gives = "", luad = "0 1 9 2" },
        { name = "test-c-1-of-nil", words = "0000401a 80000016 0080001e 00800002 0100001e", gives = "" },
        { name = "test-c-2-of-nil", words = "0000801a 80000016 0080001e 00800002 0100001e", gives = "true" },
        { name = "test-c-2-of-true", words = "00800002 0000801a 80000016 0080001e 0100001e", gives = "true" },
        { name = "jmp-runs-binding-word", words = "00800042 80000016 00000024 00800000 0100001e", children = { CHILD }, gives = "true", luad = "0 1 6 3" },
        { name = "loadbool-runs-binding-word", words = "00800042 00004002 00000024 00800000 0100001e", children = { CHILD }, gives = "true", luad = "0 1 6 3" },
        { name = "loadbool-runs-extra-word", words = "00008002 00800022 00800002 0100001e", gives = "true", luad = "0 0 6 2" },
        { name = "tforloop-c-1-sets-more", words = "00000005 00800042 00004021 7fffc016 0100011e", constants = { "f" }, stack = 6, f = type, gives = "true" },
        { name = "tforloop-beyond-stack", words = "00000005 00004021 7fffc016 0080001e", constants = { "f" }, stack = 4, f = type, gives = "" },
        { name = "tailcall-of-c", words = TAILCALL, constants = { "f" }, stack = 3, f = type, gives = "{boolean}" },
        { name = "tailcall-of-lua", words = TAILCALL, constants = { "f" }, stack = 3, f = function(v) return type(v) end, gives = "boolean" },
        { name = "loadnil-b-below-a", words = "00800002 00800042 00000043 0180001e", gives = "nil true" },
        { name = "return-b-0", words = "0000001e", gives = "nil nil" },
        {
            name = "forloop-without-forprep", words = "00000040 00000080 000000c1 80000016 0100011e 7fff405f 0080001e", constants = { 0 }, stack = 5,
            params = 1, vararg = 0, f = TABLE, gives = tostring(ADDRESS),
        },
        { name = "jmp-past-extra-word", words = "80004016 00800022 00000022 0080001e", gives = "" },
    },

    -- Lua loads it; to call it is not safe
    loaded = {
        { name = "loadbool-2-off-the-end", words = "00008002 0080001e" },
        { name = "loadbool-256-off-the-end", words = "00400002 0080001e" },
    },
}
