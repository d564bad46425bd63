/* Reads words, a line each, and prints the lines that the program decode_words must print, by Lua 5.1's own lopcodes.h
 * and lopcodes.c. Lua's sources are not in this repository: LUA_SRC is the src directory of Lua 5.1.5, as in Debian's
 * source package lua5.1.
 *     cc -I"$LUA_SRC" -o lua_split tests/lua/lua_split.c "$LUA_SRC/lopcodes.c"
 *     ./lua_split <crates/decode_words/stdin | cmp - crates/decode_words/stdout
 * Two columns are luad's view and not in Lua's tables: a_reg (document 01: all but JMP, EQ, LT, LE), and b_reg of TEST,
 * whose B Lua's table calls a register although nothing reads it. */
#include <stdio.h>
#include "lopcodes.h"

static void print_opcode(OpCode op)
{
    static const char *const modes[] = {"iABC", "iABx", "iAsBx"};
    int abc = getOpMode(op) == iABC;
    int comparison = op == OP_EQ || op == OP_LT || op == OP_LE;
    printf("%s %s %d %d %d %d %d\n", luaP_opnames[op], modes[getOpMode(op)],
           !(op == OP_JMP || comparison),
           abc && getBMode(op) == OpArgR && op != OP_TEST, abc && getBMode(op) == OpArgK,
           abc && getCMode(op) == OpArgR, abc && getCMode(op) == OpArgK);
}

static void print_record(unsigned value)
{
    for (int i = 0; i < 4; i++)
        printf("%02x", value >> 8 * i & 0xff);
}

int main(void)
{
    unsigned word;
    puts("word opcode a b c bx sbx b_k b_index c_k c_index record name mode a_reg b_reg b_rk c_reg c_rk");
    while (scanf("%x", &word) == 1) {
        Instruction i = word;
        int b = GETARG_B(i), c = GETARG_C(i);
        printf("%08x %d %d %d %d %d %d %d %d %d %d ", word, GET_OPCODE(i), GETARG_A(i), b, c, GETARG_Bx(i), GETARG_sBx(i),
               ISK(b) != 0, INDEXK(b), ISK(c) != 0, INDEXK(c));
        print_record(GET_OPCODE(i));
        print_record(GETARG_A(i));
        print_record(GETARG_sBx(i));
        putchar(' ');
        if (GET_OPCODE(i) < NUM_OPCODES)
            print_opcode(GET_OPCODE(i));
        else
            puts("- - - - - - -");
    }
    return 0;
}
