#!/usr/bin/env python3
"""Writes the texts that `bench/run build` builds: texts.py FOLDER. mixed.plm has 20,000 tokens of all kinds of statements; the others are what a
hostile or a machine-made text may be: the most tokens in one statement, in mixed ones and in procedures, a mebibyte, and all levels of depth.
mixed.c has the statements of mixed.plm in C, for tcc."""

import random
import re
import sys

TOKEN = re.compile(r"[A-Za-z0-9$]+|<>|:=|[^\sA-Za-z0-9$]")
HEAD = """M: DO;
DECLARE (A, B, C, I, J) BYTE, (X, Y, Z) WORD, T(100) WORD, S(20) STRUCTURE (F BYTE, G WORD), P WORD, Q BASED P BYTE;
F: PROCEDURE (U, V) WORD; DECLARE (U, V) WORD; IF U > V THEN RETURN U - V; RETURN V - U; END F;
R: PROCEDURE; A = A + 1; END R;
K: PROCEDURE INTERRUPT 8; Z = Z + 1; OUTPUT(20H) = 20H; END K;"""
STATEMENTS = """A = B + C * 2;
X = (Y + 3) / 5 MOD 7;
T(I) = X + T(J) * 3;
S(J).G = F(X, Y + 1);
IF A > B AND C <> 0 THEN A = A - 1; ELSE DO; B = B + 1; C = 0; END;
DO I = 0 TO 10; T(I) = T(I) + 1; END;
DO WHILE X > Y; X = X - 1; END;
DO CASE A; X = 1; Y = 2; ; Z = 3; END;
OUTPUT(300H) = LOW(X) XOR A;
P = .A; Q = Q + 1;
X = SHL(Y, 3) OR SHR(Z, 2);
CALL R;""".split("\n")


HEAD_IN_C = """unsigned char A, B, C, I, J, *Q, PORT[65536]; unsigned short X, Y, Z, T[100]; struct { unsigned char F; unsigned short G; } S[20];
unsigned short F(unsigned short U, unsigned short V) { if (U > V) return U - V; return V - U; }
void R(void) { A = A + 1; }
void K(void) { Z = Z + 1; PORT[0x20] = 0x20; }
int main(void) {"""
STATEMENTS_IN_C = """A = B + C * 2;
X = (Y + 3) / 5 % 7;
T[I] = X + T[J] * 3;
S[J].G = F(X, Y + 1);
if (A > B && C != 0) A = A - 1; else { B = B + 1; C = 0; }
for (I = 0; I <= 10; I = I + 1) { T[I] = T[I] + 1; }
while (X > Y) { X = X - 1; }
switch (A) { case 0: X = 1; break; case 1: Y = 2; break; case 3: Z = 3; }
PORT[0x300] = (unsigned char)X ^ A;
Q = &A; *Q = *Q + 1;
X = Y << 3 | Z >> 2;
R();""".split("\n")


def drawn(tokens):
    """Yields the numbers of the statements of a module of about so many tokens, the same each time."""
    draw = random.Random(7)
    left = tokens - len(TOKEN.findall(HEAD)) - 3
    while left > 0:
        number = draw.randrange(len(STATEMENTS))
        yield number
        left -= len(TOKEN.findall(STATEMENTS[number]))


def mixed(tokens):
    """Returns a module of about so many tokens."""
    return "\n".join([HEAD, *(STATEMENTS[number] for number in drawn(tokens)), "END M;", ""])


def mixed_in_c(tokens):
    """Returns the same statements in C."""
    return "\n".join([HEAD_IN_C, *(STATEMENTS_IN_C[number] for number in drawn(tokens)), "}", ""])


TEXTS = {
    "mixed": mixed(20000),
    "longest": mixed(65000),
    "sum": "M: DO; DECLARE B BYTE; B = 1" + " + 1" * 32750 + "; END M;\n",
    "procedures": "M: DO;\n" + "".join(f"P{k}: PROCEDURE; END P{k};\n" for k in range(9300)) + "; END M;\n",
    "mebibyte": "M: DO;" + " " * 1048560 + "; END M;",
    "deep": "M: DO; DECLARE B BYTE; " + "DO; " * 60 + "B = " + "(" * 3 + "1" + ")" * 3 + "; " + "END; " * 60 + "END M;\n",
}

for name, text in TEXTS.items():
    with open(f"{sys.argv[1]}/{name}.plm", "w", encoding="ascii") as it:
        it.write(text)
with open(f"{sys.argv[1]}/mixed.c", "w", encoding="ascii") as it:
    it.write(mixed_in_c(20000))
