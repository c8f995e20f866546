"""Texts that a hostile hand or a machine may write: each family at its largest, as far as a mebibyte and 65,535 tokens reach.

`FAMILIES` has a maker for each name, and `DEEPEST` the texts that have all 64 levels and are accepted. tests/texts builds them all in a
small stack, and bench/run texts measures the slowest.
"""

from itertools import chain, cycle, islice
from random import Random

MEBIBYTE = 1 << 20
FAMILIES = {}


def family(maker):
    """Puts a maker of a text into the table."""
    FAMILIES[maker.__name__] = maker
    return maker


def main(body, declarations=""):
    """Returns a module with these declarations and statements."""
    return f"M: DO;{declarations}{body}END M;\n"


def most(piece, tokens):
    """Returns how many pieces of so many tokens a text holds."""
    return min(65400 // tokens, (MEBIBYTE - 4096) // len(piece))


def names(count, form="N{}"):
    """Returns so many names."""
    return [form.format(k) for k in range(count)]


@family
def labels():
    return main("L:" * most("L:", 2) + ";")


@family
def labels_long():
    return main(("L" * 31 + ":") * most("L" * 32, 2) + ";")


@family
def several_targets():
    return main(",".join(["B"] * 32000) + "=1;", "DECLARE B BYTE;")


@family
def targets_with_subscripts():
    return main(",".join(["A(1)"] * 13000) + "=1;", "DECLARE A(3) BYTE;")


@family
def else_if():
    return main("IF B THEN ; ELSE " * 61 + ";", "DECLARE B BYTE;")


@family
def many_ifs():
    return main("IF B THEN ; ELSE ;" * 9000, "DECLARE B BYTE;")


@family
def cases():
    return main("DO CASE B;" + ";" * 65000 + "END;", "DECLARE B BYTE;")


@family
def case_in_case():
    return main("DO CASE B;" * 60 + ";" * 500 + "END;" * 60, "DECLARE B BYTE;")


@family
def many_cases():
    return main("DO CASE B;;;END;" * 8000, "DECLARE B BYTE;")


@family
def many_blocks():
    return main("DO;END;" * 16000)


@family
def many_blocks_declare():
    return main("DO;DECLARE X BYTE;END;" * 8000)


@family
def parameters():
    ns = names(16000)
    return main("", f"P: PROCEDURE({','.join(ns)}) EXTERNAL; DECLARE ({','.join(ns)}) BYTE; END P;")


@family
def parameters_one_by_one():
    ns = names(10000)
    return main(";", f"P: PROCEDURE({','.join(ns)}); {''.join(f'DECLARE {n} BYTE;' for n in ns)} END P;")


@family
def arguments():
    ns = names(7000)
    return main(f"CALL P({','.join(['1'] * len(ns))});", f"P: PROCEDURE({','.join(ns)}); DECLARE ({','.join(ns)}) BYTE; END P;")


@family
def calls_without_arguments():
    ns = names(8000)
    return main("CALL P;" * 10900, f"P: PROCEDURE({','.join(ns)}); DECLARE ({','.join(ns)}) BYTE; END P;")


@family
def wrong_arguments():
    return main(f"CALL P({','.join(['1'] * 32000)});", "P: PROCEDURE; END P;")


@family
def variables():
    return main(";", f"DECLARE ({','.join(names(32000))}) BYTE;")


@family
def variables_used():
    ns = names(9000)
    return main("".join(f"{n}=1;" for n in ns), f"DECLARE ({','.join(ns)}) BYTE;")


@family
def variables_long():
    ns = names(14000, "A" * 26 + "{:05}")
    return main("".join(f"{n}=1;" for n in ns[:9000]), f"DECLARE ({','.join(ns)}) BYTE;")


@family
def variables_dollars():
    ns = names(3000, "A" + "$" * 60 + "{:05}")
    return main("".join(f"{n}=1;" for n in ns), f"DECLARE ({','.join(ns)}) BYTE;")


@family
def one_name_of_dollars():
    return main("A" + "$" * (MEBIBYTE - 200) + "B=1;", "DECLARE AB BYTE;")


@family
def few_names_of_dollars():
    return main("".join("A" + "$" * 30000 + "B=1;" for _ in range(30)), "DECLARE AB BYTE;")


@family
def members():
    return main(";", f"DECLARE S STRUCTURE({','.join(n + ' BYTE' for n in names(21000))});")


@family
def members_list():
    return main(";", f"DECLARE S STRUCTURE(({','.join(names(32000))}) BYTE);")


@family
def members_used():
    ns = names(7000)
    return main("".join(f"S.{n}=1;" for n in ns), f"DECLARE S STRUCTURE(({','.join(ns)}) BYTE);")


@family
def members_wrong():
    ns = names(7000)
    return main("".join(f"S.X{n}=1;" for n in ns), f"DECLARE S STRUCTURE(({','.join(ns)}) BYTE);")


@family
def structures():
    return main(";", "".join(f"DECLARE S{k} STRUCTURE(A BYTE, B WORD);" for k in range(5000)))


@family
def procedures():
    return main(";", "".join(f"P{k}:PROCEDURE;END P{k};" for k in range(9000)))


@family
def procedure_chain():
    return main("CALL P4999;", "P0:PROCEDURE;END;" + "".join(f"P{k}:PROCEDURE;CALL P{k - 1};END;" for k in range(1, 5000)))


@family
def procedures_called_all():
    return main("".join(f"CALL P{k};" for k in range(5000)), "".join(f"P{k}:PROCEDURE;END;" for k in range(5000)))


@family
def procedures_square():
    ps = names(180, "P{}")
    return main(";", "".join(f"{p}:PROCEDURE;{''.join(f'CALL {q};' for q in ps[:k])}END;" for k, p in enumerate(ps)))


@family
def procedures_recursive():
    return main(";", "".join(f"P{k}:PROCEDURE;CALL P{k};END;" for k in range(5000)))


@family
def procedures_one_cycle():
    return main(";", "P0:PROCEDURE EXTERNAL;END;" + "".join(f"P{k}:PROCEDURE;CALL P{k - 1};END;" for k in range(1, 5000)))


@family
def interrupts():
    return main(";", "".join(f"P{k}:PROCEDURE INTERRUPT {k};END;" for k in range(256)))


@family
def interrupts_past_all_vectors():
    return main(";", "".join(f"P{k}:PROCEDURE INTERRUPT {k};END;" for k in range(8000)))


@family
def interrupts_all_call():
    return main(";", "".join(f"Q{k}:PROCEDURE;{f'CALL Q{k - 1};' if k else ''}END;" for k in range(3000)) + "".join(f"P{k}:PROCEDURE INTERRUPT {k};CALL Q2999;END;" for k in range(256)))


@family
def typed_calls():
    return main("B=F(F(F(F(F(1)))));" * 3000, "DECLARE B BYTE; F:PROCEDURE(X) BYTE;DECLARE X BYTE;RETURN X;END;")


@family
def at_chain():
    return main(";", "DECLARE N0(100) BYTE;" + "".join(f"DECLARE N{k} BYTE AT(@N{k - 1});" for k in range(1, 6000)))


@family
def at_no_place():
    ns = names(16000)
    return main(";", f"DECLARE ({','.join(ns)}) BYTE AT(.X), Z BYTE;DECLARE " + ",".join(f"M{k} BYTE AT(.Z)" for k in range(4000)) + ";")


@family
def at_screen():
    return main(";", "".join(f"DECLARE N{k} BYTE AT(0B8000H);" for k in range(8000)))


@family
def based():
    return main("".join(f"N{k}=1;" for k in range(4000)), "DECLARE P WORD;" + "".join(f"DECLARE N{k} BASED P BYTE;" for k in range(4000)))


@family
def bases():
    return main(";", "".join(f"DECLARE (P{k}, N{k} BASED P{k}) WORD;" for k in range(5000)))


@family
def initial_numbers():
    return main(";", f"DECLARE A(32000) BYTE INITIAL({','.join(['1'] * 32000)});")


@family
def initial_string():
    return main(";", "DECLARE A(60000) BYTE INITIAL('" + "x" * 60000 + "');")


@family
def initial_strings():
    return main(";", "DECLARE A(60000) BYTE INITIAL(" + ",".join(["'0123456789'"] * 6000) + ");")


@family
def initial_over_names():
    ns = names(16384)
    return main(";", f"DECLARE ({','.join(ns)}) BYTE INITIAL('" + "x" * 16384 + "');")


@family
def initial_over_members():
    ns = names(16000)
    return main(";", f"DECLARE S STRUCTURE(({','.join(ns)}) BYTE) INITIAL({','.join(['1'] * len(ns))});")


@family
def initial_string_over_members():
    ns = names(30000)
    return main(";", f"DECLARE S(60000) STRUCTURE(({','.join(ns)}) BYTE) INITIAL('" + "x" * 800000 + "');")


@family
def initial_string_over_words():
    ns = ",".join(f"{n} BYTE, {n}W WORD" for n in names(10000))
    return main(";", f"DECLARE S(60000) STRUCTURE({ns}) INITIAL('" + "x" * 700000 + "');")


@family
def initial_locations():
    return main(";", f"DECLARE A(13000) WORD INITIAL({','.join(['.A'] * 13000)});")


@family
def constants():
    return main("".join("P=@(1);" for _ in range(9000)), "DECLARE P POINTER;")


@family
def constants_empty():
    return main("P=@('');" * 9000, "DECLARE P POINTER;")


@family
def constants_long():
    return main("P=@('" + "x" * 60000 + "');", "DECLARE P POINTER;")


@family
def constants_list():
    return main("P=@(" + ",".join(["1"] * 32000) + ");", "DECLARE P POINTER;")


@family
def sum_long():
    return main("B=1" + "+1" * 32000 + ";", "DECLARE B BYTE;")


@family
def sum_turned_integer():
    return main("I=1" + "+1" * 31990 + "+I;", "DECLARE I INTEGER;")


@family
def sums_turned_integer():
    return main(("B=1" + "+1" * 29 + "<I;") * 1000, "DECLARE I INTEGER, B BYTE;")


@family
def sum_names():
    return main("B=B" + "+B" * 32000 + ";", "DECLARE B BYTE;")


@family
def product_long():
    return main("W=1" + "*W" * 32000 + ";", "DECLARE W WORD;")


@family
def and_long():
    return main("W=1" + " AND W" * 32000 + ";", "DECLARE W WORD;")


@family
def or_and_mix():
    return main("W=1" + " AND W OR W" * 16000 + ";", "DECLARE W WORD;")


@family
def divisions():
    return main("W=W" + "/W MOD W" * 12000 + ";", "DECLARE W WORD;")


@family
def nots():
    return main("B=" + "NOT " * 62 + "B;", "DECLARE B BYTE;")


@family
def nots_many():
    return main(("B=" + "NOT " * 62 + "B;") * 900, "DECLARE B BYTE;")


@family
def parentheses_many():
    return main(("B=" + "(" * 62 + "B" + ")" * 62 + ";") * 500, "DECLARE B BYTE;")


@family
def deep_calls():
    return main(("B=" + "F(" * 62 + "B" + ")" * 62 + ";") * 300, "DECLARE B BYTE; F:PROCEDURE(X) BYTE;DECLARE X BYTE;RETURN X;END;")


@family
def deep_subscripts():
    return main(("B=" + "A(" * 62 + "B" + ")" * 62 + ";") * 300, "DECLARE A(3) BYTE, B BYTE;")


@family
def deep_embedded():
    return main(("B=" + "(B:=" * 62 + "B" + ")" * 62 + ";") * 250, "DECLARE B BYTE;")


@family
def deep_right():
    return main(("B=" + "B+(" * 62 + "B" + ")" * 62 + ";") * 250, "DECLARE B BYTE;")


@family
def deep_blocks():
    return main(("DO;" * 62 + "END;" * 62) * 250)


@family
def deep_whiles():
    return main(("DO WHILE B;" * 62 + "END;" * 62) * 200, "DECLARE B BYTE;")


@family
def deep_loops():
    return main(("DO B=1 TO 2;" * 62 + "END;" * 62) * 100, "DECLARE B BYTE;")


@family
def deep_ifs():
    return main(("IF B THEN " * 62 + ";") * 300, "DECLARE B BYTE;")


@family
def deep_if_else():
    return main(("IF B THEN " * 62 + ";" + "ELSE ;" * 62) * 150, "DECLARE B BYTE;")


@family
def deep_procedures():
    return main(";", "".join(f"P{k}:PROCEDURE;" for k in range(62)) + "END;" * 62)


@family
def deep_paths():
    ps = names(61, "A" * 29 + "{:02}")
    return main(";", "".join(f"{p}:PROCEDURE;" for p in ps) + f"DECLARE ({','.join(names(30000))}) BYTE;" + "END;" * 61)


@family
def deep_scopes():
    ns = names(7000)
    return main("DO;" * 61 + "".join(f"{n}=1;" for n in ns) + "END;" * 61, f"DECLARE ({','.join(ns)}) BYTE;")


@family
def deep_lists():
    return main("P=" + "@(" * 7100, "DECLARE P POINTER;")


@family
def deep_lists_closed():
    return main("P=" + "@(" * 7100 + "1" + ")" * 7100 + ";", "DECLARE P POINTER;")


@family
def deep_lists_initial():
    return main(";", "DECLARE P POINTER INITIAL(" + "@(" * 30000 + "1" + ")" * 30000 + ");")


@family
def open_parentheses():
    return main("B=" + "(" * 60000)


@family
def open_dos():
    return "M: DO;" + "DO;" * 30000


@family
def open_ifs():
    return "M: DO; DECLARE B BYTE;" + "IF B THEN " * 20000


@family
def open_procedures():
    return "M: DO;" + "P: PROCEDURE;" * 15000


@family
def blanks():
    return main(" " * (MEBIBYTE - 100) + ";")


@family
def lines():
    return main("\n" * (MEBIBYTE - 100) + ";")


@family
def comment():
    return main("/*" + "*" * (MEBIBYTE - 100) + "*/;")


@family
def comments():
    return main("/**/" * ((MEBIBYTE - 100) // 4) + ";")


@family
def open_comments():
    return main("/*" * ((MEBIBYTE - 100) // 2))


@family
def controls():
    return "$X\n" * ((MEBIBYTE - 100) // 3) + main(";")


@family
def apostrophes():
    return main("'" * (MEBIBYTE - 100))


@family
def quoted():
    return main("B='" + "''" * 500000 + "';", "DECLARE B BYTE;")


@family
def one_long_name():
    return main("A" * (MEBIBYTE - 100))


@family
def one_long_number():
    return main("B=" + "0" * (MEBIBYTE - 100) + "1;", "DECLARE B BYTE;")


@family
def numbers_dollars():
    return main("B=1" + "$" * (MEBIBYTE - 100) + ";", "DECLARE B BYTE;")


@family
def ends():
    return "\x1a" * (MEBIBYTE - 10)


@family
def publics():
    return main(";", f"DECLARE ({','.join(names(32000))}) BYTE PUBLIC;")


@family
def externals():
    return main(";", f"DECLARE ({','.join(names(32000))}) BYTE EXTERNAL;")


@family
def literals_one():
    return main("X;" * 30000, "DECLARE X LITERALLY '';")


@family
def literals_many():
    return main(";", "".join(f"DECLARE L{k} LITERALLY '';" for k in range(13000)))


@family
def literals_many_used():
    return main("".join(f"L{k};" for k in range(9000)), "".join(f"DECLARE L{k} LITERALLY '';" for k in range(9000)))


@family
def literals_beginning():
    ns = names(6000, "A" * 26 + "{:05}")
    return main("".join(f"{n};" for n in ns), "".join(f"DECLARE {n} LITERALLY '';" for n in ns))


@family
def literals_uses_empty():
    ns = names(14000)
    return main("".join(f"{n} " for n in ns) + ";", "".join(f"DECLARE {n} LITERALLY '';" for n in ns)[:MEBIBYTE // 2])


@family
def literals_dollars_blocks():
    x = "X" + "$" * 2000 + "Y"
    return main("DO; DECLARE Z LITERALLY ''; L END;" * 1500, f"DECLARE {x} LITERALLY '';DECLARE L LITERALLY '" + "XY Z " * 2000 + "';")


@family
def literals_beside_dollars():
    """68 KB: a name of many dollars, a literal that names it often, and blocks that declare it anew."""
    x = "X" + "$" * 1000 + "Y"
    return main("DO; DECLARE X LITERALLY ''; L END;" * 700, f"DECLARE {x} LITERALLY ''; DECLARE L LITERALLY '" + "X " * 20000 + "';")


@family
def literals_deep():
    t = "".join(f"DECLARE L{k} LITERALLY '{('L%d ' % (k - 1)) * 16 if k else ''}';" for k in range(8))
    return main("L7 " * 3000 + ";", t)


@family
def literals_redeclared_blocks():
    return main("DO;DECLARE E LITERALLY '';L END;" * 4000, "DECLARE L LITERALLY '" + "N " * 200000 + "';DECLARE N LITERALLY '';")


@family
def literals_nested_redeclared():
    return main("DO;DECLARE N LITERALLY '';L END;" * 4000, "DECLARE L LITERALLY '" + "N " * 200000 + "';")


@family
def literals_two_levels():
    return main("DO;DECLARE N LITERALLY '';K END;" * 4000, "DECLARE L LITERALLY '" + "N " * 100000 + "';DECLARE K LITERALLY '" + "L " * 100 + "';")


@family
def literals_many_inner():
    return main("DO;" + "".join(f"DECLARE N{k} LITERALLY '';" for k in range(4000)) + "L " * 10 + "END;", "DECLARE L LITERALLY '" + " ".join(names(4000)) + "';")


@family
def literals_alternating():
    return main("DO;DECLARE N LITERALLY '';L L L L L L L L END;" * 2500, "DECLARE L LITERALLY '" + "A B C D N " * 20000 + "';" + "".join(f"DECLARE {c} LITERALLY '';" for c in "ABCD"))


# ---- literals whose texts rest on names that each block declares anew

KEPT = set("AND AT BY DO END GO IF MOD NOT OR TO XOR".split()) | {"E", "M", "N", "T", "X", "NN"}


def short(count):
    """Returns so many names, as short as they can be."""
    letters = "ABCDEFGHIJKLMNOPQRSTUVWXYZ"
    more = letters + "0123456789"
    every = chain(letters, (a + b for a in letters for b in more), (a + b + c for a in letters for b in more for c in more))
    return list(islice((name for name in every if name not in KEPT), count))


def literal(name, text=""):
    """Returns the declaration of a literal, five tokens."""
    return f"DECLARE {name} LITERALLY '{text}';"


def of(names, texts):
    """Returns the declarations of literals with these texts in turn."""
    return "".join(literal(name, text) for name, text in zip(names, cycle(texts)))


def declared_anew(count, declarations, block, tokens):
    """Returns a module with so many literals and as many blocks of so many tokens behind them as there may be: `block` has the text of each by its number."""
    blocks = min((65400 - 5 * count) // tokens, (MEBIBYTE - 8192 - len(declarations)) // len(block(0)))
    return main("".join(f"DO;{block(k)}END;" for k in range(blocks)), declarations)


def one_name(names, text, block, tokens, more=""):
    """Returns a module with literals that stand for N, a text of them, and blocks that declare N anew."""
    return declared_anew(len(names) + 1, more + of(names, ["N"]) + literal("T", text), block, tokens)


def turned(names, count, step):
    """Returns so many texts of the same names, each turned round further."""
    return [" ".join(names[k:] + names[:k]) for k in (j * step % len(names) for j in range(count))]


@family
def literals_of_one_name():
    """Many literals stand for one name, a text names them all, and each block declares that name anew."""
    ns = short(6500)
    return one_name(ns, " ".join(ns), lambda k: literal("N") + "T ", 9)


@family
def literals_of_one_name_in_ten_texts():
    ns, ts = short(4000), names(10, "T{}Q")
    return declared_anew(4010, of(ns, ["N"]) + of(ts, [" ".join(ns)]), lambda k: literal("N") + " ".join(ts) + " ", 9)


@family
def literals_behind_another():
    """Another literal of a new name stands before it in each block."""
    ns = short(6000)
    return one_name(ns, " ".join(ns), lambda k: literal(f"Z{k}Q") + literal("N") + "T ", 14)


@family
def literals_of_other_texts():
    """Its text is another from block to block."""
    ns = short(6500)
    return one_name(ns, " ".join(ns), lambda k: literal("N", ["", "E", "E E"][k % 3]) + "T ", 9, literal("E"))


@family
def literals_of_two_names():
    ns = short(6000)
    return declared_anew(6001, of(ns, ["N", "NN"]) + literal("T", " ".join(ns)), lambda k: literal("N") + literal("NN") + "T ", 14)


@family
def literals_of_sets_of_names():
    """Twelve names a block, and a literal for each set of them."""
    vs, ns = names(12, "Z{}Q"), short(4095)
    sets = [" ".join(v for j, v in enumerate(vs) if k >> j & 1) for k in range(1, 4096)]
    return declared_anew(4096, of(ns, sets) + literal("T", " ".join(ns)), lambda k: of(vs, [""]) + "T ", 64)


@family
def literals_of_literals():
    """Each literal stands for another, and that for a third, which stands for the name."""
    ns = short(6000)
    declarations = of(ns[:2000], ["N"]) + of(ns[2000:], ns) + literal("T", " ".join(ns[4000:]))
    return declared_anew(6001, declarations, lambda k: literal("N") + "T ", 9)


@family
def literals_behind_their_text():
    ns = short(6500)
    return declared_anew(6501, literal("T", " ".join(ns)) + of(ns, ["N"]), lambda k: literal("N") + "T ", 9)


@family
def literals_at_three_levels():
    ns = short(6500)
    blocks = declared_anew(6501, "DO;" + of(ns, ["N"]), lambda k: literal("N") + "T ", 9)
    return blocks.replace("M: DO;", "M: DO;" + literal("T", " ".join(ns)), 1).replace("END M;", "END;END M;")


@family
def literals_in_texts_of_texts():
    ns, ts = short(450), names(530, "T{}Q")
    declarations = of(ns, ["N"]) + of(ts, turned(ns, 530, 7)) + literal("T", " ".join(ts))
    return declared_anew(981, declarations, lambda k: literal("N") + "T ", 9)


@family
def literals_in_long_texts_of_texts():
    ns, ts = short(3000), names(70, "T{}Q")
    declarations = of(ns, ["N"]) + of(ts, turned(ns, 70, 37)) + literal("T", " ".join(ts))
    return declared_anew(3071, declarations, lambda k: literal("N") + "T ", 9)


@family
def literals_around_tokens():
    """A token comes out before them, between them and behind them."""
    ns = short(5500)
    return one_name(ns, f"; {' '.join(ns[:2000])} ; {' '.join(ns)} ;", lambda k: literal("N") + "T ", 12)


@family
def literals_before_a_token():
    """Names that stay, one token behind them, and this text as often as it may be named."""
    ns = short(6000)
    declarations = of(ns, [""]) + literal("T", " ".join([" ".join(ns)] * 37) + " ;")
    return main("T " * 20000, declarations)


@family
def literals_in_a_chain():
    """Seven texts of 255 names that stay, each with the next behind them, and a token at the end."""
    ns = names(255, "E{}")
    texts = [" ".join(ns + [last]) for last in [";"] + names(6, "T{}")]
    return main("T6 " * 63000, of(ns, [""]) + of(names(7, "T{}"), texts))


@family
def literals_near_the_limit():
    """How deep the name's own text is differs from block to block."""
    ns, es = short(6000), names(5, "E{}Q")
    return one_name(ns, " ".join(ns), lambda k: literal("N", ["E4Q", "", "E2Q"][k % 3]) + "T ", 9, of(es, [""] + es))


@family
def literals_in_inner_blocks():
    """Some of the names stay from one block to the next, others do not."""
    ns = short(5000)
    inner = f"DO;{literal('NN')}T END;"
    return declared_anew(5001, of(ns, ["N", "NN"]) + literal("T", " ".join(ns)), lambda k: literal("N") + inner + inner, 27)


@family
def literals_spread_over_words():
    """Names that stand beside each other in the text are declared far from each other."""
    ns = short(6000)
    spread = sorted(ns, key=lambda n: ns.index(n) % 64)
    return one_name(ns, " ".join(spread * 32), lambda k: literal("N") + "T ", 9)


@family
def literals_in_many_texts():
    """Many texts of sixty names each, drawn from all over, and a text that names them all."""
    ns, ts, draw = short(4000), names(3000, "T{}Q"), Random(1)
    texts = [" ".join(draw.sample(ns, 60)) for _ in ts]
    declarations = of(ns, ["N"]) + of(ts, texts) + literal("T", " ".join(ts))
    return declared_anew(7001, declarations, lambda k: literal("N") + "T ", 9)


@family
def literals_of_many_names():
    vs, ns = names(65, "Z{}Q"), short(6000)
    return declared_anew(6001, of(ns, vs) + literal("T", " ".join([" ".join(ns)] * 30)), lambda k: of(vs, [""]) + "T ", 329)


@family
def literals_of_very_many_names():
    vs, ns = names(300, "Z{}Q"), short(3000)
    return declared_anew(3001, of(ns, vs) + literal("T", " ".join([" ".join(ns)] * 60)), lambda k: of(vs, [""]) + "T ", 1504)


@family
def literals_at_two_depths():
    """A name that is deep where a text is named itself, and not where it is named by a chain of names."""
    ns, es = short(3000), names(6, "E{}Q")
    long = literal("T", " ".join((ns * 60)[:180000]))
    chain_of_names = of(["Q1Q", "Q2Q", "Q3Q"], ["Q2Q", "Q3Q", "T"])
    return declared_anew(3010, of(es, [""] + es) + of(ns, ["N"]) + long + chain_of_names, lambda k: literal("N", ["E3Q", ""][k % 2]) + ["T ", "Q1Q "][k % 2], 9)


@family
def literals_of_fresh_names():
    """Each block declares 33 names that no other does, names them by a text, and then a long text of names that stay."""
    ns = short(300)

    def block(k):
        zs = [f"Z{k}Q{j}" for j in range(33)]
        return of(zs, [""]) + literal("Y", " ".join(zs)) + "Y T "

    return declared_anew(301, of(ns, [""]) + literal("T", " ".join(ns * 500)), block, 174)


@family
def literals_in_nested_blocks():
    """Six hundred blocks in each other, each with a literal and a text of it, and a long text named at the end of each."""
    ns = short(300)
    nest = "".join(f"DO;{literal(f'Z{k}Q')}{literal(f'Y{k}Q', f'Z{k}Q')}Y{k}Q " for k in range(600)) + "T END;" * 600
    return main(nest * 6, of(ns, [""]) + literal("T", " ".join(ns * 500)))


@family
def literals_now_and_then():
    """A name after each 500 others of a text: a literal in every second block, a token that comes out in the others."""
    ns = short(3000)
    many = (ns * 67)[:200000]
    text = " ".join(chain.from_iterable([*many[k:k + 500], "N"] for k in range(0, len(many), 500)))
    return declared_anew(3001, of(ns, [""]) + literal("T", text), lambda k: literal(["Q", "N"][k % 2]) + "T ", 9)


@family
def literals_inside_a_block():
    """A long text of a name that each block around it declares anew is itself declared in a block."""
    return main("DO;" + literal("T", "N " * 200000) + ("DO;" + literal("N") + "T END;") * 4500 + "END;")


@family
def literals_text_long():
    return main("L ", "DECLARE L LITERALLY ';" + " " * (MEBIBYTE - 200) + "';")


@family
def literals_too_many():
    return main("L " * 60, "DECLARE L LITERALLY '" + ";" * 2000 + "';")


@family
def literals_expand():
    return main("L0 ", "".join(f"DECLARE L{k} LITERALLY '{('L%d ' % (k + 1)) * 4 if k < 7 else ';'}';" for k in range(7, -1, -1)))


# ---- one opening, or one part, again and again for a mebibyte

DECLARED = "M: DO; DECLARE (A, B, C) WORD, P POINTER, R (10) WORD, S STRUCTURE (U WORD, V (4) BYTE); "
OPENINGS = """(
@(
.(
@(1, .(
@(-1, 'A', @(
@R(
.R(@(
R(
S.V(
P(A, B(
(A :=
(R(1) :=
NOT
NOT (
-
-(
+ (A *
LENGTH(@(
OUTPUT(
CALL P(
L:
A,
DO;
DO WHILE A;
DO CASE A;
DO A = 1 TO 2 BY (
IF A THEN
IF A THEN ; ELSE
L: IF (A := 1) THEN DO;
P: PROCEDURE;
P: PROCEDURE (A, B); DECLARE (A, B) BYTE;
DECLARE (
DECLARE X STRUCTURE (
DECLARE X POINTER INITIAL (@(
DECLARE X POINTER DATA (.(
DECLARE X BYTE AT (@(
DECLARE X LITERALLY 'X X';
END
/*
'
M: DO;""".split("\n")
LISTS = ["A = LENGTH(", "DECLARE X POINTER INITIAL (", "DECLARE X POINTER DATA (", "DECLARE X BYTE AT ("]


def again(front, part):
    """Returns a maker of a text of a mebibyte: a part again and again, behind what stands in front."""
    return lambda: (DECLARED + front + f"{part} " * MEBIBYTE)[:MEBIBYTE]


FAMILIES.update({f"A = {it} ..": again("A = ", it) for it in OPENINGS})
FAMILIES.update({f"{it} ..": again("", it) for it in OPENINGS})
FAMILIES.update({f"{it} @( ..": again(it, "@(") for it in LISTS})

# ---- 64 levels, which are all that there may be: these texts are accepted

NESTED = ["(", "R(", "S.V(", "(A := ", "(A := 1 OR A AND A = A + A * ", "R(1 OR A AND A = A + A * "]
GROUPS = ["DO; ", "DO WHILE A; ", "DO CASE A; ", "DO A = 1 TO 2 BY 3; "]
ARMS = ["IF A THEN ", "IF A THEN ; ELSE "]
DEEPEST = {
    **{f"63 times {it}": f"{DECLARED}A = {it * 63}1{')' * 63}; END M;" for it in NESTED},
    **{f"63 times {it}": f"{DECLARED}{it * 63};{' END;' * 63} END M;" for it in GROUPS},
    **{f"63 times {it}": f"{DECLARED}{it * 63}; END M;" for it in ARMS},
}
