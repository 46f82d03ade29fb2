"""Input texts and printed bases: ours, and those of Singular (Letterplace), Macaulay2 (AssociativeAlgebras) and
Bergman. Relations are read into numbers and written again, so that each program gets the same letters, weights and
order of words: by degree, then from the left, the letter that is declared first the greatest."""
import re
import shutil
import subprocess


class Refused(Exception):
    """What cannot be read or said, in words."""


class Algebra:
    """Letters with their weights, and relations: each a map from words, as tuples of letters, to residues."""

    def __init__(self, names, weights, relations, modulus):
        self.names, self.weights, self.relations, self.modulus = names, weights, relations, modulus

    def degree(self, relation):
        return sum(self.weights[letter] for letter in next(iter(relation)))

    def monic(self, relation):
        """The multiple with leading coefficient 1; of words of one degree the greatest has the least letters."""
        inverse = pow(relation[min(relation)], -1, self.modulus)
        return {word: a * inverse % self.modulus for word, a in relation.items()}

    def with_relations(self, relations):
        return Algebra(self.names, self.weights, relations, self.modulus)

    def numbered(self):
        """The same with the letters x1, x2, .., for a program that has other plans with their names."""
        names = [f"x{k + 1}" for k in range(len(self.names))]
        return Algebra(names, self.weights, self.relations, self.modulus)


TOKEN = re.compile(r"\s*(?:([A-Za-z][A-Za-z0-9_]*)|([0-9]+)|([-+*^,;:]))")


def tokens(text):
    text, at, found = re.sub(r"%[^\n]*", "", text).rstrip(), 0, []
    while at < len(text):
        match = TOKEN.match(text, at)
        if not match:
            raise Refused(f"no token: {text[at:at + 20]!r}")
        found.append(match[0].strip())
        at = match.end()
    return found


def pieces(found, mark):
    """The tokens between the marks."""
    parts = [[]]
    for token in found:
        if token == mark:
            parts.append([])
        else:
            parts[-1].append(token)
    return parts


def relation_of(found, letters, modulus):
    """The sum of the terms, without those that are 0."""
    terms, sign, at = {}, 1, 0
    while at < len(found):
        if found[at] in "+-":
            sign, at = (1 if found[at] == "+" else -1), at + 1
        coefficient, word = sign, ()
        while True:
            factor, at = found[at], at + 1
            if factor.isdigit():
                coefficient *= int(factor)
            elif factor not in letters:
                raise Refused(f"no letter: {factor}")
            else:
                count = 1
                if at < len(found) and found[at] == "^":
                    count, at = int(found[at + 1]), at + 2
                word += (letters[factor],) * count
            if at == len(found) or found[at] != "*":
                break
            at += 1
        terms[word] = (terms.get(word, 0) + coefficient) % modulus
    return {word: a for word, a in terms.items() if a}


def read(text, modulus):
    """The algebra of an input text of ours. Its faults are for bergman to tell: here they end in some exception."""
    parts = pieces(tokens(text), ";")
    if len(parts) != 3 or parts[2] or parts[0][:1] != ["vars"]:
        raise Refused("this is no text of the form vars LETTERS; RELATIONS;")
    items = pieces(parts[0][1:], ",")
    names, weights = [item[0] for item in items], [int(item[2]) if len(item) > 1 else 1 for item in items]
    letters = {name: letter for letter, name in enumerate(names)}
    relations = [relation_of(part, letters, modulus) for part in pieces(parts[1], ",") if part]
    return Algebra(names, weights, [relation for relation in relations if relation], modulus)


def printed_part(text):
    """The part with the basis: Bergman talks before and after it, Macaulay2 before it, and ours has the series behind."""
    if "input> " in text:
        text = text.partition("input> ")[2].partition("Done")[0]
    return text.replace("Using numthreads = 0\n", "").partition("% series\n")[0]


def printed_basis(algebra, text, bound):
    """The elements up to the bound that a program printed, ours or another one, each made monic."""
    letters = {name: letter for letter, name in enumerate(algebra.names)}
    lines = [line for line in printed_part(text).splitlines() if line.strip()[:1] not in ("", "%", "#")]
    found = [tokens(part) for line in lines for part in line.split(",") if part.strip()]
    basis = [algebra.monic(relation_of(part, letters, algebra.modulus)) for part in found]
    return [element for element in basis if algebra.degree(element) <= bound]


def as_set(basis):
    return {frozenset(element.items()) for element in basis}


def said(algebra, relation):
    """A relation as each of the programs reads it: falling words, balanced coefficients, no powers."""
    text = ""
    for word, a in sorted(relation.items()):
        balanced = a if 2 * a <= algebra.modulus else a - algebra.modulus
        factors = [str(abs(balanced))] * (abs(balanced) != 1 or not word) + [algebra.names[letter] for letter in word]
        text += ("-" if balanced < 0 else "+" if text else "") + "*".join(factors)
    return text


def ours(algebra):
    """An input text of ours."""
    letters = [name if weight == 1 else f"{name}:{weight}" for name, weight in zip(algebra.names, algebra.weights)]
    relations = ",\n".join(said(algebra, relation) for relation in algebra.relations)
    return f"vars {', '.join(letters)};\n{relations};\n"


def ideal_of(algebra):
    if not algebra.relations:
        raise Refused("without a relation there is nothing to ask another program")
    return ",\n  ".join(said(algebra, relation) for relation in algebra.relations)


def singular(algebra, bound):
    """Dp and Wp are by degree and then from the left, the first letter the greatest; words have at most `bound` letters."""
    weights = ",".join(map(str, algebra.weights))
    order = "Dp" if max(algebra.weights) == 1 else f"Wp({weights})"
    return f"""LIB "freegb.lib";
ring lettersRing = {algebra.modulus}, ({",".join(algebra.names)}), {order};
ring wordsRing = freeAlgebra(lettersRing, {bound});
option(redSB); option(redTail);
ideal givenIdeal = {ideal_of(algebra)};
ideal foundBasis = twostd(givenIdeal);
int placeOf; for (placeOf = 1; placeOf <= ncols(foundBasis); placeOf++) {{ string(foundBasis[placeOf]); }}
quit;
"""


def macaulay2(algebra, bound, strategy="F4"):
    """The first letter is the greatest. Where letters have weights, the order goes on by length, which ours does not.
    The strategies are F4, which is by linear algebra, and Naive."""
    if max(algebra.weights) > 1:
        raise Refused("Macaulay2 has no order of words with weights that is ours")
    return f"""needsPackage "AssociativeAlgebras";
wordsRing = (ZZ/{algebra.modulus})<|{",".join(algebra.names)}|>;
givenIdeal = ideal({ideal_of(algebra)});
scan(flatten entries NCGB(givenIdeal, {bound}, Strategy => "{strategy}"), f -> print toString f);
"""


def bergman(algebra, bound):
    """The greatest letter is the last one named."""
    weights = " ".join(map(str, reversed(algebra.weights)))
    return f"""(noncommify)
(setmodulus {algebra.modulus})
(setmaxdeg {bound})
(setweights {weights})
(simple)
vars {",".join(reversed(algebra.names))};
{ideal_of(algebra)};
(quit)
"""


def macaulay2_naive(algebra, bound):
    return macaulay2(algebra, bound, "Naive")


# Each program with the words of its command, and what it is told. Debian's bergman is a script that does not say so.
PROGRAMS = {
    "Singular": (["Singular", "-q", "--no-rc"], singular),
    "M2": (["M2", "--script", "/dev/stdin"], macaulay2),
    "M2-naive": (["M2", "--script", "/dev/stdin"], macaulay2_naive),
    "bergman": (["sh", "-c", "bergman"], bergman),
}


def installed():
    return [name for name in PROGRAMS if shutil.which(name.removesuffix("-naive"))]


def basis_by(name, algebra, bound, seconds=600):
    """The basis that another program finds up to the bound."""
    words, script = PROGRAMS[name]
    ran = subprocess.run(words, input=script(algebra, bound), capture_output=True, text=True, timeout=seconds)
    return printed_basis(algebra, ran.stdout, bound)
