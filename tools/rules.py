"""The derivation rules as docs/FORMATS.md has them, and which condition of a row fails.

A row has its steps in order. The first is the statement, `K1 s P U` what a premise says, and
`P p E A` what the line of a set or an action set is. A capital stands for a line: the first time
that it comes it is read off, and after that it has to be the same line.
"""
import formats

ROWS = {row.split(":")[0].encode(): [step.split() for step in row.split(":")[1].split(";")]
        for row in """
ed: d E; E c e
ud: d E; E u X Y; K1 d X; K2 d Y
sd: d E; K1 s E X; K2 d X
pg: d E; K1 s P U; P p E A; A a; U u E X; K2 d X; K3 d N; N i E G; G c g
pi: d E; E n S; K1 s P U; P p S A; A a; U u S X; K2 d X; K3 s C S; C c i
rg: d E; E n S; K1 s R U; R r S A; A a; U u S X; K2 d X; K3 d N; N i E G; G c g
ri: d E; K1 s R U; R r E A; A a; U u E X; K2 d X; K3 s C N; C c i; N n E
ci: u; K1 d C; C c i
cg: u; K1 d G; G c g
ur: s E F; F u E X
ul: s E F; F u X E
ir: s E F; E i F X
il: s E F; E i X F
di: s E F; E i U W; U u X Y; F u P Q; P i X W; Q i Y W
su: s E F; E u X Y; K1 s X F; K2 s Y F
si: s E F; F i X Y; K1 s E X; K2 s E Y
st: s E F; K1 s E X; K2 s X F
at: s E F; E p S B; K1 s P F; P p S A; K2 a B A
au: s E F; E p S U; U u A B; K1 s P F; P p S A; K2 s Q F; Q p S B
pt: s E F; E p X A; K1 s P F; P p S A; K2 s X S
pu: s E F; E p U A; U u X Y; K1 s P F; P p X A; K2 s Q F; Q p Y A
pr: s E F; E r M A; M n X; F n S; K1 s P X; P p S A
rp: s E F; E p S A; K1 s R N; R r M A; M n F; N n S
""".strip().split("\n")}


class Row:
    """A row while it is held against a line: what its capitals stand for so far."""

    def __init__(self, proof, line):
        """The proof has the lines before this one, a `k` line whose word is a rule."""
        self.proof, self.known = proof, {}
        _, _, parts = formats.parts_of(line)
        self.kind, self.word = [part for part in parts if isinstance(part, bytes)]
        self.premises = [part[1] for part in parts if part[0] == formats.STATEMENT]
        self.sides = [part for part in parts if is_side(part)]

    def failed(self):
        """What the first condition wants that isn't so, in words, or nothing where the rule
        fits."""
        for step in ROWS[self.word]:
            wrong = self.failed_step(step)
            if wrong is not None:
                return wrong
        return None

    def failed_step(self, step):
        name, wanted = step[0], [word.encode() for word in step[1:]]
        if name in ("s", "d", "u"):
            return self.differs([name.encode()] + wanted, [self.kind] + self.sides, "the statement")
        if name[0] == "K" and len(name) == 2:
            number = self.premises[int(name[1]) - 1]
            what = "premise %s, which is k %d," % (name[1], number)
            return self.differs(wanted, self.statement(number), what, ("say", "says"))
        letter, number = self.known[name]
        what = "%s, which is %s %d," % (name, letter.decode(), number)
        return self.differs(wanted, self.line(letter, number), what)

    def statement(self, number):
        """What a `k` line says: its kind and its sides."""
        fields = self.proof.head(formats.STATEMENT, number)
        parts = formats.statement_parts(fields[0], fields[1:])
        return parts[:1] + [part for part in parts[1:] if is_side(part)]

    def line(self, letter, number):
        """What a line is: of one that isn't made of others its letter alone, but for a constant."""
        fields = self.proof.head(letter, number)
        refers = formats.MADE.get(fields[0], b"") if letter == formats.SET else b""
        if letter == formats.ACTION and fields[0] == b"u":
            refers = formats.ACTION * 2
        if refers:
            return [fields[0]] + list(zip(formats.letters_of(refers), map(int, fields[1:])))
        return fields[:2] if fields[0] == b"c" else fields[:1]

    def differs(self, wanted, got, what, verbs=("be", "is")):
        """Binds the capitals, or says what is wanted and what is there."""
        before, fits = dict(self.known), len(wanted) == len(got)
        for want, have in zip(wanted, got):
            if isinstance(have, bytes) or not want.isupper():
                fits = fits and want == have
            elif fits:
                fits = self.known.setdefault(want.decode(), have) == have
        if fits:
            return None
        named = [before.get(word.decode(), word) for word in wanted]
        wanted = "%s has to %s `%s`" % (what, verbs[0], plain(named))
        return "%s, and %s `%s`" % (wanted, verbs[1], plain(got))


def is_side(part):
    return isinstance(part, tuple) and part[0] != formats.STATEMENT


def plain(parts):
    """Parts as they are spelled."""
    return " ".join(str(part[1]) if isinstance(part, tuple) else part.decode() for part in parts)
