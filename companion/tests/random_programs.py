"""Random programs with scripts of random steps, for the comparison of runs.

A program is made so that most of its runs meet no fault: a scalar is read where it has a value, subscripts stay within
their arrays, and numbers stay small. What is PRIVATE, what is read in the header of a loop, and which names there are
is left to chance, names of functions and of statements among them.
"""

from __future__ import annotations

from contextlib import contextmanager
from random import Random
from typing import Iterator, List, NamedTuple, Sequence, Set

_FUNCTIONS = ["MAX", "MIN", "MOD", "ABS"]
_ODD_SCALARS = [
    "K0", "K1", "K2", "KX1", "IS1", "DO", "END", "PRINT", "PARAMETERN", "PARAMETERI", "CONCURRENTI", "USE", "THEN",
    "WHILE",
    "LEN", "INDEX", "DO10I", "STOP", "CALLIT", "INTEGERX", "NUMBEROFTHEELEMENTSOFTHETABLE12", "CONTINUE", "MAIN",
]
_ODD_ARRAYS = ["IF", "DATA", "FORMAT", "KX2", "WHERE", "PARAMETER", "REAL", "FUNCTIONF",
"TABLEOFALLTHENUMBERSTHATCOUNT12"]
_SCALARS = ["I", "J", "K", "L", "M", "N", "KT", "IT", "NT", "LAST", "S", "T", "X"]
_ARRAYS = ["A", "B", "C", "D", "IA", "LB"]
_COMMENTS = [
    "C", "C PLAIN", "C$    K = 7+", "C$OMP PARALLEL DO", "c$omp barrier", "CGCC$ IVDEP", "*$OMP CRITICAL", "C$ACC LOOP",
    "CDIR$ IVDEP", "CDEC$ ATTRIBUTES NONE :: A", "*VOCL LOOP,NOVREC", "C*$* ASSERT", "C$    ", "C-----",
    "C\r$OMP FLUSH",
    "C\0$OMP FLUSH", "CGCC$ UNROLL 4", "C!$OMP SINGLE",
]
#: Each dimension of an array goes from -4 to 12, and each variable of a loop from -1 to 8.
_LOWER, _UPPER = -4, 12
_LEAST, _GREATEST = -1, 8


class Sample(NamedTuple):
    """A program, a script for a session on it, and data for its runs."""

    program: str
    script: str
    data: str


def sample(seed: str) -> Sample:
    """The sample of a seed."""
    return _Maker(Random(seed)).sample()


class _Maker:
    """Makes one sample."""

    def __init__(self, random: Random) -> None:
        self._random = random
        self._lines: List[str] = []
        self._depth = 0
        #: The variables of the open loops, and whether one of these is a PARALLEL DO.
        self._loops: List[str] = []
        self._is_parallel = False
        #: Where the loops are meant to be free: the outermost variable, the arrays that are written at it alone, and
        #: the scalars that are private.
        self._owner = ""
        self._written: List[str] = []
        self._private: List[str] = []
        self._defined: Set[str] = set()
        self._choose_names()

    def sample(self) -> Sample:
        random = self._random
        self._declare()
        self._begin()
        for _ in range(random.randint(2, 5)):
            self._part()
        if self._lines_of_subroutines:
            self._call()
        self._put("PRINT *, " + ", ".join([*self._items(), "'''!$OMP'"]))
        self._put("END")
        self._lines.extend(self._lines_of_subroutines)
        data = "".join(f"{random.randint(-9, 9)}\n" for _ in range(60))
        return Sample("".join(line + "\n" for line in self._lines), "".join(one + "\n" for one in self._steps()), data)

    # Names and declarations

    def _choose_names(self) -> None:
        random = self._random
        odd = random.sample(_ODD_SCALARS, 4) + random.sample(_FUNCTIONS, 2) if random.random() < 0.6 else []
        names = [*random.sample(_SCALARS, 9), *odd]
        random.shuffle(names)
        arrays = random.sample(_ARRAYS, 3) + (random.sample(_ODD_ARRAYS, 1) if random.random() < 0.5 else [])
        self._dimensions = {name: random.choice([1, 1, 2]) for name in arrays}
        self._permutation = random.choice(["IP", "LP"])
        self._constants = {names.pop(): random.randint(1, 5) for _ in range(random.randint(0, 2))}
        self._variables = [names.pop() for _ in range(4)]
        self._scalars = names
        self._lines_of_subroutines = self._subroutine() if random.random() < 0.25 else []
        self._program_name = random.choice([None, "P", "MAIN", *_FUNCTIONS, *self._constants])
        everything = {*arrays, *self._constants, *self._variables, *self._scalars}
        if self._program_name in everything.difference(self._constants):
            self._program_name = None

    def _declare(self) -> None:
        random = self._random
        if self._program_name is not None:
            self._put(f"PROGRAM {self._program_name}")
        implicit = random.random() < 0.3
        if implicit:
            self._put("IMPLICIT INTEGER (A-Z)")
        typed = [name for name in (*self._constants, *self._variables, *self._scalars) if not "I" <= name[0] <= "N"]
        declarations = [f"INTEGER {name}" for name in typed if not implicit]
        values = [f"PARAMETER ({name}={self._constant(value)})" for name, value in self._constants.items()]
        bounds = {1: "(-4:12)", 2: "(-4:12,-4:12)"}
        declarations += [f"INTEGER {name}{bounds[count]}" for name, count in self._dimensions.items()]
        declarations.append(f"DIMENSION {self._permutation}(-4:12)")
        declarations += values
        saved = [name for name in self._dimensions if random.random() < 0.8]
        saved += random.sample([*self._scalars, *self._variables], random.randint(1, 4))
        random.shuffle(saved)
        declarations.append("SAVE" if random.random() < 0.15 else "SAVE " + ", ".join(saved))
        random.shuffle(declarations)
        for one in declarations:
            self._put(one)

    def _constant(self, value: int) -> str:
        """A constant expression of a value; some leave 32 bits on the way."""
        forms = [str(value)] * 6 + [f"{value}*2**40/2**40", f"100000*100000*{value}/(100000*100000)",
        f"MAX({value},-3)"]
        return self._random.choice(forms)

    def _begin(self) -> None:
        """Gives each array its values, and most scalars."""
        first, second = self._variables[:2]
        for name, count in self._dimensions.items():
            self._put(f"DO {first} = {_LOWER}, {_UPPER}")
            if count == 2:
                self._put(f"DO {second} = {_LOWER}, {_UPPER}")
            subscripts = ",".join([first, second][:count])
            self._put(f"{name}({subscripts}) = MOD(7*{first}+{self._random.randint(1, 90)},31)")
            for _ in range(count):
                self._put("END DO")
        self._put(f"DO {first} = {_LOWER}, {_UPPER}")
        self._put(f"{self._permutation}({first}) = 8-{first}")
        self._put("END DO")
        for name in self._scalars:
            if self._random.random() < 0.85:
                self._put(f"{name} = {self._random.randint(1, 5)}")
                self._defined.add(name)

    # Statements

    def _put(self, statement: str) -> None:
        """Adds a statement, in as many lines as it takes."""
        self._lines.append("      " + statement[:66])
        for at in range(66, len(statement), 66):
            self._lines.append("     &" + statement[at:at + 66])

    def _comment(self) -> None:
        if self._random.random() < 0.15:
            self._lines.append(self._random.choice(_COMMENTS))

    def _part(self) -> None:
        """A statement, or some that belong together."""
        random = self._random
        self._comment()
        kinds = [self._assign, self._assign, self._element, self._element, self._sum, self._if]
        if self._depth < 4 and len(self._loops) < 3:
            kinds += [self._loop] * (5 if not self._loops else 3)
            if not self._is_parallel:
                kinds += [self._sum_loop]
        if not self._loops:
            kinds.append(self._permuted)
        if not self._is_parallel:
            kinds += [self._print, self._read]
            if self._lines_of_subroutines:
                kinds.append(self._call)
        random.choice(kinds)()

    def _assign(self) -> None:
        names = self._private if self._owner and self._is_parallel else self._scalars
        if not names:
            self._element()
            return
        name = self._random.choice(names)
        self._put(f"{name} = {self._value()}")
        self._defined.add(name)

    def _element(self) -> None:
        self._put(f"{self._target()} = {self._value()}")

    def _sum(self) -> None:
        names = sorted(self._defined)
        if self._owner and self._is_parallel:
            names = [name for name in names if name in self._private]
        if names:
            self._put(self._summation(self._random.choice(names)))

    def _summation(self, name: str) -> str:
        value = self._term()
        return f"{name} = " + self._random.choice([f"{name}+{value}", f"{value}+{name}", f"{name}-({value})"])

    def _if(self) -> None:
        random = self._random
        if random.random() < 0.4:
            self._put(f"IF ({self._condition()}) {self._target()} = {self._value()}")
            return
        self._put(f"IF ({self._condition()}) THEN")
        defined = set(self._defined)
        self._block(random.randint(1, 2))
        self._defined, first = set(defined), self._defined
        if random.random() < 0.4:
            self._put("ELSE")
            self._block(1)
            self._defined &= first
        else:
            self._defined = defined
        self._put("END IF")

    def _block(self, count: int) -> None:
        self._depth += 1
        for _ in range(count):
            self._part()
        self._depth -= 1

    def _condition(self) -> str:
        random = self._random
        if self._loops and random.random() < 0.5:
            return f"{random.choice(self._loops)}.EQ.{random.randint(1, 4)}"
        relation = f"{self._term()}.{random.choice(['LT', 'LE', 'EQ', 'NE', 'GT', 'GE'])}.{self._term()}"
        if random.random() < 0.2:
            return f".NOT.({relation}).OR.{self._term()}.GT.{self._term()}"
        return relation

    def _print(self) -> None:
        if self._random.random() < 0.5 or not self._loops:
            self._put("PRINT *, " + ", ".join(self._items()))

    def _items(self) -> List[str]:
        return [self._random.choice(["'IT''S'", "'C$OMP'"]), self._value(), self._value()]

    def _read(self) -> None:
        if not self._loops:
            name = self._random.choice(self._scalars)
            self._put(f"READ *, {name}, {self._target()}")
            self._defined.add(name)

    # Loops

    def _loop(self) -> None:
        """A DO or a PARALLEL DO, most of them with a PRIVATE list; the header may read what the list names."""
        random = self._random
        free = self._free_variables()
        if not free:
            return
        is_parallel = random.random() < 0.5
        # In a PARALLEL DO the names of an inner list have to be private to it, too, or its iterations race.
        names = self._private if self._owner and self._is_parallel else self._scalars
        private = random.sample(names, min(len(names), random.choice([0, 1, 1, 2])))
        variable = random.choice(free)
        header = f"{variable} = {self._bounds(private, free)}"
        if random.random() < 0.1:
            self._lines.append(f"C$PED REJECT {random.choice([*self._dimensions, *self._scalars])}")
        self._put(f"PARALLEL DO {header}" if is_parallel else f"DO {header}")
        if private:
            self._put(f"PRIVATE {', '.join(private)}")
        with self._inside(variable, private, is_parallel):
            self._body(private)
        self._put("END DO")

    def _free_variables(self) -> List[str]:
        return [name for name in self._variables if name not in self._loops]

    @contextmanager
    def _inside(self, variable: str, private: Sequence[str], is_parallel: bool) -> Iterator[None]:
        """The body of a loop. What it assigns counts for nothing after it, and what is private has no value there."""
        kept = (set(self._defined), self._is_parallel, self._owner, self._written, self._private)
        variables = set(self._variables) if is_parallel else {variable}
        self._defined -= {*private, *(variables.difference(self._loops))}
        if not self._loops and self._random.random() < 0.85:
            self._owner = variable
            self._written = self._random.sample(list(self._dimensions), self._random.randint(1, 2))
        if is_parallel and not self._is_parallel:
            self._private = []
        self._private = list(dict.fromkeys([*self._private, *private]))
        self._loops.append(variable)
        self._is_parallel = self._is_parallel or is_parallel
        self._depth += 1
        yield
        self._depth -= 1
        self._loops.pop()
        defined, self._is_parallel, self._owner, self._written, self._private = kept
        self._defined = defined.difference(private, variables)

    def _body(self, private: Sequence[str]) -> None:
        """Statements that assign the private scalars, and some others."""
        random = self._random
        for name in private:
            if random.random() < 0.9:
                self._put(f"{name} = {self._value()}")
                self._defined.add(name)
        for _ in range(random.randint(1, 2)):
            self._element()
        if random.random() < 0.35 and self._free_variables():
            self._single()
        if random.random() < 0.5:
            self._part()

    def _single(self) -> None:
        """A loop that one iteration of the outermost loop alone carries out, with a scalar that is shared outside."""
        random = self._random
        names = sorted(self._defined.difference(self._variables))
        if not names:
            return
        name, variable = random.choice(names), random.choice(self._free_variables())
        self._put(f"IF ({self._loops[0]}.EQ.{random.choice([2, 2, 3, 4])}) THEN")
        last = random.choice([f"MIN(6,{name})", f"MIN(5,{name})", "5"])
        self._put(f"DO {variable} = 1, {last}")
        self._put(f"PRIVATE {name}")
        with self._inside(variable, [name], False):
            self._put(f"{name} = {self._value()}")
            self._defined.add(name)
            self._element()
        self._put("END DO")
        self._put("END IF")
        self._defined.discard(name)

    def _permuted(self) -> None:
        """A parallel loop that rests on a directive, rightly."""
        random = self._random
        name, variable = random.choice(list(self._dimensions)), random.choice(self._variables)
        self._lines.append(f"C$PED REJECT {name}")
        self._put(random.choice([f"PARALLEL DO {variable} = 1, 6", f"DO {variable} = 2, 8"]))
        subscript = f"{self._permutation}({variable})"
        self._put(f"{name}({','.join([subscript, '3'][:self._dimensions[name]])}) = MOD({variable}*5,7)")
        self._put("END DO")
        self._defined.discard(variable)

    def _bounds(self, private: Sequence[str], free: Sequence[str]) -> str:
        """The bounds of a loop, which keep its variable between -1 and 8."""
        random = self._random
        read = [name for name in (*private, *free, *self._loops, *self._constants) if self._may_read(name)]
        last = random.choice(["4", "5", "6", "MAX(2,3)"] + read * 2)
        if not last.isdigit() and last not in self._constants and not last.startswith("MAX"):
            # A scalar may hold any number.
            last = random.choice([f"MIN(6,{last})", f"MOD(ABS({last}),7)"])
        first = random.choice(["1", "1", "2", "-1"])
        if read and random.random() < 0.2:
            first = f"MAX(MIN(3,{random.choice(read)}),-1)"
        return random.choice([f"{first}, {last}"] * 4 + [f"{first}, {last}, 2", f"6, {first}, -1", f"7, {first}, -2"])

    def _may_read(self, name: str) -> bool:
        return name in self._defined or name in self._constants or name in self._loops

    def _sum_loop(self) -> None:
        """A loop that sums up, some with a list of sums."""
        random = self._random
        free = self._free_variables()
        names = sorted(self._defined.difference(self._variables))
        if not free or not names:
            return
        variable = random.choice(free)
        summed = random.sample(names, min(len(names), random.choice([1, 1, 2])))
        self._put(f"DO {variable} = {random.choice(['1, 6', '8, 1, -1', '2, 7'])}")
        if random.random() < 0.6:
            self._lines.extend(f"C$REDUCE {name}" for name in summed)
        with self._inside(variable, [], False):
            self._defined -= {*summed, *self._variables}
            if random.random() < 0.4:
                self._element()
            for name in summed:
                condition = f"IF ({self._condition()}) " if random.random() < 0.4 else ""
                self._put(condition + self._summation(name))
        self._put("END DO")

    # Expressions

    def _value(self) -> str:
        """What may be assigned: a number below 100."""
        random = self._random
        if random.random() < 0.1:
            return self._constant(random.randint(1, 5))
        return f"MOD({self._sum_of_terms()},{random.choice([97, 50, 13])})"

    def _sum_of_terms(self) -> str:
        return "+".join(self._term() for _ in range(self._random.randint(1, 3)))

    def _term(self) -> str:
        random = self._random
        leaf = self._leaf()
        forms = [leaf] * 4 + [
            f"{random.randint(2, 9)}*{leaf}", f"MAX({leaf},{self._leaf()})", f"MIN({self._leaf()},7,{leaf})",
            f"ABS({leaf})",
            f"{leaf}/{random.randint(2, 5)}", f"MOD({leaf},{random.randint(2, 9)})**2", f"({leaf}-{self._leaf()})",
        ]
        return random.choice(forms)

    def _leaf(self) -> str:
        random = self._random
        kind = random.random()
        if kind < 0.3 and self._loops:
            return random.choice(self._loops)
        if kind < 0.6 and self._defined:
            return random.choice(sorted(self._defined))
        if kind < 0.9:
            return self._reference()
        return random.choice([*self._constants, str(random.randint(0, 9))])

    def _reference(self) -> str:
        """An element that is read."""
        name = self._random.choice(list(self._dimensions))
        return self._element_of(name, name in self._written)

    def _target(self) -> str:
        """An element that is assigned."""
        return self._element_of(self._random.choice(self._written or list(self._dimensions)), True)

    def _element_of(self, name: str, is_written: bool) -> str:
        subscripts = [self._subscript() for _ in range(self._dimensions[name])]
        if self._owner and is_written:
            subscripts[0] = self._owner
        return f"{name}({','.join(subscripts)})"

    def _subscript(self) -> str:
        random = self._random
        if not self._loops or random.random() < 0.15:
            return str(random.randint(_LOWER, _UPPER))
        variable = random.choice(self._loops)
        scalars = sorted(self._defined)
        if scalars and random.random() < 0.1:
            return f"MOD(ABS({random.choice(scalars)}),10)"
        if random.random() < 0.1:
            return f"{self._permutation}({variable})"
        return random.choice([variable, variable, f"{variable}+{random.randint(1, 4)}",
        f"{variable}-{random.randint(1, 3)}"])

    # Subroutines and steps

    def _subroutine(self) -> List[str]:
        bounds = {1: "(-4:12)", 2: "(-4:12,-4:12)"}
        name, count = self._random.choice(sorted(self._dimensions.items()))
        self._argument = name
        element = ",".join(["I", "2"][:count])
        return [
            "      SUBROUTINE MAX(IX,K,M)", f"      INTEGER IX{bounds[count]}", "      DO 10 I = 1, 5",
            "      L = MIN(K,I)",
            f"   10 IX({element}) = MOD(IX({element})+L,31)", "      M = MOD(K,7)", "      END",
        ]

    def _call(self) -> None:
        name = self._random.choice(self._scalars)
        self._put(f"CALL MAX({self._argument},{self._value()},{name})")
        self._defined.add(name)

    def _steps(self) -> Iterator[str]:
        """Steps at random statements; many are refused."""
        random = self._random
        yield from ["auto"] if random.random() < 0.3 else []
        for _ in range(random.randint(0, 40)):
            number = random.randint(1, 40)
            scalar = random.choice([*self._scalars, *self._variables])
            yield random.choice([
                f"parallel {number}", f"parallel {number}", f"serial {number}", f"interchange {number}",
                f"reverse {number}",
                f"privatise {number} {scalar}", f"expand {number} {scalar}", f"reduce {number} {scalar}",
                f"skew {number} {random.choice([1, 2, -1])}", f"strip {number} {random.randint(2, 4)}",
                f"peel {number} {random.choice(['first', 'last'])}", f"distribute {number}", f"fuse {number}",
                f"inline {number}", f"reject {number} {random.choice([*self._dimensions, *self._scalars])}", "undo",
            ])
        yield from ["auto"] if random.random() < 0.3 else []
