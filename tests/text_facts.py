"""What is known of the functions of a module without running them. What may be so counts as so."""

from text_operators import CHANGES, STATE, TRAPS


class Facts:
    """The functions of a module, each a `Function`, and its tables."""

    def __init__(self):
        self.functions, self.tables, self.start = [], [], None
        self.known = {}

    def called(self, function):
        """The functions that a function calls, or may call by the table."""
        calls = set(self.functions[function].calls)
        if "call_indirect" in self.functions[function].operators:
            for table in self.tables:
                calls |= {entry for entry in table.entries.values() if entry is not None}
        return calls

    def reached(self, function):
        """The function and all that it calls, by others too."""
        if function not in self.known:
            found, left = {function}, [function]
            while left:
                new = self.called(left.pop()) - found
                found |= new
                left += new
            self.known[function] = found
        return self.known[function]

    def has_operator(self, function, names):
        """Whether an operator with one of these names is in what a function reaches."""
        return any(names & set(self.functions[one].operators) for one in self.reached(function))

    def reason(self, function):
        """Why something that a function reaches isn't in the object, or None."""
        return next((self.functions[one].reason for one in self.reached(function) if self.functions[one].reason), None)

    def foreign(self, function):
        """Why something that a function reaches isn't run."""
        return set().union(*(self.functions[one].foreign for one in self.reached(function)))

    def may_change(self, function):
        """Whether an operator of the function itself changes the state of the module: memory, globals, segments. Where
        it isn't in the object, its operators are all words of its text, and calls and operators on tables count too."""
        found = self.functions[function]
        begins = ("call", "return_call", "table.") if found.reason else ()
        return any(name in CHANGES or name.startswith(begins) for name in found.operators)

    def changes(self, function):
        """Whether a call may change the state of the module."""
        return any(self.may_change(one) for one in self.reached(function))

    def touches(self, function):
        """Whether a call changes the state, or goes by it."""
        return self.changes(function) or self.has_operator(function, STATE)

    def is_long(self, function):
        """Whether a call may take any number of operators: something loops, or calls itself."""
        if self.has_operator(function, {"loop"}):
            return True
        return any(one in self.reached(other) for one in self.reached(function) for other in self.called(one))

    def traps_as_it_was(self, function):
        """Whether the state is as it was when a call has trapped: the function itself changes it at one place at most,
        which is in no loop, and after which nothing traps."""
        operators = self.functions[function].operators
        others = set().union(*(self.reached(one) for one in self.called(function)))
        places = [place for place, name in enumerate(operators) if name in CHANGES]
        is_plain = self.functions[function].reason is None and "loop" not in operators and function not in others
        if not is_plain or any(self.changes(one) for one in others):
            return not self.changes(function)
        return not places or len(places) == 1 and not TRAPS & set(operators[places[0] + 1 :])
