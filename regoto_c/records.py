"""`dataclass` and `field` of the module dataclasses, as far as they are used here, for a fraction of their time to load.

Type checkers see those of the library. A class gets its `__init__` when its first object is made.
"""

from __future__ import annotations

from typing import TYPE_CHECKING

if TYPE_CHECKING:
    from dataclasses import dataclass, field
else:
    class _Field:
        def __init__(self, default_factory, compare):
            self.default_factory = default_factory
            self.compare = compare

    _MISSING = object()

    def field(*, default_factory=None, compare=True):
        """Say of a field what makes its default, and whether it counts when objects are compared."""
        return _Field(default_factory, compare)

    def dataclass(made):
        """Give a class `__init__`, `__eq__` and `__repr__` by its annotations, and those of the class below it."""
        below, defaults = getattr(made.__base__, "_record", ((), {}))
        names = (*below, *made.__annotations__)
        defaults = {**defaults, **{name: made.__dict__[name] for name in made.__annotations__ if name in made.__dict__}}
        made._record = names, defaults
        compared = [name for name in names if not isinstance(defaults.get(name), _Field) or defaults[name].compare]

        def first(self, *values, **named):
            made.__init__ = _initialiser(names, defaults)
            self.__init__(*values, **named)

        def equal(self, other):
            if other.__class__ is not self.__class__:
                return NotImplemented
            return all(getattr(self, name) == getattr(other, name) for name in compared)

        def shown(self):
            return f"{made.__name__}({', '.join(f'{name}={getattr(self, name)!r}' for name in names)})"

        made.__match_args__, made.__hash__ = names, None
        made.__init__, made.__eq__, made.__repr__ = first, equal, shown
        for name in made.__annotations__:
            if isinstance(made.__dict__.get(name), _Field):
                delattr(made, name)
        return made

    def _initialiser(names, defaults):
        words, lines, known = ["self"], [], {"_MISSING": _MISSING}
        for name in names:
            default, value = defaults.get(name, _MISSING), name
            factory = default.default_factory if isinstance(default, _Field) else None
            if factory is not None:
                known[f"_{name}"] = factory
                value = f"_{name}() if {name} is _MISSING else {name}"
                words.append(f"{name}=_MISSING")
            elif default is _MISSING or isinstance(default, _Field):
                words.append(name)
            else:
                known[f"_{name}"] = default
                words.append(f"{name}=_{name}")
            lines.append(f" self.{name} = {value}\n")
        exec(f"def __init__({', '.join(words)}):\n{''.join(lines) or ' pass'}", known)
        return known["__init__"]
