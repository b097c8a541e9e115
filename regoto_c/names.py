"""Names of variables at the top: which of them are taken, and every place where a new name has to stand."""

from __future__ import annotations

import re
from typing import TYPE_CHECKING, Any

from . import libclang
from .ground import NeedsExpansion
from .lexing import TokenKind
from .messages import Refused
from .records import dataclass
from .scopes import Scopes
from .units import UnitKind

if TYPE_CHECKING:
    from .cutting import Cutter

_NO_VARIABLE = frozenset((".", "->", "struct", "union", "enum", "goto"))
_NAME = re.compile(r"[A-Za-z_$\x80-\xff][\w$\x80-\xff]*", re.ASCII)
_MAKES_TEXT = re.compile(r"#")
_CONDITIONAL = re.compile(r"(?:#|%:)\s*(?:if|el|endif)")


@dataclass
class Use:
    """A place at which a name is used, and the entity that it names there; `written` if the name stands there."""

    offset: int
    name: str
    entity: int
    written: bool


class Names:
    """Decides the names of the moved variables of a function; `renames` has the offset of each name that changes.

    `asked` has, in order, the names of variables that need new ones, which `take` gives them.
    """

    def __init__(self, cutter: Cutter) -> None:
        self.cutter = cutter
        self.file = cutter.file
        self.renames: dict[int, str] = {}
        self.asked: list[str] = []
        self.places: dict[int, int] = {}
        self.moved = cutter.declarations.variables
        self.fixed = cutter.declarations.fixed_entities()
        self.wanted = {libclang.spelling(cursor) for cursor in [*self.moved, *self.fixed]}

    def decide(self) -> None:
        """Choose the names.

        Raises `Refused` where a name would have to change that can't.
        """
        if not self.wanted:
            return
        self.uses = self._uses()
        self.declared = self._declared()
        self.loose = self._loose()
        self.scopes = Scopes(self.cutter.syntax.body)
        for cursor in self.fixed:
            self._check_fixed(cursor)
        for name in sorted(self.wanted):
            self._share_out(name)

    def _share_out(self, name: str) -> None:
        """Let one variable have the name, if nothing else has it, and give the others new ones."""
        fixed = [cursor for cursor in self.fixed if libclang.spelling(cursor) == name]
        waiting = {libclang.identity(cursor): cursor for cursor in self.moved if libclang.spelling(cursor) == name}
        faults: list[tuple[int, Exception]] = []
        keeps = not fixed and not self._is_taken(name)
        for entity, cursor in list(waiting.items())[1 if keeps and len(waiting) == 1 else 0:]:
            try:
                self._check_rename(name, entity, cursor)
            except (Refused, NeedsExpansion) as fault:
                faults.append((entity, fault))
        keeper = None
        if keeps and waiting:
            keeper = faults.pop(0)[0] if faults else next(iter(waiting))
        if faults:
            raise faults[0][1]
        for entity, cursor in waiting.items():
            if entity != keeper:
                self._rename(name, entity, cursor)

    # -- where names stand

    def _uses(self) -> list[Use]:
        found = []
        for cursor in self.cutter.syntax.references:
            offset = libclang.name_offset(cursor)
            word = self._word_at(offset)
            if word not in self.wanted and self.file.invocation_at(offset) is None:
                continue
            name = libclang.spelling(cursor).split(" ")[-1]
            entity = libclang.referenced(cursor)
            if name in self.wanted and entity is not None:
                found.append(Use(offset, name, libclang.identity(entity), word == name))
        return found

    def _word_at(self, offset: int) -> str:
        match = _NAME.match(self.file.text, offset)
        return match.group() if match else ""

    def _declared(self) -> dict[int, int]:
        """Return the entities that are declared in the body, by the offsets of their names."""
        cursors = [*self.cutter.syntax.variables, *self.moved, *self.fixed]
        return {libclang.name_offset(cursor): libclang.identity(cursor) for cursor in cursors}

    def _loose(self) -> dict[str, list[int]]:
        """Return where wanted names stand in the function without being bound to anything that is known."""
        known = set(self.declared) | {use.offset for use in self.uses if use.written}
        tokens = self.file.tokens
        found: dict[str, list[int]] = {}
        before = ""
        for at in range(tokens.first_from(self.cutter.function.start), tokens.first_from(self.cutter.function.end)):
            kind, word = tokens.kinds[at], tokens.spellings[at]
            if kind is TokenKind.NAME and word in self.wanted and before not in _NO_VARIABLE:
                if tokens.offsets[at] not in known and not self._is_label(at):
                    found.setdefault(word, []).append(tokens.offsets[at])
            elif kind is TokenKind.DIRECTIVE and not _CONDITIONAL.match(word):
                for match in _NAME.finditer(word):
                    if match.group() in self.wanted:
                        found.setdefault(match.group(), []).append(tokens.offsets[at])
            if kind is not TokenKind.COMMENT:
                before = word
        return found

    def _is_label(self, at: int) -> bool:
        return self.file.tokens.spellings[at] in self.cutter.labels and self.file.tokens.spellings[at + 1] == ":"

    # -- whose a name is

    def _is_taken(self, name: str) -> bool:
        """Return whether something that isn't moved has the name in this function."""
        moved = {libclang.identity(cursor) for cursor in [*self.moved, *self.fixed]}
        kept = {libclang.identity(cursor) for cursor in self.cutter.declarations.kept}
        inner = set(self.declared.values()) - moved - kept
        if any(libclang.spelling(cursor) == name for cursor in self.cutter.declarations.kept):
            return True
        if any(use.name == name and use.entity not in moved | inner for use in self.uses):
            return True
        return any(not self._is_in_directive(offset) and self.scopes.meant(name, offset) is None
                   for offset in self._in_groups(name))

    def _check_fixed(self, cursor: Any) -> None:
        """Raise `Refused` where a type, an enumerator or a function would take a name that means something else."""
        name, entity = libclang.spelling(cursor), libclang.identity(cursor)
        others = [use for use in self.uses if use.name == name and use.entity != entity]
        declared = [
            offset for offset, other in self.declared.items() if other != entity and self._word_at(offset) == name]
        if name and (others or declared or name in self.loose):
            start = libclang.name_offset(cursor)
            raise Refused(start, f"'{name}' would mean something else at the top of the function")

    # -- new names

    def _check_rename(self, name: str, entity: int, cursor: Any) -> None:
        """Raise `Refused` where a variable can't get another name, or `NeedsExpansion` where macros stand in the way."""
        start = libclang.name_offset(cursor)
        for offset in self._in_groups(name):
            why = f"'{name}' has to get another name, and a"
            if self._is_in_directive(offset):
                raise Refused(start, f"{why} directive names it")
            if self.scopes.meant(name, offset) == entity:
                raise Refused(start, f"{why} group of directives names it", True, offset)
        uses = [use for use in self.uses if use.entity == entity]
        hiding = [use.offset for use in uses if not use.written or self._makes_text(use)]
        if hiding:
            raise NeedsExpansion(*hiding)

    def _is_in_directive(self, offset: int) -> bool:
        return self.file.text.startswith(("#", "%:"), offset)

    def _in_groups(self, name: str) -> list[int]:
        """Return where a group of directives has a name that isn't known to mean anything."""
        units = self.cutter.units
        return [offset for offset in self.loose.get(name, []) if units.kinds[units.at(offset)] is UnitKind.GROUP]

    def _rename(self, name: str, entity: int, cursor: Any) -> None:
        number = len(self.asked)
        self.asked.append(name)
        places = [use.offset for use in self.uses if use.entity == entity]
        for offset in [libclang.name_offset(cursor), *places]:
            if self.places.setdefault(offset, number) != number:
                raise Refused(offset, f"'{name}' means two variables in one macro argument")

    def _makes_text(self, use: Use) -> bool:
        """Return whether a macro may make a text or another name of a name."""
        invocation = self.file.invocation_at(use.offset)
        if invocation is None or invocation.name == "assert":
            return False
        words = {word for word in _NAME.findall(self.file.text[invocation.start: invocation.end])}
        return any(_MAKES_TEXT.search(self.file.macro_text(macro) or "")
                   for macro in words | self.file.words_behind(words))

    def take(self, names: list[str]) -> None:
        """Give the variables these names, one for each that is asked for."""
        self.renames = {offset: names[number] for offset, number in self.places.items()}


def new_names(asked: list[str], used: set[str]) -> list[str]:
    """Return a name that isn't used for each that is asked for; it counts as used then."""
    found = []
    for name in asked:
        number = 2
        while f"{name}_{number}" in used:
            number += 1
        found.append(f"{name}_{number}")
        used.add(found[-1])
    return found
