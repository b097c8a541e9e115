"""The statements of a function as a tree, from libclang's, with what matters in their expressions."""

from __future__ import annotations

from typing import Any

from . import libclang
from .clang_types import TypeKind, type_of
from .libclang import Kind
from .records import dataclass, field

LABEL = Kind.LABEL_STMT
COMPOUND = Kind.COMPOUND_STMT
CASE = Kind.CASE_STMT
DEFAULT = Kind.DEFAULT_STMT
IF = Kind.IF_STMT
SWITCH = Kind.SWITCH_STMT
WHILE = Kind.WHILE_STMT
DO = Kind.DO_STMT
FOR = Kind.FOR_STMT
GOTO = Kind.GOTO_STMT
INDIRECT_GOTO = Kind.INDIRECT_GOTO_STMT
CONTINUE = Kind.CONTINUE_STMT
BREAK = Kind.BREAK_STMT
RETURN = Kind.RETURN_STMT
ASM = Kind.ASM_STMT
NULL = Kind.NULL_STMT
DECLARATION = Kind.DECL_STMT
STATEMENT_EXPRESSION = Kind.STATEMENT_EXPRESSION
COMPOUND_LITERAL = Kind.COMPOUND_LITERAL_EXPR
LABEL_ADDRESS = Kind.ADDR_LABEL_EXPR
REFERENCE = Kind.DECL_REF_EXPR
VARIABLE = Kind.VAR_DECL
TAGS = (Kind.STRUCT_DECL, Kind.UNION_DECL, Kind.ENUM_DECL)
LOOPS = (WHILE, DO, FOR)

_JUMPS = (LABEL, GOTO, INDIRECT_GOTO, RETURN, BREAK, CONTINUE, CASE, DEFAULT)
_REFERENCES = (REFERENCE, Kind.TYPE_REF)
_LENT = (Kind.UNARY_OPERATOR, Kind.MEMBER_REF_EXPR, Kind.PAREN_EXPR, Kind.ARRAY_SUBSCRIPT_EXPR)
_ARRAYS = (TypeKind.CONSTANTARRAY, TypeKind.INCOMPLETEARRAY, TypeKind.VARIABLEARRAY)


@dataclass
class Concern:
    """Something in an expression that may stand in the way: `what` it is, and where."""

    offset: int
    what: str


@dataclass
class Node:
    """A statement, or an expression with the statements of its statement expressions as children.

    `is_opaque` says that control enters it at its front only, and leaves it at its end only.
    """

    kind: int
    start: int
    cursor: Any
    children: list["Node"] = field(default_factory=list)
    concerns: list[Concern] = field(default_factory=list)
    jumps: bool = False
    returns: bool = False
    breaks: bool = False
    continues: bool = False
    cases: bool = False
    is_opaque: bool = True


class Syntax:
    """The tree of a function's body, with all names of declarations in it.

    `computed` has the offsets of computed gotos and of addresses of labels, `assemblies` those of assembler.
    """

    def __init__(self, compound: Any, looks_for_concerns: bool) -> None:
        self.looks_for_concerns = looks_for_concerns
        self.references: list[Any] = []
        self.variables: list[Any] = []
        self.computed: list[int] = []
        self.assemblies: list[int] = []
        self.gotos = 0
        self.body = self._node(compound)

    def _node(self, cursor: Any) -> Node:
        kind = cursor.kind
        node = Node(kind, libclang.start_offset(cursor), cursor)
        if 200 <= kind < 400:
            node.children = [self._node(child) for child in libclang.children(cursor)]
            if kind == INDIRECT_GOTO:
                self.computed.append(node.start)
            elif kind == GOTO:
                self.gotos += 1
            elif kind == ASM:
                self.assemblies.append(node.start)
        else:
            self._look_into(node)
        _sum_up(node)
        return node

    def _look_into(self, node: Node) -> None:
        """Gather what matters in an expression or a declaration."""
        def look(cursor: Any, parent: Any) -> bool:
            kind = cursor.kind
            if kind in _REFERENCES:
                self.references.append(cursor)
            elif kind == VARIABLE:
                self.variables.append(cursor)
            elif kind == STATEMENT_EXPRESSION:
                node.children += [self._node(child) for child in libclang.children(cursor)]
                return False
            elif kind == LABEL_ADDRESS:
                self.computed.append(libclang.start_offset(cursor))
            elif kind == COMPOUND_LITERAL and self.looks_for_concerns:
                if parent.kind in _LENT or type_of(cursor).kind in _ARRAYS:
                    node.concerns.append(Concern(libclang.start_offset(cursor), "compound literal"))
            elif kind in TAGS and node.kind >= 100:
                node.concerns.append(Concern(libclang.start_offset(cursor), "type defined in an expression"))
            return True

        if not look(node.cursor, node.cursor):
            return
        libclang.descend(node.cursor, look)


def _sum_up(node: Node) -> None:
    """Say of a node which jumps in it are bound outside of it, or lead into it."""
    kind = node.kind
    is_loop, is_switch = kind in LOOPS, kind == SWITCH
    for child in node.children:
        if child.is_opaque:
            continue
        node.jumps = node.jumps or child.jumps
        node.returns = node.returns or child.returns
        node.breaks = node.breaks or (child.breaks and not is_loop and not is_switch)
        node.continues = node.continues or (child.continues and not is_loop)
        node.cases = node.cases or (child.cases and not is_switch)
    if kind in _JUMPS:
        node.jumps = node.jumps or kind in (LABEL, GOTO, INDIRECT_GOTO)
        node.returns = node.returns or kind == RETURN
        node.breaks = node.breaks or kind == BREAK
        node.continues = node.continues or kind == CONTINUE
        node.cases = node.cases or kind in (CASE, DEFAULT)
    node.is_opaque = not (node.jumps or node.returns or node.breaks or node.continues or node.cases)


def concerns_of(node: Node) -> list[Concern]:
    """Return the concerns of a statement's expressions that stand in no block inside of it."""
    found = list(node.concerns)
    for child in node.children:
        if child.kind != COMPOUND:
            found += concerns_of(child)
    return found
