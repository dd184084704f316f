"""What the names of a text mean: each use bound to its declaration, and what is visible at a place."""
from typing import Dict, Iterator, List, Optional, Union

from .source import Class, Method, Source, Statement, Use, Variable, parsed

Declaration = Union[Class, Method, Variable]


class Names:
    """The declarations of a text and, for each token that is a name, the declaration that it means."""

    def __init__(self, source: Source):
        self.source = source
        self.classes: Dict[str, Class] = {}
        for each in source.classes:
            self.classes.setdefault(each.name, each)
        self.meaning: Dict[int, Declaration] = {}
        self.owners: Dict[int, Class] = {}
        for each in source.classes:
            self._bind_class(each)

    # ---- classes and methods

    def ancestors(self, owner: Class) -> Iterator[Class]:
        """A class and the ones above it, each once."""
        seen = set()
        while owner is not None and id(owner) not in seen:
            seen.add(id(owner))
            yield owner
            owner = self.classes.get(owner.parent)

    def all_fields(self, owner: Class) -> List[Variable]:
        """The fields of a class, the inherited ones first."""
        return [each for above in reversed(list(self.ancestors(owner))) for each in above.fields]

    def all_methods(self, owner: Class) -> List[Method]:
        """The methods that a call on an object of a class can name, the nearest of each name."""
        found: Dict[str, Method] = {}
        for above in self.ancestors(owner):
            for each in above.methods:
                found.setdefault(each.name, each)
        return list(found.values())

    def method_of(self, owner: Optional[Class], name: str) -> Optional[Method]:
        if owner is None:
            return None
        return next((each for each in self.all_methods(owner) if each.name == name), None)

    def slot(self, method: Method) -> Method:
        """The first method of the slot: the one of the class highest above that declares its name."""
        owners = [each for each in self.ancestors(method.owner) if any(it.name == method.name for it in each.methods)]
        return next(it for it in owners[-1].methods if it.name == method.name)

    def same(self, declaration: Declaration) -> Declaration:
        """What represents a declaration and all that is renamed with it: overriding methods share their slot."""
        return self.slot(declaration) if isinstance(declaration, Method) else declaration

    # ---- places

    def class_at(self, at: int) -> Optional[Class]:
        return next((each for each in self.source.classes if self._is_in(each, at)), None)

    def method_at(self, at: int) -> Optional[Method]:
        owner = self.class_at(at)
        return next((each for each in reversed(owner.methods) if each.begins <= at), None) if owner else None

    def visible(self, at: int) -> List[Variable]:
        """The variables that a name at this byte can mean: locals from the innermost out, parameters, fields."""
        owner, method = self.class_at(at), self.method_at(at)
        if owner is None:
            return []
        inner = []
        if method is not None:
            inner = [each for each in method.locals if self._is_in(each, at)]
            inner.sort(key=lambda each: -each.begins)
            inner += method.parameters
        found: Dict[str, Variable] = {}
        for each in inner + self.all_fields(owner):
            found.setdefault(each.name, each)
        return list(found.values())

    def _is_in(self, each: Union[Class, Variable], at: int) -> bool:
        """Whether a byte is in a class or where a variable is visible, which may be the end of the text."""
        return each.begins <= at < each.ends or at == each.ends == len(self.source.text)

    def variable(self, name: str, at: int) -> Optional[Variable]:
        return next((each for each in self.visible(at) if each.name == name), None)

    # ---- binding

    def _bind_class(self, owner: Class):
        self._means(owner.name_at, owner)
        if owner.parent_at is not None:
            self._means_class(owner.parent_at)
        for each in owner.fields:
            self._bind_variable(each)
        for method in owner.methods:
            self._means(method.name_at, method)
            for each in method.parameters:
                self._bind_variable(each)
        waiting = [each for method in owner.methods for each in method.body][::-1]
        while waiting:
            each = waiting.pop()
            self._bind_statement(owner, each)
            waiting.extend([inner for block in each.blocks for inner in block][::-1])

    def _bind_variable(self, variable: Variable):
        self._means(variable.name_at, variable)
        if variable.base != 'int':
            self._means_class(variable.type_at)

    def _bind_statement(self, owner: Class, statement: Statement):
        if statement.variable is not None:
            self._bind_variable(statement.variable)
            closing = statement.closing_at
            if closing is not None and self._word(closing) == statement.variable.name:
                self._means(closing, statement.variable)
        for use in statement.uses:
            if use.kind == 'class':
                self._means_class(use.at)
            elif use.kind == 'method':
                self._means(use.at, self.method_of(self.receiver_class(use, owner), self._word(use.at)))
            else:
                self._means(use.at, self.variable(self._word(use.at), self.source.tokens[use.at].at))

    def receiver_class(self, use: Use, owner: Class) -> Optional[Class]:
        """The class in which a call's method is looked up."""
        if use.receiver is None:
            return owner
        variable = self.meaning.get(use.receiver.at)
        if not isinstance(variable, Variable) or variable.is_array != use.receiver.is_element:
            return None
        return self.classes.get(variable.base)

    def _word(self, at: int) -> str:
        return self.source.tokens[at].text

    def _means(self, at: int, declaration: Optional[Declaration]):
        if declaration is not None:
            self.meaning[at] = declaration

    def _means_class(self, at: int):
        self._means(at, self.classes.get(self._word(at)))

    # ---- questions

    def token_at(self, at: int) -> Optional[int]:
        """The token at a byte; after the last letter of a name it is still the name."""
        found = None
        for number, each in enumerate(self.source.tokens):
            if each.at > at:
                break
            if at < each.end or at == each.end and each.kind in ('name', 'keyword', 'number'):
                found = number
        return found

    def places(self, declaration: Declaration) -> List[int]:
        """The tokens that mean a declaration, its own and those of the methods of its slot among them, in order."""
        wanted = self.same(declaration)
        return sorted(at for at, each in self.meaning.items() if self.same(each) is wanted)

    def is_declaring(self, at: int) -> bool:
        return at in self.meaning and self.meaning[at].name_at == at


def input_fields(text: bytes) -> List[str]:
    """The int fields of the main object, which an input can name."""
    names = Names(parsed(text))
    main = next((each for each in names.source.methods() if each.name == 'main' and not each.parameters), None)
    return [each.name for each in names.all_fields(main.owner) if each.type == 'int'] if main else []
