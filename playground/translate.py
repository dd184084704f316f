"""Translates modules of the companion from Python to JavaScript, so that the page says what `rpp` says, from one source.

    script(['tokens', 'source', ..])      # one expression: an object with the translated modules by their names

Only what these modules use of Python is translated; anything else fails, and so does the build of the page. The JavaScript calls
`py` of python.js for what Python does otherwise: truth, equality, slices, methods of texts and lists."""
import ast
import json
import os

PACKAGE = os.path.join(os.path.dirname(os.path.dirname(os.path.realpath(__file__))), 'companion', 'rpp')
BUILTINS = frozenset('all any bool callable dict enumerate filter frozenset getattr id int isinstance iter len list max next range reversed set '
                     'sorted str tuple'.split())
LIBRARIES = frozenset(['re', 'difflib'])
# What is only there for types and records.
TYPING = frozenset('Any Callable Dict FrozenSet Iterable Iterator List NamedTuple Optional Set Tuple Union dataclass field'.split())
# The methods of Python's own types; objects of the modules may have methods of these names too.
METHODS = frozenset('add append compile count decode encode endswith extend findall finditer get get_close_matches group index isalpha isdigit '
                    'isprintable isupper items join lower match pop replace search setdefault sort span split start startswith strip sub '
                    'update values'.split())
RESERVED = frozenset('arguments case catch const debugger default delete do enum eval export extends function instanceof let new null '
                     'package private protected public static super switch this throw typeof undefined var void'.split())
COMPARISONS = {ast.Lt: 'lt', ast.LtE: 'le', ast.Gt: 'gt', ast.GtE: 'ge'}
OPERATORS = {ast.Add: 'add', ast.Sub: 'sub', ast.BitOr: 'union', ast.LShift: 'shift'}


class CannotTranslate(Exception):
    """A module uses something of Python that is not translated."""


def fail(node, what=''):
    raise CannotTranslate(f'line {getattr(node, "lineno", "?")}: {what or type(node).__name__} is not translated')


def quoted(text):
    return json.dumps(text)


def script(modules):
    parts = [f'modules.{it} = {Module(it, modules, parse(it)).script()};' for it in modules]
    return '(() => {\nconst modules = {};\n' + '\n'.join(parts) + '\nreturn modules;\n})()'


def parse(module):
    with open(f'{PACKAGE}/{module}.py', encoding='utf-8') as it:
        return ast.parse(it.read(), f'{module}.py')


def classes_of(tree):
    return [it for it in tree.body if isinstance(it, ast.ClassDef)]


def methods_of(classes):
    """The names of the methods of classes, which are bound to their object where they are not called."""
    return {it.name for each in classes for it in each.body if isinstance(it, ast.FunctionDef) and not decorators(it)}


def decorators(node):
    return [ast.unparse(it) for it in node.decorator_list]


def is_annotation_name(node):
    return isinstance(node, ast.Subscript) and isinstance(node.value, ast.Name) and node.value.id in ('Dict', 'List', 'Optional', 'Tuple', 'Union')


class Names(ast.NodeVisitor):
    """The names that the code of a function assigns, those of inner functions and of comprehensions left out."""

    def __init__(self):
        self.found = []

    def visit_Name(self, node):
        if isinstance(node.ctx, ast.Store) and node.id not in self.found:
            self.found.append(node.id)

    def leave(self, node):
        pass

    visit_FunctionDef = visit_Lambda = visit_ListComp = visit_SetComp = visit_DictComp = visit_GeneratorExp = visit_ClassDef = leave


def assigned(body):
    names = Names()
    for it in body:
        names.visit(it)
    return names.found


class Used(ast.NodeVisitor):
    """The names that code reads, outside of annotations."""

    def __init__(self):
        self.found = set()

    def visit_Name(self, node):
        self.found.add(node.id)

    def visit_arg(self, node):
        pass

    def visit_AnnAssign(self, node):
        self.visit(node.target)
        if node.value:
            self.visit(node.value)

    def visit_Assign(self, node):
        if not is_annotation_name(node.value):
            self.generic_visit(node)

    def visit_FunctionDef(self, node):
        for it in [*node.body, *node.args.defaults, *node.decorator_list]:
            self.visit(it)


class Expressions:
    """Expressions as JavaScript. `classes` are the names of classes at the code."""

    def __init__(self, classes, methods):
        self.classes, self.methods = classes, methods

    def of(self, node):
        made = getattr(self, f'of_{type(node).__name__}', None)
        return made(node) if made else fail(node)

    def all(self, nodes):
        return ', '.join(map(self.of, nodes))

    def test(self, node):
        """An expression of which only the truth counts."""
        if isinstance(node, ast.BoolOp):
            return '(' + (' && ' if isinstance(node.op, ast.And) else ' || ').join(map(self.test, node.values)) + ')'
        if isinstance(node, ast.UnaryOp) and isinstance(node.op, ast.Not):
            return f'!{self.test(node.operand)}'
        return self.of(node) if isinstance(node, ast.Compare) else f'py.is({self.of(node)})'

    # ---- names and constants

    def of_Constant(self, node):
        value = node.value
        if isinstance(value, bytes):
            return f'py.bytes({quoted(value.decode("latin-1"))})'
        if value is None or isinstance(value, (bool, int, float, str)):
            return 'undefined' if value is None else quoted(value)
        return fail(node)

    def of_Name(self, node):
        if node.id in BUILTINS | LIBRARIES:
            return f'py.{node.id}'
        return f'{node.id}$' if node.id in RESERVED else node.id

    def of_Attribute(self, node):
        value = self.of(node.value)
        return f'py.bound({value}, {quoted(node.attr)})' if node.attr in self.methods and isinstance(node.ctx, ast.Load) else f'{value}.{node.attr}'

    def of_JoinedStr(self, node):
        return '(' + ' + '.join(['""', *map(self.of, node.values)]) + ')'

    def of_FormattedValue(self, node):
        if node.conversion != -1:
            fail(node)
        if node.format_spec is None:
            return f'py.str({self.of(node.value)})'
        return f'py.format({self.of(node.value)}, {self.of(node.format_spec)})'

    # ---- lists and others

    def of_Tuple(self, node):
        return f'[{self.all(node.elts)}]'

    of_List = of_Tuple

    def of_Set(self, node):
        return f'new Set([{self.all(node.elts)}])'

    def of_Dict(self, node):
        pairs = [f'[{self.of(key)}, {self.of(value)}]' if key else f'...{self.of(value)}' for key, value in zip(node.keys, node.values)]
        return f'new Map([{", ".join(pairs)}])'

    def of_Starred(self, node):
        return f'...py.iter({self.of(node.value)})'

    def generator(self, node, value):
        loops = ''
        if {it.id for it in ast.walk(node.generators[0].iter) if isinstance(it, ast.Name)} & set(assigned([node.generators[0].target])):
            fail(node, 'a name for two things')
        for it in node.generators:
            tests = ''.join(f'if ({self.test(each)}) ' for each in it.ifs)
            loops += f'for (const {self.of(it.target)} of py.iter({self.of(it.iter)})) {tests}'
        return f'(function* () {{ {loops}yield {value}; }})()'

    def of_GeneratorExp(self, node):
        return self.generator(node, self.of(node.elt))

    def of_ListComp(self, node):
        return f'[...{self.of_GeneratorExp(node)}]'

    def of_SetComp(self, node):
        return f'new Set({self.of_GeneratorExp(node)})'

    def of_DictComp(self, node):
        return f'new Map({self.generator(node, f"[{self.of(node.key)}, {self.of(node.value)}]")})'

    def of_Subscript(self, node):
        value = self.of(node.value)
        if not isinstance(node.slice, ast.Slice):
            return f'py.at({value}, {self.of(node.slice)})'
        parts = [self.of(it) if it else 'undefined' for it in (node.slice.lower, node.slice.upper, node.slice.step)]
        return f'py.slice({value}, {", ".join(parts)})'

    # ---- operators

    def of_BoolOp(self, node):
        made, name = self.of(node.values[-1]), 'and' if isinstance(node.op, ast.And) else 'or'
        for it in reversed(node.values[:-1]):
            made = f'py.{name}({self.of(it)}, () => {made})'
        return made

    def of_UnaryOp(self, node):
        if isinstance(node.op, ast.Not):
            return self.test(node)
        return f'(-{self.of(node.operand)})' if isinstance(node.op, ast.USub) else fail(node)

    def of_BinOp(self, node):
        name = OPERATORS.get(type(node.op)) or fail(node, type(node.op).__name__)
        return f'py.{name}({self.of(node.left)}, {self.of(node.right)})'

    def of_IfExp(self, node):
        return f'({self.test(node.test)} ? {self.of(node.body)} : {self.of(node.orelse)})'

    def of_NamedExpr(self, node):
        return f'({self.of(node.target)} = {self.of(node.value)})'

    def of_Lambda(self, node):
        return f'(({self.parameters(node.args)}) => {self.of(node.body)})'

    def of_Compare(self, node):
        parts, left = [], node.left
        for operator, right in zip(node.ops, node.comparators):
            parts.append(self.comparison(left, operator, right))
            left = right
            if len(node.ops) > 1 and not isinstance(left, (ast.Name, ast.Attribute)) and right is not node.comparators[-1]:
                fail(node, 'a chain over a computed value')
        return '(' + ' && '.join(parts) + ')'

    def comparison(self, left, operator, right):
        one, other = self.of(left), self.of(right)
        is_negative = isinstance(operator, (ast.IsNot, ast.NotEq, ast.NotIn))
        if isinstance(operator, (ast.Is, ast.IsNot)):
            return f'{"!" if is_negative else ""}py.same({one}, {other})'
        if isinstance(operator, (ast.Eq, ast.NotEq)):
            return f'{"!" if is_negative else ""}py.eq({one}, {other})'
        if isinstance(operator, (ast.In, ast.NotIn)):
            return f'{"!" if is_negative else ""}py.has({other}, {one})'
        return f'py.{COMPARISONS[type(operator)]}({one}, {other})'

    # ---- calls

    def parameters(self, given):
        if given.kwonlyargs or given.kwarg or given.posonlyargs:
            fail(given, 'parameters by name only')
        names = [self.of_Name(ast.Name(it.arg)) for it in given.args if it.arg not in ('self', 'cls')]
        for at, default in enumerate(reversed(given.defaults), 1):
            names[-at] += f' = {self.of(default)}'
        return ', '.join(names + ([f'...{given.vararg.arg}'] if given.vararg else []))

    def of_Call(self, node):
        function, given = node.func, list(map(self.of, node.args))
        if isinstance(function, ast.Name) and function.id in self.classes | {'cls'}:
            return f'{function.id}.made({", ".join([self.named(node.keywords), *given])})'
        if not isinstance(function, ast.Attribute):
            return f'{self.of(function)}({", ".join([*given, *self.key(node)])})'
        if function.attr == '_replace':
            return f'{self.of(function.value)}._replace({self.named(node.keywords)})'
        if isinstance(function.value, ast.Call) and ast.unparse(function.value) == 'super()':
            return f'super.{function.attr}({", ".join(given)})'
        if function.attr == '__new__':
            return f'Object.create({given[0]}.prototype)'
        if function.attr == 'update' and node.keywords:
            given.append(self.dict_of(node.keywords))
        elif node.keywords:
            given += self.key(node)
        if function.attr in METHODS:
            return f'py.do({", ".join([self.of(function.value), quoted(function.attr), *given])})'
        return f'{self.of(function.value)}.{function.attr}({", ".join(given)})'

    def named(self, keywords):
        return '{' + ', '.join(f'{it.arg or fail(it.value)}: {self.of(it.value)}' for it in keywords) + '}'

    def dict_of(self, keywords):
        return self.of_Dict(ast.Dict([it.arg and ast.Constant(it.arg) for it in keywords], [it.value for it in keywords]))

    def key(self, node):
        """The one argument that functions of Python take by its name here."""
        if any(it.arg != 'key' for it in node.keywords):
            fail(node, 'an argument by its name')
        return [self.of(it.value) for it in node.keywords]


class Module(Expressions):
    """A module as JavaScript: a function that gives its names."""

    def __init__(self, name, modules, tree):
        self.name, self.modules, self.tree = name, modules, tree
        imported = [each.name for it in tree.body if isinstance(it, ast.ImportFrom) and it.module in modules for each in it.names]
        trees = [parse(it) for it in modules if it != name] + [tree]
        classes = [each for it in trees for each in classes_of(it)]
        super().__init__({it.name for it in classes if it.name in imported or it in tree.body}, methods_of(classes))
        self.names, self.used = [], Used()
        self.used.visit(self.tree)

    def script(self):
        try:
            body = [it for it in map(self.top, self.tree.body) if it]
        except CannotTranslate as error:
            raise CannotTranslate(f'companion/rpp/{self.name}.py, {error}') from error
        return '(() => {\n' + '\n'.join(body) + f'\nreturn {{ {", ".join(self.names)} }};\n}})()'

    def top(self, node):
        if isinstance(node, ast.ImportFrom):
            return self.imports(node)
        if isinstance(node, ast.Import) or isinstance(node, ast.Expr) and isinstance(node.value, ast.Constant):
            return ''
        if isinstance(node, ast.Assign) and is_annotation_name(node.value):
            return ''
        if isinstance(node, (ast.Assign, ast.AnnAssign)):
            target = node.targets[0] if isinstance(node, ast.Assign) else node.target
            self.names.append(target.id)
            return f'const {target.id} = {self.of(node.value)};'
        if not isinstance(node, (ast.ClassDef, ast.FunctionDef)):
            fail(node)
        self.names.append(node.name)
        return self.class_(node) if isinstance(node, ast.ClassDef) else self.function(node)

    def imports(self, node):
        names = [it.name for it in node.names if it.name in self.used.found and (node.level or it.name not in TYPING)]
        if not node.level and not names:
            return ''
        if not node.level or node.module not in self.modules:
            return fail(node, f'{names} of a module that is not translated') if names else ''
        return f'const {{ {", ".join(names)} }} = modules.{node.module};' if names else ''

    # ---- classes

    def class_(self, node):
        base = ast.unparse(node.bases[0]) if node.bases else 'object'
        parent = {'object': 'py.Thing', 'NamedTuple': 'py.Thing', 'Exception': 'py.Thing'}.get(base, base)
        rows = [f'[{quoted(it.target.id)}, () => {self.default(it.value)}]' for it in node.body if isinstance(it, ast.AnnAssign)]
        methods = [self.function(it, True) for it in node.body if isinstance(it, ast.FunctionDef)]
        fields = f'static fields = [{", ".join(rows)}];\n' if rows else ''
        return f'class {node.name} extends {parent} {{\n{fields}' + '\n'.join(methods) + '\n}'

    def default(self, value):
        if isinstance(value, ast.Call) and ast.unparse(value) == 'field(default_factory=list)':
            return '[]'
        return self.of(value) if value else 'undefined'

    def function(self, node, is_method=False):
        body = [it for it in node.body if not (isinstance(it, ast.Expr) and isinstance(it.value, ast.Constant))]
        given = {it.arg for it in node.args.args}
        locals_ = [self.of_Name(ast.Name(it)) for it in assigned(body) if it not in given]
        star = '*' if any(isinstance(it, ast.Yield) for it in ast.walk(node)) else ''
        kinds = decorators(node)
        if not is_method:
            head = f'function{star} {node.name}'
        elif kinds == ['property']:
            head = f'get {node.name}'
        else:
            head = f'static {star}{node.name}' if kinds == ['classmethod'] else f'{star}{node.name}'
        first = [f'const {node.args.args[0].arg} = this;'] if is_method else []
        first += [f'let {", ".join(locals_)};'] if locals_ else []
        return f'{head}({self.parameters(node.args)}) {{\n' + '\n'.join([*first, *map(self.statement, body)]) + '\n}'

    # ---- statements

    def block(self, body):
        return '{\n' + '\n'.join(map(self.statement, body)) + '\n}'

    def statement(self, node):
        made = getattr(self, f'do_{type(node).__name__}', None)
        return made(node) if made else fail(node)

    def do_FunctionDef(self, node):
        return self.function(node)

    def do_Return(self, node):
        return f'return {self.of(node.value)};' if node.value else 'return;'

    def do_Expr(self, node):
        if isinstance(node.value, ast.Yield):
            return f'yield {self.of(node.value.value)};'
        return f'{self.of(node.value)};'

    def do_Pass(self, node):
        return ';'

    def do_Break(self, node):
        return 'break;'

    def do_Continue(self, node):
        return 'continue;'

    def do_Assign(self, node):
        target = node.targets[0]
        if isinstance(target, ast.Subscript):
            return f'py.put({self.of(target.value)}, {self.of(target.slice)}, {self.of(node.value)});'
        if isinstance(target, ast.Tuple):
            return f'{self.of(target)} = [...py.iter({self.of(node.value)})];'
        return f'{" = ".join(map(self.of, node.targets))} = {self.of(node.value)};'

    def do_AnnAssign(self, node):
        return f'{self.of(node.target)} = {self.of(node.value)};' if node.value else ''

    def do_AugAssign(self, node):
        name = OPERATORS.get(type(node.op)) or fail(node, type(node.op).__name__)
        return f'{self.of(node.target)} = py.{name}({self.of(node.target)}, {self.of(node.value)});'

    def do_If(self, node):
        rest = f' else {self.block(node.orelse)}' if node.orelse else ''
        return f'if ({self.test(node.test)}) {self.block(node.body)}{rest}'

    def do_While(self, node):
        return fail(node) if node.orelse else f'while ({self.test(node.test)}) {self.block(node.body)}'

    def do_For(self, node):
        return fail(node) if node.orelse else f'for ({self.of(node.target)} of py.iter({self.of(node.iter)})) {self.block(node.body)}'

    def do_Raise(self, node):
        return f'throw {self.of(node.exc)}.made({{}});' if isinstance(node.exc, ast.Name) else fail(node)

    def do_Try(self, node):
        if node.orelse or node.finalbody:
            fail(node)
        caught = ''
        for it in node.handlers:
            kinds = it.type.elts if isinstance(it.type, ast.Tuple) else [it.type]
            names = [f'py.{each.id}' if each.id == 'RecursionError' else self.of(each) for each in kinds]
            caught += f'if (py.isError(error$, [{", ".join(names)}])) {self.block(it.body)} else '
        return f'try {self.block(node.body)} catch (error$) {{ {caught}throw error$; }}'
