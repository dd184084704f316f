"""ROOPL++ and PISA for Pygments (2.5 or later), and so for minted, Sphinx and notebooks.

With the package installed by pip, `pygmentize -l rooplpp stack.rpp` finds them; without it, by this file:

    pygmentize -x -l companion/rpp/pygments_lexers.py:RooplppLexer -f svg stack.rpp
"""
from pygments.lexer import RegexLexer, bygroups, words
from pygments.token import Comment, Error, Keyword, Name, Number, Operator, Punctuation, Whitespace

NAME = r"[A-Za-z][A-Za-z0-9_']*"
# (a keyword followed by a prime is a name)
BEHIND = r"(?![A-Za-z0-9_'])"
DECLARATIONS = ('class', 'inherits', 'method')
STATEMENTS = ('skip', 'if', 'then', 'else', 'fi', 'from', 'do', 'loop', 'until', 'local', 'delocal', 'construct', 'destruct', 'new', 'delete',
              'copy', 'uncopy', 'call', 'uncall')
BRANCHES = ('START', 'FINISH', 'BRA', 'RBRA', 'BEQ', 'BNE', 'BGEZ', 'BGTZ', 'BLEZ', 'BLTZ', 'SWAPBR')
INSTRUCTIONS = ('ADD', 'SUB', 'XOR', 'NEG', 'ADDI', 'XORI', 'RL', 'RR', 'RLV', 'RRV', 'ANDX', 'ORX', 'NORX', 'SLTX', 'ANDIX', 'ORIX', 'SLLX',
                'SRLX', 'SRAX', 'SLLVX', 'SRLVX', 'SRAVX', 'EXCH')
NOTES = ('DATA', 'STATIC', 'MARK')


class RooplppLexer(RegexLexer):
    """Sources of ROOPL++."""

    name = 'ROOPL++'
    aliases = ['rooplpp', 'roopl++']
    filenames = ['*.rpp']
    mimetypes = ['text/x-rooplpp']
    tokens = {
        'root': [
            (r'[ \t\r\n]+', Whitespace),
            (r'//[^\n]*', Comment.Single),
            (rf'(class|inherits)([ \t\r\n]+)({NAME})', bygroups(Keyword.Declaration, Whitespace, Name.Class)),
            (rf'(method)([ \t\r\n]+)({NAME})', bygroups(Keyword.Declaration, Whitespace, Name.Function)),
            (rf'(::)([ \t\r\n]*)({NAME})', bygroups(Operator, Whitespace, Name.Function)),
            (words(DECLARATIONS, suffix=BEHIND), Keyword.Declaration),
            (words(STATEMENTS, suffix=BEHIND), Keyword),
            (rf'int{BEHIND}', Keyword.Type),
            (rf'nil{BEHIND}', Keyword.Constant),
            (NAME, Name),
            (r'[0-9]+', Number.Integer),
            (r'<=>|[-+^]=|&&|\|\||[<>!]=|::|[-+^&|<>=]', Operator),
            # (the grammar has these three, and the language refuses them)
            (r'[*/%]', Error),
            (r'[()\[\],]', Punctuation),
        ]
    }


class PisaLexer(RegexLexer):
    """Assembly texts of PISA."""

    name = 'PISA'
    aliases = ['pisa']
    filenames = ['*.pisa']
    mimetypes = ['text/x-pisa']
    tokens = {
        'root': [
            (r'[ \t\r\n]+', Whitespace),
            (r';[^\n]*', Comment.Single),
            (rf"(NAME)([ \t]+)([0-9]+)([ \t]+)({NAME})", bygroups(Keyword.Declaration, Whitespace, Number.Integer, Whitespace, Name.Variable)),
            (r'[A-Za-z_][A-Za-z0-9_]*:', Name.Label),
            (words(BRANCHES, suffix=r'\b'), Keyword.Reserved),
            (words(INSTRUCTIONS, suffix=r'\b'), Keyword),
            (words(NOTES, suffix=r'\b'), Keyword.Declaration),
            (r'\$(?:3[01]|[12]?[0-9])(?![0-9])', Name.Builtin),
            (r'[-+]?[0-9]+', Number.Integer),
            (r'[A-Za-z_][A-Za-z0-9_]*', Name.Label),
        ]
    }
