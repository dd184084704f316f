"""The definitions below some definitions, and how many lines they have."""
import re

COMMANDS = 'Asked', 'CommandName'  # the types whose constructors are the commands


def asked_in(names, definition, clause):
    """The command that an equation is for: the constructor of a type of `COMMANDS`, its first argument, or None."""
    found = re.match(rf'\s*{re.escape(definition.name)}\s+\(?((?:\w+\.)?([A-Z]\w*))[\s)]', clause[0][1])
    scope = names.scopes.get((definition.crate, definition.module))
    meaning = scope.meaning(found.group(1)) if found and scope else None
    is_command = meaning and meaning[0] == 'own' and meaning[1].name in COMMANDS and found.group(2) not in COMMANDS
    return found.group(2) if is_command else None


def clauses_for(names, definition, command):
    """The clauses of a definition that say something of this command, or of each; all if there is no command."""
    clauses = names.clauses(definition)
    if command and definition.name in COMMANDS:
        kept = [line for line in clauses[0] if not re.match(r'\s+\w+ :', line[1]) or re.match(rf'\s+{command} :', line[1])]
        return [kept]
    return [it for it in clauses if asked_in(names, definition, it) in (None, command)] if command else clauses


class Below:
    """What is below the roots: the definitions with their lines, who names each, and the words of the kit."""

    def __init__(self, names, roots, command=None):
        self.names, self.command = names, command
        self.lines, self.kit, self.uses = {}, {}, {}
        waiting = list(roots)
        while waiting:
            definition = waiting.pop()
            if definition not in self.lines:
                waiting += self.take(definition)

    def take(self, definition):
        """Takes in a definition, and returns those that it names."""
        declared = definition.path.endswith('.rt')
        clauses = None if declared else clauses_for(self.names, definition, self.command)
        numbered = self.names.sources.text_of(definition) if declared else [it for clause in clauses for it in clause]
        self.lines[definition] = {number for number, line in numbered if line.strip()} | set(definition.opening)
        self.uses[definition] = []
        for _, _, name, (kind, meaning) in self.names.names(definition, clauses):
            if kind == 'kit':
                self.kit.setdefault(meaning, set()).add(definition)
            elif meaning not in self.uses[definition] and meaning is not definition:
                self.uses[definition].append(meaning)
        return self.uses[definition]

    def places(self, definitions=None):
        """The places of all lines, each once: a line that opens a block belongs to each definition in it."""
        chosen = self.lines if definitions is None else definitions
        return {(it.path, number) for it in chosen for number in self.lines[it]}

    def count(self, definitions=None):
        """How many lines, and how many of them are no comments."""
        places = self.places(definitions)
        lines = self.names.sources.lines
        return len(places), sum(not lines[path][number - 1].strip().startswith(('--', '///')) for path, number in places)
