"""What is said of refused texts and of faults: the companion's words, at the place, whatever the text is."""
import os
import random
import re

import page as pages
from drawn import TOP, equal, holds, read
from running import FAULTS

MUTATED, DRAWN, SEED = 300, 16, 20
WORDS = ('class inherits method int nil skip if then else fi from do loop until local delocal construct destruct new delete copy uncopy call uncall + - * / % ^ & | '
         '&& || = != < > <= >= ( ) [ ] , :: += -= ^= <=> x y 0 1 99999999999 ; . { } ! true this self while for return print Foo elsif é “').split()
# What is drawn below the line of a test that fails: what it found and what it needed, in place of the companion's sentence.
AT_PLACE = {'3 Delocal': ' '.join(('a local ends with another value', 'fault 3 Delocal', 'found', 't = 1', 'wanted', 't = 7'))}
# What the program says of each text, and what the page makes of that.
SAID = '''
const said = [];
for (const text of arguments[0]) {
  const refusal = refusalOf((await playground.caller.call(['check', 'p'], [['p', text]])).text);
  if (refusal?.place === undefined) { said.push(null); continue; }
  const { sentence, fix, detail, edits, title } = refusalMessage(text, refusal.number, refusal.place);
  said.push({ number: refusal.number, place: refusal.place, told: [sentence, fix, detail, edits.map(it => [it.begin, it.end, it.text]), title] });
}
return said;
'''


def mistakes():
    """The texts with usual mistakes that the companion's tests have."""
    for part in re.split(r'^== ', read('companion/rpp/tests/mistakes.txt'), flags=re.M)[1:]:
        text = part.split('\n', 2)[2]
        yield re.sub(r'\\u([0-9a-f]{4})', lambda found: chr(int(found[1], 16)), text.rstrip('\n') + '\n' if text.strip() else '')


def mutated(chance):
    """A text of an example with a token that is missing, another one, or one too many."""
    text = read(f'examples/{chance.choice(sorted(it for it in os.listdir(f"{TOP}/examples") if it.endswith(".rpp")))}')
    tokens = [it.span() for it in re.finditer(r"//[^\n]*|\w[\w']*|<=>|[-+^]=|::|[^\s\w]", text) if not it[0].startswith('//')]
    first, behind = chance.choice(tokens)
    other = text[slice(*chance.choice(tokens))]
    put = chance.choice(['', chance.choice(WORDS), other, f'{chance.choice(WORDS)} {text[first:behind]}', text[first + 1:behind]])
    return text[:first] + put + text[behind:]


def of_companion(text, number, place):
    it = pages.of_companion('explain').of_refusal(text.encode(), number, place)
    return [*map(pages.on_page, (it.sentence, it.fix, it.detail)), [list(edit) for edit in it.edits], it.title]


def the_rules_are_the_companions(page):
    """For texts with usual mistakes and for mutated examples, the page's message is the companion's, in each of its parts."""
    chance = random.Random(SEED)
    texts = [*mistakes(), *(mutated(chance) for _ in range(MUTATED))]
    said = [(text, it) for text, it in zip(texts, page.run(SAID, texts)) if it]
    holds(len(said) > MUTATED and len({it['number'] for _, it in said}) > 15, f'{len(said)} texts are refused')
    for text, it in said:
        equal(it['told'], of_companion(text, it['number'], it['place']), repr(text))


def plain(text):
    return ' '.join(text.replace('`', '').split())


def refusals_are_told_in_place(page):
    """The page shows the companion's sentence below the line of the mistake, and below the editor with what was expected and how to fix it."""
    texts = list(mistakes())
    for text in texts[::len(texts) // DRAWN]:
        page.write(text)
        problems = page.text('#problems')
        spot = re.match(r'Line (\d+), column (\d+): .*refusal (\d+)', problems)
        if not spot:
            holds(problems.startswith('Accepted') or 'refusal' in problems, problems)
            continue
        line, column, number = map(int, spot.groups())
        before = '\n'.join(text.split('\n')[:line - 1] + [text.split('\n')[line - 1][:column - 1]])
        sentence, fix, detail, _, title = of_companion(text, number, len(before.encode()))
        for part in filter(None, (sentence, detail, fix)):
            holds(plain(part) in plain(problems), f'{part!r} is not in {problems!r}')
        told = {it['number']: plain(it['told']) for it in page.lines() if it['told']}
        equal(told, {line: plain(f'{sentence} {title if page.is_drawn(".told button") else ""}')}, repr(text))


def a_key_writes_the_fix(page):
    """Where the companion knows what to write, a key at the mistake writes it, and the editor can undo that."""
    page.write('class P\n  int x\nmethod main()\n  x = 5\n')
    equal(page.text('.told button'), 'Write +=')
    page.run('document.body.dataset.askedBefore = document.body.dataset.asked')
    page.click('.told button')
    page.browser.until('return document.body.dataset.asked !== document.body.dataset.askedBefore')
    page.settled()
    equal(page.lines()[3]['text'], '  x += 5')
    holds(page.text('#problems').startswith('Accepted') and not page.is_drawn('.told'), page.text('#problems'))


def spaced(name):
    """The name of a fault in words, as the page has it."""
    return re.sub(r'([a-z])([A-Z])', r'\1 \2', name.split()[1]).lower()


def faults_are_told_with_names_and_values(page):
    """A fault is explained in the companion's words, with the names and values of its statement."""
    for name, wanted in (('3 Delocal', 't must be equal to x at its delocal, and it is 1.'), ('4 NotNil', 'a must be nil before new, and it holds #2.'), ('5 Nil', 'a must not be nil here.'),
                         ('6 Count', 'a must have the only reference to #2, which has 2.'), ('7 NotEmpty', '[0] of #2 must be 0 or nil when it is deleted, and it is 1.'),
                         ('8 HeapFull', 'The heap of 4,096 words must have a free block of 5,002 words.'),
                         ('9 Index', 'The index of a must be at least 0 and less than 2, and it is 2.'),
                         ('10 NotSame', 'a and b must have one reference, and they have #2 and #3.'),
                         ('11 ClassDiffers', 'The class of this delete must be D, with which #2 was made, not C.'),
                         ('13 Length', 'The length 0 must be at least 1, and it is 0.'),
                         ('14 TooDeep', 'This call must not be made: 64 calls are active, main included, and the limit of the run allows no more.')):
        page.write(next(text for text, _, it, _, _ in FAULTS if it == name))
        page.go('end')
        holds(wanted in page.text('#problems'), f'{name}: {page.text("#problems")!r}')
        told = [' '.join(it['told'].split()) for it in page.lines() if it['told']]
        equal(told, [AT_PLACE.get(name, f'{spaced(name)} fault {name} {wanted}')])


TESTS = (the_rules_are_the_companions, refusals_are_told_in_place, a_key_writes_the_fix, faults_are_told_with_names_and_values)
