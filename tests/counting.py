"""How tests count what passed, failed and was skipped. What did not pass is printed."""
import shutil

counts = {'passed': 0, 'failed': 0, 'skipped': 0}


def tells(outcome, what=''):
    counts[outcome] += 1
    if outcome != 'passed':
        print(f'{outcome.upper()} {what}', flush=True)


def same(what, found, wanted):
    tells('passed' if found == wanted else 'failed', f'{what}: wanted {wanted!r:.300}, found {found!r:.300}')


def holds(what, is_so):
    tells('passed' if is_so else 'failed', what)


def has(tool, what):
    """Whether the machine has a tool; else what needs it is skipped."""
    found = shutil.which(tool)
    if not found:
        tells('skipped', f'{what}: there is no {tool}')
    return found


def ends():
    """Prints the counts as the last line; the status of the test."""
    print(', '.join(f'{count} {outcome}' for outcome, count in counts.items()))
    return counts['failed'] != 0 or not counts['passed'] + counts['skipped']
