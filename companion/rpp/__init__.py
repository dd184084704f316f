"""The companion of rooplpp: it calls the built program, and says what the program printed in the words of people.

    import rpp
    rpp.run('examples/counter.rpp', {'count': 4}).fields      # {'count': 7, 'before': 4}

The names of `__all__` are public; docs/reference/library.md has examples. The modules below are not."""
# (the modules of these names are loaded first, so that loading one later does not put it in the place of the function)
from . import check, explain, inverse, run  # noqa: F401
from .library import PUBLIC as __all__  # noqa: F401
from .library import (Fault, Object, Outcome, Program, Refused, Session, Stop, Verdict,  # noqa: F401, F811
                      check, explain, inverse, run)
