"""The cases of `edges` of --check: the exit status tells how well a set is, and what is printed is as ever."""
from shared import words
from trials import check, file

# For each start how a set is, the files that are away, and the exit status.
CASES = (
    ("whole", (), 0),
    ("whole", (1,), 3),
    ("given up", (), 3),
    ("absent", (), 3),
    ("joined", (), 3),
    ("whole", (1, 3), 4),
    ("given up", (1,), 4),
    ("empty", (), 4),
    ("some", (), 4),
)


def how_well(trials):
    """A status and an inspection, as text and as JSON, with the question and without it, over copies of the same files."""
    for start, away, wanted in CASES:
        for name in ("examine", "status"):
            for more in ((), ("--json",)):
                said = []
                for question in ((), ("--check",)):
                    with trials.over(start) as folder:
                        for slot in away:
                            (folder / file(slot)).unlink()
                        said.append(trials.run([*words(name, folder), *more, *question]).said)
                (status, *plain), (checked, *told) = said
                what = f"{name} {more} of {start} without {away}"
                check(f"{what}, what is printed", told, plain)
                check(f"{what}, the exit status", checked, wanted)
                check(f"{what}, the exit status without the question", status, int(bool(plain[1])))
                trials.count()
