"""The trials of a check. Each is a function whose docstring says what holds; it raises Wrong where that doesn't hold, and LeftOut where a tool is missing."""


class Wrong(Exception):
    """What isn't as it should be."""


class LeftOut(Exception):
    """What isn't here that a trial needs."""


def expect(holds, text):
    """Ends the trial where something doesn't hold."""
    if not holds:
        raise Wrong(text)


def is_wrong(trial, subject):
    """Makes a trial, and says what came of it."""
    try:
        trial(subject)
        print(trial.__doc__, flush=True)
    except LeftOut as reason:
        print(f'left out, for {reason}: {trial.__doc__}', flush=True)
    except Wrong as fault:
        print(f'WRONG: {trial.__doc__}: {fault}', flush=True)
        return True
    return False


def status_of(trials, subject):
    """Makes all trials: 1 where one is wrong."""
    return 1 if sum([is_wrong(trial, subject) for trial in trials]) else 0
