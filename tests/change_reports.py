"""Reads the reports of trials in which changes are made under faults and crashes."""

from trial_reports import read_runs

FAULTS = ('refused K14 StoreFault', 'refused N23 StoreFault')
# The answers of a call that settles and then changes nothing.
SETTLED = ('refused K4 NoSuchKey', 'refused N3 Exists')


def states_after(possible, answer, change):
    """The states in which the log may be after a change with this answer; a change is a function from state to state, which
    gives None if it is refused."""
    changed = [change(state) for state in possible]
    done = [state for state in changed if state is not None]
    if answer in ('done', 'completed') or answer.startswith(('version ', 'applied ')):
        return done
    # A change that was refused since the disk failed may be there.
    if answer in FAULTS:
        return possible + done
    return [state for state, after in zip(possible, changed) if after is None]


def find_fault(run, before, changes, skipped, known):
    """What is wrong with a run, or None. A state is the list of the answers to some questions. After some calls that are
    skipped, the first run makes the changes from the state `before` on, then a call that settles and is refused, then it
    asks the questions. On each image they are asked alone. The answers to the changes are among the known ones, if there are any."""
    if run.first.status not in (0, 5) or not run.images or any(image.status != 0 for image in run.images):
        return 'a status'
    if run.first.status == 5:
        return None if all(image.answers == before for image in run.images) else 'an image after a failed start'
    answers = run.first.answers[skipped:]
    if known and not set(answers[:len(changes)]) <= set(known):
        return 'the answer to a change'
    possible = [before]
    for answer, change in zip(answers, changes):
        possible = states_after(possible, answer, change)
    settled, now = answers[len(changes)], answers[len(changes) + 1:]
    if settled not in FAULTS + SETTLED:
        return 'the answer of the call that settles'
    if settled in SETTLED:
        # Nothing waits, so that what the run shows is what the log holds.
        if now not in possible:
            return 'what the run shows'
        possible = [now]
    if any(image.answers not in possible for image in run.images):
        return 'an image'
    return None


def check(report, before, changes, least_started, least_images, skipped=0, known=()):
    """Prints what is wrong with the runs of a report, and returns the exit status of the check."""
    runs = read_runs(report)
    started = sum(1 for run in runs if run.first.status == 0)
    images = sum(len(run.images) for run in runs)
    failures = 0
    if started < least_started or images < least_images:
        failures += 1
        print(f'{started} runs that started, {images} images: too few')
    for run in runs:
        fault = find_fault(run, before, changes, skipped, known)
        if fault is not None:
            failures += 1
            print(f'{run.title}: {fault}: {run.first.answers}, then {[image.answers for image in run.images]}')
    return 1 if failures else 0
