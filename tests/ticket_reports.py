"""Reads the reports of trials in which the disk fails while a ticket is kept and ready keys are queued."""
from trial_reports import read_runs

# What the second and the third draw come to, sealed under the first version: the first deposit is the second draw.
READY = 'k@0:090000000a0000000b0000000c000000:6d61f0acaadc859123b1962e087e7c3a'
DATA_KEY = '0d0000000e0000000f00000010000000'
EVENTS = 17


def begins(answer, *words):
    return answer.split()[:len(words)] == list(words)


def faults_of_run(answers):
    """What is wrong in a run that was opened: a list of texts."""
    created, rolled = begins(answers[0], 'version', 'k@0'), begins(answers[12], 'version', 'k@1')
    from_queue = answers[8].endswith(' generate k')
    kept = 'kept' if created else 'unknown'
    wanted = {
        6: 'ticket 1 k@0 500' if created else 'none',
        7: kept,
        11: kept,
        13: 'stale 1 4294967297 1' if created and rolled else kept,
    }
    if rolled:
        wanted[15] = f'ticket {2 if created else 1} k@1 500'
    else:
        wanted[15] = f'ticket 2 k@0 {499 if from_queue else 498}' if created else 'none'
    faults = [f'{answers[place]} in place of {text}' for place, text in wanted.items() if answers[place] != text]
    if from_queue and not answers[9].endswith(f' ready {READY}'):
        faults.append(f'{answers[9]} in place of the ready key')
    version = 'k@1:' if rolled else 'k@0:'
    if (rolled or created) and not answers[14].startswith(f'ready {version}'):
        faults.append(f'{answers[14]} in place of a key of {version}')
    return faults


def faults_of_image(answers, created, rolled, filed):
    """What is wrong in the run on an image: a list of texts."""
    versions = 0 if answers[2] == 'refused K4 NoSuchKey' else len(answers[2].split()) - 1
    acknowledged = 2 if rolled else int(created)
    wanted = {0: 'none', 1: 'unknown'}
    if versions:
        wanted.update({4: f'key {DATA_KEY}', 5: 'ready', 6: f'ticket 1 k@{versions - 1} 500'})
    else:
        wanted.update({4: 'refused K4 NoSuchKey', 5: 'refused K4 NoSuchKey', 6: 'none'})
    faults = [f'{answers[place]} in place of {text}' for place, text in wanted.items() if answers[place] != text]
    if versions not in (acknowledged, acknowledged + 1):
        faults.append(f'{versions} versions, of which {acknowledged} were acknowledged')
    words = answers[3].split()
    if filed and words[0] != 'file' or words[0] == 'file' and words[2:] not in (['/z', READY], ['-', '-']):
        faults.append(answers[3])
    return faults


def check(report, calls, images):
    """Checks each run and each image. There are to be so many runs, and at least so many images."""
    found, faults, runs = 0, [], read_runs(report)
    for run in runs:
        first, opened = run.first.answers, run.first.status == 0
        if opened and len(first) == EVENTS:
            faults += [f'call {run.call}: {it}' for it in faults_of_run(first)]
        elif run.first.status != 5:
            faults.append(f'call {run.call}: status {run.first.status} and {first}')
        created = opened and begins(first[0], 'version')
        rolled = opened and begins(first[12], 'version')
        filed = opened and begins(first[9], 'reply') and READY in first[9] and first[10] == 'done'
        for image in run.images:
            found += 1
            if image.status != 0 or len(image.answers) != 7:
                faults.append(f'call {run.call}: status {image.status} and {image.answers} on an image')
            else:
                faults += [f'call {run.call}, on an image: {it}' for it in faults_of_image(image.answers, created, rolled, filed)]
    if len(runs) != calls or found < images:
        faults.append(f'{len(runs)} runs and {found} images')
    for text in faults:
        print(text)
    return 1 if faults else 0
