"""Plays a replay into a new file, and looks at each reply: the keys in later lines are those that earlier replies have to have."""
import json
import os
import subprocess

from .past import Bad


def play(program, store, setup, lines, wanted, told=lambda done, of: None):
    """Makes the tracker, and stops at the first line that isn't answered as it has to be."""
    if os.path.exists(store) and os.path.getsize(store):
        raise Bad(f'{store} is there already; a replay wants a new file')
    try:
        made = subprocess.run([program, store, 'init'], input=setup.encode(), stdout=subprocess.PIPE, stderr=subprocess.STDOUT)
    except OSError as fault:
        raise Bad(f'the program {program} cannot be started: {fault.strerror}') from None
    if made.returncode:
        raise Bad(f'the setup is not taken: {made.stdout.decode(errors="replace").strip()} (docs/SETUP-FAULTS.md tells the faults)')
    running = subprocess.Popen([program, store, 'exec'], stdin=subprocess.PIPE, stdout=subprocess.PIPE)
    try:
        for number, (sent, expected) in enumerate(zip(lines, wanted), 1):
            check(number, sent, expected, ask(running, sent))
            told(number, len(lines))
    finally:
        running.stdin.close()
        running.stdout.close()
        status = running.wait()
    if status:
        raise Bad(f'the program ended with status {status}')


def ask(running, sent):
    try:
        running.stdin.write(sent.encode() + b'\n')
        running.stdin.flush()
    except BrokenPipeError:
        pass
    return running.stdout.readline().decode(errors='replace').strip()


def check(number, sent, expected, came):
    """Whether a reply has what it has to have."""
    try:
        reply = json.loads(came).get('ok')
    except ValueError:
        reply = None
    if not isinstance(reply, dict) or any(reply.get(name) != value for name, value in expected.items()):
        raise Bad(f'line {number} is answered by {came or "nothing"}\n    {sent}\n    all lines before it were played; the file is of no use')
