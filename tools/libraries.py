#!/usr/bin/env python3
"""Builds libraries of this checkout side by side, over what earlier checks kept, the longest chain first; or checks one crate over them.

usage: python3 tools/libraries.py [--lanes N] [CRATE..]
       python3 tools/libraries.py check CRATE [FLAGS OF rt check..]
       python3 tools/libraries.py link [CHECKOUT..]

The first form builds what the crates stand on and the crates themselves, all where none is named, at most N at a time (all processors
by default), and tells the time of each. The second checks a crate over the libraries as they are. `rt check` builds the crates below one
after another, and sums their sources anew on each path that leads to them, of which the command line has some twelve thousand; here each
crate is summed once. The third takes the libraries that a running `rt ci` has proved so far of the same sources, their own and those
below, by hard links, from the checkout that it runs in, or from the copies of runs that were given names: checks here stand on them, and
what lies below isn't proved twice.
Nothing is to be edited while any of them runs, and only `rt ci` gives a verdict. The status is 1 where a crate isn't proved.
"""
import concurrent.futures
import filecmp
import glob
import os
import pathlib
import shutil
import sys
import time

TOP = pathlib.Path(__file__).resolve().parent.parent
sys.path.insert(0, os.path.dirname(os.path.realpath(shutil.which('rt') or sys.exit('there is no rt on the path'))))
import rtlib  # noqa: E402

SUMS = {}
plain_stamp = rtlib.Crate.stamp


def stamp(crate):
    if crate.folder not in SUMS:
        SUMS[crate.folder] = plain_stamp(crate)
    return SUMS[crate.folder]


def build(crate, jobs):
    begin = time.time()
    os.makedirs(f'{crate.folder}/out', exist_ok=True)
    with open(f'{crate.folder}/out/library.log', 'w+') as crate.out:
        try:
            status = crate.build_rlib(['--jobs', str(jobs)], False)
        except SystemExit:
            status = 2
    told = 'built' if not status else f'not built, see crates/{crate.name}/out/library.log'
    print(f'{crate.name} {told}, {time.time() - begin:.0f} s', flush=True)
    return status


def build_all(crates, lanes):
    """Builds each crate once those below it are built, first those with the longest chain of others behind them."""
    below = {it.name: {dep.name for dep in it.below()} for it in crates}
    lines = {it.name: it.count(rb'\n') for it in crates}
    behind = dict(lines)
    # (a crate comes after those below it)
    for it in reversed(crates):
        for dep in below[it.name]:
            behind[dep] = max(behind[dep], lines[dep] + behind[it.name])
    left, running, built = sorted(crates, key=lambda it: -behind[it.name]), {}, {}
    with concurrent.futures.ThreadPoolExecutor(lanes) as pool:
        while left or running:
            ready = [it for it in left if all(built.get(dep) == 0 for dep in below[it.name])]
            busy = sum(jobs for _, jobs in running.values())
            for place, crate in enumerate(ready):
                if busy >= lanes:
                    break
                left.remove(crate)
                jobs = max(1, min(4, (lanes - busy) // (len(ready) - place)))
                busy += jobs
                running[pool.submit(build, crate, jobs)] = crate, jobs
            if not running:
                break
            for it in concurrent.futures.wait(running, return_when=concurrent.futures.FIRST_COMPLETED).done:
                built[running.pop(it)[0].name] = it.result()
    return 1 if left or any(built.values()) else 0


def same_sources(one, other):
    """Whether two folders of a crate have the same src/, specs/ and proofs/."""
    def files(folder):
        return sorted(os.path.relpath(f'{at}/{name}', folder) for part in ('src', 'specs', 'proofs')
                      for at, _, names in os.walk(f'{folder}/{part}') for name in names)
    return files(one) == files(other) and all(filecmp.cmp(f'{one}/{it}', f'{other}/{it}', False) for it in files(one))


def link(crates, checkouts):
    """Takes each library that lacks here from the first of the checkouts that has it of the same sources, those below it among them."""
    def is_same(top, crate, seen):
        if (top, crate.name) not in seen:
            of = f'{top}/crates/{crate.name}'
            seen[top, crate.name] = os.path.isdir(of) and same_sources(of, crate.folder) and all(is_same(top, it, seen) for it in crate.deps)
        return seen[top, crate.name]

    seen = {}
    for crate in crates:
        if not crate.makes_rlib() or crate.is_built():
            continue
        for top in checkouts:
            of, to = f'{top}/crates/{crate.name}', f'{crate.folder}/out/rlib'
            library = f'out/rlib/{crate.name}.rlib'
            if os.path.isfile(f'{of}/{library}/format') and is_same(top, crate, seen):
                shutil.rmtree(to, ignore_errors=True)
                shutil.copytree(f'{of}/{library}', f'{crate.folder}/{library}', copy_function=os.link)
                pathlib.Path(f'{to}/stamp').write_text(crate.stamp(), encoding='utf-8')
                print(f'{crate.name} linked from {top}')
                break
    return 0


def main(words):
    if words[:1] in (['-h'], ['--help']):
        sys.exit(__doc__)
    os.chdir(TOP)
    rtlib.guarded()
    rtlib.Crate.stamp = stamp
    crates = rtlib.crates_below(str(TOP))
    known = {it.name: it for it in crates}
    if words[:1] == ['check']:
        if len(words) < 2 or words[1] not in known:
            sys.exit(__doc__)
        crate = known[words[1]]
        crate.out = sys.stdout
        os.makedirs(f'{crate.folder}/out', exist_ok=True)
        os.chdir(crate.folder)
        return 1 if crate.check(words[2:]) else 0
    if words[:1] == ['link']:
        return link(crates, words[1:] or glob.glob('/tmp/rt-copy-*/repo'))
    lanes = len(os.sched_getaffinity(0))
    if words[:1] == ['--lanes']:
        lanes, words = int(words[1]), words[2:]
    if any(it not in known for it in words):
        sys.exit(__doc__)
    wanted = {dep.name for it in words for dep in [known[it], *known[it].below()]} or set(known)
    return build_all([it for it in crates if it.name in wanted and it.makes_rlib()], lanes)


sys.exit(main(sys.argv[1:]))
