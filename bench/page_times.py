#!/usr/bin/env python3
"""Tells how long the page takes at 2,500 and at 10,000 issues, by the browser's own clock, on the loopback.

usage: python3 bench/page_times.py [PROGRAM] [--issues N..] [--runs N] [--port PORT] [--python]

PROGRAM is the built tracker, crates/tracker/out/tracker by default. Loads of `generate` are looked at: a search, from the key that
asks for it to the picture with its first hundred issues; a board of 500 cards, from its link to the picture with all of them; and
keys, from the key to the next picture. Each line has the median and the worst of the runs in milliseconds; how much processor time the
page's own thread took, which other work on the machine doesn't change; and how long the calls took. Where Chromium isn't there it says
so.
"""
import argparse
import pathlib
import signal
import statistics
import sys
import time

sys.path.insert(0, str(pathlib.Path(__file__).resolve().parent.parent / 'checks'))
import page_browser
from page_browser import Browser, Servers

# Of issues with the summaries `load 1`, `load 2` and so on, 500, where there are 2,000 or more.
CARDS = ' OR '.join([*(f'summary ~ "{start}*"' for start in (12, 13, 14, 15, 160, 161, 162, 163, 164)), 'key = OPS-1'])

WATCH = '''
window.began = 0;
window.seen = {};
window.pictures = [];
document.addEventListener('keydown', (event) => { window.began = event.timeStamp; }, true);
document.addEventListener('click', (event) => { window.began = event.timeStamp; }, true);
new PerformanceObserver((list) => { for (const one of list.getEntries()) if (one.name === 'keydown') window.pictures.push(one.duration); })
  .observe({ type: 'event', durationThreshold: 16, buffered: false });
new PerformanceObserver((list) => { for (const one of list.getEntries()) {
  const name = one.name;
  requestAnimationFrame(() => setTimeout(() => { window.seen[name] = performance.now(); }));
} }).observe({ type: 'mark', buffered: false });
performance.clearResourceTimings();
performance.setResourceTimingBufferSize(5000);
'''

CALLS = '''
const from = arguments[0];
const told = { calls: 0 };
let first = Infinity, last = 0;
for (const one of performance.getEntriesByType('resource')) {
  if (!one.name.endsWith('/api/calls') || one.startTime < from) continue;
  told.calls += 1;
  first = Math.min(first, one.startTime);
  last = Math.max(last, one.responseEnd);
}
told.wait = told.calls ? last - first : 0;
return told;
'''


def watch(browser):
    browser.js(WATCH)
    browser.worked = work(browser)


def work(browser):
    """How many milliseconds of a processor the page's thread has taken."""
    browser.driver.execute_cdp_cmd('Performance.enable', {'timeDomain': 'threadTicks'})
    told = browser.driver.execute_cdp_cmd('Performance.getMetrics', {})['metrics']
    return 1000 * next(one['value'] for one in told if one['name'] == 'TaskDuration')


def until_seen(browser, mark):
    """How long it took from the last key or click to the picture behind a mark, and what the calls between took."""
    browser.until(lambda: browser.js('return (window.seen[arguments[0]] ?? 0) > window.began', mark), mark, 12 * page_browser.PATIENCE)
    whole = browser.js('return window.seen[arguments[0]] - window.began', mark)
    taken = work(browser) - browser.worked
    return whole, browser.js(CALLS, browser.js('return window.began')) | {'work': taken}


def tell(words, runs):
    times = [whole for whole, _ in runs]
    told = [calls for _, calls in runs if calls]
    line = f'{words}: median {statistics.median(times):.0f} ms, worst {max(times):.0f}'
    if told:
        line += f'; the page\'s own thread {statistics.median([one["work"] for one in told]):.0f} ms of a processor'
        line += f'; {told[0]["calls"]} calls, {statistics.median([one["wait"] for one in told]):.0f} ms from the first to the last answer'
    print(line, flush=True)


def searches(browser, runs):
    for words, text in (('all issues, by key', 'ORDER BY key DESC'), ('a status, by points', 'status = Open ORDER BY points DESC'), ('a past status', 'status WAS "In Progress" ORDER BY updated')):
        told = []
        for _ in range(runs):
            browser.go('#/search', '.list tbody tr')
            time.sleep(0.8)
            browser.keys('/')
            browser.find('#query').send_keys(text)
            watch(browser)
            browser.keys('\n')
            told.append(until_seen(browser, 'search drawn'))
        tell(f'search, {words}', told)


def first_visits(browser, runs):
    told = []
    for _ in range(runs):
        browser.driver.get('about:blank')
        browser.driver.get(f'{browser.servers.address}#/search')
        browser.wait('.list tbody tr', 12 * page_browser.PATIENCE)
        told.append((browser.js('return performance.getEntriesByName("search drawn")[0].startTime'), browser.js(CALLS, 0) | {'work': work(browser)}))
    tell('the page from nothing to its first search', told)


def boards(browser, number, runs):
    told = []
    for _ in range(runs):
        browser.go('#/boards', '.tile')
        time.sleep(0.5)
        watch(browser)
        browser.find(f'a[href="#/board/{number}"]').click()
        told.append(until_seen(browser, 'board filled'))
        count = len(browser.all('.card p'))
    tell(f'a board of {count} cards', told)


def press(browser, words, typed):
    """Presses keys one after another, and tells how long each took to the picture behind it."""
    from selenium.webdriver import ActionChains
    watch(browser)
    for letter in typed:
        ActionChains(browser.driver).send_keys(letter).perform()
    time.sleep(0.5)
    pictures = browser.js('return window.pictures')
    taken = (work(browser) - browser.worked) / len(typed)
    short, good = len(typed) - len(pictures), len(typed) - len([one for one in pictures if one > 50])
    line = f'{words}: {len(typed)} keys, {short} of them within 16 ms, {good} within 50 ms, the slowest {max(pictures, default=16)} ms'
    print(f'{line}; the page\'s own thread {taken:.0f} ms of a processor a key', flush=True)


def keys(browser, number, runs):
    from selenium.webdriver.common.keys import Keys
    count = max(runs * 8, 24)
    browser.go('#/search', '.list tbody tr')
    time.sleep(2)
    press(browser, 'j in a table of 100', 'j' * count)
    browser.go('#/search', '.list tbody tr')
    time.sleep(2)
    browser.keys('/')
    press(browser, 'a letter in the query', 'status = Open AND assignee = anna and points'[:count])
    browser.go(f'#/board/{number}', '.card p')
    time.sleep(2)
    browser.js('document.querySelector(".card").focus()')
    press(browser, 'an arrow on the board', [Keys.ARROW_DOWN] * count)


def at_size(given, count):
    servers = Servers(given.program, given.port, given.python)
    browser = None
    try:
        servers.generate(count)
        servers.start()
        cards = servers.ok('anna', call='save_filter', name='Cards', jql=CARDS)['filter']
        board = servers.ok('anna', call='make_board', name='Cards', filter=cards)['board']
        browser = Browser(servers, 'anna')
        first_visits(browser, given.runs)
        searches(browser, given.runs)
        boards(browser, board, given.runs)
        keys(browser, board, given.runs)
    finally:
        if browser:
            browser.quit()
        servers.stop()


def words():
    known = argparse.ArgumentParser()
    known.add_argument('program', nargs='?', default=page_browser.PROGRAM)
    known.add_argument('--issues', type=int, nargs='+', default=[2_500, 10_000])
    known.add_argument('--runs', type=int, default=7)
    known.add_argument('--port', type=int, default=8760)
    known.add_argument('--python', action='store_true')
    return known.parse_args()


def main():
    given = words()
    signal.signal(signal.SIGTERM, lambda *_: sys.exit(1))
    missing = page_browser.browser_there()
    if missing:
        print(f'{missing} is not there: the page was not timed')
        return 0
    for count in given.issues:
        print(f'At {count:,} issues:', flush=True)
        at_size(given, count)
    return 0


if __name__ == '__main__':
    sys.exit(main())
