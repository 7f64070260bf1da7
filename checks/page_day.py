#!/usr/bin/env python3
"""Drives a headless Chromium through a team's day on the page, and takes pictures of each view.

usage: python3 checks/page_day.py [PROGRAM] [--pictures FOLDER] [--port PORT] [--python]

PROGRAM is the built tracker, crates/tracker/out/tracker by default. Two people work in two browsers, over a front server as
`page/try` starts it. Each case has a line; the status is 1 where one is not ok. Where Chromium, its driver or the Python package
selenium isn't there, it says so and ends with status 0. With --pictures the pictures of docs/PAGE.md are taken anew.
"""
import argparse
import pathlib
import signal
import subprocess
import sys
import tempfile
import time

import page_browser
import page_site
import page_team
from page_browser import Browser, Servers, TOP

NARROW, HIGHEST = 360, 2400
VIEWS = [('search', '#/search', '.list tbody tr'), ('issue', '#/issue/OPS-1', '.timeline .birth'), ('boards', '#/boards', '.tile'), ('board', '#/board/1', '.card p'),
         ('sprints', '#/sprints', '.tile'), ('sprint', '#/sprint/1', '.chart svg'), ('tracker', '#/tracker', '.groups li')]
CASES = []


def case(told):
    """A case of the day, under the words that it is told by. They run in the order in which they stand here."""
    def keep(function):
        CASES.append((told, function))
        return function
    return keep


class Day:
    """What the cases share: the servers, and two people's browsers."""

    def __init__(self, servers):
        self.servers = servers
        self.anna = Browser(servers, 'anna')
        self.bo = Browser(servers, 'bo')

    def end(self):
        self.anna.quit()
        self.bo.quit()


def must(holds, words):
    if not holds:
        raise AssertionError(words)


def column(browser, status):
    """The keys in a column of the board."""
    return [one.get_attribute('data-key') for one in browser.all(f'.cards[data-status="{status}"] .card')]


def card(browser, key):
    return browser.wait(f'.card[data-key="{key}"]')


# Issues.

@case('an issue is made by keys alone')
def _(day):
    from selenium.webdriver.common.keys import Keys
    anna = day.anna
    anna.go('#/search', '.list tbody tr')
    anna.keys('c')
    anna.wait('dialog[open]')
    anna.keys('Remember the columns that one chose')
    anna.chord(Keys.CONTROL, Keys.ENTER)
    anna.until_text('.toast', 'OPS-13 is made')
    must(day.servers.ok('anna', call='show', issue='OPS-13')['fields']['summary'] == 'Remember the columns that one chose', 'the summary')


@case('what was typed for a new issue is there again after Escape and a reload')
def _(day):
    from selenium.webdriver.common.keys import Keys
    anna = day.anna
    anna.keys('c')
    anna.wait('dialog[open]')
    anna.keys('Half a summary')
    anna.keys(Keys.ESCAPE)
    anna.go('#/search', '.list tbody tr')
    anna.keys('c')
    anna.wait('dialog[open]')
    must(anna.js('return document.activeElement.value') == 'Half a summary', 'the summary is there')
    anna.button('Begin anew', 'dialog').click()
    anna.until(lambda: anna.js('return document.activeElement.value') == '' and anna.all('dialog[open]'), 'it begins anew')
    anna.keys(Keys.ESCAPE)
    anna.until(lambda: not anna.all('dialog[open]'), 'it is closed')


@case('a refusal of a new issue stands beside its field')
def _(day):
    from selenium.webdriver.common.keys import Keys
    anna = day.anna
    anna.keys('c')
    anna.wait('dialog[open]')
    anna.chord(Keys.CONTROL, Keys.ENTER)
    anna.until_text('dialog .field .fault', 'This doesn’t fit Summary: 1 to 255 bytes in one line.')
    anna.keys(Keys.ESCAPE)


@case('a script in a summary and a description is shown as it is')
def _(day):
    text = '<img src=x onerror="document.title=1"> & <b>bold</b>'
    made = day.servers.ok('bo', call='create', project='OPS', type='Bug', summary=text, set={'description': '<script>document.title = 2</script>', 'labels': ['<i>']})
    day.anna.go(f'#/issue/{made["issue"]}', '.timeline .birth')
    must(day.anna.text('h1') == text, 'the summary')
    must(day.anna.text('.f-description') == '<script>document.title = 2</script>', 'the description')
    must(day.anna.js('return document.querySelectorAll("main img, main script, main i, main b b").length') == 0, 'no element came of it')
    must(made['issue'] in day.anna.driver.title, 'no script ran')


@case('a field is edited in place, by one call')
def _(day):
    anna = day.anna
    anna.go('#/issue/OPS-9', '.timeline .birth')
    before = day.servers.ok('anna', call='history', issue='OPS-9')['total']
    anna.wait('button.value[aria-label^="Points"]').click()
    anna.keys('abc')
    anna.button('Save', '.editing').click()
    anna.until_text('.editing .fault', 'This doesn’t fit Points: up to 9 digits, and up to 3 behind a point.')
    must(anna.find('.editing input').get_attribute('value') == 'abc', 'what was typed stays')
    anna.find('.editing input').clear()
    anna.find('.editing input').send_keys('2,5\n')
    anna.until(lambda: 'Points: 2.5' in anna.find('button.value[aria-label^="Points"]').get_attribute('aria-label'), 'the points are there')
    must(day.servers.ok('anna', call='history', issue='OPS-9')['total'] == before + 1, 'one entry')
    anna.until_text('.timeline', '2.5')


@case('what was typed into a field is there again after a reload, and goes by Escape')
def _(day):
    from selenium.webdriver.common.keys import Keys
    anna = day.anna
    anna.keys('d')
    anna.wait('.editing textarea')
    anna.keys('Half a sentence')
    anna.go('#/issue/OPS-9', '.editing textarea')
    must(anna.find('.editing textarea').get_attribute('value') == 'Half a sentence', 'it is there')
    anna.until_text('.editing .hint', 'This was typed before and isn’t saved yet.')
    anna.find('.editing textarea').send_keys(Keys.ESCAPE)
    anna.until(lambda: not anna.all('.editing'), 'the field is closed')
    anna.go('#/issue/OPS-9', '.timeline .birth')
    must(not anna.all('.editing'), 'it stays closed')


@case('a change by somebody else shows, and is told to who types')
def _(day):
    from selenium.webdriver.common.keys import Keys
    anna = day.anna
    anna.wait('button.value[aria-label^="Points"]').click()
    anna.keys('4')
    day.servers.ok('bo', call='edit', issue='OPS-9', set={'points': '8', 'priority': 'Low'})
    anna.until_text('.editing .hint', 'Somebody has changed this to 8 while you typed.')
    must(anna.find('.editing input').get_attribute('value').startswith('4'), 'what was typed stays')
    anna.until_text('aside', 'Low')
    anna.keys(Keys.ESCAPE)
    anna.until_text('aside', '8')


@case('a transition asks for what its rule wants before it is called')
def _(day):
    anna = day.anna
    day.servers.ok('anna', call='transition', issue='OPS-13', transition='Start')
    anna.go('#/issue/OPS-13', '.timeline .birth')
    anna.button('Finish').click()
    anna.until_text('dialog[open]', 'It asks for Points.')
    anna.button('Finish', 'dialog').click()
    anna.until_text('dialog .fault', '“Finish” asks for Points, which are empty.')
    anna.find('dialog input').send_keys('3')
    anna.button('Finish', 'dialog').click()
    anna.until_text('.doors .status', 'Done')
    anna.until_text('.timeline', 'Fixed')


@case('a transition for others is refused in words, with the names of its condition')
def _(day):
    bo = day.bo
    day.servers.ok('anna', call='transition', issue='OPS-12', transition='Start')
    bo.go('#/issue/OPS-12', '.timeline .birth')
    must('Only for its assignee or the group admins' in bo.button('Finish').get_attribute('title'), 'it is told beforehand')
    bo.button('Finish').click()
    bo.wait('dialog[open]')
    bo.find('dialog input').send_keys('1\n')
    bo.until_text('dialog .fault', '“Finish” is only for its assignee or the group admins.')
    bo.button('Cancel', 'dialog').click()


@case('each refusal is said in words, with its names')
def _(day):
    day.anna.go('#/search', '.list tbody tr')
    told = day.anna.js(REFUSED_WORDS, [[refusal, call, members] for refusal, call, members, _ in REFUSALS])
    for (refusal, _, _, wanted), words in zip(REFUSALS, told):
        must(wanted in words and not any(bad in words for bad in ('undefined', 'null', 'NaN', '[object')), f'{refusal}: {words}')
    must({refusal['no'] for refusal, *_ in REFUSALS} == set(range(1, 16)), 'each number')


REFUSED_WORDS = """
const [{ Refused }, { wordsOf }] = await Promise.all([import('/calls.js'), import('/refusals.js')]);
return arguments[0].map(([refusal, call, members]) => wordsOf(new Refused(refusal, call, members)));
"""
MOVE = {'issue': 'OPS-1', 'other': 'OPS-2'}
FINISH = {'issue': 'OPS-1', 'transition': 'Finish'}
REFUSALS = [
    ({'no': 1, 'member': 'name'}, 'make_board', {'name': ''}, 'A name has 1 to 100 bytes'),
    ({'no': 1, 'member': 'board'}, 'board', {'board': 'team'}, '“team” is no board’s name.'),
    ({'no': 1, 'member': 'set'}, 'edit', {}, 'its member “set” is missing'),
    ({'no': 2, 'kind': 'user', 'name': 'zed'}, 'show', {}, 'There is no user “zed”.'),
    ({'no': 2, 'kind': 'issue', 'name': 'OPS-99'}, 'show', {}, 'There is no issue “OPS-99”.'),
    ({'no': 2, 'kind': 'filter', 'name': '7'}, 'filter', {}, 'There is no filter 7, or it is gone.'),
    ({'no': 3, 'permission': 'edit', 'project': 'OPS'}, 'edit', {}, 'anna may not edit issues in OPS.'),
    ({'no': 3, 'permission': 'administer', 'project': None}, 'set_group', {}, 'anna may not administer this tracker.'),
    ({'no': 3, 'permission': 'plan', 'project': None}, 'make_board', {}, 'anna may not plan'),
    ({'no': 4, 'index': 0}, 'transition', FINISH, 'OPS-1 isn’t in a status for “Finish”, which leads from In Progress and In Review.'),
    ({'no': 4, 'index': 1}, 'transition', FINISH, '“Finish” is only for its assignee or the group admins.'),
    ({'no': 5, 'index': 1}, 'transition', FINISH, '“Finish” asks for Points, which are empty.'),
    ({'no': 6, 'field': 'priority'}, 'edit', {}, 'This doesn’t fit Priority: High, Medium or Low.'),
    ({'no': 7, 'kind': 15, 'place': 0}, 'list', {'jql': 'assignee = zed'}, 'There is no such user or group in “assignee = zed”.'),
    ({'no': 8, 'high': None, 'low': '0|zzzzzz:'}, 'move_after', MOVE, 'No rank is left'),
    ({'no': 9, 'state': 'closed'}, 'edit', {}, 'The sprint is closed'),
    ({'no': 9, 'state': 'active'}, 'start_sprint', {}, 'The sprint is active already.'),
    ({'no': 10, 'limit': 'issues', 'number': 50000}, 'create', {}, 'at most 50,000 issues'),
    ({'no': 11, 'kept': 1709251200}, 'tick', {}, '1 Mar 2024'),
    ({'no': 12, 'kept': 'moving 0 1'}, 'rebalance_start', {}, 'A rebalancing is under way already.'),
    ({'no': 13, 'external': 'page 1', 'kept': 'OPS-7'}, 'create', {}, 'as OPS-7'),
    ({'no': 14}, 'edit', {}, 'couldn’t write to its disk'),
    ({'no': 15}, 'edit', {}, 'ran out of memory'),
]


@case('who may only look is offered no edit, and is refused in words')
def _(day):
    status, reply = day.servers.call('cy', call='edit', issue='OPS-1', set={'points': '1'})
    must(status == 403, reply)
    cy = Browser(day.servers, 'cy')
    try:
        cy.go('#/issue/OPS-1', '.timeline .birth')
        must(not cy.all('button.value'), 'no field opens')
        cy.keys('c')
        cy.until_text('.toast', 'cy may not make issues in any project.')
    finally:
        cy.quit()


# Search.

@case('a fault is marked at its place and said in words')
def _(day):
    anna = day.anna
    anna.go('#/search', '.list tbody tr')
    anna.keys('/')
    anna.keys('status = Open AND colour = red\n')
    anna.until_text('#query-fault', 'There is no field “colour”.')
    must(anna.js('return document.querySelector(".beneath mark").textContent') == 'colour = red', 'the mark')
    must(anna.find('#query').get_attribute('value') == 'status = Open AND colour = red', 'what was typed stays')
    for text, mark, words in [('status = ', ' ', 'ends too early'), ('points > many', 'points > many', 'can’t have the value'), ('summary ~ "lögin" OR OR x', 'OR', '“OR” can’t stand here'),
                              ('status = Open ORDER BY labels', 'labels', 'gives no order'), ('priority = Urgent', 'priority = Urgent', 'High, Medium or Low')]:
        anna.find('#query').clear()
        anna.find('#query').send_keys(f'{text}\n')
        anna.until_text('#query-fault', words)
        must(anna.js('return document.querySelector(".beneath mark").textContent') == mark, f'the mark in {text}')


@case('a head sorts, by an order in the query, and the URL is the view')
def _(day):
    anna = day.anna
    anna.find('#query').clear()
    anna.find('#query').send_keys('type = Bug\n')
    anna.until_text('.tools .count', '6 issues')
    anna.wait('th[data-column="points"] button').click()
    anna.until(lambda: anna.find('#query').get_attribute('value') == 'type = Bug ORDER BY points', 'the order')
    anna.until(lambda: anna.find('th[data-column="points"]').get_attribute('aria-sort') == 'ascending', 'the head tells')
    anna.find('th[data-column="points"] button').click()
    anna.until(lambda: anna.find('#query').get_attribute('value') == 'type = Bug ORDER BY points DESC', 'the order turned')
    must('jql=type+%3D+Bug+ORDER+BY+points+DESC' in anna.driver.current_url, anna.driver.current_url)
    anna.driver.back()
    anna.until(lambda: anna.find('#query').get_attribute('value') == 'type = Bug ORDER BY points', 'a step back')


@case('a query that was typed and not looked for is there again, and so is the name of a filter')
def _(day):
    from selenium.webdriver.common.keys import Keys
    anna = day.anna
    anna.go('#/search', '.list tbody tr')
    anna.keys('/')
    anna.keys('labels = half')
    anna.keys(Keys.ESCAPE, Keys.ESCAPE)
    anna.go('#/boards', '.tile')
    anna.go('#/search', '.list tbody tr')
    must(anna.find('#query').get_attribute('value') == 'labels = half', 'the query')
    anna.until_text('.searching .hint', 'This was typed before and isn’t looked for yet.')
    anna.button('Save as filter').click()
    anna.wait('dialog[open]')
    anna.keys('Half a name', Keys.ESCAPE)
    anna.go('#/search?jql=type+%3D+Bug', '.list tbody tr')
    must(anna.find('#query').get_attribute('value') == 'type = Bug', 'another view has its own query')
    anna.button('Save as filter').click()
    anna.wait('dialog[open]')
    must(anna.js('return document.activeElement.value') == 'Half a name', 'the name')
    anna.keys(Keys.ESCAPE)
    anna.go('#/search', '.list tbody tr')
    anna.keys('/')
    anna.chord(Keys.CONTROL, 'a')
    anna.keys('labels = docs\n')
    anna.until_text('.tools .count', '1 issue')
    must(not anna.find('.searching .hint').is_displayed(), 'no hint')


@case('suggestions fill a query in')
def _(day):
    from selenium.webdriver.common.keys import Keys
    anna = day.anna
    anna.find('#query').clear()
    anna.find('#query').click()
    for typed in ('assi', '=', 'cu'):
        anna.keys(typed)
        if typed != '=':
            anna.wait('.hints li')
            anna.keys(Keys.ARROW_DOWN, Keys.ENTER)
        else:
            anna.keys(' ')
    must(anna.find('#query').get_attribute('value') == 'assignee = currentUser() ', anna.find('#query').get_attribute('value'))
    anna.keys(Keys.ENTER)
    anna.until_text('.list tbody', 'OPS-12')


@case('j, k and Enter go through what was found')
def _(day):
    from selenium.webdriver.common.keys import Keys
    anna = day.anna
    anna.go('#/search?jql=ORDER+BY+key', '.list tbody tr')
    anna.keys('j', 'j', 'j', 'k')
    must(anna.focus().text == 'OPS-2', anna.focus().text)
    anna.keys(Keys.ENTER)
    anna.wait('.timeline .birth')
    anna.keys('j')
    anna.until(lambda: anna.driver.current_url.endswith('#/issue/OPS-3'), 'the next one')


@case('columns are chosen, and stay chosen')
def _(day):
    from selenium.webdriver.common.keys import Keys
    anna = day.anna
    anna.go('#/search', '.list tbody tr')
    anna.button('Columns').click()
    anna.wait('.menu input[value="labels"]').click()
    anna.wait('th[data-column="labels"]')
    anna.keys(Keys.ESCAPE)
    anna.go('#/search', 'th[data-column="labels"]')
    anna.button('Columns').click()
    anna.wait('.menu input[value="labels"]').click()
    anna.keys(Keys.ESCAPE)


@case('a query is saved as a filter, told with its count, and used for a board')
def _(day):
    anna = day.anna
    anna.go('#/search?jql=resolution+%3D+Unresolved', '.list tbody tr')
    anna.button('Save as filter').click()
    anna.wait('dialog[open]')
    anna.keys('Still open')
    anna.find('dialog input[type="checkbox"]').click()
    anna.button('Save', 'dialog').click()
    anna.until_text('.toast', 'The board is made.')
    total = day.servers.ok('anna', call='search', jql='resolution = Unresolved')['total']
    anna.until(lambda: any('Still open' in one.text and f'\n{total}' in one.text for one in anna.all('.filters li')), 'the count')
    anna.find('.toast a').click()
    anna.wait('.card p')
    must(anna.text('h1') == 'Still open', 'the board')
    must(sum(len(column(anna, status)) for status in ('Open', 'In Progress', 'In Review', 'Done')) == total, 'its cards')


# The board.

@case('a card goes to another column by dragging it: a transition')
def _(day):
    anna = day.anna
    anna.go('#/board/1', '.card p')
    anna.drag(card(anna, 'OPS-10'), anna.find('.cards[data-status="In Progress"]'))
    anna.until(lambda: day.servers.ok('anna', call='show', issue='OPS-10')['fields']['status'] == 'In Progress', 'it is in progress')
    anna.until(lambda: 'OPS-10' in column(anna, 'In Progress'), 'the card is there')


@case('where a rule asks for something, the drag asks for it, and Cancel puts the card back')
def _(day):
    anna = day.anna
    day.servers.ok('anna', call='edit', issue='OPS-10', set={'points': None})
    anna.until(lambda: not anna.all('.card[data-key="OPS-10"] .pill'), 'the points are gone from the card')
    anna.drag(card(anna, 'OPS-10'), anna.find('.cards[data-status="Done"]'))
    anna.until_text('dialog[open]', 'It asks for Points.')
    anna.button('Cancel', 'dialog').click()
    anna.until(lambda: 'OPS-10' in column(anna, 'In Progress'), 'it is back')
    anna.drag(card(anna, 'OPS-10'), anna.find('.cards[data-status="Done"]'))
    anna.wait('dialog[open]')
    anna.keys('1\n')
    anna.until(lambda: 'OPS-10' in column(anna, 'Done'), 'it is done')


@case('where no transition leads, a drag is refused in words and the card is back')
def _(day):
    anna = day.anna
    anna.drag(card(anna, 'OPS-10'), anna.find('.cards[data-status="In Review"]'))
    anna.until_text('.toast', 'No transition leads from Done to In Review.')
    must('OPS-10' in column(anna, 'Done'), 'it is back')


@case('a card is dragged within its column: a move')
def _(day):
    anna = day.anna
    before = column(anna, 'Open')
    must(len(before) >= 3, before)
    anna.drag(card(anna, before[0]), card(anna, before[2]), dy=20)
    wanted = [before[1], before[2], before[0], *before[3:]]
    anna.until(lambda: column(anna, 'Open') == wanted, f'{wanted}, and not {column(anna, "Open")}')
    anna.until(lambda: next(one['issues'] for one in day.servers.ok('anna', call='board', board=1)['columns'] if one['status'] == 'Open') == wanted, 'the tracker has it')


@case('a card is dragged by a finger that stays on it a moment')
def _(day):
    anna = day.anna
    first, second = column(anna, 'Open')[:2]
    where = anna.js('''return [...arguments].map((key) => { const box = document.querySelector(`.card[data-key="${key}"]`).getBoundingClientRect();
        return [box.left + box.width / 2, box.top + box.height / 2, box.height]; })''', first, second)
    touch = lambda kind, *points: anna.driver.execute_cdp_cmd('Input.dispatchTouchEvent', {'type': kind, 'touchPoints': [{'x': x, 'y': y} for x, y in points]})
    (x, y, _), (_, to, height) = where
    touch('touchStart', (x, y))
    anna.until(lambda: anna.all('.ghost'), 'the card is in hand')
    for part in range(1, 6):
        touch('touchMove', (x, y + (to + height / 3 - y) * part / 5))
    touch('touchEnd')
    anna.until(lambda: column(anna, 'Open')[:2] == [second, first], 'it is one further')
    anna.until(lambda: not anna.all('.card.busy'), 'it is kept')


@case('a card is moved by keys alone, in its column and to another')
def _(day):
    from selenium.webdriver.common.keys import Keys
    anna = day.anna
    before = column(anna, 'Open')
    anna.js('document.querySelector(arguments[0]).focus()', f'.card[data-key="{before[0]}"]')
    anna.keys(' ', Keys.ARROW_DOWN, ' ')
    anna.until(lambda: column(anna, 'Open')[:2] == [before[1], before[0]], 'it is one further')
    anna.until(lambda: anna.focus().get_attribute('data-key') == before[0] and not anna.all('.card.busy'), 'the focus stays on it')
    anna.keys(' ', Keys.ARROW_RIGHT)
    must('Start' in anna.find('.column[data-status="In Progress"] .way').text, 'the way is told')
    anna.keys(' ')
    anna.until(lambda: day.servers.ok('anna', call='show', issue=before[0])['fields']['status'] == 'In Progress', 'it is in progress')
    anna.until(lambda: before[0] in column(anna, 'In Progress') and not anna.all('.card.busy'), 'the card is there')
    anna.keys(' ', Keys.ARROW_LEFT, Keys.ESCAPE)
    must(before[0] in column(anna, 'In Progress'), 'Escape puts it back')


@case('two people on one board: who looks is told what the other one moved')
def _(day):
    anna, bo = day.anna, day.bo
    bo.go('#/board/1', '.card p')
    key = column(bo, 'Open')[0]
    bo.drag(card(bo, key), bo.find('.cards[data-status="In Progress"]'))
    anna.until_text('.toast', f'bo moved {key} from Open to In Progress.')
    must(key in column(anna, 'In Progress'), 'the card is there')
    order = column(bo, 'Open')
    bo.drag(card(bo, order[0]), card(bo, order[1]), dy=20)
    anna.until(lambda: column(anna, 'Open')[:2] == [order[1], order[0]], 'the order is the other one’s')


@case('a card that somebody else moved first is told')
def _(day):
    bo = day.bo
    key = column(bo, 'Open')[0]
    source = card(bo, key)
    day.servers.ok('anna', call='transition', issue=key, transition='Start')
    bo.drag(source, bo.find('.cards[data-status="In Progress"]'))
    bo.until(lambda: any('Somebody may have moved it.' in one.text or f'moved {key}' in one.text for one in bo.all('.toast')), 'it is told')
    bo.until(lambda: key in column(bo, 'In Progress'), 'the card is where it is')


@case('the page asks again only while it is seen, and only for what it shows')
def _(day):
    bo = day.bo
    bo.go('#/board/1', '.card p')
    bo.js("""window.asked = []; const real = window.fetch;
        window.fetch = (where, what) => { window.asked.push(JSON.parse(what.body).call); return real(where, what); };""")
    bo.until(lambda: bo.js('return window.asked.filter((one) => one === "board").length') >= 2, 'it asks again')
    must(set(bo.js('return window.asked')) <= {'board', 'list', 'describe'}, bo.js('return window.asked'))
    bo.js("""window.seen = 'hidden'; Object.defineProperty(document, 'visibilityState', { configurable: true, get: () => window.seen });
        document.dispatchEvent(new Event('visibilitychange'));""")
    time.sleep(1)
    bo.js('window.asked = []')
    time.sleep(9)
    must(bo.js('return window.asked') == [], 'nothing while it is hidden')
    bo.js('window.seen = "visible"; document.dispatchEvent(new Event("visibilitychange"))')
    bo.until(lambda: 'board' in bo.js('return window.asked'), 'at once where it is seen again')


# Sprints and the tracker.

@case('a sprint is made, filled, started, burnt down and closed')
def _(day):
    anna = day.anna
    anna.go('#/sprints', '.tile')
    anna.button('New sprint').click()
    anna.wait('dialog[open]')
    anna.keys('December, second half\n')
    anna.until_text('h1', 'December, second half')
    anna.wait('button[aria-label="Bring in: OPS-9"]').click()
    anna.until_text('section[aria-label="Issues in the sprint"]', 'OPS-9')
    anna.button('Start the sprint').click()
    anna.until_text('.state', 'Active')
    for transition in ('Start', 'Finish'):
        day.servers.call('anna', call='transition', issue='OPS-9', transition=transition)
    anna.until_text('.small-table', 'OPS-9')
    anna.wait('.chart svg path.steps')
    must('−8' in anna.text('.small-table .less'), anna.text('.small-table'))
    anna.button('Close the sprint').click()
    anna.button('Close it', 'dialog').click()
    anna.until_text('.state', 'Closed')


@case('a group gets a member, who may edit then')
def _(day):
    anna = day.anna
    anna.go('#/tracker', '.groups li')
    anna.find('button[aria-label="Change the members of team"]').click()
    anna.wait('dialog[open]')
    anna.find('dialog input[value="cy"]').click()
    anna.button('Save', 'dialog').click()
    anna.until_text('.toast', 'team has 4 members now.')
    must(day.servers.call('cy', call='edit', issue='OPS-11', set={'points': '1'})[0] == 200, 'cy may edit')
    anna.until_text('.groups li:first-child', 'cy')
    day.servers.ok('anna', call='set_group', group='team', members=['anna', 'bo', 'root'])


@case('ranks are rebalanced by a button, and the order stays')
def _(day):
    before = day.servers.ok('anna', call='search', jql='ORDER BY rank')['issues']
    bucket = day.servers.ok('anna', call='balance')['bucket']
    day.anna.button('Rebalance').click()
    day.anna.until_text('.toast', 'All ranks are short again.')
    must(day.servers.ok('anna', call='balance')['bucket'] == (bucket + 1) % 3, 'another bucket')
    must(day.servers.ok('anna', call='search', jql='ORDER BY rank')['issues'] == before, 'the order')
    day.bo.go('#/tracker', '.groups li')
    must(not [one for one in day.bo.all('button') if one.text in ('Rebalance', 'Change')], 'bo has no such button')


# Who asks, and from where.

@case('a forged user is put aside, and a call from a foreign page is refused')
def _(day):
    told = day.anna.js('return fetch("api/calls", {method: "POST", headers: {"X-User": "root"}, body: JSON.stringify({call: "describe"})}).then((one) => one.json())')
    must(told['ok']['user'] == 'anna', told)
    for headers in ({'Origin': 'http://elsewhere.example'}, {'Sec-Fetch-Site': 'cross-site'}, {'Sec-Fetch-Site': 'same-site'}):
        must(day.servers.call('anna', headers=headers, call='balance')[0] == 403, headers)
    must(day.servers.call('anna', headers={'Origin': day.servers.address.rstrip('/'), 'Sec-Fetch-Site': 'same-origin'}, call='balance')[0] == 200, 'its own page')


@case('a page from elsewhere can make no call with what the browser knows')
def _(day):
    text = page_site.FOREIGN.replace('SITE', day.servers.address.rstrip('/'))
    before = day.servers.ok('anna', call='search', jql='')['total']
    with page_site.page_elsewhere(text, page_browser.free_port(day.servers.behind + 1)) as address:
        day.bo.driver.get(address)
        day.bo.until(lambda: day.bo.driver.title != 'waiting', 'its calls are sent')
        must(day.bo.driver.title in ('opaque0 TypeError', 'TypeError TypeError'), day.bo.driver.title)
    must(day.servers.ok('anna', call='search', jql='')['total'] == before, 'nothing was made')
    day.bo.complaints()


@case('no script and no style in the page is let through that the policy doesn’t name')
def _(day):
    day.anna.go('#/search', '.list tbody tr')
    ran = day.anna.js('''const one = document.createElement('script'); one.append('window.ran = 1'); document.head.append(one);
        document.body.setAttribute('style', 'color: red'); let told = '';
        try { document.body.insertAdjacentHTML('beforeend', '<p>x</p>'); } catch (error) { told = error.name; }
        return [window.ran, getComputedStyle(document.body).color === 'rgb(255, 0, 0)', told]''')
    must(ran == [None, False, 'TypeError'], ran)
    day.anna.complaints()
    day.anna.go('#/search', '.list tbody tr')


# Another team.

@case('a team of its own: two projects, fields of each kind with odd names, and two ways to a column')
def _(day):
    servers = Servers(day.servers.program, day.servers.behind + 20, day.servers.python)
    servers.init(page_team.OTHER_TEAM)
    servers.start()
    jan, kim = Browser(servers, 'jan'), Browser(servers, 'kim')
    try:
        other_team(servers, jan)
        two_ways(servers, jan)
        must_not_see(servers, kim)
        told = jan.complaints() + kim.complaints()
        must(not told, told)
    finally:
        jan.quit()
        kim.quit()
        servers.stop()


def other_team(servers, jan):
    from selenium.webdriver.support.ui import Select
    servers.ok('jan', call='create', project='APP', type='Bug', summary='Behind a wall')
    jan.go('#/search', '.list tbody tr')
    jan.keys('c')
    jan.wait('dialog[open]')
    jan.keys('Another colour')
    Select(jan.find('dialog .field select')).select_by_visible_text('HELP')
    jan.button('Make the issue', 'dialog').click()
    jan.until_text('.toast', 'HELP-1 is made')
    jan.go('#/issue/HELP-1', '.timeline .birth')
    for name, value in page_team.ODD_VALUES.items():
        opener = next(one for one in jan.all('button.value') if one.get_attribute('aria-label').startswith(f'{name}: none.'))
        opener.click()
        if jan.focus().tag_name == 'select':
            Select(jan.focus()).select_by_visible_text(value)
        elif jan.focus().get_attribute('type') == 'date':
            jan.js('arguments[0].value = arguments[1]; arguments[0].dispatchEvent(new Event("input"))', jan.focus(), value)
        else:
            jan.keys(value)
        jan.button('Save', '.editing').click()
        jan.until(lambda name=name, value=value: servers.ok('jan', call='show', issue='HELP-1')['fields'].get(name) == value, f'{name} is {value}')
        jan.until(lambda: not jan.all('.editing'), 'the field is closed')
    jan.until_text('.timeline', 'two words')
    odd = next(name for name in page_team.ODD_VALUES if ',' in name)
    jan.go('#/search', '.list tbody tr')
    jan.button('Columns').click()
    for name in page_team.ODD_VALUES:
        next(one for one in jan.all('.menu input') if one.get_attribute('value') == name).click()
    head = jan.until(lambda: next(one for one in jan.all('.list th') if one.get_attribute('data-column') == odd), 'the column')
    jan.keys('\ue00c')
    head.find_element('css selector', 'button').click()
    jan.until(lambda: next(one for one in jan.all('.list th') if one.get_attribute('data-column') == odd).get_attribute('aria-sort') == 'ascending', 'the head sorts')
    jan.until_text('.list tbody tr:first-child', 'HELP-1')
    must(not jan.find('#query-fault').is_displayed(), jan.find('#query').get_attribute('value'))
    must(jan.js('return document.querySelectorAll("main b b, main th b").length') == 0, 'a name is no HTML')


def two_ways(servers, jan):
    servers.ok('jan', call='edit', issue='HELP-1', set={'due': '2024-01-01'})
    servers.ok('jan', call='make_board', name='Both', filter=servers.ok('jan', call='save_filter', name='Both', jql='')['filter'])
    jan.go('#/board/1', '.card p')
    jan.drag(card(jan, 'HELP-1'), jan.find('.cards[data-status="Being done"]'))
    jan.until_text('dialog[open]', 'How does HELP-1 go there?')
    jan.button('Begin', 'dialog').click()
    jan.until_text('dialog[open]', 'It asks for Due.')
    jan.js('const one = document.querySelector("dialog input"); one.value = "2098-12-31"; one.dispatchEvent(new Event("input"))')
    jan.button('Begin', 'dialog').click()
    jan.until(lambda: 'HELP-1' in column(jan, 'Being done') and not jan.all('.card.busy'), 'it is there')
    jan.drag(card(jan, 'HELP-1'), jan.find('.cards[data-status="Ready"]'))
    jan.until_text('dialog[open]', 'It asks for constructor.')
    jan.button('Done', 'dialog').click()
    jan.until_text('dialog .fault', '“Done” asks for another value of constructor.')
    jan.find('dialog option[value="right"]').click()
    jan.button('Done', 'dialog').click()
    jan.until(lambda: 'HELP-1' in column(jan, 'Ready'), 'it is ready')
    must(servers.ok('jan', call='show', issue='HELP-1')['fields']['points'] == '1', 'what the rule sets')
    jan.go('#/tracker', '.flow li')
    for words in ('Only for its assignee, its reporter or the group devs.', 'Asks for another value of constructor', 'its resolution is Done', 'Only for who may edit in its project.', 'it is assigned to the lead'):
        jan.until_text('.flow', words)


def must_not_see(servers, kim):
    kim.go('#/search', '.list tbody tr')
    must([one.text for one in kim.all('.list a.key')] == ['HELP-1'], 'one project alone')
    kim.go('#/issue/APP-1', '.empty')
    kim.until_text('.empty', 'kim may not look at issues in APP.')
    kim.go('#/tracker', '.groups li')
    must('APP' not in kim.text('section[aria-label="Projects"]'), 'nor is it told')


# When the tracker is away.

@case('the tracker stops and starts: what was typed stays, and goes through then')
def _(day):
    anna = day.anna
    anna.go('#/issue/OPS-11', '.timeline .birth')
    anna.keys('d')
    anna.wait('.editing textarea')
    anna.keys('Seen twice in October.')
    day.servers.stop_tracker()
    anna.button('Save', '.editing').click()
    anna.until_text('.editing .fault', 'The tracker doesn’t answer just now. What you typed is kept')
    anna.until_text('#link', 'The tracker doesn’t answer.')
    must(anna.find('.editing textarea').get_attribute('value') == 'Seen twice in October.', 'what was typed')
    day.servers.start_tracker()
    anna.until(lambda: not anna.find('#link').is_displayed(), 'the page sees that it is back')
    anna.button('Save', '.editing').click()
    anna.until_text('.f-description', 'Seen twice in October.')
    must(day.servers.ok('anna', call='show', issue='OPS-11')['fields']['description'] == 'Seen twice in October.', 'it is kept')


@case('an issue that is sent twice is made once')
def _(day):
    before = day.servers.ok('anna', call='search', jql='')['total']
    for already in (False, True):
        came = day.servers.ok('anna', call='create', project='OPS', type='Task', summary='Once', external='page 1')
        must(came['already'] is already, came)
    must(day.servers.ok('anna', call='search', jql='')['total'] == before + 1, 'one more')


# How it looks, and how it is read out.

@case('each thing that takes the focus has a name for screen readers')
def _(day):
    from selenium.webdriver.common.keys import Keys
    anna = day.anna
    for name, where, wanted in VIEWS:
        anna.go(where, wanted)
        must(not nameless(anna), f'{name}: {nameless(anna)}')
    for key in ('c', '?'):
        anna.keys(key)
        anna.wait('dialog[open]')
        must(not nameless(anna), f'the dialog of {key}: {nameless(anna)}')
        anna.keys(Keys.ESCAPE)
        anna.until(lambda: not anna.all('dialog[open]'), 'it is closed')


def nameless(browser):
    """The roles of what a screen reader would tell without a name."""
    browser.driver.execute_cdp_cmd('Accessibility.enable', {})
    nodes = browser.driver.execute_cdp_cmd('Accessibility.getFullAXTree', {})['nodes']
    return [one['role']['value'] for one in nodes if not one.get('ignored') and one['role']['value'] in
            ('button', 'link', 'textbox', 'combobox', 'checkbox', 'searchbox', 'image', 'table', 'dialog', 'Date') and not one.get('name', {}).get('value')]


@case('the Tab key comes to each link, button and field of a view, and out of it')
def _(day):
    from selenium.webdriver import ActionChains
    from selenium.webdriver.common.keys import Keys
    anna = day.anna
    for name, where, wanted in VIEWS:
        anna.go(where, wanted)
        time.sleep(0.5)
        count = anna.js('''window.come = new Set();
            window.called = (one) => `${one.tagName} ${one.getAttribute('aria-label') ?? one.textContent}`;
            document.addEventListener('focusin', ({ target }) => window.come.add(window.called(target)), true);
            window.all = () => [...document.querySelectorAll('a[href], button:not(:disabled), input:not(:disabled), select, textarea, summary, [tabindex="0"]')]
              .filter((one) => one.tabIndex >= 0 && one.checkVisibility({ visibilityProperty: true }) && one.closest('body'));
            return window.all().length''')
        chain = ActionChains(anna.driver)
        for _ in range(count + 5):
            chain.send_keys(Keys.TAB)
        chain.perform()
        missed = anna.js('return window.all().map(window.called).filter((one) => !window.come.has(one))')
        must(not missed, f'{name}: {missed}')


@case('at 360 pixels nothing is wider than the window, in any view')
def _(day):
    day.anna.size(NARROW, 780)
    for name, where, wanted in VIEWS:
        day.anna.go(where, wanted)
        wide = day.anna.js('return [document.documentElement.scrollWidth, innerWidth]')
        must(wide[0] <= wide[1], f'{name}: {wide}')
        cut = day.anna.js('''return [...document.querySelectorAll('button, a, h1, h2, input, select, textarea')].filter((one) => {
            const box = one.getBoundingClientRect();
            return one.checkVisibility() && box.width > 1 && !one.closest('.board, .scroll, .unseen, thead') && (box.left < -1 || box.right > innerWidth + 1) && !one.matches('.skip');
        }).map((one) => one.outerHTML.slice(0, 80))''')
        must(not cut, f'{name}: {cut}')
    day.anna.go('#/search', '.list tbody tr')
    day.anna.keys('c')
    day.anna.wait('dialog[open]')
    box = day.anna.js('const box = document.querySelector("dialog").getBoundingClientRect(); return [box.left >= 0, box.right <= innerWidth, box.bottom <= innerHeight]')
    must(all(box), box)
    day.anna.size(1240, 820)


@case('buttons and links of a view don’t lie over one another')
def _(day):
    for width, light in ((1240, False), (NARROW, False)):
        day.anna.size(width, 820)
        for name, where, wanted in VIEWS:
            day.anna.go(where, wanted)
            over = day.anna.js('''const all = [...document.querySelectorAll('main button, main a, main input, main select, main textarea')].filter((one) => one.checkVisibility() && !one.closest('.unseen, thead') && !one.matches('.cover'));
                const boxes = all.map((one) => [one, one.getBoundingClientRect()]).filter(([, box]) => box.width > 2 && box.bottom > 0 && box.top < innerHeight);
                const told = [];
                for (let at = 0; at < boxes.length; at += 1) for (let next = at + 1; next < boxes.length; next += 1) {
                  const [one, a] = boxes[at]; const [other, b] = boxes[next];
                  if (one.contains(other) || other.contains(one)) continue;
                  if (Math.min(a.right, b.right) - Math.max(a.left, b.left) > 2 && Math.min(a.bottom, b.bottom) - Math.max(a.top, b.top) > 2) told.push(one.outerHTML.slice(0, 60) + ' | ' + other.outerHTML.slice(0, 60));
                } return told''')
            must(not over, f'{name} at {width}: {over}')
    day.anna.size(1240, 820)


@case('each text stands out from what is behind it, in light and in dark')
def _(day):
    for dark in (False, True):
        day.anna.dark(dark)
        for name, where, wanted in VIEWS:
            day.anna.go(where, wanted)
            time.sleep(0.3)
            faint = day.anna.js(CONTRASTS)
            must(not faint, f'{name} in {"dark" if dark else "light"}: {faint}')
    day.anna.dark(False)


# Of each text that is seen: its colour against what lies behind it, by the ratio of their lights; 4.5 is wanted, and 3 of large letters.
CONTRASTS = """
const canvas = new OffscreenCanvas(1, 1).getContext('2d', { willReadFrequently: true });
const parts = (layers) => {
  canvas.globalCompositeOperation = 'source-over';
  for (const colour of layers) { canvas.fillStyle = colour; canvas.fillRect(0, 0, 1, 1); }
  return [...canvas.getImageData(0, 0, 1, 1).data].slice(0, 3);
};
const light = (colour) => {
  const [r, g, b] = colour.map((one) => one / 255).map((one) => (one <= 0.04045 ? one / 12.92 : ((one + 0.055) / 1.055) ** 2.4));
  return 0.2126 * r + 0.7152 * g + 0.0722 * b;
};
const told = [];
for (const one of document.querySelectorAll('body *')) {
  const words = [...one.childNodes].filter((node) => node.nodeType === 3 && node.data.trim() !== '');
  if (words.length === 0 || !one.checkVisibility() || one.closest('.unseen, .skip, .beneath, :disabled, noscript, option')) continue;
  const style = getComputedStyle(one);
  const layers = [];
  for (let at = one; at; at = at.parentElement) layers.unshift(getComputedStyle(at).backgroundColor);
  const colour = one instanceof SVGElement ? style.fill : style.color;
  const behind = light(parts(layers)), front = light(parts([...layers, colour]));
  const ratio = (Math.max(behind, front) + 0.05) / (Math.min(behind, front) + 0.05);
  const size = parseFloat(style.fontSize);
  const isLarge = size >= 24 || (size >= 18.6 && Number(style.fontWeight) >= 700);
  if (ratio < (isLarge ? 3 : 4.5)) told.push(`${one.tagName}.${one.getAttribute('class') ?? ''} ${words[0].data.trim().slice(0, 30)} ${ratio.toFixed(2)}`);
}
return [...new Set(told)];
"""


@case('the index names each module, so that a browser asks for all at once')
def _(day):
    text = (TOP / 'page/index.html').read_text(encoding='utf-8')
    modules = {str(one.relative_to(TOP / 'page')) for one in (TOP / 'page').rglob('*.js') if 'trial' not in one.parts}
    missing = sorted(one for one in modules if f'"{one}"' not in text)
    must(not missing, missing)


@case('the browsers’ consoles are silent')
def _(day):
    told = day.anna.complaints() + day.bo.complaints()
    must(not told, told)


@case('page/try starts all of it, and ends it')
def _(day):
    with tempfile.TemporaryDirectory() as room:
        started = subprocess.Popen([str(TOP / 'page/try'), day.servers.program, '--file', f'{room}/new/trial.db', '--port', str(day.servers.behind + 1)],
                                   stdout=subprocess.PIPE, text=True)
        try:
            address = started.stdout.readline().strip()
            must(address.startswith('http://127.0.0.1:'), address)
            told = subprocess.run(['curl', '-s', '-d', '{"call":"search","jql":""}', f'{address}api/calls'], capture_output=True, text=True).stdout
            must(told == '{"ok":{"issues":[],"total":0}}', told)
        finally:
            started.terminate()
            started.wait()


def pictures(day, folder):
    """The pictures of docs/PAGE.md."""
    anna = day.anna
    folder.mkdir(parents=True, exist_ok=True)
    for width, dark, tail in ((1240, False, ''), (1240, True, '-dark'), (NARROW, False, '-narrow'), (NARROW, True, '-narrow-dark')):
        anna.dark(dark)
        for name, where, wanted in VIEWS:
            anna.size(width, 300)
            anna.go(where, wanted)
            time.sleep(0.5)
            anna.size(width, min(HIGHEST, anna.js('return document.documentElement.scrollHeight')))
            anna.picture(folder / f'{name}{tail}.png')
    anna.size(1240, 760)
    anna.dark(False)
    anna.go('#/search', '.list tbody tr')
    anna.keys('/', 'type = Bug AND colour = red\n')
    anna.until_text('#query-fault', 'no field')
    anna.picture(folder / 'fault.png')
    anna.go('#/search', '.list tbody tr')
    anna.keys('c')
    anna.wait('dialog[open]')
    anna.keys('Show who looks at a board')
    anna.picture(folder / 'new.png')
    anna.button('Cancel', 'dialog').click()
    anna.keys('?')
    anna.wait('dialog[open]')
    anna.picture(folder / 'keys.png')
    anna.js('localStorage.clear()')
    shrink(folder)


def shrink(folder):
    """Makes the pictures small, by 256 colours each, where Python's imaging library is there."""
    try:
        from PIL import Image
    except ImportError:
        return
    for path in folder.glob('*.png'):
        picture = Image.open(path).convert('RGB')
        palette = Image.new('P', (1, 1))
        palette.putpalette([part for colour in colours_of(picture) for part in colour])
        picture.quantize(palette=palette, dither=Image.Dither.NONE).save(path, optimize=True)


def colours_of(picture):
    """256 of a picture's colours: the most frequent ones, and of the others those that none of them is like."""
    frequent = [colour for _, colour in sorted(picture.getcolors(1 << 24), reverse=True)]
    chosen = frequent[:120]
    for colour in frequent[120:]:
        if len(chosen) < 256 and all(sum((one - other) ** 2 for one, other in zip(colour, known)) > 300 for known in chosen):
            chosen.append(colour)
    return chosen


def words():
    known = argparse.ArgumentParser()
    known.add_argument('program', nargs='?', default=page_browser.PROGRAM)
    known.add_argument('--pictures')
    known.add_argument('--only', default='')
    known.add_argument('--port', type=int, default=8760)
    known.add_argument('--python', action='store_true')
    return known.parse_args()


def main():
    given = words()
    signal.signal(signal.SIGTERM, lambda *_: sys.exit(1))
    missing = page_browser.browser_there()
    if missing:
        print(f'{missing} is not there: the page was not tried')
        return 0
    if not pathlib.Path(given.program).exists():
        print(f'{given.program} is not there: the page was not tried')
        return 1
    wrong = 0
    servers = Servers(given.program, given.port, given.python)
    day = None
    try:
        refused = [one for one in servers.exec(page_team.past(int(time.time()))) if 'refused' in one]
        must(not refused, refused)
        servers.start()
        day = Day(servers)
        if given.pictures:
            pictures(day, pathlib.Path(given.pictures).resolve())
        for told, run in CASES:
            if given.only not in told:
                continue
            try:
                run(day)
                print(f'ok      {told}', flush=True)
            except Exception as error:
                wrong += 1
                print(f'not ok  {told}: {type(error).__name__} {str(error)[:400]}', flush=True)
    finally:
        if day:
            day.end()
        servers.stop()
    return 1 if wrong else 0


if __name__ == '__main__':
    sys.exit(main())
