#!/usr/bin/env python3
"""Opens the page in a headless Chromium behind nginx with the site of deploy/: passwords, TLS, the policy, and a foreign page.

usage: python3 checks/page_site.py [PROGRAM [PORT]]

PROGRAM is the built tracker, crates/tracker/out/tracker by default. Ten ports from PORT (8800) on 127.0.0.1 are used, and two behind
them. It needs no root, and writes to a folder of its own. Each case has a line; the status is 1 where one is not ok. Where Chromium,
its driver, selenium, nginx, openssl or curl isn't there, it says so and ends with status 0.
"""
import contextlib
import http.server
import importlib.machinery
import importlib.util
import os
import pathlib
import shutil
import signal
import sys
import tempfile
import threading
import time

import page_browser
from page_browser import Browser, TOP

# A page of somebody else: it sends calls with whatever the browser knows of the tracker's site, in the ways that need no leave.
FOREIGN = '''<!doctype html><title>waiting</title><iframe name="there"></iframe>
<form method="post" enctype="text/plain" target="there" action="SITE/api/calls"><input name='{"call":"create","project":"OPS","type":"Bug","summary":"By a form","x":"' value='"}'></form>
<script>
const body = '{"call":"create","project":"OPS","type":"Bug","summary":"By a foreign page"}';
const send = (mode) => fetch('SITE/api/calls', { method: 'POST', mode, credentials: 'include', body }).then((one) => one.type + one.status, (error) => error.name);
document.querySelector('form').submit();
Promise.all([send('no-cors'), send('cors')]).then((told) => setTimeout(() => { document.title = told.join(' '); }, 500));
</script>'''


def trial_of_deploy():
    """deploy/try as a module."""
    loader = importlib.machinery.SourceFileLoader('deploy_try', str(TOP / 'deploy/try'))
    module = importlib.util.module_from_spec(importlib.util.spec_from_loader('deploy_try', loader))
    loader.exec_module(module)
    return module


@contextlib.contextmanager
def page_elsewhere(text, port):
    """A server of one page, on another port: another origin."""
    class Page(http.server.BaseHTTPRequestHandler):
        def do_GET(self):
            self.send_response(200)
            self.send_header('Content-Type', 'text/html; charset=utf-8')
            self.end_headers()
            self.wfile.write(text.encode())

        def log_message(self, *_):
            pass
    server = http.server.ThreadingHTTPServer(('127.0.0.1', port), Page)
    threading.Thread(target=server.serve_forever, daemon=True).start()
    try:
        yield f'http://127.0.0.1:{port}/'
    finally:
        server.shutdown()


class Signed:
    """The site's address, with the name and the password in it by which one signs in."""

    def __init__(self, host, user, word):
        self.plain = f'https://{host}/'
        self.address = f'https://{user}:{word}@{host}/'


def page_works(browser, site):
    browser.driver.get(browser.servers.address + '#/search')
    browser.wait('.view.search .empty')
    yield 'who signed in is named in the head', browser.text('.top .who').split()[-1], 'anna'
    browser.keys('c')
    browser.wait('dialog[open]')
    browser.keys('Made behind the site\n')
    browser.until_text('.toast', 'OPS-1 is made')
    yield 'an issue is made, whose reporter is who signed in', site.reporter('OPS-1'), 'anna'
    browser.go('#/issue/OPS-1', '.timeline .birth')
    yield 'it is shown', browser.text('h1'), 'Made behind the site'
    yield 'there is no choice of user', browser.all('.top .who select'), []


def policy_holds(browser, site):
    head = browser.js("return fetch(`${location.origin}/`).then((one) => one.headers.get('content-security-policy'))")
    wanted = browser.js("return fetch(`${location.origin}/api/calls`, { method: 'POST', body: '{}' }).then((one) => one.headers.get('content-security-policy'))")
    yield 'Chromium is sent the policy, with the page and with answers', head and head == wanted and "default-src 'none'; script-src 'self'" in head, True
    ran = browser.js('''const one = document.createElement('script'); one.append('window.ran = 1'); document.head.append(one);
        let told = ''; try { document.body.insertAdjacentHTML('beforeend', '<img src=x onerror="window.ran = 2">'); } catch (error) { told = error.name; }
        return [window.ran ?? null, told]''')
    yield 'it runs no inline code, and reads no text as HTML', ran, [None, 'TypeError']
    for path in ('try', 'trial/front.py', 'trial/choose.js', 'out/trial.db'):
        yield f'{path} isn\'t served', browser.js('return fetch(`${location.origin}/${arguments[0]}`).then((one) => one.status)', path), 404


def foreign_pages(browser, site, port):
    before = site.call({'call': 'search', 'jql': ''})['ok']['total']
    browser.complaints()
    with page_elsewhere(FOREIGN.replace('SITE', browser.servers.plain.rstrip('/')), port) as address:
        browser.driver.get(address)
        browser.until(lambda: browser.driver.title != 'waiting', 'the foreign page has sent its calls')
        yield 'a foreign page is told nothing', browser.driver.title, 'TypeError TypeError'
    yield 'nothing was made by it', site.call({'call': 'search', 'jql': ''})['ok']['total'], before
    time.sleep(0.3)
    lines = [line for line in (site.room / 'requests.log').read_text(encoding='utf-8').splitlines() if 'POST /api/calls' in line]
    yield 'nginx refused each of its three calls', [line.split('" ')[1].split()[0] for line in lines[-4:-1]], ['403'] * 3
    for words, wanted in [(['-H', 'Origin: https://elsewhere.example'], '403'), (['-H', 'Origin: null'], '403'), (['-H', 'Sec-Fetch-Site: cross-site'], '403'),
                          (['-H', 'Sec-Fetch-Site: same-site'], '403'), (['-H', f'Origin: {browser.servers.plain.rstrip("/")}', '-H', 'Sec-Fetch-Site: same-origin'], '200')]:
        yield f'a call with {" and ".join(words[1::2])}', site.status('/api/calls', '-d', '{"call":"balance"}', *words), wanted


def tried(parts):
    wrong = 0
    for part in parts:
        for told, came, wanted in part:
            wrong += came != wanted
            print(f'ok      {told}' if came == wanted else f'not ok  {told}: wanted {wanted!r}, came {came!r}', flush=True)
    return wrong


def main():
    signal.signal(signal.SIGTERM, lambda *_: sys.exit(1))
    os.environ['PATH'] += ':/usr/sbin:/sbin'
    missing = page_browser.browser_there() or next((it for it in ('nginx', 'openssl', 'curl') if not shutil.which(it)), None)
    if missing:
        print(f'{missing} is not there: the page was not tried behind a site')
        return 0
    deploy = trial_of_deploy()
    program = os.path.abspath(sys.argv[1]) if len(sys.argv) > 1 else page_browser.PROGRAM
    if not os.path.isfile(program):
        print(f'{program} is not there: the page was not tried behind a site')
        return 1
    port = int(sys.argv[2]) if len(sys.argv) > 2 else 8800
    with tempfile.TemporaryDirectory() as name:
        site = deploy.Site(pathlib.Path(name), program, port)
        site.room.chmod(0o755)
        site.set_up()
        site.make_secrets()
        site.make_page()
        browser = None
        try:
            came = deploy.done(['nginx', '-t', '-c', f'{name}/nginx.conf'], fails=True)
            site.serve('red')
            site.start_front()
            browser = Browser(Signed(f'red.example.org:{port}', 'anna', deploy.PEOPLE['anna']),
                              words=('--host-resolver-rules=MAP red.example.org 127.0.0.1', '--ignore-certificate-errors'))
            return 1 if tried([[('nginx -t', came.returncode, 0)], page_works(browser, site), policy_holds(browser, site),
                               foreign_pages(browser, site, port + 10)]) else 0
        finally:
            if browser:
                browser.quit()
            site.stop_all()


if __name__ == '__main__':
    sys.exit(main())
