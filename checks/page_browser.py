"""A headless Chromium over the page, for the scripts that try it: the page's servers, the browser, and waiting."""
import contextlib
import json
import os
import pathlib
import shutil
import socket
import subprocess
import sys
import tempfile
import time
import urllib.error
import urllib.request

TOP = pathlib.Path(__file__).resolve().parent.parent
PROGRAM = str(TOP / 'crates/tracker/out/tracker')
sys.dont_write_bytecode = True
sys.path.insert(0, str(TOP / 'page/trial'))
import front  # noqa: E402

# How many seconds a thing may take; a machine with much else to do wants more.
PATIENCE = float(os.environ.get('PATIENCE', '10'))


def browser_there():
    """What of the browser isn't there, or None. Where this Python lacks the driver's package, the system's own takes over."""
    if not (shutil.which('chromium') and shutil.which('chromedriver')):
        return 'chromium or chromedriver'
    try:
        import selenium  # noqa: F401
        return None
    except ImportError:
        other = '/usr/bin/python3'
        has = subprocess.run([other, '-c', 'import selenium'], capture_output=True).returncode == 0 if os.path.exists(other) else False
        if has and os.path.realpath(sys.executable) != os.path.realpath(other):
            os.execv(other, [other, *sys.argv])
        return 'the Python package selenium'


def free_port(port):
    while True:
        with contextlib.suppress(OSError), socket.socket() as one:
            one.setsockopt(socket.SOL_SOCKET, socket.SO_REUSEADDR, 1)
            one.bind(('127.0.0.1', port))
            return port
        port += 1


class Servers:
    """The tracker on a file, and a front server before it. Each may be stopped and started."""

    def __init__(self, program, port, python=False):
        self.room = tempfile.TemporaryDirectory()
        self.program, self.python = program, python
        self.file = f'{self.room.name}/trial.db'
        self.port = free_port(port)
        self.behind = free_port(self.port + 1)
        self.tracker = self.front = None

    def exec(self, lines):
        """Answers request lines over the file, while no tracker is served on it."""
        text = ''.join(json.dumps(line) + '\n' for line in lines)
        told = subprocess.run([self.program, self.file, 'exec'], input=text, capture_output=True, text=True, check=True)
        return [json.loads(line) for line in told.stdout.splitlines()]

    def init(self, setup):
        """Begins with another team than the built-in one."""
        subprocess.run([self.program, self.file, 'init'], input=setup, text=True, check=True, capture_output=True)

    def generate(self, count):
        subprocess.run([self.program, self.file, 'generate', str(count)], check=True, capture_output=True)

    def start(self):
        self.start_tracker()
        if front.nginx() and not self.python:
            folder = pathlib.Path(self.room.name) / 'front'
            folder.mkdir(exist_ok=True)
            pathlib.Path(self.room.name).chmod(0o755)
            self.front = front.start_nginx(folder, self.port, self.behind)
        else:
            self.front = subprocess.Popen([sys.executable, '-B', str(TOP / 'page/trial/front.py'), str(self.port), str(self.behind)])
        wait_for_port(self.port)

    def start_tracker(self):
        self.tracker = subprocess.Popen([self.program, self.file, 'serve', str(self.behind), '4'], stdout=subprocess.DEVNULL)
        wait_for_port(self.behind)

    def stop_tracker(self):
        if self.tracker:
            self.tracker.terminate()
            self.tracker.wait()
            time.sleep(0.3)

    def stop(self):
        self.stop_tracker()
        if self.front:
            self.front.terminate()
            self.front.wait()
        self.room.cleanup()

    @property
    def address(self):
        return f'http://127.0.0.1:{self.port}/'

    def call(self, user, headers=None, **members):
        """A call over the front server, as who the trial's cookie says."""
        request = urllib.request.Request(f'{self.address}api/calls', json.dumps(members).encode(), {'Cookie': f'trial_user={user}', **(headers or {})})
        try:
            with urllib.request.urlopen(request, timeout=60) as came:
                return came.status, json.load(came)
        except urllib.error.HTTPError as error:
            return error.code, error.read().decode()

    def ok(self, user, **members):
        status, reply = self.call(user, **members)
        if status != 200:
            raise RuntimeError(f'{members}: {reply}')
        return reply['ok']


def wait_for_port(port):
    end = time.time() + 6 * PATIENCE
    while time.time() < end:
        with contextlib.suppress(OSError):
            socket.create_connection(('127.0.0.1', port), timeout=1).close()
            return
        time.sleep(0.05)
    raise RuntimeError(f'nothing listens on {port}')


class Browser:
    """One person's browser on the page. In a trial the user is who one chooses to be; elsewhere one is signed in."""

    def __init__(self, servers, user=None, width=1240, height=820, dark=False, words=()):
        from selenium import webdriver
        from selenium.webdriver.chrome.service import Service
        options = webdriver.ChromeOptions()
        options.binary_location = shutil.which('chromium')
        for word in ('--headless=new', '--no-sandbox', '--disable-gpu', '--hide-scrollbars', '--disable-dev-shm-usage', '--force-color-profile=srgb',
                     '--disable-background-timer-throttling', '--disable-renderer-backgrounding', f'--window-size={width},{height}', *words):
            options.add_argument(word)
        options.set_capability('goog:loggingPrefs', {'browser': 'ALL'})
        self.driver = webdriver.Chrome(service=Service(shutil.which('chromedriver')), options=options)
        self.servers, self.user = servers, user
        self.size(width, height)
        self.dark(dark)
        if user is not None:
            self.driver.get(f'{servers.address}icon.svg')
            self.driver.add_cookie({'name': 'trial_user', 'value': user, 'path': '/'})

    def size(self, width, height, mobile=False):
        self.driver.execute_cdp_cmd('Emulation.setDeviceMetricsOverride', {'width': width, 'height': height, 'deviceScaleFactor': 1, 'mobile': mobile})

    def dark(self, is_dark):
        told = [{'name': 'prefers-color-scheme', 'value': 'dark' if is_dark else 'light'}, {'name': 'prefers-reduced-motion', 'value': 'reduce'}]
        self.driver.execute_cdp_cmd('Emulation.setEmulatedMedia', {'features': told})

    def go(self, hash_, wanted=None):
        """Loads a view anew, and waits for something in it."""
        self.driver.get('about:blank')
        self.driver.get(f'{self.servers.address}{hash_}')
        self.wait('.top .who' if self.user is None else '.top .who select')
        if wanted:
            self.wait(wanted)

    def find(self, selector):
        from selenium.webdriver.common.by import By
        return self.driver.find_element(By.CSS_SELECTOR, selector)

    def all(self, selector):
        from selenium.webdriver.common.by import By
        return self.driver.find_elements(By.CSS_SELECTOR, selector)

    def wait(self, selector, seconds=PATIENCE):
        return self.until(lambda: next(iter([one for one in self.all(selector) if one.is_displayed()]), None), f'{selector} is shown', seconds)

    def until(self, holds, words, seconds=PATIENCE):
        """Waits until something holds, over elements that are drawn anew meanwhile."""
        from selenium.common.exceptions import WebDriverException
        end = time.time() + seconds
        while time.time() < end:
            try:
                came = holds()
                if came:
                    return came
            except WebDriverException:
                pass
            time.sleep(0.05)
        raise AssertionError(f'waited in vain: {words}')

    def until_text(self, selector, text, seconds=PATIENCE):
        return self.until(lambda: any(text in one.text for one in self.all(selector)), f'{text!r} in {selector}', seconds)

    def text(self, selector):
        return self.until(lambda: self.find(selector).text or ' ', selector)

    def keys(self, *words):
        """Types where the focus is."""
        from selenium.webdriver import ActionChains
        for word in words:
            ActionChains(self.driver).send_keys(word).perform()

    def chord(self, modifier, key):
        from selenium.webdriver import ActionChains
        ActionChains(self.driver).key_down(modifier).send_keys(key).key_up(modifier).perform()

    def button(self, words, within='body'):
        """The button with these words, once it is there."""
        return self.until(lambda: next((one for one in self.all(f'{within} button') if one.is_displayed() and one.text.strip() == words), None), f'button {words!r}')

    def drag(self, source, target, dx=0, dy=0):
        """Drags one element to another by the mouse, in steps."""
        from selenium.webdriver import ActionChains
        chain = ActionChains(self.driver, duration=60)
        chain.move_to_element(source).click_and_hold().move_by_offset(0, 8)
        chain.move_to_element_with_offset(target, dx, dy).move_by_offset(1, 0).pause(0.15).release().perform()

    def js(self, text, *given):
        return self.driver.execute_script(text, *given)

    def focus(self):
        return self.driver.switch_to.active_element

    def picture(self, path):
        time.sleep(0.35)
        self.driver.save_screenshot(str(path))

    def complaints(self):
        """What the browser's console told, but for the statuses of refused calls and of a server that is away."""
        return [one['message'] for one in self.driver.get_log('browser')
                if one['level'] in ('SEVERE', 'WARNING') and 'Failed to load resource' not in one['message'] and 'net::ERR' not in one['message']]

    def quit(self):
        self.driver.quit()
