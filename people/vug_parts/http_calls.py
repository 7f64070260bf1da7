"""Calls over HTTP: a request of POST .../calls for each, to the program itself or to the front server before it."""
import base64
import http.client
import json
import re
import socket
import ssl
import urllib.parse

from .requests import encoded
from .trouble import AnswerLost, NotLetIn, Unreachable, Usage

# A call that changes nothing may be made again where its answer was lost.
READING = {'show', 'history', 'search', 'filter', 'board', 'burndown', 'ranks', 'balance', 'list', 'describe', 'filters', 'boards', 'sprints'}


class HttpTracker:
    """A tracker at a URL. `password` is asked for one where the front server wants one, and may tell that there is none."""

    def __init__(self, url, user, password, certificate=None, timeout=30):
        parts = urllib.parse.urlsplit(url)
        try:
            port = parts.port
        except ValueError:
            raise Usage(f'{url}: the port is no number') from None
        if parts.scheme not in ('http', 'https') or not parts.hostname:
            raise Usage(f'{url}: a URL begins with http:// or https:// and a host')
        if parts.password is not None:
            raise Usage('a URL with a password would be seen by others on this machine; write the password into ~/.netrc')
        self.host, self.port, self.secure = parts.hostname, port, parts.scheme == 'https'
        self.shown = f'{parts.scheme}://{parts.netloc.rpartition("@")[2]}'
        self.user = user or parts.username
        self.loopback = is_loopback(self.host)
        self.password, self.certificate, self.timeout = password, certificate, timeout
        self.paths = paths_of(parts.path, self.secure, self.loopback)
        self.link = None
        self.guard = None  # a server sets the clock by itself
        if not self.user:
            raise Usage('who asks? name yourself: vug --user NAME .., or user = NAME in the configuration')
        if not self.secure and not self.loopback:
            raise Usage(f'{self.shown} is neither on this machine nor https: a password would be read by others on the way')

    def call(self, name, members):
        """The reply of the tracker to a call."""
        body = encoded({'call': name, **members})
        again = name in READING or (name == 'create' and 'external' in members)
        while True:
            status, came = self.exchange(body, again)
            reply = reply_of(came)
            # An unknown path is told before anything is done, so the call may be tried at the next one.
            if status in (404, 405) and (reply is None or 'http' in reply) and len(self.paths) > 1:
                self.paths.pop(0)
                continue
            if reply and ('ok' in reply or 'refused' in reply):
                return reply
            raise self.told(status, name, again)

    def exchange(self, body, again):
        """Sends a request, once more where that does no harm, and takes its response."""
        for tries_left in (1, 0):
            try:
                link = self.connected()
            except ssl.SSLCertVerificationError as fault:
                raise Unreachable(f'{self.shown}: its certificate is not trusted ({fault.verify_message}); certificate = FILE in the '
                                  'configuration names one that is') from None
            except (OSError, http.client.HTTPException) as fault:
                raise Unreachable(f'{self.shown} cannot be reached: {reason(fault)}') from None
            try:
                link.request('POST', self.paths[0], body, self.fields())
                response = link.getresponse()
                came = response.read()
            except socket.timeout:
                self.close()
                raise AnswerLost(f'{self.shown} did not answer within {self.timeout} seconds' + unknown(again)) from None
            except (OSError, http.client.HTTPException) as fault:
                self.close()
                # A connection that was kept may have been closed meanwhile; a new one is worth one try more.
                if tries_left and again:
                    continue
                lost = f'{self.shown} ended the connection without an answer ({reason(fault)})'
                raise AnswerLost(lost + unknown(again)) from None
            if response.will_close:
                self.close()
            return response.status, came

    def connected(self):
        """The kept connection, or a new one."""
        if self.link is None:
            if self.secure:
                try:
                    trusted = ssl.create_default_context(cafile=self.certificate)
                except (OSError, ssl.SSLError) as fault:
                    raise Unreachable(f'the certificate {self.certificate} cannot be read: {reason(fault)}') from None
                link = http.client.HTTPSConnection(self.host, self.port, timeout=self.timeout, context=trusted)
            else:
                link = http.client.HTTPConnection(self.host, self.port, timeout=self.timeout)
            link.connect()
            self.link = link
        return self.link

    def fields(self):
        """Who asks: on the loopback the name alone, else name and password, and both where there is a password for the loopback."""
        fields = {'Content-Type': 'application/json', 'Accept': 'application/json', 'User-Agent': 'vug'}
        if not self.secure:
            fields['X-User'] = self.user
        word = self.password(self.host, self.user, needed=self.secure)
        if word is not None:
            fields['Authorization'] = 'Basic ' + base64.b64encode(f'{self.user}:{word}'.encode()).decode()
        return fields

    def told(self, status, name, again):
        """What a response says that is no reply of a tracker."""
        if status in (401, 403):
            return NotLetIn(f'{self.shown} does not take the name {self.user} with this password (HTTP {status})')
        if status == 413:
            return Unreachable('the request is longer than the front server takes')
        if status == 429:
            return Unreachable(f'{self.shown} takes no more requests for a while (HTTP 429)')
        if status == 504:
            return AnswerLost(f'{self.shown} waited in vain for the tracker (HTTP 504)' + unknown(again))
        if status in (502, 503):
            return Unreachable(f'{self.shown} answers, but the tracker behind it does not (HTTP {status})')
        if 300 <= status < 400:
            return Unreachable(f'{self.shown} sends requests elsewhere (HTTP {status}); is the URL right?')
        return Unreachable(f'{self.shown}{self.paths[0]} gives no reply of a tracker (HTTP {status}); is the URL right?')

    def close(self):
        if self.link is not None:
            self.link.close()
            self.link = None


def paths_of(path, secure, loopback):
    """Where calls are posted. Without a path of its own a URL stands for the program itself on the loopback, and else for a front
    server, whose calls are under /api/; the other place is tried where that one is unknown."""
    if path.strip('/'):
        return [path.rstrip('/') + '/calls']
    places = ['/api/calls', '/calls']
    return places if secure or not loopback else places[::-1]


def is_loopback(host):
    return host in ('localhost', '::1') or re.fullmatch(r'127(\.[0-9]{1,3}){3}', host) is not None


def reply_of(came):
    """The JSON object that a response has, or nothing."""
    try:
        value = json.loads(came)
    except ValueError:
        return None
    return value if isinstance(value, dict) else None


def unknown(again):
    return '' if again else '; whether the call was made is not known: look before you make it again'


def reason(fault):
    """A system's fault without its number."""
    if isinstance(fault, socket.gaierror):
        return 'no such host'
    return getattr(fault, 'strerror', None) or str(fault) or type(fault).__name__
