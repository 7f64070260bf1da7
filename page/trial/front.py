"""The trial's front server: the page at /, the calls at /api/. nginx by a configuration of its own, else one of Python's library.

Both say who asks by the cookie `trial_user`, refuse calls from foreign pages, and send the page's content security policy. Neither
signs anybody in: they are for one's own machine.
"""
import http.client
import http.server
import os
import pathlib
import re
import shutil
import subprocess
import sys

PAGE = pathlib.Path(__file__).resolve().parent.parent
POLICY = ("default-src 'none'; script-src 'self'; style-src 'self'; img-src 'self'; connect-src 'self'; base-uri 'none'; "
          "form-action 'none'; frame-ancestors 'none'; require-trusted-types-for 'script'; trusted-types 'none'")
HEADERS = {'Content-Security-Policy': POLICY, 'X-Content-Type-Options': 'nosniff', 'Referrer-Policy': 'no-referrer', 'Cache-Control': 'no-cache'}
TYPES = {'.html': 'text/html; charset=utf-8', '.css': 'text/css; charset=utf-8', '.js': 'text/javascript; charset=utf-8', '.svg': 'image/svg+xml'}
LONGEST = 65_536
FIRST_USER = 'anna'

NGINX = """
daemon off;
pid {room}/pid;
error_log {room}/errors;
{user}
events {{ }}
http {{
    access_log off;
    client_body_temp_path {room}/body;
    proxy_temp_path {room}/proxy;
    fastcgi_temp_path {room}/fastcgi;
    uwsgi_temp_path {room}/uwsgi;
    scgi_temp_path {room}/scgi;
    types {{ text/html html; text/css css; text/javascript js; image/svg+xml svg; }}
    charset utf-8;
    charset_types text/css text/javascript;
    map $http_sec_fetch_site $foreign_site {{ default 1; "" 0; "same-origin" 0; "none" 0; }}
    map $http_origin $foreign_origin {{ default 1; "" 0; "http://$http_host" 0; }}
    map $cookie_trial_user $trial_user {{ default {first}; "~^[a-z0-9._-]+$" $cookie_trial_user; }}
    server {{
        listen 127.0.0.1:{port};
        root {page};
{headers}
        location = / {{ root {room}; try_files /index.html =404; }}
        location = /index.html {{ root {room}; }}
        location ~ (^/try$|^/out/|\\.md|\\.py|__pycache__) {{ return 404; }}
        location /api/ {{
            if ($foreign_site) {{ return 403; }}
            if ($foreign_origin) {{ return 403; }}
            client_max_body_size 64k;
            proxy_pass http://127.0.0.1:{tracker}/;
            proxy_http_version 1.1;
            proxy_set_header Connection close;
            proxy_set_header X-User $trial_user;
        }}
    }}
}}
"""


def trial_index():
    """The page's index with the choice of user, which it has in a trial alone."""
    text = (PAGE / 'index.html').read_text(encoding='utf-8')
    return text.replace('</head>', '<script type="module" src="trial/choose.js"></script>\n</head>')


def nginx():
    """The path of nginx, or None."""
    return shutil.which('nginx', path=f'{os.environ.get("PATH", "")}:/usr/sbin:/usr/local/sbin')


def start_nginx(room, port, tracker):
    """nginx on that port, with its files in that folder."""
    room.chmod(0o755)
    (room / 'index.html').write_text(trial_index(), encoding='utf-8')
    headers = '\n'.join(f'        add_header {name} "{value}" always;' for name, value in HEADERS.items())
    config = NGINX.format(room=room, port=port, tracker=tracker, page=PAGE, headers=headers, first=FIRST_USER,
                          user='user root;' if os.geteuid() == 0 else '')
    config = config.replace('"http://$http_host" 0;', f'"http://127.0.0.1:{port}" 0; "http://localhost:{port}" 0;')
    (room / 'nginx.conf').write_text(config, encoding='utf-8')
    return subprocess.Popen([nginx(), '-e', f'{room}/errors', '-c', f'{room}/nginx.conf'])


def is_foreign(headers, port):
    """Whether a call comes from another page than the tracker's own."""
    if headers.get('Sec-Fetch-Site', 'none') not in ('same-origin', 'none'):
        return True
    return headers.get('Origin', '') not in ('', f'http://127.0.0.1:{port}', f'http://localhost:{port}')


def user_of(headers):
    """Who asks, by the trial's cookie."""
    found = re.search(r'(?:^|;\s*)trial_user=([a-z0-9._-]+)(?:;|$)', headers.get('Cookie', ''))
    return found[1] if found else FIRST_USER


class Front(http.server.BaseHTTPRequestHandler):
    """Files of the page, and calls that are passed on, each over a connection of its own."""
    protocol_version = 'HTTP/1.1'
    port = tracker = 0

    def log_message(self, *_):
        pass

    def answer(self, status, body, **headers):
        self.send_response(status)
        for name, value in (HEADERS | headers).items():
            self.send_header(name.replace('_', '-'), value)
        self.send_header('Content-Length', str(len(body)))
        self.end_headers()
        if self.command != 'HEAD':
            self.wfile.write(body)

    def do_GET(self):
        path = self.path.split('?')[0]
        if path.startswith('/api/'):
            self.pass_on(b'')
        elif path in ('/', '/index.html'):
            self.answer(200, trial_index().encode(), Content_Type=TYPES['.html'])
        else:
            self.send_file(path)

    do_HEAD = do_GET

    def do_POST(self):
        length = self.headers.get('Content-Length', '')
        if not length.isdecimal():
            self.close_connection = True
            self.answer(411, b'')
        elif int(length) > LONGEST:
            self.close_connection = True
            self.answer(413, b'')
        else:
            body = self.rfile.read(int(length))
            if self.path.startswith('/api/'):
                self.pass_on(body)
            else:
                self.answer(405, b'')

    def send_file(self, path):
        file = (PAGE / path.lstrip('/')).resolve()
        if file.suffix not in TYPES or not file.is_relative_to(PAGE) or not file.is_file():
            self.answer(404, b'')
            return
        mark = f'"{file.stat().st_mtime_ns:x}-{file.stat().st_size:x}"'
        if self.headers.get('If-None-Match') == mark:
            self.send_response(304)
            self.send_header('ETag', mark)
            self.end_headers()
            return
        self.answer(200, file.read_bytes(), Content_Type=TYPES[file.suffix], ETag=mark)

    def pass_on(self, body):
        if is_foreign(self.headers, self.port):
            self.answer(403, b'')
            return
        link = http.client.HTTPConnection('127.0.0.1', self.tracker, timeout=60)
        try:
            link.request(self.command, self.path.removeprefix('/api'), body, {'Connection': 'close', 'X-User': user_of(self.headers)})
            came = link.getresponse()
            told = came.read()
            self.answer(came.status, told, Content_Type=came.getheader('Content-Type', 'application/json'))
        except OSError:
            self.answer(502, b'')
        finally:
            link.close()


class Server(http.server.ThreadingHTTPServer):
    daemon_threads = True
    request_queue_size = 64


def main():
    """usage: front.py PORT TRACKER"""
    Front.port, Front.tracker = int(sys.argv[1]), int(sys.argv[2])
    Server(('127.0.0.1', Front.port), Front).serve_forever()


if __name__ == '__main__':
    main()
