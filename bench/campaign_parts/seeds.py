"""The good inputs from which mutations start: the examples of the pages, the stored run of the program, and some of their own."""
import pathlib

from .documented import blocks, examples

TOP = pathlib.Path(__file__).resolve().parent.parent.parent

# A setup of two projects, with each kind of own field, of rule and of step. Its names are those of a new tracker and some more.
SETUP = '''utc_offset_minutes = 60
week_starts = "sunday"
rebalancer = "root"
users = ["anna", "bo", "cy", "root"]
types = ["Task", "Bug"]
priorities = ["High", "Medium", "Low"]
resolutions = ["Fixed", "Declined"]
versions = ["1.0", "1.1"]
first_status = "Open"
plan = ["team"]
administer = ["admins"]
group = [
  { name = "team", members = ["anna", "bo", "root"] },
  { name = "admins", members = ["anna", "root"] },
  { name = "guests", members = ["cy"] },
]
project = [
  { key = "OPS", lead = "anna", browse = ["team", "guests"], create = ["team"], edit = ["team"], transition = ["team"], rank = ["team"] },
  { key = "WEB", lead = "bo", browse = ["team"], create = ["team"], edit = ["admins"], transition = ["team"], rank = ["admins"] },
]
status = [
  { name = "Open", category = "todo" },
  { name = "In Progress", category = "progress" },
  { name = "In Review", category = "progress" },
  { name = "Done", category = "done" },
]

[[transition]]
name = "Start"
from = ["Open"]
to = "In Progress"
post = ["assign:caller", "set:labels=[\\"begun\\"]", "set:Effort=1.5"]

[[transition]]
name = "Review"
from = ["In Progress"]
to = "In Review"
conditions = ["any:assignee|reporter|group:admins|permission:rank"]
validators = ["changed:points", "due"]
post = ["assign:lead", "clear:due"]

[[transition]]
name = "Finish"
from = ["In Progress", "In Review"]
to = "Done"
conditions = ["any:assignee|group:admins"]
validators = ["required:points", "permission:edit"]
post = ["resolution:Fixed", "assign:reporter"]

[[transition]]
name = "Reopen"
from = ["Done"]
to = "Open"
conditions = ["permission:edit"]
post = ["clear:resolution"]

[[field]]
number = 10001
name = "Area"
kind = "choice"
options = ["North", "South"]

[[field]]
number = 10002
name = "Effort"
kind = "number"

[[field]]
number = 10003
name = "Notes"
kind = "text"

[[field]]
number = 10004
name = "Tester"
kind = "user"

[[field]]
number = 19999
name = "Ship date"
kind = "date"

[[offset]]
from = 1711846800
minutes = 120

[[offset]]
from = 1729990800
minutes = 60
'''

SETUPS = [it.encode() for it in (*blocks('NEW-TRACKER', 'toml'), *blocks('SETUP', 'toml'), SETUP)]
LINES = [line.encode() for line, _ in examples()] + (TOP / 'crates/tracker/stdin').read_bytes().split(b'\n')

CSV_HEADER = b'external,project,type,summary,assignee,reporter,priority,points,due'
RECORDS = [
    b'X-1,OPS,Task,Move desks,bo,,High,1,2024-04-01', b'X-2,OPS,Bug,"Crash, on start",,cy,,,', b'X-3,WEB,Story,Plan,,,,,',
    b',OPS,Task,"two ""words"" and\nlines",,,,,',
    b'"X-4","OPS","Task","",anna,bo,Low,0.5,2099-12-31', b'X-1,OPS,Task,Move chairs,,,,,',
    '\u00fc,OPS,Task,Gr\u00f6\u00dfe,,,,"1,5",01.04.2024'.encode(), b',,,,,,,,', b'X-5,OPS',
]
QUERIES = [
    b'status = Open AND due < endOfWeek() ORDER BY priority DESC, key', b'assignee=bo and status was not \'In Progress\' before -2w',
    b'!(a=1 || (b ~ x)) order by c, \'d e\' desc',
    b'a in (b, f( c )) and cf[0010001] = 2', b'assignee CHANGED FROM (anna, cy) TO EMPTY BY membersOf(team) DURING (2024-03-04, now())',
]
REQUESTS = [
    b'GET /issues/OPS-1 HTTP/1.1\r\nHost: t\r\nX-User: cy\r\n\r\n',
    b'GET /issues/OPS-2/history?from=1&count=2 HTTP/1.1\r\nHost: t\r\nX-User: anna\r\n\r\n',
    b'GET /search?jql=points+%3E+2+OR+summary+~+%22gr%C3%B6%C3%9Fe%22&count=10 HTTP/1.1\r\nHost: t\r\nX-User: bo\r\nAccept: */*\r\n\r\n',
    b'GET /filters/1?count=3 HTTP/1.1\r\nHost: t\r\nX-User: anna\r\n\r\n',
    b'GET /boards/1 HTTP/1.0\r\nX-User: anna\r\nConnection: keep-alive\r\n\r\n',
    b'GET /sprints/1/burndown HTTP/1.1\r\nHost: t\r\nX-User: anna\r\n\r\n', b'HEAD /search HTTP/1.1\r\nHost: t\r\n\r\n',
    b'DELETE /calls HTTP/1.1\r\nHost: t\r\n\r\n',
    b'POST /calls HTTP/1.1\r\nHost: t\r\nX-User: anna\r\nContent-Length: 31\r\n\r\n{"call":"show","issue":"OPS-1"}',
    b'POST /calls HTTP/1.1\r\nHost: t\r\nX-User: anna\r\nTransfer-Encoding: chunked\r\n\r\n2\r\n{}\r\n0\r\n\r\n',
]
