"""What vug makes of the calls list, describe, filters, boards and sprints, by a server that knows them and tells a made-up tracker."""
import http.server
import json
import threading
import unittest

from harness import FIRST_PORT, Case

PORT = FIRST_PORT + 2
ISSUES = [
    {'issue': 'OPS-1', 'created': 1_709_251_200, 'updated': 1_709_251_200, 'fields': {'status': 'In Progress', 'type': 'Task', 'summary': 'Fix login'}},
    {'issue': 'OPS-2', 'created': 1_709_251_200, 'updated': 1_709_251_200, 'fields': {'status': 'Open', 'type': 'Bug', 'summary': 'Crash'}},
]
SETUP = {
    'administer': True, 'plan': True, 'first_status': 'Open', 'moment': 1_709_251_200, 'offset_minutes': 0, 'user': 'anna', 'users': ['anna', 'bo'],
    'groups': [{'group': 'team', 'members': ['anna', 'bo']}], 'projects': [{'key': 'OPS', 'lead': 'anna', 'may': ['browse', 'create']}], 'rebalancer': 'anna',
    'week_starts': 'monday',
    'fields': [{'number': 0, 'name': 'type', 'kind': 'choice', 'options': ['Task', 'Bug']}, {'number': 3, 'name': 'status', 'kind': 'choice', 'options': ['Open']},
               {'number': 4, 'name': 'assignee', 'kind': 'user'}, {'number': 6, 'name': 'priority', 'kind': 'choice', 'options': ['High', 'Very low']},
               {'number': 10_001, 'name': 'Effort', 'kind': 'number'}],
    'statuses': [{'status': 'Open', 'category': 'todo'}, {'status': 'In Progress', 'category': 'progress'}, {'status': 'Done', 'category': 'done'}],
    'transitions': [
        {'transition': 'Start work', 'from': ['Open'], 'to': 'In Progress', 'conditions': [], 'validators': [], 'post': ['assign:caller']},
        {'transition': 'Finish', 'from': ['In Progress'], 'to': 'Done', 'conditions': ['any:assignee|group:team'], 'validators': ['required:points'], 'post': []}],
}
REPLIES = {
    'describe': SETUP,
    'filters': {'filters': [{'filter': 1, 'name': 'mine', 'owner': 'anna', 'jql': 'assignee = currentUser()'}], 'total': 1},
    'boards': {'boards': [{'board': 3, 'name': 'team', 'filter': 1}, {'board': 4, 'name': 'twice', 'filter': 1}, {'board': 5, 'name': 'twice', 'filter': 1}], 'total': 3},
    'sprints': {'sprints': [{'sprint': 1, 'name': 'March', 'state': 'active'}], 'total': 1},
    'board': {'columns': [{'status': 'Open', 'issues': ['OPS-2']}, {'status': 'In Progress', 'issues': ['OPS-1']}, {'status': 'Done', 'issues': []}], 'total': 2},
    'balance': {'bucket': 0, 'longest': 9, 'offer': False, 'state': 'idle'},
    'search': {'issues': ['OPS-1', 'OPS-2'], 'total': 2},
}


class Telling(http.server.BaseHTTPRequestHandler):

    def do_POST(self):
        asked = json.loads(self.rfile.read(int(self.headers['Content-Length'])))
        self.server.asked.append(asked)
        reply = json.dumps(self.reply(asked)).encode()
        self.send_response(200)
        self.send_header('Content-Length', str(len(reply)))
        self.end_headers()
        self.wfile.write(reply)

    @staticmethod
    def reply(asked):
        call = asked['call']
        if call == 'list':
            return {'ok': {'issues': ISSUES[asked['from']:asked['from'] + asked['count']], 'total': 2}}
        if call == 'show':
            return {'ok': next(it for it in ISSUES if it['issue'] == asked['issue'])}
        if call == 'transition':
            return {'refused': {'no': 5, 'index': 1} if asked['transition'] == 'Finish' else {'no': 4, 'index': 0}}
        return {'ok': REPLIES[call]} if call in REPLIES else {'refused': {'no': 1, 'member': 'call'}}

    def log_message(self, *words):
        pass


class Told(Case):

    def setUp(self):
        super().setUp()
        server = http.server.ThreadingHTTPServer(('127.0.0.1', PORT), Telling)
        server.asked = self.asked = []
        threading.Thread(target=server.serve_forever, daemon=True).start()
        self.addCleanup(server.server_close)
        self.addCleanup(server.shutdown)
        self.environment.update(VUG_FILE='', VUG_URL=f'http://127.0.0.1:{PORT}')

    def names(self, *words):
        return self.good('complete', '--', *words).split('\n')[:-1]

    def test_list_is_one_call(self):
        self.assertEqual(self.good('list', '--fields', 'key,status,updated,summary', 'type = Task'), '''KEY    STATUS       UPDATED           SUMMARY
OPS-1  In Progress  2024-03-01 00:00  Fix login
OPS-2  Open         2024-03-01 00:00  Crash
''')
        self.assertEqual(self.asked, [{'call': 'list', 'from': 0, 'count': 50, 'jql': 'type = Task', 'fields': ['status', 'summary']}])

    def test_statuses_have_colours(self):
        self.assertIn('\033[36mIn Progress\033[0m', self.good('list', '--colour', 'always'))

    def test_lists(self):
        self.assertEqual(self.good('filters'), 'FILTER  NAME  OWNER  JQL\n     1  mine  anna   assignee = currentUser()\n')
        self.assertEqual(self.good('boards').splitlines()[1], '    3  team        1')
        self.assertEqual(self.good('sprints'), 'SPRINT  NAME   STATE\n     1  March  active\n')

    def test_names_in_the_place_of_numbers(self):
        self.assertTrue(self.good('board', 'team').startswith('Open (1)\n'))
        self.assertEqual([it for it in self.asked if it['call'] == 'board'], [{'call': 'board', 'board': 3, 'count': 200}])
        self.one_line(2, "there is no board 'none'", 'board', 'none')
        self.one_line(2, "several boards have the name 'twice': [4, 5]", 'board', 'twice')

    def test_what_leads_on(self):
        self.assertEqual(self.good('do', 'OPS-1'), 'TRANSITION  TO    WANTS\nFinish      Done  any:assignee|group:team, required:points\n')

    def test_rules_in_refusals(self):
        self.one_line(25, "Finish wants points: vug do OPS-1 'Finish' points=..", 'do', 'OPS-1', 'Finish')
        self.one_line(24, 'Start work does not lead from the status that OPS-1 has', 'do', 'OPS-1', 'Start work')

    def test_names_completed(self):
        self.assertEqual(self.names('do', 'OPS-2', ''), ['Start work'])
        self.assertEqual(self.names('set', 'OPS-2', 'assignee='), ['assignee=@me', 'assignee=anna', 'assignee=bo'])
        self.assertEqual(self.names('set', 'OPS-2', 'priority=V'), ['priority=Very low'])
        self.assertEqual(self.names('set', 'OPS-2', ''), ['type=', 'assignee=', 'priority=', 'Effort='])
        self.assertEqual(self.names('new', ''), ['OPS'])
        self.assertEqual(self.names('new', 'OPS', ''), ['Task', 'Bug'])
        self.assertEqual(self.names('group', 'team', 'b'), ['bo'])
        self.assertEqual(self.names('board', ''), ['3', '4', '5'])
        self.assertEqual(self.good('complete', '--bash', 'vug do OPS-2 Sta'), 'Start\\ work\n')
        self.assertEqual(self.good('complete', '--bash', 'vug do OPS-2 "Start w'), 'Start work\n')
        self.assertEqual(self.good('complete', '--bash', 'vug set OPS-2 priority=Very'), 'Very\\ low\n')
        self.assertEqual(self.good('complete', '--bash', 'vug set OPS-2 "priority=Very'), 'priority=Very low\n')

    def test_where(self):
        self.assertIn('projects       OPS\n', self.good('where'))


if __name__ == '__main__':
    unittest.main()
