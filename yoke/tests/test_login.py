"""`yoke login`: a token comes only to the one who asked for it, goes only to its server, and is
seen nowhere else.
"""
import http.client
import io
import json
import os
import pathlib
import socket
import stat
import subprocess
import sys
import threading
import time
import types
import urllib.parse
from unittest import mock

from yoke.login import listener, oauth, profiles, store
from yoke.testing.authorisation import OUT_OF_BAND, Authorisation, Client, Reply, is_same_redirect
from yoke.testing.server import MAPPER, SOMEBODY
from yoke.tests.support import TOP, FolderTest, ServerTest
from yoke.tests.test_json import documented
from yoke.trouble import NoAnswer, Refused, ServerRefused, Trouble, Usage


def call(method, address, fields=None, headers=None):
    """The status, the headers and the body of one call, without following anything."""
    parts = urllib.parse.urlsplit(address)
    connection = http.client.HTTPConnection(parts.netloc, timeout=5)
    target = parts.path + ('?' + parts.query if parts.query else '')
    body = urllib.parse.urlencode(fields) if fields is not None else None
    given = {'Content-Type': 'application/x-www-form-urlencoded'} if body is not None else {}
    connection.request(method, target, body, {**given, **(headers or {})})
    answer = connection.getresponse()
    found = answer.status, dict(answer.getheaders()), answer.read().decode()
    connection.close()
    return found


class Browser:
    """A user with a browser: opens the address, decides, and goes where the page sends them."""

    def __init__(self, decision='allow', account='', before=None, change=None):
        self.decision, self.account, self.before, self.change = decision, account, before, change
        self.opened, self.answers, self.code = [], [], ''
        self.threads = []

    def open(self, address):
        self.opened.append(address)
        self.threads.append(threading.Thread(target=self._use, args=(address,), daemon=True))
        self.threads[-1].start()
        return True

    def answered(self):
        """The answers, when the browser has them all: the login can end before it has read the last
        one.
        """
        for thread in self.threads:
            thread.join(60)
            assert not thread.is_alive(), 'the browser still waits'
        return self.answers

    def decide(self, address):
        """The answer of the page after the decision."""
        status, _, text = call('GET', address)
        assert status == 200, (status, text)
        parts = urllib.parse.urlsplit(address)
        fields = dict(urllib.parse.parse_qsl(parts.query), decision=self.decision)
        if self.account:
            fields['as'] = self.account
        return call('POST', address.split('?')[0], fields)

    def _use(self, address):
        _, headers, _ = self.decide(address)
        back = headers['Location']
        if self.before:
            self.before(self, back)
        for target in self.change(back) if self.change else [back]:
            self.answers.append(call('GET', target))


class LoginTest(ServerTest):
    def setUp(self):
        super().setUp()
        os.environ.pop('YOKE_TOKEN')
        for name in ('config', 'state'):
            os.environ[f'XDG_{name.upper()}_HOME'] = str(self.folder / name)
        self.server.authorisation = self.site = Authorisation(
            self.server.users, self.server.scopes, self.server.address
        )
        self.site.register(Client('my-app', ('http://127.0.0.1/', OUT_OF_BAND)))
        self.browser = Browser()

    def login(self, *words, browser=None):
        self.browser = browser or self.browser
        with mock.patch('webbrowser.open', lambda address: self.browser.open(address)):
            return self.yoke('login', '--api', self.server.api, '--client-id', 'my-app', *words)

    def profile(self, name='imports', **lines):
        (self.folder / 'config' / 'yoke').mkdir(parents=True, exist_ok=True)
        text = ''.join(f'{key} = {json.dumps(value)}\n' for key, value in lines.items())
        (self.folder / 'config' / 'yoke' / 'profiles.toml').write_text(f'[{name}]\n{text}')

    def tokens(self):
        """The tokens that the site gave out."""
        return [code.token for code in self.site.codes.values() if code.token]

    def files(self):
        return sorted((self.folder / 'state').rglob('*.json'))

    def no_login(self):
        self.assertEqual([], self.files())
        for token in self.tokens():
            self.assertNotIn(token, self.server.users, 'a token that nobody has is still good')


class Flow(LoginTest):
    def test_login_send_whoami_logout(self):
        self.assertEqual(0, self.login(), self.err)
        self.assertIn(f'logged in at {self.server.api} as mapper (1001)', self.out)
        self.assertEqual(0, self.ask('whoami'), self.err)
        self.assertIn('mapper (1001)', self.out)
        self.assertIn('may: read_prefs, write_api\n', self.out)
        self.assertIn('the token is of the login of 20', self.out)
        self.begin('tag n8 Tcolour=red')
        self.assertEqual(0, self.send(), self.err)
        self.assertEqual('mapper', self.theirs()['n8'].user)
        token = self.tokens()[0]
        self.assertEqual(0, self.ask('logout'), self.err)
        self.assertEqual([token], self.site.revoked)
        self.no_login()
        self.assertEqual(1, self.ask('whoami'))
        self.assertIn('nobody is logged in', self.err)

    def test_the_token_is_in_a_file_of_the_user_alone(self):
        self.login()
        (file,) = self.files()
        self.assertEqual(0o600, stat.S_IMODE(file.stat().st_mode))
        self.assertEqual(0o700, stat.S_IMODE(file.parent.stat().st_mode))
        self.assertEqual(self.tokens()[0], json.loads(file.read_text())['token'])

    def test_a_file_that_others_can_read_is_refused(self):
        self.login()
        (file,) = self.files()
        for mode in (0o640, 0o604, 0o660):
            file.chmod(mode)
            self.assertEqual(3, self.ask('whoami'))
            self.assertIn('others can read', self.err)
        self.assertEqual(0, self.ask('logout'))  # it goes all the same
        self.assertEqual([], self.files())

    def test_the_token_is_seen_nowhere(self):
        """Neither in what is written for people, nor as data, nor in a fault."""
        texts = []
        self.login()
        texts.append(self.out + self.err)
        for words in (['whoami'], ['whoami', '--json'], ['logout', '--json']):
            self.ask(*words)
            texts.append(self.out + self.err)
        login = store.Login('https://h/api/0.6', 'the-token')
        texts += [
            repr(login),
            str(login),
            repr(oauth.Granted('the-token')),
            repr(oauth.Request(oauth.Endpoints('i', 'a', 't'), 'c', 'r', 's')),
        ]
        token = self.tokens()[0]
        (code,) = self.site.codes
        request = oauth.Request(oauth.Endpoints('i', 'a', 't'), 'c', 'r', 's')
        for text in texts:
            for secret in (token, code, 'the-token', request.verifier, request.state):
                self.assertNotIn(secret, text)

    def test_the_token_goes_in_no_argument_of_a_program(self):
        """A command that runs has no secret in its arguments or in its environment."""
        self.login()
        token = self.tokens()[0]
        held = threading.Event()
        self.server.before('details', 2, lambda: held.wait(10))
        environment = dict(os.environ, PYTHONPATH=str(TOP))
        with subprocess.Popen(
            [sys.executable, '-m', 'yoke', 'whoami', '--api', self.server.api],
            env=environment,
            stdout=subprocess.PIPE,
        ) as child:
            while self.server.requests.count('details') < 2 and child.poll() is None:
                time.sleep(0.02)
            seen = b''.join(
                pathlib.Path(f'/proc/{child.pid}/{name}').read_bytes()
                for name in ('cmdline', 'environ')
            )
            held.set()
            self.assertIn(b'mapper', child.communicate(timeout=20)[0])
        self.assertNotIn(token.encode(), seen)

    def test_the_address_in_the_browser_has_no_secret(self):
        self.login()
        fields = dict(urllib.parse.parse_qsl(urllib.parse.urlsplit(self.browser.opened[0]).query))
        self.assertEqual(
            {
                'response_type',
                'client_id',
                'redirect_uri',
                'scope',
                'state',
                'code_challenge',
                'code_challenge_method',
            },
            set(fields),
        )
        verifier = dict(self.site.seen)['POST token']['code_verifier']
        self.assertEqual(fields['code_challenge'], oauth.challenge(verifier))
        self.assertNotIn(verifier, self.browser.opened[0])
        self.assertGreaterEqual(len(verifier), 43)
        self.assertRegex(fields['redirect_uri'], r'http://127\.0\.0\.1:[0-9]+/$')

    def test_each_login_has_its_own_state_and_verifier(self):
        seen = set()
        for _ in range(2):
            self.login()
            self.ask('logout')
            seen.add(dict(self.site.seen)['POST token']['code_verifier'])
        states = {urllib.parse.parse_qs(address)['state'][0] for address in self.browser.opened}
        self.assertEqual((2, 2), (len(seen), len(states)))

    def test_a_browser_that_has_answered_before_the_login_waits(self):
        class Quick(Browser):
            def open(self, address):
                super().open(address)
                self.answered()
                return True

        with short_wait(1):
            self.assertEqual(0, self.login(browser=Quick()), self.err)
        self.assertEqual([200], [answer[0] for answer in self.browser.answers])

    def test_a_second_login_is_refused(self):
        self.login()
        self.assertEqual(1, self.login())
        self.assertIn('there is a login', self.err)
        self.assertEqual(1, len(self.browser.opened))

    def test_out_of_band(self):
        """Without a browser here: the page shows the code, and it is pasted."""

        def paste():
            code = Browser().decide(self.shown())[2].split('id="code">')[1].split('<')[0]
            return code + ' \n'

        shown = []
        self.shown = lambda: shown[0].rsplit(' ', 1)[1]
        with mock.patch('yoke.verbs.login.note', shown.append), mock.patch(
            'sys.stdin', types.SimpleNamespace(isatty=lambda: False, readline=paste)
        ):
            self.assertEqual(
                0,
                self.yoke(
                    'login', '--api', self.server.api, '--client-id', 'my-app', '--no-browser'
                ),
                self.err,
            )
        self.assertIn('as mapper (1001)', self.out)

    def test_a_pasted_text_that_is_no_code(self):
        for text in ('', 'two words\n', 'ä\n'):
            with mock.patch('sys.stdin', io.StringIO(text)):
                self.assertEqual(2, self.login('--no-browser'))
            self.assertIn('that is no code', self.err)
        with mock.patch('sys.stdin', io.StringIO('wrong\n')):
            self.assertEqual(6, self.login('--no-browser'))
        self.assertNotIn('wrong', self.err)
        self.no_login()

    def test_a_registered_redirect(self):
        free = listener.Listener()
        port = free.port
        free._http.server_close()
        self.site.register(Client('my-app', (f'http://127.0.0.1:{port}/back',)))
        self.assertEqual(0, self.login('--redirect', f'http://127.0.0.1:{port}/back'), self.err)
        self.ask('logout')
        with listener.Listener(f'http://127.0.0.1:{port}/') as _:
            self.assertEqual(3, self.login('--redirect', f'http://127.0.0.1:{port}/back'))
        self.assertIn('can\'t be used', self.err)

    def test_words(self):
        for words, said in (
            (['--api', self.server.api], '--client-id names'),
            (['--client-id', 'x'], '--api ADDRESS names the server'),
            (
                ['--api', self.server.api, '--client-id', 'x', '--login', 'http://example.org'],
                'wants https',
            ),
            (['--api', self.server.api, '--client-id', 'x', '--minutes', '0'], '--minutes wants'),
            (
                ['--api', self.server.api, '--client-id', 'x', '--redirect', 'http://example.org/'],
                'an address of this machine',
            ),
        ):
            self.assertEqual(2, self.yoke('login', *words), self.err)
            self.assertIn(said, self.err)

    def test_the_data_are_those_of_the_page(self):
        fields = documented()
        with mock.patch('webbrowser.open', self.browser.open):
            for words in (['login', '--client-id', 'my-app'], ['whoami'], ['logout']):
                self.assertEqual(0, self.ask(*words, '--json'), self.err)
                self.assertEqual(fields[words[0]], set(json.loads(self.out)['result']))


class Refusals(LoginTest):
    def test_denied(self):
        self.assertEqual(1, self.login(browser=Browser('deny')))
        self.assertIn('you, or the server, said no', self.err)
        self.assertIn(listener.DENIED, self.browser.answered()[0][2])
        self.no_login()

    def test_another_state_changes_nothing(self):
        """A page of another site sends codes of its own: the login goes on, and is the user's."""

        def attack(browser, back):
            parts = urllib.parse.urlsplit(back)
            base = f'{parts.scheme}://{parts.netloc}/'
            good = dict(urllib.parse.parse_qsl(parts.query))
            for query in (
                'code=evil&state=wrong',
                'code=evil',
                'state=' + good['state'],
                '',
                'error=access_denied&state=wrong',
                'error=access_denied',
                f'code=evil&code=x&state={good["state"]}',
                f'code=evil&error=x&state={good["state"]}',
                f'code=evil&state={good["state"]}&iss=https://evil.example',
            ):
                browser.answers.append(call('GET', base + '?' + query))

        self.assertEqual(0, self.login(browser=Browser(before=attack)), self.err)
        self.assertEqual([400] * 9 + [200], [answer[0] for answer in self.browser.answered()])
        self.assertIn('9 calls that were no answer to this login were ignored', self.err)
        self.assertNotIn('evil', ''.join(answer[2] for answer in self.browser.answered()))

    def test_calls_of_other_pages_change_nothing(self):
        """Posts, frames, fetches, other hosts and paths are refused, even with the right words."""

        def attack(browser, back):
            port = urllib.parse.urlsplit(back).port
            for method, target, headers in (
                ('POST', back, {}),
                ('OPTIONS', back, {}),
                ('PUT', back, {}),
                ('HEAD', back, {}),
                ('GET', back, {'Host': 'evil.example'}),
                ('GET', back, {'Host': f'localhost:{port}'}),
                ('GET', back, {'Sec-Fetch-Mode': 'no-cors', 'Sec-Fetch-Dest': 'image'}),
                ('GET', back, {'Sec-Fetch-Mode': 'cors', 'Sec-Fetch-Dest': 'empty'}),
                ('GET', back, {'Sec-Fetch-Mode': 'navigate', 'Sec-Fetch-Dest': 'iframe'}),
                ('GET', back.replace('/?', '/other?'), {}),
            ):
                browser.answers.append(call(method, target, headers=headers))

        self.assertEqual(0, self.login(browser=Browser(before=attack)), self.err)
        self.assertEqual(
            [405, 405, 405, 405, 421, 421, 403, 403, 403, 404, 200],
            [answer[0] for answer in self.browser.answered()],
        )
        for _, headers, _ in self.browser.answered():
            self.assertNotIn('Access-Control-Allow-Origin', headers)
            self.assertEqual(
                ('no-store', 'no-referrer'), (headers['Cache-Control'], headers['Referrer-Policy'])
            )

    def test_the_first_answer_counts(self):
        with listener.Listener() as loopback:
            request = oauth.Request(oauth.Endpoints('i', 'a', 't'), 'c', loopback.redirect, 's')
            loopback.expect(request)
            for code in ('first', 'second'):
                call('GET', f'{loopback.redirect}?code={code}&state={request.state}')
            self.assertEqual('first', loopback.wait(1))

    def test_a_code_that_was_changed_on_the_way(self):
        self.assertEqual(
            6, self.login(browser=Browser(change=lambda back: [back.replace('code=', 'code=x')]))
        )
        self.assertIn('the code is over, was used already, or is of another login', self.err)
        self.no_login()

    def test_a_code_of_another_verifier(self):
        """Somebody else's code with the right state: its verifier is unknown here."""

        def other(browser, back):
            request = oauth.Request(
                oauth.Endpoints('', self.server.address + '/oauth2/authorize', ''),
                'my-app',
                back.split('?')[0],
                oauth.WRITE,
            )
            _, headers, _ = Browser().decide(request.address())
            browser.code = dict(
                urllib.parse.parse_qsl(urllib.parse.urlsplit(headers['Location']).query)
            )['code']

        browser = Browser(before=other)
        browser.change = lambda back: [
            back.split('?')[0]
            + '?'
            + urllib.parse.urlencode(
                {
                    'code': browser.code,
                    'state': urllib.parse.parse_qs(back.split('?')[1])['state'][0],
                }
            )
        ]
        self.assertEqual(6, self.login(browser=browser))
        self.no_login()

    def test_a_code_twice(self):
        self.login()
        endpoints = oauth.discover(self.server.address)
        (code,) = self.site.codes
        fields = dict(self.site.seen)['POST token']
        request = oauth.Request(
            endpoints,
            'my-app',
            fields['redirect_uri'],
            oauth.WRITE,
            verifier=fields['code_verifier'],
        )
        with self.assertRaises(ServerRefused):
            oauth.exchange(request, code)
        self.assertEqual(6, self.ask('whoami'))  # the site took the first token back
        self.assertIn('yoke logout and yoke login', self.err)

    def test_a_code_that_is_over(self):
        gone: list[str] = []  # where the browser went with the code
        self.site.clock = lambda: time.time() + (100 if gone else 0)
        self.assertEqual(6, self.login(browser=Browser(before=lambda _, back: gone.append(back))))
        self.assertIn('the code is over', self.err)
        self.no_login()

    def test_redirects_and_clients_that_arent_registered(self):
        """The site shows a page of its own then, and nobody comes back: the login ends by its time."""
        for client in (
            Client('my-app', ('https://example.org/',)),
            Client('other', ('http://127.0.0.1/',)),
        ):
            self.site.clients.clear()
            self.site.register(client)
            pages = []
            with mock.patch(
                'webbrowser.open',
                lambda address, pages=pages: pages.append(call('GET', address)[0]),
            ), short_wait(0.2):
                self.assertEqual(
                    5, self.yoke('login', '--api', self.server.api, '--client-id', 'my-app')
                )
            self.assertIn('nobody logged in within', self.err)
            self.assertIn(pages, ([400], [401]))
            self.no_login()

    def test_fewer_rights_are_given_back(self):
        answer = self.site.token

        def fewer(fields):
            found = json.loads(answer(fields).body)
            return Reply(
                200, json.dumps({**found, 'scope': 'read_prefs'}).encode(), 'application/json'
            )

        self.site.token = fewer
        self.assertEqual(1, self.login())
        self.assertIn('lacks the right write_api', self.err)
        self.assertEqual(self.tokens(), self.site.revoked)
        self.no_login()

    def test_read_only(self):
        self.assertEqual(0, self.login('--read-only'), self.err)
        self.ask('whoami')
        self.assertIn('may: read_prefs\n', self.out)

    def test_answers_that_are_none(self):
        for reply, code in (
            (Reply(200, b'<html>'), 5),
            (Reply(500, b'oops'), 5),
            (Reply(302), 5),
            (Reply(200, b'{"access_token": "a b", "token_type": "Bearer"}'), 5),
            (Reply(200, b'{"access_token": "ab", "token_type": "mac"}'), 5),
            (Reply(200, b'[' * 5000), 5),
            (Reply(200, b'x' * 2_000_000), 5),
            (Reply(400, b'{"error": "\\u001b[31mred\\nline"}'), 6),
            (Reply(401, b'{"error": "invalid_client"}'), 6),
        ):
            self.site.faults['token'] = lambda reply=reply: reply
            self.assertEqual(code, self.login(), self.err)
            self.assertNotIn('\x1b', self.err)
            self.no_login()

    def test_a_site_that_is_slow(self):
        held = threading.Event()
        self.addCleanup(held.set)
        self.site.faults['token'] = lambda: held.wait(3) and Reply(200) or Reply(200)
        with mock.patch('yoke.login.oauth.web.post_form', quick):
            self.assertEqual(5, self.login())
        self.assertIn('no answer', self.err)

    def test_metadata_of_another_server(self):
        for name, value in (
            ('issuer', 'https://evil.example'),
            ('token_endpoint', 'https://evil.example/t'),
            ('authorization_endpoint', 'javascript:alert(1)'),
            ('token_endpoint', ''),
            ('revocation_endpoint', 'http://127.0.0.1:9/'),
        ):
            self.site.metadata = {name: value}
            with short_wait(0.2):
                self.assertEqual(3, self.login())
            self.assertIn('names another server', self.err)
        self.site.metadata = {'code_challenge_methods_supported': ['plain']}
        self.assertEqual(3, self.login())
        self.assertIn('S256', self.err)
        self.assertEqual([], self.browser.opened)

    def test_a_site_that_names_itself_in_its_answer(self):
        self.site.metadata = {'authorization_response_iss_parameter_supported': True}
        self.assertEqual(0, self.login(), self.err)
        self.ask('logout')
        with short_wait(0.5):
            self.assertEqual(
                5, self.login(browser=Browser(change=lambda back: [back.split('&iss=')[0]]))
            )

    def test_without_metadata_and_without_revocation(self):
        self.site.has_metadata = self.site.has_revocation = False
        self.assertEqual(0, self.login(), self.err)
        self.assertEqual(0, self.ask('logout'))
        self.assertIn('the token may still be good', self.out)
        self.assertEqual([], self.files())

    def test_a_login_that_is_over(self):
        self.site.token_seconds = 3600
        self.assertEqual(0, self.login(), self.err)
        (file,) = self.files()
        found = json.loads(file.read_text())
        self.assertTrue(found['expires'])
        file.write_text(json.dumps({**found, 'expires': '2020-01-01T00:00:00Z'}))
        self.assertEqual(1, self.ask('whoami'))
        self.assertIn('is over', self.err)
        self.assertEqual(0, self.ask('logout'))

    def test_logout_when_nobody_knows(self):
        self.login()
        self.site.faults['revoke'] = lambda: Reply(503)
        self.assertEqual(5, self.ask('logout'))
        self.assertIn('the login is kept', self.err)
        self.assertEqual(1, len(self.files()))
        self.assertEqual(0, self.ask('logout', '--forget'))
        self.assertEqual([], self.files())
        self.assertEqual(1, self.ask('logout'))

    def test_a_broken_file(self):
        self.login()
        (file,) = self.files()
        for text in ('', '{}', '[]', '{"server": 1, "token": "x", "more": 2}'):
            file.write_text(text)
            self.assertEqual(3, self.ask('whoami'), text)
            self.assertIn('is broken', self.err)
            self.assertNotIn('"x"', self.err)


ORIGINAL_WAIT = listener.Listener.wait
ORIGINAL_POST = oauth.web.post_form


def short_wait(seconds):
    """A login that waits so long for the browser."""
    return mock.patch(
        'yoke.login.listener.Listener.wait',
        autospec=True,
        side_effect=lambda one, _: ORIGINAL_WAIT(one, seconds),
    )


def quick(address, fields, headers=types.MappingProxyType({})):
    """A form that waits 0.3 s for its answer."""
    return ORIGINAL_POST(address, fields, headers, timeout=0.3)


class Profiles(LoginTest):
    def test_a_profile_names_the_server_and_the_rest(self):
        self.profile(
            server=self.server.api,
            comment='of the profile',
            source='a survey',
            chunk=1,
            client_id='my-app',
            account='mapper',
        )
        with mock.patch('webbrowser.open', self.browser.open):
            self.assertEqual(0, self.yoke('login', '--profile', 'imports'), self.err)
        self.begin('tag n8 Tcolour=red', 'tag n1 Tcolour=blue')
        self.assertEqual(0, self.yoke('send', '--profile', 'imports'), self.err)
        (made,) = self.server.database.changesets.values()
        self.assertEqual(
            ('of the profile', 'a survey'), (made.tags['comment'], made.tags['source'])
        )
        self.assertEqual(2, self.server.requests.count('upload'))
        self.assertEqual(1, self.ask('whoami'))  # a login of a profile is that profile's alone

    def test_words_of_the_command_line_win(self):
        self.profile(server='https://example.org/api/0.6', comment='of the profile', chunk=1)
        os.environ['YOKE_TOKEN'] = 'token-of-the-mapper'
        self.begin('tag n8 Tcolour=red', 'tag n1 Tcolour=blue')
        self.assertEqual(0, self.send('--profile', 'imports', '--chunk', '500'), self.err)
        (made,) = self.server.database.changesets.values()
        self.assertEqual('a test', made.tags['comment'])
        self.assertEqual(1, self.server.requests.count('upload'))

    def test_the_wrong_account_is_given_back(self):
        self.profile(server=self.server.api, client_id='my-app', account='My import account')
        with mock.patch('webbrowser.open', self.browser.open):
            self.assertEqual(1, self.yoke('login', '--profile', 'imports'))
        self.assertIn(
            'logged in as mapper, and the profile imports wants My import account', self.err
        )
        self.assertEqual(self.tokens(), self.site.revoked)
        self.no_login()

    def test_two_accounts_of_one_server(self):
        for name, token in (('one', 'token-of-the-mapper'), ('two', 'token-of-somebody')):
            self.profile(name, server=self.server.api, client_id='my-app')
            self.browser = Browser(account=token)
            with mock.patch('webbrowser.open', self.browser.open):
                self.assertEqual(0, self.yoke('login', '--profile', name), self.err)
        names = []
        for name in ('one', 'two'):
            self.profile(name, server=self.server.api)
            self.yoke('whoami', '--profile', name)
            names.append(self.out.split(' ')[0])
        self.assertEqual([MAPPER.name, SOMEBODY.name], names)

    def test_a_token_goes_to_its_server_alone(self):
        self.profile(server=self.server.api, client_id='my-app')
        with mock.patch('webbrowser.open', self.browser.open):
            self.yoke('login', '--profile', 'imports')
        other = self.serve()
        self.profile(server=other.api)
        self.assertEqual(1, self.yoke('whoami', '--profile', 'imports'))
        self.assertEqual([], other.requests)
        self.assertEqual(1, self.yoke('whoami', '--api', other.api))

    def test_the_environment_and_the_file_come_first(self):
        self.login()
        self.write('token', 'token-of-somebody')
        os.chmod('token', 0o600)
        self.ask('whoami', '--token-file', 'token')
        self.assertIn('somebody', self.out)
        self.assertIn('the token is of token', self.out)
        os.environ['YOKE_TOKEN'] = 'token-of-somebody'
        self.ask('whoami')
        self.assertIn('the token is of $YOKE_TOKEN', self.out)

    def test_files_that_are_none(self):
        file = self.folder / 'config' / 'yoke' / 'profiles.toml'
        for text, said in (
            (None, 'there is no profile imports: write [imports] into'),
            ('[other]\n', 'there are other'),
            ('', 'there are none'),
            ('[imports]\ntoken = "x-secret"\n', 'a token doesn\'t belong into this file'),
            ('[imports]\nclient_secret = "x-secret"\n', 'doesn\'t belong'),
            ('[imports]\nservre = "x"\n', 'servre is no key of a profile'),
            ('[imports]\nchunk = "5"\n', 'chunk wants a number'),
            ('[imports]\nchunk = true\n', 'chunk wants a number'),
            ('[imports]\nchunk = 0\n', 'from 1 to 10,000'),
            ('[imports]\nserver = 5\n', 'server wants a text'),
            ('[imports]\nkeyring = "yes"\n', 'keyring wants true or false'),
            ('server = "x"\n[imports]\n', 'stands above the first'),
            ('[imports\n', 'is no TOML'),
        ):
            if text is not None:
                file.parent.mkdir(parents=True, exist_ok=True)
                file.write_text(text)
            self.assertEqual(3, self.yoke('whoami', '--profile', 'imports'), text)
            self.assertIn(said, self.err)
            self.assertNotIn('x-secret', self.err)
        file.write_bytes(b'[imports]\ncomment = "\xff"\n')
        self.assertEqual(3, self.yoke('whoami', '--profile', 'imports'))
        self.assertEqual(2, self.yoke('whoami', '--profile', '../x'))

    def test_xdg(self):
        self.assertEqual(self.folder / 'config/yoke/profiles.toml', profiles.path())
        for value in ('', 'relative'):
            with mock.patch.dict(os.environ, XDG_CONFIG_HOME=value, HOME='/home/x'):
                self.assertEqual('/home/x/.config/yoke/profiles.toml', str(profiles.path()))


class Ring:
    """A keyring of the desktop."""

    def __init__(self, priority=5):
        self.kept, self.priority = {}, priority
        self.errors = types.SimpleNamespace(PasswordDeleteError=KeyError)

    def get_keyring(self):
        return self

    def get_password(self, service, name):
        return self.kept.get((service, name))

    def set_password(self, service, name, value):
        self.kept[service, name] = value

    def delete_password(self, service, name):
        del self.kept[service, name]


class Keyring(LoginTest):
    def test_the_token_is_in_the_keyring_alone(self):
        ring = Ring()
        with mock.patch('yoke.login.store.keyring', lambda: ring):
            self.assertEqual(0, self.login('--keyring'), self.err)
            self.assertIn('the token is in the keyring', self.out)
            (file,) = self.files()
            self.assertNotIn(self.tokens()[0], file.read_text())
            self.assertEqual(self.tokens(), list(ring.kept.values()))
            self.assertEqual(0, self.ask('whoami'), self.err)
            self.assertEqual(0, self.ask('logout'), self.err)
        self.assertEqual({}, ring.kept)
        self.no_login()

    def test_a_keyring_that_lost_it(self):
        ring = Ring()
        with mock.patch('yoke.login.store.keyring', lambda: ring):
            self.login('--keyring')
            ring.kept.clear()
            self.assertEqual(3, self.ask('whoami'))
            self.assertIn('the keyring has no token', self.err)
            self.assertEqual(0, self.ask('logout'))
        self.assertEqual([], self.files())

    def test_no_keyring(self):
        with mock.patch.dict(sys.modules, keyring=None):
            self.assertEqual(3, self.login('--keyring'))
        self.assertIn('apt-get install python3-keyring', self.err)
        ring = Ring(0)
        with mock.patch.dict(sys.modules, {'keyring': ring, 'keyring.errors': ring.errors}):
            self.assertEqual(3, self.login('--keyring'))
        self.assertIn('there is no keyring that is safe here', self.err)
        self.assertEqual([], self.browser.opened)


class Parts(FolderTest):
    def test_redirects(self):
        self.assertEqual((0, '/'), listener.address_of(''))
        self.assertEqual((8771, '/'), listener.address_of('http://127.0.0.1:8771/'))
        self.assertEqual((0, '/x'), listener.address_of('http://127.0.0.1/x'))
        for text in (
            'https://127.0.0.1:1/',
            'http://localhost:1/',
            'http://[::1]:1/',
            'http://0.0.0.0:1/',
            'http://127.0.0.1:1/?x',
            'http://127.0.0.1:99999/',
            'http://me@127.0.0.1:1/',
            'x',
        ):
            with self.assertRaises(Usage, msg=text):
                listener.address_of(text)

    def test_the_challenge_of_the_standard(self):
        """The example of RFC 7636, appendix B."""
        self.assertEqual(
            'E9Melhoa2OwvFrEMTJguCHaoeK1t8URWbuGJSstw-cM',
            oauth.challenge('dBjftJeZ4CVP-mB92K27uhbUJU1p1r_wW1gFWFOEjXk'),
        )

    def test_causes(self):
        self.assertIn('said no', oauth.cause('access_denied'))
        self.assertNotIn('\n', oauth.cause('a\nb' * 100))

    def test_registered_redirects(self):
        for given, registered, is_same in (
            ('http://127.0.0.1:5/', 'http://127.0.0.1/', True),
            ('http://127.0.0.1:5/x', 'http://127.0.0.1/', False),
            ('http://127.0.0.1:5/', 'http://127.0.0.1:6/', False),
            ('http://localhost:5/', 'http://127.0.0.1/', False),
            ('https://127.0.0.1:5/', 'http://127.0.0.1/', False),
            (OUT_OF_BAND, OUT_OF_BAND, True),
        ):
            self.assertEqual(is_same, is_same_redirect(given, registered), (given, registered))

    def test_the_listener_stops(self):
        with listener.Listener() as loopback:
            request = oauth.Request(oauth.Endpoints('i', 'a', 't'), 'c', loopback.redirect, 's')
            loopback.expect(request)
            with self.assertRaises(NoAnswer):
                loopback.wait(0.05)
            port = loopback.port
        with self.assertRaises(OSError):
            call('GET', f'http://127.0.0.1:{port}/')

    def test_a_connection_that_says_nothing_holds_nobody_up(self):
        with listener.Listener() as loopback:
            request = oauth.Request(oauth.Endpoints('i', 'a', 't'), 'c', loopback.redirect, 's')
            loopback.expect(request)
            with socket.create_connection(('127.0.0.1', loopback.port)):
                threading.Timer(
                    0.05, lambda: call('GET', f'{loopback.redirect}?code=abc&state={request.state}')
                ).start()
                self.assertEqual('abc', loopback.wait(5))

    def test_ends(self):
        for seconds in (None, 'x', True, 0, -5, 1.5):
            self.assertEqual('', oauth.end_of(seconds))
        self.assertTrue(oauth.end_of(60))

    def test_troubles_are_troubles(self):
        self.assertIsInstance(oauth.refused(500, {}), NoAnswer)
        self.assertIsInstance(oauth.refused(400, {'error': 'x'}), ServerRefused)
        self.assertTrue(issubclass(Refused, Trouble))
