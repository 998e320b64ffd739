"""The page of `yoke review` in a real browser, which has to be there: Debian's chromium,
chromium-driver and python3-selenium.
"""

from __future__ import annotations

import http.server
import json
import struct
import threading
import time
import unittest
import zlib
from typing import Any
from unittest import mock

from yoke import opl
from yoke.review.reviewing import Questions, Review
from yoke.review.server import Server
from yoke.tests import browser
from yoke.tests.browser import Browser, Keys
from yoke.tests.support import FolderTest
from yoke.tests.test_review import TOWN

HOSTILE = [
    '<script>document.title="owned"</script>',
    '"><img src=x onerror=document.title="owned">',
    '\u202egnp.exe evil',
    'a\u200bb\u00a0c',
    '  blanks  ',
    '</textarea></style></title><svg onload=document.title="owned">',
    '{{constructor.constructor("alert(1)")()}}',
    '\n\tline',
    'x' * 255,
]
AT = 'return document.activeElement'


@unittest.skipIf(browser.MISSING, 'not installed: ' + browser.MISSING)
class PageTest(FolderTest):
    """A page of a review of the town, in the one browser of the class."""

    page: Browser

    @classmethod
    def setUpClass(cls) -> None:
        super().setUpClass()
        cls.page = cls.enterClassContext(browser.started())

    def setUp(self) -> None:
        super().setUp()
        self.page.size(1400, 900)
        self.begin(town=TOWN)

    def open(self, *lines: str, **options: Any) -> Review:
        """The page of the session after these steps."""
        if lines:
            self.do(*lines)
        self.one = Review(self.session, 'review.decisions', **options)
        self.one.decisions.open()
        self.addCleanup(self.one.decisions.close)
        self.served = Server(self.one.calls(), tiles=self.one.tiles)
        self.one.stop = self.served.stop
        self.addCleanup(self.served.server_close)
        threading.Thread(
            target=self.served.serve_forever, kwargs={'poll_interval': 0.01}, daemon=True
        ).start()
        self.addCleanup(self.served.shutdown)
        self.page.driver.get('about:blank')
        self.page.messages()
        self.page.driver.get(self.served.address)
        self.page.wait('document.querySelector("#detail h2, #detail p")')
        return self.one

    def kept(self) -> dict[str, str]:
        """How each item is decided, by the file."""
        lines = (self.folder / 'review.decisions').read_text(encoding='utf-8').splitlines()[1:]
        found = {}
        for line in map(json.loads, lines):
            found[line['key']] = line['how']
        return {key: how for key, how in found.items() if how != 'undecided'}

    def counted(self, text: str) -> None:
        """Waits until the page counts so."""
        self.page.wait(f'document.getElementById("count").textContent === {json.dumps(text)}')

    def heard(self, text: str) -> None:
        """Waits until a screen reader is told so."""
        self.page.wait(f'document.getElementById("live").textContent === {json.dumps(text)}')

    def chosen(self) -> str:
        """The key of the edit that is shown."""
        return str(self.page.js('return document.querySelector("#detail h2").textContent')).split(
            ' '
        )[0]


class Keyboard(PageTest):
    """All of it is done by keys alone."""

    def tab_to(self, code: str) -> None:
        """Presses Tab until the focus is where an expression of `at` is true."""
        for _ in range(40):
            self.page.press(Keys.TAB)
            if self.page.js(f'const at = document.activeElement; return Boolean({code})'):
                return
        raise AssertionError(f'Tab never comes to {code}')

    def test_from_the_first_edit_to_the_script(self) -> None:
        self.open(
            'tag n8 Ta=b',
            'tag w5 Tsurface=asphalt,lit=yes',
            'erase w6',
            'node x13.1 y52 Tshop=x',
            'node x13.2 y52 Tshop=y',
        )
        self.assertEqual('list', self.page.js(AT + '.id'))
        self.assertEqual('n8', self.chosen())
        self.page.press('a')
        self.heard('n8 accepted; 4 left')
        self.assertEqual('n-1', self.chosen())
        self.page.press(Keys.ARROW_DOWN, Keys.ARROW_DOWN, Keys.ARROW_UP, 'r')
        self.heard('n-2 rejected; 3 left')
        self.assertEqual({'n8': 'accepted', 'n-2': 'rejected'}, self.kept())
        self.page.press('z')
        self.counted('1 accepted, 0 rejected, 4 left of 5')
        self.page.press(Keys.HOME, 'n')
        self.assertEqual('n-1', self.chosen())
        self.page.press('r', Keys.END)
        self.heard('n-1 rejected; 3 left')
        self.assertEqual('w6', self.chosen())
        self.page.press('r')
        self.heard('w6 rejected; 2 left')

        self.page.press('/', *'surface', Keys.ESCAPE)
        self.assertEqual(
            ('w5', '1 of 5 shown'),
            (self.chosen(), self.page.js('return document.getElementById("shown").textContent')),
        )
        self.page.press(Keys.ENTER)
        self.assertEqual('accept (a)', self.page.js(AT + '.textContent'))
        self.tab_to('at.getAttribute("aria-label") === "reject the tag surface"')
        self.page.press(Keys.SPACE)
        self.heard('w5 without Ksurface; 1 left')
        self.assertEqual('reject the tag surface', self.page.js(AT + '.getAttribute("aria-label")'))
        self.assertEqual('true', self.page.js(AT + '.getAttribute("aria-pressed")'))
        self.page.press(
            Keys.ESCAPE,
            '/',
            *[Keys.BACKSPACE] * 7,
            Keys.ESCAPE,
            'q',
            *'node and Tshop=y',
            Keys.ENTER,
        )
        self.heard('1 found')
        self.assertEqual('n-2', self.chosen())
        self.page.press(Keys.ESCAPE, 'a')
        self.heard('n-2 accepted; 0 left')

        self.tab_to('at.id === "finish"')
        self.page.press(Keys.ENTER)
        self.page.wait('document.getElementById("box").open')
        self.assertIn(
            '3 accepted, 2 rejected and 2 objects with them, 1 without some tags',
            self.page.js('return document.getElementById("boxtext").textContent'),
        )
        self.page.press(Keys.ESCAPE)
        self.page.wait('!document.getElementById("box").open')
        self.assertEqual('finish', self.page.js(AT + '.id'))
        self.one.decisions.close()
        self.done('do', 'review.script')
        self.assertEqual(
            {'n8': 'changed', 'n-2': 'new', 'w5': 'changed'},
            {key: known.edit for key, known in self.session.known().items() if known.edit},
        )
        self.assertNotIn('surface', self.session.known()['w5'].mine.tags)
        self.assertEqual([], self.page.messages())

    def test_many_at_once(self) -> None:
        self.open(*(f'node x13.{at} y52 Tshop=x' for at in range(10, 50)))
        self.page.press('R')
        self.page.wait('document.getElementById("box").open')
        self.assertEqual(
            'Reject 40 edits?',
            self.page.js('return document.getElementById("boxhead").textContent'),
        )
        self.page.press(Keys.ESCAPE)
        self.assertEqual({}, self.kept())
        self.page.press('R')
        self.page.wait('document.getElementById("box").open')
        self.page.press(Keys.ENTER)
        self.counted('0 accepted, 40 rejected, 0 left of 40')
        self.page.press('z')
        self.counted('0 accepted, 0 rejected, 40 left of 40')
        self.assertEqual({}, self.kept())

    def test_a_conflict_part_by_part(self) -> None:
        self.do('tag w5 Tname=Mine,lit=yes')
        self.write('newer.opl', 'w5 v4 Thighway=residential,name=Theirs,lit=no Nn1,n2,n3,n4\n')
        self.open('download newer.opl')
        self.page.press(Keys.ENTER)
        self.tab_to('at.getAttribute("aria-label") === "name: theirs"')
        self.page.press(Keys.SPACE)
        self.heard('w5 parts mine Kname; 0 left')
        self.assertEqual('true', self.page.js(AT + '.getAttribute("aria-pressed")'))
        self.page.press(Keys.ESCAPE, 'r')
        self.heard('w5 theirs; 0 left')
        self.assertEqual({'w5': 'theirs'}, self.kept())

    def test_questions(self) -> None:
        asked = [
            {
                'feature': f'feature {at}',
                'why': 'two objects are as like',
                'tags': [['name', 'A']],
                'place': [13.002, 52.0021],
                'candidates': [['n8', 0.9, 4], ['w6', 0.8, 9]],
            }
            for at in range(3)
        ]
        self.write('c.questions', json.dumps(asked))
        self.write('c.csv', 'feature,what,decision,candidate\n')
        self.open(questions=Questions('c'))
        self.page.press('2', 'm', 'r')
        self.counted('2 accepted, 1 rejected, 0 left of 3')
        self.assertEqual({'feature 0': 'w6', 'feature 1': 'new', 'feature 2': 'skip'}, self.kept())

    def test_the_count_waits_for_the_disk(self) -> None:
        self.open('tag n8 Ta=b', 'tag w5 Ta=b')
        none = '0 accepted, 0 rejected, 2 left of 2'
        self.counted(none)
        asked, held, decide = threading.Event(), threading.Event(), self.one.decisions.decide

        def slow(pairs: Any) -> None:
            asked.set()
            held.wait(10)
            decide(pairs)

        self.addCleanup(held.set)
        with mock.patch.object(self.one.decisions, 'decide', slow):
            self.page.press('a')
            self.assertTrue(asked.wait(5), 'the page decides nothing')
            self.assertEqual(
                none, self.page.js('return document.getElementById("count").textContent')
            )
            self.assertEqual({}, self.kept())
            held.set()
            self.counted('1 accepted, 0 rejected, 1 left of 2')
        self.assertEqual({'n8': 'accepted'}, self.kept())

    def test_the_map(self) -> None:
        self.open('tag n8 Ta=b', 'tag w5 Ta=b')
        self.tab_to('at.id === "map"')
        before = self.page.js('return {...review.map.view}')
        self.page.press(Keys.ARROW_RIGHT, Keys.ARROW_DOWN, '+')
        after = self.page.js('return {...review.map.view}')
        self.assertTrue(
            after['x'] > before['x'] and after['y'] > before['y'] and after['s'] > before['s']
        )
        self.page.wait(
            'document.getElementById("map").getAttribute("aria-label").startsWith("map: ")'
        )

    def test_single_keys_can_be_turned_off(self) -> None:
        self.open('tag n8 Ta=b')
        self.page.press('?')
        self.page.wait('document.getElementById("box").open')
        self.tab_to('at.type === "checkbox"')
        self.page.press(Keys.SPACE, Keys.ESCAPE, 'a')
        self.page.press(Keys.ENTER)
        self.assertEqual('accept (a)', self.page.js(AT + '.textContent'))
        self.page.press(Keys.SPACE)
        self.heard('n8 accepted; 0 left')


class Reader(PageTest):
    """What a screen reader says."""

    def test_the_list(self) -> None:
        self.open('tag n8 Ta=b', *(f'node x13.{at} y52 Tshop=x' for at in range(10, 99)))
        self.page.press(Keys.END)
        row = self.page.js(
            'return document.getElementById(document.getElementById("list").getAttribute("aria-activedescendant"))'
        )
        self.assertEqual(
            ('option', 'n-89 shop=x; new node: shop; undecided'),
            (row.aria_role, row.accessible_name),
        )
        self.assertEqual(
            ('true', '90', '90'),
            tuple(
                row.get_attribute(name)
                for name in ('aria-selected', 'aria-posinset', 'aria-setsize')
            ),
        )
        self.assertEqual(
            1,
            self.page.js(
                'return document.querySelectorAll("[role=option][aria-selected=true]").length'
            ),
        )
        self.assertLess(self.page.js('return document.querySelectorAll(".item").length'), 60)
        self.page.press('r')
        self.page.wait(
            'document.getElementById("row89").getAttribute("aria-label").endsWith("rejected")'
        )

    def test_everything_has_a_name(self) -> None:
        self.do('tag w5 Tname=Mine,lit=yes')
        self.write('newer.opl', 'w5 v4 Thighway=residential,name=Theirs,lit=no Nn1,n2,n3,n4\n')
        self.open('download newer.opl', 'tag n8 Ta=b')
        self.page.press(Keys.END)
        found = self.page.js(
            'return [...document.querySelectorAll("button, input, select, canvas, section, nav, [role]")].filter(one => one.offsetParent || one === document.body)'
        )
        for one in found:
            if one.aria_role not in ('none', 'presentation', 'generic', 'status', 'alert', 'group'):
                self.assertTrue(one.accessible_name, one.get_attribute('outerHTML')[:120])
        self.assertEqual(
            ['col'] * 4,
            self.page.js(
                'return [...document.querySelectorAll("#detail thead th")].map(one => one.scope)'
            ),
        )
        self.assertEqual(1, self.page.js('return document.querySelectorAll("h1").length'))
        self.assertEqual('en', self.page.js('return document.documentElement.lang'))

    def test_the_focus_is_seen(self) -> None:
        self.open('tag n8 Ta=b')
        for _ in range(12):
            self.page.press(Keys.TAB)
            style = self.page.js(
                'const at = document.activeElement, style = getComputedStyle(at); return at === document.body ? null : [style.outlineStyle, parseFloat(style.outlineWidth)]'
            )
            if style:
                self.assertTrue(
                    style[0] != 'none' and style[1] >= 1,
                    self.page.js(AT + '.outerHTML.slice(0, 100)'),
                )


class Texts(PageTest):
    """Texts of objects stay texts."""

    def test_hostile_ones(self) -> None:
        lines = []
        for at, text in enumerate(HOSTILE):
            tags = opl.tags(
                {
                    'name': text,
                    '__proto__': text[:40],
                    'constructor': 'x',
                    ('<b>' + text)[:60]: 'key too',
                }
            )
            lines.append(f'node x13.{at + 10} y52 T{tags}')
        self.open(*lines)
        title = self.page.js('return document.title')
        for at in range(len(HOSTILE)):
            self.page.js('review.pick(arguments[0])', at)
            self.assertEqual(
                1,
                self.page.js(
                    'return [...document.querySelectorAll("#detail tbody th")].filter(one => one.textContent === "__proto__").length'
                ),
                at,
            )
        self.assertEqual(title, self.page.js('return document.title'))
        self.assertEqual(
            0,
            self.page.js(
                'return document.querySelectorAll("#detail img, #detail script, #detail svg, #rows img, #rows script, #rows svg, #rows b b").length'
            ),
        )
        self.page.js('review.pick(2)')
        self.assertIn(
            'U+202E', self.page.js('return document.querySelector("#detail h2").textContent')
        )
        with self.assertRaisesRegex(Exception, 'TrustedHTML|Trusted Types'):
            self.page.js('document.getElementById("detail").innerHTML = "<img src=x>"')
        self.assertIsNone(
            self.page.js(
                'const one = document.createElement("script"); try { one.text = "document.title = 1"; document.body.append(one); } catch (fault) { return null; } return document.title === "1" ? 1 : null'
            )
        )


class Others(PageTest):
    """No other site sees the page, and the page asks nobody else."""

    def serve(self, handler: type[http.server.BaseHTTPRequestHandler]) -> str:
        """Another server; its address."""
        other = http.server.ThreadingHTTPServer(('127.0.0.1', 0), handler)
        self.addCleanup(other.server_close)
        threading.Thread(
            target=other.serve_forever, kwargs={'poll_interval': 0.01}, daemon=True
        ).start()
        self.addCleanup(other.shutdown)
        return f'http://127.0.0.1:{other.server_address[1]}'

    def test_another_site_in_the_same_browser(self) -> None:
        one = self.open('tag n8 Ta=b')
        base, token = self.served.origin, self.served.token

        class Evil(http.server.BaseHTTPRequestHandler):
            def log_message(self, *words: Any) -> None:
                pass

            def do_GET(self) -> None:
                body = f"""<!doctype html><title>evil</title><body><iframe id=frame src="{base}/"></iframe><script>
                window.out = [];
                const told = name => [found => out.push([name, found.type]), () => out.push([name, 'failed'])];
                const body = '{{"decisions": [["n8", "rejected"]], "heard": 0}}';
                fetch('{base}/items', {{headers: {{'X-Yoke-Token': '{token}'}}}}).then(...told('items'));
                fetch('{base}/decide', {{method: 'POST', mode: 'no-cors', headers: {{'Content-Type': 'text/plain'}}, body}}).then(...told('decide'));
                fetch('{base}/decide', {{method: 'POST', headers: {{'Content-Type': 'application/json', 'X-Yoke-Token': '{token}'}}, body}}).then(...told('decide with it'));
                const script = document.createElement('script'); script.type = 'module'; script.src = '{base}/review.js';
                script.onload = () => out.push(['script', 'loaded']); script.onerror = () => out.push(['script', 'failed']); document.body.append(script);
                const image = new Image(); image.onload = () => out.push(['image', 'loaded']); image.onerror = () => out.push(['image', 'failed']); image.src = '{base}/icon.svg';
                </script>""".encode()
                self.send_response(200)
                self.send_header('Content-Type', 'text/html')
                self.end_headers()
                self.wfile.write(body)

        self.page.driver.get(self.serve(Evil).replace('127.0.0.1', 'localhost'))
        self.page.wait('out.length === 5')
        self.assertEqual(
            {(name, 'failed') for name in ('items', 'decide', 'decide with it', 'script', 'image')},
            {(name, how) for name, how in self.page.js('return out')},
        )
        self.page.wait('document.getElementById("frame").contentDocument === null')
        self.assertEqual(({}, {}), (self.kept(), one.decisions.how))

    def test_without_the_secret(self) -> None:
        self.open('tag n8 Ta=b')
        self.assertEqual(self.served.origin + '/', self.page.js('return location.href'))
        self.page.js('sessionStorage.clear()')
        self.page.driver.get(self.served.origin + '/')
        self.page.wait(
            'document.getElementById("count").textContent.startsWith("The secret in the address is wrong")'
        )

    def test_nothing_comes_from_elsewhere(self) -> None:
        self.open('tag n8 Ta=b')
        time.sleep(0.3)
        names = self.page.js('return performance.getEntriesByType("resource").map(one => one.name)')
        self.assertEqual(
            [], [name for name in names if not name.startswith(self.served.origin + '/')]
        )
        self.assertNotIn(self.served.token, ' '.join(names))

    def test_tiles(self) -> None:
        seen: list[tuple[str, str | None, str]] = []

        class Tiles(http.server.BaseHTTPRequestHandler):
            def log_message(self, *words: Any) -> None:
                pass

            def do_GET(self) -> None:
                seen.append((self.path, self.headers.get('Referer'), str(self.headers)))
                self.send_response(200)
                self.send_header('Content-Type', 'image/png')
                self.end_headers()
                self.wfile.write(picture())

        self.open('tag n8 Ta=b', tiles=self.serve(Tiles) + '/{z}/{x}/{y}.png')
        self.page.wait(
            'performance.getEntriesByType("resource").some(one => one.name.endsWith(".png"))'
        )
        time.sleep(0.5)
        self.assertTrue(seen)
        self.assertEqual({self.served.origin + '/'}, {referer for _, referer, _ in seen})
        self.assertNotIn(self.served.token, str(seen))
        self.assertEqual([], self.page.messages())


def picture() -> bytes:
    """A PNG of 8 x 8 pixels."""

    def chunk(name: bytes, data: bytes) -> bytes:
        return (
            struct.pack('>I', len(data)) + name + data + struct.pack('>I', zlib.crc32(name + data))
        )

    rows = b''.join(b'\0' + b'\xc8\xe6\xc8' * 8 for _ in range(8))
    return (
        b'\x89PNG\r\n\x1a\n'
        + chunk(b'IHDR', struct.pack('>IIBBBBB', 8, 8, 8, 2, 0, 0, 0))
        + chunk(b'IDAT', zlib.compress(rows))
        + chunk(b'IEND', b'')
    )


class Sizes(PageTest):
    def test_wide_and_narrow(self) -> None:
        self.open(
            'tag w5 Tname=' + 'x' * 200,
            'tag n8 Ta=b',
            *(f'node x13.{at} y52 Tshop=x' for at in range(10, 40)),
        )
        for wide, high in ((1400, 900), (1024, 700), (700, 900), (360, 640)):
            self.page.size(wide, high)
            self.page.wait(f'innerWidth === {wide}')
            with self.subTest(wide=wide):
                self.assertLessEqual(
                    self.page.js('return document.documentElement.scrollWidth'), wide
                )
                for name in ('finish', 'list', 'map', 'detail'):
                    box = self.page.js(
                        f'const one = document.getElementById("{name}"); one.scrollIntoView({{block: "nearest"}}); const box = one.getBoundingClientRect(); return [box.width, box.height, box.left, box.right, box.top, box.bottom]'
                    )
                    self.assertGreater(min(box[0], box[1]), 20, name)
                    self.assertTrue(0 <= box[2] and box[3] <= wide, (name, box))
                    self.assertTrue(box[4] < high and box[5] > 0, (name, box))

    def test_text_twice_as_large(self) -> None:
        self.open('tag n8 Ta=b', *(f'node x13.{at} y52 Tshop=x' for at in range(10, 40)))
        self.page.js(
            'document.documentElement.style.fontSize = "32px"; dispatchEvent(new Event("resize"))'
        )
        self.page.press(Keys.END)
        self.assertEqual('n-30', self.chosen())
        seen = self.page.js(
            'const row = document.querySelector(".item.now").getBoundingClientRect(), list = document.getElementById("list").getBoundingClientRect(); return row.top >= list.top - 1 && row.bottom <= list.bottom + 1'
        )
        self.assertTrue(seen)
        self.page.js('document.documentElement.style.fontSize = ""')


class Faults(PageTest):
    def test_the_server_ended(self) -> None:
        self.open('tag n8 Ta=b', 'tag w5 Ta=b')
        self.page.press('a')
        self.heard('n8 accepted; 1 left')
        self.page.driver.set_network_conditions(offline=True, latency=0, throughput=1)
        self.addCleanup(self.page.driver.delete_network_conditions)
        self.page.press('r')
        self.page.wait('document.getElementById("box").open')
        self.assertIn(
            'yoke review doesn\'t answer',
            self.page.js('return document.getElementById("boxtext").textContent'),
        )
        self.assertEqual(
            'This decision is not kept',
            self.page.js('return document.getElementById("boxhead").textContent'),
        )
        self.counted('1 accepted, 0 rejected, 1 left of 2')
        self.assertEqual({'n8': 'accepted'}, self.kept())

    def test_it_is_opened_again(self) -> None:
        self.open('tag n8 Ta=b', 'tag w5 Ta=b')
        self.page.press('a')
        self.heard('n8 accepted; 1 left')
        self.page.driver.refresh()
        self.counted('1 accepted, 0 rejected, 1 left of 2')

    def test_decisions_that_do_not_go_together(self) -> None:
        self.do('begin', 'node x13.1 y52 Tshop=x', 'nodes w5 Nn1,n2,n3,n4,n-1', 'end')
        self.write('newer.opl', 'w5 v4 Thighway=residential,name=Theirs Nn1,n2,n4\n')
        self.open('download newer.opl')
        self.page.press('r')
        self.heard('n-1 rejected; 1 left')
        self.page.press('a')
        self.heard('w5 mine; 0 left')
        self.page.js('document.getElementById("finish").click()')
        self.page.wait('document.getElementById("box").open')
        self.assertEqual(
            'The script is not written',
            self.page.js('return document.getElementById("boxhead").textContent'),
        )
        self.assertFalse((self.folder / 'review.script').exists())
