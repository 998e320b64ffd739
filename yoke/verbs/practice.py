"""`yoke practice`: a server of API 0.6 on this machine, to try a send on before anything goes to a
real map.
"""
from __future__ import annotations

import argparse
import http.client
import os
import pathlib
import signal
import subprocess
import sys
import threading
import time

from yoke import printing
from yoke.progress import note
from yoke.testing import server as strict
from yoke.trouble import Refused, Trouble, Usage

SUMMARY = 'run a practice server with the objects of an extract on this machine'
DETAILS = """Nothing leaves this machine: the server listens on 127.0.0.1 alone, keeps its data in memory, and forgets it when it ends.
It refuses what the rules of API 0.6 refuse, so a send that goes through here has no slip in it. Its token is the
word practice:

    yoke practice town.opl --background
    YOKE_TOKEN=practice yoke send --api http://127.0.0.1:8062 -m "a try"
    yoke practice --stop

--dump writes what the server has by now, as OPL."""
PORT = 8062
TOKEN = 'practice'
PATIENCE = 60  # seconds until a server in the background has to answer
PID_FILE = 'practice-{}.pid'


def add_arguments(parser: argparse.ArgumentParser) -> None:
    parser.add_argument(
        'data',
        metavar='FILE',
        nargs='?',
        help='an extract as OPL, or OSM XML where its name ends in .osm',
    )
    parser.add_argument(
        '--port', metavar='N', type=int, default=PORT, help='the port (%(default)s)'
    )
    parser.add_argument(
        '--background',
        action='store_true',
        help=f'return once it answers; its process number is in {PID_FILE.format("PORT")}',
    )
    parser.add_argument(
        '--stop', action='store_true', help='end the one that runs in the background on this port'
    )
    parser.add_argument(
        '--dump', action='store_true', help='print what the server on this port has now, as OPL'
    )


def run(arguments: argparse.Namespace) -> int:
    if not 0 < arguments.port < 65536:
        raise Usage(f'--port wants a number from 1 to 65535, and not {arguments.port}')
    if sum([bool(arguments.data), arguments.stop, arguments.dump]) != 1:
        raise Usage('name one of: a FILE with the objects to serve, --stop, --dump')
    if arguments.stop:
        return stop(arguments.port)
    if arguments.dump:
        return dump(arguments.port)
    return (
        begin(arguments.data, arguments.port)
        if arguments.background
        else serve(arguments.data, arguments.port)
    )


def address(port: int) -> str:
    """The address of the server on a port."""
    return f'http://127.0.0.1:{port}'


def stopping(port: int) -> str:
    """The command that ends the server on a port."""
    return 'yoke practice --stop' + ('' if port == PORT else f' --port {port}')


def serve(data: str, port: int) -> int:
    """Serves until Ctrl-C or TERM."""
    try:
        elements = strict.read_file(data)
    except (OSError, ValueError) as error:
        raise Trouble(f'{data}: {error}') from None
    users = {TOKEN: strict.MAPPER}
    try:
        server = strict.StrictServer(elements, port, users=users).__enter__()
    except OSError as error:
        raise Refused(
            f'port {port} is taken ({error.strerror}): name another one by --port, and in --api too; '
            f'if the server there is yours, {stopping(port)} ends it'
        ) from None
    print(
        f'{address(port)} has {len(elements)} objects; the token is {TOKEN}; Ctrl-C ends it',
        flush=True,
    )
    try:
        threading.Event().wait()
    except KeyboardInterrupt:
        server.__exit__()
    return 0


def begin(data: str, port: int) -> int:
    """Starts a server in the background, and returns once it answers."""
    pid_file = pathlib.Path(PID_FILE.format(port))
    if pid_file.exists():
        raise Refused(f'{pid_file} is there already: {stopping(port)} ends that server')
    words = [sys.executable, '-m', 'yoke', 'practice', data, '--port', str(port)]
    package = pathlib.Path(__file__).resolve().parents[2]
    child = subprocess.Popen(
        words,
        stdin=subprocess.DEVNULL,
        stdout=subprocess.PIPE,
        stderr=subprocess.PIPE,
        text=True,
        start_new_session=True,
        env={**os.environ, 'PYTHONPATH': str(package)},
    )
    assert child.stdout is not None and child.stderr is not None
    line = child.stdout.readline()
    if not line:
        raise Trouble(
            child.stderr.read().strip().removeprefix('yoke: ')
            or 'the practice server ended at once'
        )
    pid_file.write_text(f'{child.pid}\n', encoding='ascii')
    print(f'{line.split(";")[0]}; the token is {TOKEN}; {stopping(port)} ends it')
    return 0


def stop(port: int) -> int:
    """Ends the server in the background."""
    pid_file = pathlib.Path(PID_FILE.format(port))
    try:
        number = int(pid_file.read_text(encoding='ascii'))
    except FileNotFoundError:
        raise Refused(
            f'there is no {pid_file} here: no practice server was started from this folder on port {port}'
        ) from None
    except ValueError:
        raise Trouble(f'{pid_file} has no process number in it') from None
    if not is_practice(number):
        pid_file.unlink()
        note(f'process {number} is no practice server any more')
        return 0
    os.kill(number, signal.SIGTERM)
    end = time.monotonic() + PATIENCE
    while is_practice(number) and time.monotonic() < end:
        time.sleep(0.02)
    pid_file.unlink()
    print('ended')
    return 0


def is_practice(number: int) -> bool:
    """Whether the process is a practice server that runs: a number may be another program's by now."""
    try:
        words = pathlib.Path(f'/proc/{number}/cmdline').read_bytes().split(b'\0')
    except OSError:
        return False
    return b'practice' in words and b'yoke' in words


def dump(port: int) -> int:
    """Prints what the server has, the deleted objects too."""
    connection = http.client.HTTPConnection('127.0.0.1', port, timeout=PATIENCE)
    try:
        connection.request('GET', '/control/elements')
        answer = connection.getresponse()
        text = answer.read().decode('utf-8')
    except (OSError, http.client.HTTPException) as error:
        raise Trouble(f'no practice server answers at {address(port)}: {error}') from None
    finally:
        connection.close()
    if answer.status != 200:
        raise Trouble(f'{address(port)} is no practice server')
    printing.document(text)
    return 0
