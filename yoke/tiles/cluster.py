"""Hands tiles to workers by Dask: on the processors of this machine, or on a cluster."""
from __future__ import annotations

import contextlib
import logging
import pathlib
import shutil
from collections.abc import Iterator, Sequence
from dataclasses import dataclass
from typing import Any

from yoke.progress import note
from yoke.tiles import worker
from yoke.tiles.worker import Done, Job
from yoke.trouble import Refused, Trouble, Usage

INSTALL = 'Dask isn\'t there, and tiles need it (Debian: apt-get install python3-distributed; else: pip install distributed)'
KEPT = 'The tiles that are done are kept: the same command goes on with the others'


@dataclass(frozen=True)
class Where:
    """Where tiles are done: by so many workers here, or by a scheduler at an address, with its
    certificates.
    """

    workers: int
    scheduler: str = ''
    ca_file: str = ''
    certificate: str = ''
    key: str = ''
    in_the_clear: bool = False

    def check(self) -> None:
        """Usage where the words of the command line don't go together."""
        if self.workers < 1:
            raise Usage('--workers wants 1 or more')
        if self.scheduler and not self.scheduler.startswith('tls://') and not self.in_the_clear:
            raise Usage(
                f'--scheduler {self.scheduler}: whoever reaches a port of Dask runs code there. Begin the scheduler with TLS, '
                f'and name it tls://HOST:PORT; or insist by --in-the-clear'
            )
        if self.scheduler.startswith('tls://') and not (
            self.ca_file and self.certificate and self.key
        ):
            raise Usage('a scheduler with TLS wants --tls-ca-file, --tls-cert and --tls-key')


def library() -> Any:
    """Dask's `distributed`; Trouble where it isn't installed. It keeps quiet: what goes wrong is
    said here, once.
    """
    try:
        import distributed
    except ImportError:
        raise Trouble(INSTALL) from None
    logging.getLogger('distributed').setLevel(logging.CRITICAL + 1)
    return distributed


@contextlib.contextmanager
def client_of(where: Where, folder: pathlib.Path) -> Iterator[Any]:
    """A client of the workers."""
    dask = library()
    if where.scheduler:
        security = (
            dask.Security(
                tls_ca_file=where.ca_file,
                tls_client_cert=where.certificate,
                tls_client_key=where.key,
                require_encryption=True,
            )
            if where.scheduler.startswith('tls://')
            else None
        )
        try:
            client = dask.Client(where.scheduler, security=security, timeout=20)
        except (OSError, TimeoutError) as error:
            raise Trouble(f'no scheduler answers at {where.scheduler}: {error}') from None
        with client:
            yield client
        return
    scratch = folder / 'dask'
    shutil.rmtree(scratch, ignore_errors=True)  # of a run that was killed
    # A port of Dask runs code for whoever reaches it, other users of this machine too: so it has
    # certificates of its own.
    cluster = dask.LocalCluster(
        n_workers=where.workers,
        threads_per_worker=1,
        host='127.0.0.1',
        dashboard_address=None,
        local_directory=str(scratch),
        security=True,
    )
    try:
        with dask.Client(cluster) as client:
            yield client
    finally:
        cluster.close()
        shutil.rmtree(scratch, ignore_errors=True)


def do(jobs: Sequence[Job], where: Where, folder: pathlib.Path) -> Iterator[Done]:
    """Does tiles, and answers with each as it is done. A tile whose worker dies is done again, by
    another one.

    Where a tile can't be done all others are done first; then Trouble names it. Trouble too where
    the scheduler dies. The tiles that are done stay, and the same command goes on.
    """
    dask = library()
    waiting = [job for job in jobs if worker.kept_result(job) is None]
    for job in jobs:
        kept = worker.kept_result(job)
        if kept is not None:
            yield kept
    if not waiting:
        return
    failed: dict[str, str] = {}
    with client_of(where, folder) as client:
        names = {
            client.submit(
                worker.run, job, key=f'{job.name}-{job.digest()[:12]}', retries=1, pure=False
            ): job.name
            for job in waiting
        }
        try:
            for future in dask.as_completed(list(names)):
                try:
                    yield _result(dask, future)
                except _Failed as why:
                    failed[names[future]] = str(why)
                    note(f'{names[future]} failed: {why}')
        except (OSError, TimeoutError) as error:  # Dask's own CommClosedError is an OSError
            raise Trouble(
                f'the scheduler is gone: {error or type(error).__name__}. {KEPT}'
            ) from None
    if failed:
        name = min(failed)
        more = f' ({len(failed) - 1} more tiles failed)' if len(failed) > 1 else ''
        raise Trouble(f'{name}: {failed[name]}{more}. {KEPT}')


class _Failed(Exception):
    """A tile can't be done; the text says why, and what to do."""


def _result(dask: Any, future: Any) -> Done:
    if future.status == 'cancelled':
        raise Trouble(f'the scheduler is gone. {KEPT}')
    try:
        done: Done = future.result()
        return done
    except dask.KilledWorker:
        raise _Failed(
            'each worker that took it died, mostly for want of memory: cut smaller tiles (--grid), or take fewer --workers'
        ) from None
    except (Trouble, Refused) as why:
        raise _Failed(str(why)) from None
    except OSError as error:
        raise _Failed(f'{error}: make room') from None


def told(done: Done, count: int, whole: int) -> None:
    """A line of progress."""
    how = 'done before' if done.is_kept else f'{done.seconds:.1f} s'
    note(
        f'{done.name}: {done.changes} changes of {done.objects} objects, {how}; {count} of {whole}'
    )
