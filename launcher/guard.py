"""A group of processes that ends when the launcher ends, however that ends: a proof never runs on
alone.
"""
import contextlib
import os
import signal
import subprocess


class Guard:
    """Starts processes into a group of their own.

    A shell in that group reads from a pipe whose other end the launcher alone holds. When the
    launcher ends, by SIGKILL too, the shell reads the end of the pipe and kills the group. Ctrl-C
    and Ctrl-Z reach the launcher alone, which is in another group: it ends the group as it ends,
    and stops and continues it (`pause`) as it is stopped and continued.
    """

    def __init__(self, temporary):
        # rattle leaves temporary folders behind where it is killed, so it gets one that the
        # launcher empties.
        self.environment = dict(os.environ, TMPDIR=temporary)
        read, self.held = os.pipe()
        how = {'stdin': read, 'stdout': subprocess.DEVNULL, 'stderr': subprocess.DEVNULL}
        self.shell = subprocess.Popen(
            ['sh', '-c', 'read _; kill -9 0'], preexec_fn=os.setpgrp, **how
        )
        os.close(read)
        self.before = signal.signal(signal.SIGTSTP, self.pause)

    def start(self, words, folder, log, nice=0):
        """Starts a command in a folder, with both of its outputs into a log that is written anew."""
        group = self.shell.pid

        def join():
            os.setpgid(0, group)
            if nice:
                os.nice(nice)
            # Where memory runs out a proof is to go, and not the user's other programs.
            with contextlib.suppress(OSError):
                with open('/proc/self/oom_score_adj', 'w', encoding='ascii') as file:
                    file.write('500')

        with open(log, 'wb') as out:
            how = {
                'cwd': folder,
                'stdin': subprocess.DEVNULL,
                'stdout': out,
                'stderr': subprocess.STDOUT,
            }
            return subprocess.Popen(words, preexec_fn=join, env=self.environment, **how)

    def pause(self, *_):
        """Stops the group and the launcher, until the launcher is continued."""
        os.killpg(self.shell.pid, signal.SIGSTOP)
        # The shell goes on, to kill the group if the launcher is killed while it is stopped.
        os.kill(self.shell.pid, signal.SIGCONT)
        os.kill(os.getpid(), signal.SIGSTOP)
        os.killpg(self.shell.pid, signal.SIGCONT)

    def end(self):
        """Kills what is left of the group."""
        signal.signal(signal.SIGTSTP, self.before)
        os.close(self.held)
        self.shell.wait()
