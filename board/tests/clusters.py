"""PostgreSQL for a test or a script: clusters of its own on loopback, made and removed by it. The lines that an operator would type
are those of docs/POSTGRES.md."""
import atexit
import contextlib
import functools
import glob
import os
import pathlib
import pwd
import random
import shutil
import signal
import socket
import subprocess
import tempfile
import time

TESTS = pathlib.Path(__file__).resolve().parent
ROOT = TESTS.parent.parent


def missing():
    """The packages that are missing, for who skips."""
    there = {"python3-asyncpg": glob.glob("/usr/lib/python3/dist-packages/asyncpg/__init__.py"), "postgresql": binaries()}
    return [package for package, found in there.items() if not found]


def binaries():
    """Where PostgreSQL's own programs are, the newest."""
    found = [path for path in glob.glob("/usr/lib/postgresql/*/bin") if os.path.exists(f"{path}/initdb")]
    return max(found, key=lambda path: int(path.split("/")[-2]), default=None)


def user():
    """Who runs a cluster: not root."""
    if os.getuid() != 0:
        return None
    for name in ("postgres", "nobody"):
        with contextlib.suppress(KeyError):
            return pwd.getpwnam(name)


def as_user(*words):
    who = user()
    return [*(["setpriv", f"--reuid={who.pw_uid}", f"--regid={who.pw_gid}", "--clear-groups"] if who else []), *map(str, words)]


def free_port():
    """A port that nobody has, and that the system gives to nobody who doesn't name it."""
    while True:
        port = random.randrange(10_000, 32_000)
        with socket.socket() as own, contextlib.suppress(OSError):
            own.bind(("127.0.0.1", port))
            return port


def state(process):
    """The state of a process and its parent; X where there is none."""
    try:
        return pathlib.Path(f"/proc/{process}/stat").read_text().rpartition(")")[2].split()[:2]
    except OSError:
        return ["X"]


class Cluster:
    """One cluster, in a folder of its own."""

    def __init__(self, folder, name, settings=""):
        self.data, self.name, self.port, self.process = pathlib.Path(folder, name), name, free_port(), None
        self.settings = f"""listen_addresses = '127.0.0.1'\nport = {self.port}\nunix_socket_directories = ''\nshared_buffers = '32MB'
max_wal_senders = 4\ndynamic_shared_memory_type = mmap\nmax_connections = 100\nwal_keep_size = '64MB'\nwal_retrieve_retry_interval = '200ms'\nlog_line_prefix = '%m [%p] %a '\n{settings}\n"""

    def make(self):
        """A new cluster with a database `cdm`, which runs."""
        run("initdb", "-D", self.data, "-U", "postgres", "-A", "trust", "-E", "UTF8", "--locale=C", "--no-sync")
        with open(self.data / "postgresql.conf", "a") as file:
            file.write(self.settings)
        self.start()
        self.sql("CREATE DATABASE cdm", "postgres")
        return self

    def copy(self, folder, primary=None):
        """A copy of a data folder that isn't in use, which runs; as the standby of another copy of it where that is named."""
        ended = subprocess.run(as_user("cp", "-a", folder, self.data), cwd="/", timeout=120)
        assert ended.returncode == 0
        with open(self.data / "postgresql.conf", "a") as file:
            file.write(self.settings)
            if primary is not None:
                file.write(f"primary_conninfo = 'host=127.0.0.1 port={primary.port} user=postgres application_name={self.name}'\n")
        if primary is not None:
            (self.data / "standby.signal").touch()
        return self.start()

    def start(self):
        """Starts it, and waits until it answers."""
        log = open(self.data.parent / f"{self.name}.log", "ab")
        self.process = subprocess.Popen(as_user(f"{binaries()}/postgres", "-D", self.data), stdout=log, stderr=log, stdin=subprocess.DEVNULL)
        log.close()
        end = time.monotonic() + 60
        while not self.is_up():
            assert time.monotonic() < end and self.process.poll() is None, self.told()
            time.sleep(0.05)
        return self

    def told(self):
        return (self.data.parent / f"{self.name}.log").read_text()

    def kill(self):
        """KILL to each of its processes, as a power cut would end them. All are gone then: one that is left keeps the next start away."""
        own, end = self.process.pid, time.monotonic() + 30
        self.process.send_signal(signal.SIGSTOP)  # So that it makes no more.
        while state(own)[0] not in "TZX":
            time.sleep(0.001)
        every = [own, *(int(path.name) for path in pathlib.Path("/proc").glob("[0-9]*") if state(path.name)[1:2] == [str(own)])]
        for process in every:
            with contextlib.suppress(ProcessLookupError):
                os.kill(process, signal.SIGKILL)
        self.process.wait()
        while any(state(process)[0] not in "ZX" for process in every):
            assert time.monotonic() < end, "a process that was killed is still there"
            time.sleep(0.01)

    def stop(self):
        if self.process is not None and self.process.poll() is None:
            self.kill()

    def is_up(self):
        return subprocess.run([f"{binaries()}/pg_isready", "-q", "-h", "127.0.0.1", "-p", str(self.port)]).returncode == 0

    def walreceiver(self):
        """The process of a standby that gets the primary's log."""
        for path in pathlib.Path("/proc").glob("[0-9]*/stat"):
            with contextlib.suppress(OSError):
                is_own = path.read_text().rpartition(")")[2].split()[1] == str(self.process.pid)
                if is_own and "walreceiver" in (path.parent / "cmdline").read_text():
                    return int(path.parent.name)

    def promote(self):
        run("pg_ctl", "promote", "-w", "-D", self.data)

    def sql(self, text, database="cdm", who="postgres"):
        """What psql prints, without decoration."""
        ended = subprocess.run([f"{binaries()}/psql", "-X", "-q", "-At", "-v", "ON_ERROR_STOP=1", "-h", "127.0.0.1", "-p", str(self.port), "-U", who,
                                "-d", database, "-c", text], capture_output=True, text=True, timeout=60)
        if ended.returncode:
            raise RuntimeError(ended.stderr)
        return ended.stdout.strip()

    def url(self, who="cdm"):
        return url_of(self, who=who)


def url_of(*clusters, who="cdm"):
    return f"postgresql://{who}@{','.join(f'127.0.0.1:{cluster.port}' for cluster in clusters)}/cdm"


def run(program, *words):
    ended = subprocess.run(as_user(f"{binaries()}/{program}", *words), capture_output=True, text=True, timeout=120, cwd="/")
    assert ended.returncode == 0, (program, ended.stdout, ended.stderr)


def init_again(cluster):
    """The tables as they were made."""
    cluster.sql("DROP TABLE cdm_record, cdm_log")
    cluster.sql("DROP FUNCTION cdm_append")
    ended = subprocess.run([str(ROOT / "cdmboard"), "log", "init", cluster.url("postgres")], env=dict(os.environ, CDMSEQ="/bin/true"))
    assert ended.returncode == 0


def init(cluster):
    """The tables, and a server's user."""
    ended = subprocess.run([str(ROOT / "cdmboard"), "log", "init", cluster.url("postgres")], capture_output=True, text=True,
                           env=dict(os.environ, CDMSEQ="/bin/true"))
    assert ended.returncode == 0, ended.stderr
    cluster.sql("CREATE ROLE cdm LOGIN IN ROLE cdm_server")


@contextlib.contextmanager
def folder():
    """A folder that who runs the clusters may use."""
    path = tempfile.mkdtemp("", "cdmboard-postgresql-", "/tmp")
    try:
        if user():
            os.chown(path, user().pw_uid, user().pw_gid)
        yield path
    finally:
        shutil.rmtree(path, ignore_errors=True)


@functools.cache
def template():
    """A data folder with a log's tables, made once by each process, from which clusters are copied."""
    own = folder()
    path = own.__enter__()
    atexit.register(own.__exit__, None, None, None)
    made = Cluster(path, "template", "fsync = off").make()
    try:
        init(made)
        run("pg_ctl", "-D", made.data, "-m", "fast", "-w", "stop")
        made.process.wait()
    finally:
        made.stop()
    lines = (made.data / "postgresql.conf").read_text().replace(made.settings, "")
    (made.data / "postgresql.conf").write_text(lines)
    return made.data


@contextlib.contextmanager
def clusters(has_standby=False, settings=""):
    """A primary, which has a log's tables, and its synchronous standby where that is asked for."""
    with folder() as path:
        made = [Cluster(path, "primary", settings)]
        try:
            made[0].copy(template())
            if has_standby:
                made.append(Cluster(path, "standby", settings))
                made[1].copy(template(), made[0])
                made[0].sql("ALTER SYSTEM SET synchronous_standby_names = 'FIRST 1 (standby)'")
                made[0].sql("SELECT pg_reload_conf()")
                end = time.monotonic() + 30
                while made[0].sql("SELECT count(*) FROM pg_stat_replication WHERE sync_state = 'sync'") != "1":
                    assert time.monotonic() < end, made[1].told()
                    time.sleep(0.05)
            yield made
        finally:
            for cluster in reversed(made):
                cluster.stop()
