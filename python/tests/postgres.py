"""A PostgreSQL of its own for tests: on a Unix socket in a temporary folder, as an unprivileged user."""
import glob
import os
import pwd
import re
import shutil
import signal
import subprocess
import tempfile
import time

from repository import require

# The first version that has what the scripts use.
OLDEST = 15

# The user of the server, where the tests run as root: it refuses to.
USER = "nobody"

# What makes tests faster, and changes no answer.
SETTINGS = ("fsync=off", "full_page_writes=off", "synchronous_commit=off", "jit=off", "max_connections=10", "statement_timeout=300s")

# How long the server may take to start, or to stop.
MOST_SECONDS = 120

# Texts in tables compare in other ways than by bytes: as a language has it, and with upper and lower case equal.
COLLATIONS = """
CREATE COLLATION no_case (provider = icu, locale = 'und-u-ks-level2', deterministic = false);
CREATE COLLATION german (provider = icu, locale = 'de');
"""


def server_programs():
    """The folder of the programs of the newest server that is installed, or None."""
    folders = glob.glob("/usr/lib/postgresql/*/bin") + [os.path.dirname(shutil.which("postgres") or "")]
    found = []
    for folder in folders:
        if all(os.access(os.path.join(folder, name), os.X_OK) for name in ("initdb", "postgres", "psql")):
            said = subprocess.run([os.path.join(folder, "postgres"), "--version"], stdout=subprocess.PIPE, check=True, text=True).stdout
            found.append((int(re.search("[0-9]+", said)[0]), folder))
    version, folder = max(found, default=(0, None))
    return folder if version >= OLDEST else None


class Server:
    """A server that runs until `stop`."""

    def __init__(self, programs, settings=SETTINGS):
        self.programs = programs
        self.settings = [*settings, "listen_addresses="]
        self.room = tempfile.mkdtemp(prefix="frameq-")
        self.process = None
        self.environment = {
            **{name: value for name, value in os.environ.items() if not name.startswith("PG")},
            "PGHOST": self.room, "PGUSER": "frameq", "PGDATABASE": "postgres", "PGCLIENTENCODING": "UTF8",
            "PGOPTIONS": "-c client_min_messages=warning",
        }
        self.how: dict = {}
        if os.geteuid() == 0:
            user = pwd.getpwnam(USER)
            self.how = {"user": user.pw_uid, "group": user.pw_gid, "extra_groups": []}
            os.chown(self.room, user.pw_uid, user.pw_gid)

    def start(self):
        data = os.path.join(self.room, "data")
        words = ["initdb", "--no-sync", "--auth=trust", "--username=frameq", "--encoding=UTF8", "--locale=C", f"--pgdata={data}"]
        self.run_program(words)
        settings = [*self.settings, f"unix_socket_directories={self.room}"]
        words = [os.path.join(self.programs, "postgres"), "-D", data, *(word for setting in settings for word in ("-c", setting))]
        self.process = subprocess.Popen(words, cwd=self.room, stderr=subprocess.DEVNULL, **self.how)
        until = time.monotonic() + MOST_SECONDS
        while self.psql(b"SELECT 1;").returncode:
            if self.process.poll() is not None or time.monotonic() > until:
                raise RuntimeError("PostgreSQL does not start")
            time.sleep(0.05)
        self.psql(COLLATIONS.encode()).check_returncode()

    def run_program(self, words):
        """Runs one of the server's programs, as the server's user."""
        ran = subprocess.run(
            [os.path.join(self.programs, words[0]), *words[1:]], cwd=self.room, stdout=subprocess.PIPE, stderr=subprocess.STDOUT,
            check=False, **self.how,
        )
        if ran.returncode:
            raise RuntimeError(f"{words[0]} failed: {ran.stdout.decode(errors='replace')}")

    def stop(self):
        if self.process:
            self.process.send_signal(signal.SIGINT)
            self.process.wait(MOST_SECONDS)
        shutil.rmtree(self.room)

    def psql(self, script, *words, folder=None):
        """Runs a script by psql, in a folder."""
        return subprocess.run(
            [*self.psql_words(), *words], input=script, check=False, cwd=folder, stdout=subprocess.PIPE, stderr=subprocess.PIPE,
            env=self.environment,
        )

    def psql_words(self):
        """The command that runs a script, where the server's environment is."""
        return [os.path.join(self.programs, "psql"), "-X", "-q", "-v", "VERBOSITY=terse"]


def start_server(add_cleanup):
    """A server, which is stopped at the end. The tests fail without PostgreSQL, or are left out, as `require` says."""
    programs = server_programs()
    require("PostgreSQL", programs is not None)
    server = Server(programs)
    add_cleanup(server.stop)
    server.start()
    return server
