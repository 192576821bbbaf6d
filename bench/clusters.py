"""PostgreSQL clusters of one's own, on loopback, that are removed at the end."""
import os
import pwd
import shutil
import socket
import subprocess
import tempfile

# The owner of the servers where the script is run by root, whom PostgreSQL refuses.
OWNER = "postgres"
NICENESS = "10"
USER, PASSWORD, DATABASE = "tester", "of the tests", "tested"
SETTINGS = {"fsync": "off", "max_wal_size": "4GB", "shared_buffers": "512MB", "work_mem": "256MB", "maintenance_work_mem": "256MB",
            "jit": "off", "autovacuum": "off"}


def binary(name):
    """Returns the path of a program of PostgreSQL, which need not stand among the ordinary ones."""
    found = subprocess.run(["pg_config", "--bindir"], check=True, stdout=subprocess.PIPE, text=True)
    return f"{found.stdout.strip()}/{name}"


def as_owner(words):
    """Returns a command that is run by the owner of the servers."""
    return ["runuser", "-u", OWNER, "--", *words] if os.getuid() == 0 else list(words)


def run(*words):
    subprocess.run(as_owner(words), check=True, stdout=subprocess.DEVNULL, stderr=subprocess.PIPE, cwd="/")


def free_port():
    """Returns a port of loopback that nothing listens on."""
    with socket.socket() as listener:
        listener.bind(("127.0.0.1", 0))
        return listener.getsockname()[1]


class Cluster:
    """A server with one database, which belongs to a user who is no superuser and has a password. With `workers` it takes so many
    processes for one query beside the first."""

    def __init__(self, folder, name, workers=0):
        self.folder, self.port = f"{folder}/{name}", free_port()
        with tempfile.NamedTemporaryFile("w", dir=folder, delete=False) as file:
            file.write(PASSWORD)
        if os.getuid() == 0:
            os.chown(file.name, pwd.getpwnam(OWNER).pw_uid, -1)
        run(binary("initdb"), "-D", self.folder, "--locale=C", "--encoding=UTF8", "--auth=scram-sha-256", f"--username={OWNER}",
            f"--pwfile={file.name}", "--no-sync")
        settings = {**SETTINGS, "listen_addresses": "127.0.0.1", "port": self.port, "unix_socket_directories": "",
                    "max_parallel_workers_per_gather": workers}
        with open(f"{self.folder}/postgresql.conf", "a") as file:
            file.writelines(f"{name} = '{value}'\n" for name, value in settings.items())

    def start(self):
        """Starts the server, and makes the database."""
        run("nice", "-n", NICENESS, binary("pg_ctl"), "-D", self.folder, "-w", "-l", f"{self.folder}/log", "start")
        self.ask(f"CREATE ROLE {USER} LOGIN PASSWORD '{PASSWORD}'", owner=True, database="postgres")
        self.ask(f"CREATE DATABASE {DATABASE} OWNER {USER}", owner=True, database="postgres")

    def environment(self, owner=False, database=DATABASE):
        """Returns the environment in which psql reaches the database."""
        return {**os.environ, "PGHOST": "127.0.0.1", "PGPORT": str(self.port), "PGUSER": OWNER if owner else USER, "PGPASSWORD": PASSWORD,
                "PGDATABASE": database, "PGCLIENTENCODING": "UTF8", "PGOPTIONS": "-c client_min_messages=warning"}

    def ask(self, text, owner=False, database=DATABASE):
        """Runs statements, and returns what they give."""
        done = subprocess.run([binary("psql"), "-X", "-q", "-A", "-t", "-v", "ON_ERROR_STOP=1", "-c", text], check=True,
                              env=self.environment(owner, database), stdout=subprocess.PIPE, text=True)
        return done.stdout.strip()

    def reach(self, name, other):
        """Makes another cluster a foreign server of this name, for the user."""
        self.ask(f"CREATE EXTENSION IF NOT EXISTS postgres_fdw; GRANT USAGE ON FOREIGN DATA WRAPPER postgres_fdw TO {USER}", owner=True)
        self.ask(f"CREATE SERVER {name} FOREIGN DATA WRAPPER postgres_fdw "
                 f"OPTIONS (host '127.0.0.1', port '{other.port}', dbname '{DATABASE}'); "
                 f"CREATE USER MAPPING FOR {USER} SERVER {name} OPTIONS (user '{USER}', password '{PASSWORD}')")

    def stop(self):
        """Stops the server, if it runs."""
        if os.path.exists(f"{self.folder}/postmaster.pid"):
            run(binary("pg_ctl"), "-D", self.folder, "-m", "immediate", "stop")


class Clusters:
    """Some clusters in a folder of their own, which are stopped and removed at the end. The first reaches the others as the foreign
    servers n1, n2 and so on."""

    def __init__(self, names, parent=None, workers=0):
        self.names, self.parent, self.workers, self.started = names, parent, workers, []

    def __enter__(self):
        self.folder = tempfile.mkdtemp(dir=self.parent)
        os.chmod(self.folder, 0o755)
        if os.getuid() == 0:
            os.chown(self.folder, pwd.getpwnam(OWNER).pw_uid, -1)
        try:
            for name in self.names:
                self.started.append(Cluster(self.folder, name, self.workers))
                self.started[-1].start()
            for number, other in enumerate(self.started[1:], 1):
                self.started[0].reach(f"n{number}", other)
        except BaseException:
            self.__exit__()
            raise
        return self.started

    def __exit__(self, *_):
        for cluster in self.started:
            cluster.stop()
        shutil.rmtree(self.folder)
