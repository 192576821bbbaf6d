"""PostgreSQL servers, each reached by `psql`."""
import contextlib
import os
import subprocess

from encoding_sql import identifier, literal
from table_files import Refused

PSQL = ("psql", "-X", "-q", "-A", "-t", "-v", "VERBOSITY=terse")
MARK = "audb: "
END = "audb-end"
# Options of a foreign server or of a user on it, and where psql has them.
VARIABLES = {"host": "PGHOST", "hostaddr": "PGHOSTADDR", "port": "PGPORT", "dbname": "PGDATABASE", "user": "PGUSER", "password": "PGPASSWORD"}
SCAN = "use_remote_estimate 'true', async_capable 'true', fetch_size '10000'"


class Failed(Refused):
    """What psql says where a statement fails."""


def environment():
    """Returns the environment in which psql runs. To compile the statements' many terms takes longer than it saves."""
    options = f"-c client_min_messages=warning -c jit=off {os.environ.get('PGOPTIONS', '')}"
    return {**os.environ, "PGCLIENTENCODING": "UTF8", "PGOPTIONS": options}


class Server:
    """A session on a server: the one that psql reaches by its environment, with other values for some variables."""

    def __init__(self, variables=()):
        self.environment = {**environment(), **dict(variables)}
        self.start()

    def start(self):
        self.process = subprocess.Popen(PSQL, stdin=subprocess.PIPE, stdout=subprocess.PIPE, stderr=subprocess.STDOUT, env=self.environment)

    def __enter__(self):
        return self

    def __exit__(self, *_):
        self.process.communicate()

    def ask(self, *statements):
        """Runs statements, and returns the rows that the last one gives, each a list of texts."""
        for statement in statements:
            self.write(f"{statement};\n".encode())
            out = self.answer()
        return [row.split("|") for row in out.split("\n")[:-1]]

    def write(self, data):
        """Writes bytes to psql. Where it has ended, what it says is read as its answer."""
        with contextlib.suppress(BrokenPipeError):
            self.process.stdin.write(data)

    def answer(self):
        """Returns what psql prints for all that was written, or fails where it fails."""
        self.write(f"\\echo {END} :ERROR\n".encode())
        with contextlib.suppress(BrokenPipeError):
            self.process.stdin.flush()
        lines = []
        for line in self.process.stdout:
            line = line.decode("utf-8", "replace")
            if line.startswith(END):
                if line.split()[1] == "true":
                    break
                return "".join(lines)
            lines.append(line)
        raise Failed("".join(lines).strip())

    @contextlib.contextmanager
    def copying(self, statement):
        """Runs COPY, and gives what writes its bytes. Where it isn't come to an end, nothing is copied."""
        self.write(f"{statement};\n".encode())
        try:
            yield self.write
        except BaseException:
            # An end of its input would end the COPY well, without the bytes that are missing.
            self.process.kill()
            self.process.communicate()
            self.start()
            raise
        self.write(b"\\.\n")
        # psql's variable ERROR says nothing of a COPY.
        out = self.answer()
        if out:
            raise Failed(out.strip())

    def ours(self, table):
        """Returns the header of a table that was loaded, '' where there is no such table, or None where it was not loaded."""
        rows = self.ask(f"SELECT coalesce(encode(convert_to(obj_description(to_regclass({literal(table)})), 'utf8'), 'hex'), ''), "
                        f"to_regclass({literal(table)}) IS NOT NULL")
        note = bytes.fromhex(rows[0][0]).decode("utf-8")
        return note[len(MARK):] if note.startswith(MARK) else None if rows[0][1] == "t" else ""

    def drop(self, table):
        """Drops a loaded table, with the foreign tables whose rows it has."""
        parts = self.ask(f"SELECT inhrelid::regclass FROM pg_inherits WHERE inhparent = to_regclass({literal(table)})")
        self.ask(*(f"DROP FOREIGN TABLE {part}" for part, in parts), f"DROP TABLE IF EXISTS {table}")

    def note(self, table, header):
        """Keeps the header of a loaded table with it."""
        self.ask(f"COMMENT ON TABLE {table} IS {literal(MARK + header)}")

    def shard(self, name):
        """Returns a session on a foreign server, by its options and those of this user on it."""
        found = self.ask("SELECT option_name, option_value FROM pg_foreign_server, pg_options_to_table(srvoptions) "
                         f"WHERE srvname = {literal(name)} UNION ALL SELECT option_name, option_value FROM pg_user_mappings, "
                         f"pg_options_to_table(umoptions) WHERE srvname = {literal(name)} AND usename = current_user")
        if not found:
            raise Refused(f"no foreign server {name}")
        return Server({VARIABLES[option]: value for option, value in found if option in VARIABLES})

    def join_shards(self, table, types, names, schemas):
        """Makes a table whose rows are those of the tables of this name on foreign servers."""
        columns = ", ".join(f"c{place} {of}" for place, of in enumerate(types))
        self.ask(f"CREATE TABLE {table} ({columns})", *(
            f"CREATE FOREIGN TABLE {shard_table(table, name)} () INHERITS ({table}) SERVER {identifier(name)} "
            f"OPTIONS (schema_name {literal(schema)}, table_name {literal(table.strip(chr(34)))}, {SCAN})"
            for name, schema in zip(names, schemas)))


def shard_table(table, name):
    """Returns the name of the foreign table of a shard."""
    return identifier(f"{table.strip(chr(34))}_{name}")
