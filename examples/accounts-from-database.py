#!/usr/bin/env python3
"""Writes the account file of a running radlimitd anew from a database, looks at it, and has the server read it.

The new file stands beside the old one until `radlimitd check` finds it right. Then it takes the place of the old one at
once, and `radlimitd reload` has the server read it. Where the file is not right, nothing is changed.

usage: accounts-from-database.py DATABASE FILE [PROGRAM]
DATABASE is a file of SQLite, and FILE the server's file. PROGRAM is radlimitd, if it is not on the PATH. It exits with 0
where the server has read the file. Run it as a user that may write to the folder of both files and ask the server.

These are the tables, of which a value that is NULL leaves its key out. The last three are as FreeRADIUS has them, and may
be missing. A group becomes a profile, and what FreeRADIUS would send by its operators =, := and += becomes its list and
that of an account; columns of the account go before those. A row that has no place is named with the reason, and then
nothing is changed either.

CREATE TABLE client (address TEXT PRIMARY KEY, secret TEXT NOT NULL, signed INTEGER);
CREATE TABLE account (name TEXT PRIMARY KEY, password TEXT NOT NULL, places INTEGER NOT NULL, ports INTEGER NOT NULL,
    session_timeout INTEGER, idle_timeout INTEGER, disabled INTEGER);
CREATE TABLE radusergroup (id INTEGER PRIMARY KEY, username TEXT NOT NULL, groupname TEXT NOT NULL,
    priority INTEGER NOT NULL);
CREATE TABLE radgroupreply (id INTEGER PRIMARY KEY, groupname TEXT NOT NULL, attribute TEXT NOT NULL, op TEXT NOT NULL,
    value TEXT NOT NULL);
CREATE TABLE radreply (id INTEGER PRIMARY KEY, username TEXT NOT NULL, attribute TEXT NOT NULL, op TEXT NOT NULL,
    value TEXT NOT NULL);
"""

import contextlib
import json
import os
import pathlib
import re
import sqlite3
import subprocess
import sys
import tempfile
import typing

# the head of the account file: see the manual page radlimit-accounts(5)
HEAD = """version = 3
"""
ACCOUNTS = re.compile(r'^accounts\s*=\s*"([^"\\\n]*)"', re.M)
# each in the order of a key that does not change: another order of the same accounts would begin a generation for nothing
CLIENTS_IN_ORDER = "SELECT * FROM client ORDER BY address"
ACCOUNTS_IN_ORDER = "SELECT * FROM account ORDER BY name"
GROUPS_IN_ORDER = "SELECT username, groupname FROM radusergroup ORDER BY priority, rowid"
REPLIES_IN_ORDER = "SELECT {1}, attribute, op, value FROM {0} ORDER BY {1}, id"
# the columns of an account that are attributes too
ATTRIBUTES = {
    "session_timeout": "session-timeout", "idle_timeout": "idle-timeout", "service_type": "service-type",
    "framed_protocol": "framed-protocol",
}
# a word, which the server takes for a value of any form; what is no word is a text
WORD = re.compile(r"[A-Za-z0-9.:/_-]+")
# what `radlimitd check` says of an attribute of a list: whose it is, its place, and why it is wrong
BAD_REPLY = re.compile(r": reply (\d+) of (?:account (\S+)|profile (\".*\")): (.*)$", re.M)
OF_THE_NAME = ("unknown name", "set by the server")  # reasons that no other value would mend


class Reply(typing.NamedTuple):
    """A row of radreply or radgroupreply."""

    table: str
    name: str
    attribute: str
    op: str
    value: str

    def __str__(self):
        return f"{self.table} {self.name}: {self.attribute} {self.op} {self.value}"

    def key(self):
        """The name of its attribute, as others are compared with it."""
        return self.attribute.lower()

    def text(self, op="="):
        """The attribute as a list of the account file has it."""
        value = self.value
        if len(value) > 1 and value[0] == value[-1] and value[0] in "\"'":
            value = value[1:-1]
        return f"{self.attribute} {op} {value}" if WORD.fullmatch(value) else f'{self.attribute} {op} "{value}"'

    def fault(self, columns):
        """Why it has no place beside columns of its account, as far as the server does not say that."""
        if self.op not in ("=", ":=", "+="):
            return "its operator is none of =, := and +="
        if not WORD.fullmatch(self.attribute):
            return "unknown name"
        if self.value[:1] == "`" or (self.value[:1] == '"' and "%" in self.value):
            return "FreeRADIUS makes its value at each login"
        if self.key() in columns:
            return "the account has a column for it, which is set"
        return None


def merged(own, group):
    """What FreeRADIUS sends of the rows of an account and, after these, those of its group. An operator looks at what was
    there before its list, and at no other row of that."""
    keys = {reply.key() for reply in own}
    set_anew = {reply.key() for reply in group if reply.op == ":="}
    added = [reply for reply in group if reply.op != "=" or reply.key() not in keys]
    return [reply for reply in own if reply.key() not in set_anew] + added


class Tables:
    """The rows of a database, and why some of them have no place."""

    def __init__(self, database):
        self.wrong = {}
        path = pathlib.Path(database).absolute().as_uri()
        with contextlib.closing(sqlite3.connect(f"{path}?mode=ro", uri=True)) as one:
            one.row_factory = sqlite3.Row
            self.there = {row[0] for row in one.execute("SELECT name FROM sqlite_master")}
            self.clients = [dict(row) for row in one.execute(CLIENTS_IN_ORDER)]
            self.accounts = {row["name"]: dict(row) for row in one.execute(ACCOUNTS_IN_ORDER)}
            self.own = self.replies(one, "radreply", "username")
            self.groups = self.replies(one, "radgroupreply", "groupname")
            self.group_of = self.read_groups(one)
        for name in sorted(self.own.keys() - self.accounts.keys()):
            self.wrong |= {reply: "there is no such account" for reply in self.own[name]}

    def replies(self, one, table, column):
        """The rows of a table of replies, by the names that they have."""
        found = {}
        for row in one.execute(REPLIES_IN_ORDER.format(table, column)) if table in self.there else ():
            reply = Reply(table, *("" if value is None else str(value) for value in row))
            found.setdefault(reply.name, []).append(reply)
            if fault := reply.fault(self.columns(reply.name) if table == "radreply" else ()):
                self.wrong[reply] = fault
        return found

    def columns(self, name):
        """The attributes that the row of an account has by itself."""
        row = self.accounts.get(name, {})
        return {key for column, key in ATTRIBUTES.items() if row.get(column) is not None}

    def read_groups(self, one):
        """The group of each account that has one: as FreeRADIUS takes it, the first."""
        found = {}
        for name, group in one.execute(GROUPS_IN_ORDER) if "radusergroup" in self.there else ():
            if name not in self.accounts:
                self.wrong[f"radusergroup {name}: {group}"] = "there is no such account"
            elif found.setdefault(name, group) != group:
                self.wrong[f"radusergroup {name}: {group}"] = f"the account is in {found[name]}, and has one profile"
        return found

    def lists(self, name):
        """The profile of an account, if it has one, and its own list."""
        own, columns, profile = self.own.get(name, []), self.columns(name), self.group_of.get(name)
        group = self.groups.get(profile, [])
        keys = columns | {reply.key() for reply in own}
        if any(reply.key() in columns or (reply.key() in keys and reply.op != "+=") for reply in group):
            profile, own = None, merged(own, [reply for reply in group if reply.key() not in columns])
        return profile if profile in self.groups else None, own

    def text(self):
        """The account file of all that has a place, and its lists by the names that the server has for them."""
        parts, lists = [HEAD], {}

        def table_of(head, keys, part=None, name=None, replies=None, beside=()):
            """Adds a table, with a list if it has one, of which those are added whose names stand `beside` it."""
            lines = [f"{key} = {value_of(key, value)}" for key, value in keys.items() if value is not None]
            if replies is not None:
                kept = lists[part, string_of(name)] = [reply for reply in replies if reply not in self.wrong]
                texts = [string_of(reply.text("+=" if reply.key() in beside else "=")) for reply in kept]
                lines.append(f"reply = [{', '.join(texts)}]")
            parts.append("\n".join([f"\n{head}", *lines, ""]))

        for name, group in sorted(self.groups.items()):
            table_of(f"[profile.{string_of(name)}]", {}, "profile", name, group)
        for row in self.clients:
            table_of("[[client]]", row)
        for name, row in self.accounts.items():
            profile, own = self.lists(name)
            # what both send is sent twice: `lists` has left out what one of them replaces
            beside = {reply.key() for reply in self.groups.get(profile, [])}
            table_of("[[account]]", row | {"profile": profile}, "account", name, own or None, beside)
        return "".join(parts), lists

    def refuse(self, replies, place, why):
        """Notes that the server refuses one of a list, and with it what is refused for the same reason."""
        refused = replies[place - 1]
        for rows in (*self.own.values(), *self.groups.values()):
            for reply in rows:
                if reply.text() == refused.text() or (why in OF_THE_NAME and reply.key() == refused.key()):
                    self.wrong.setdefault(reply, why)


def string_of(text):
    """A string as TOML writes it."""
    # a string of JSON is one of TOML, but for one character
    return json.dumps(text, ensure_ascii=False).replace("\x7f", "\\u007f")


def value_of(column, value):
    """A value of the database as TOML writes it."""
    if column in ("signed", "disabled"):
        return "true" if value else "false"
    return str(value) if isinstance(value, int) else string_of(value)


def written(folder, text, like):
    """A new file of a folder with this text, of the mode and the owner of another one: its path."""
    with tempfile.NamedTemporaryFile("w", encoding="utf-8", dir=folder, delete=False) as file:
        file.write(text)
        file.flush()
        there = os.stat(like)
        os.fchmod(file.fileno(), there.st_mode & 0o777)
        if os.geteuid() == 0:
            os.fchown(file.fileno(), there.st_uid, there.st_gid)
        os.fsync(file.fileno())
    return file.name


def checked(program, tables, server, accounts, name, made):
    """Writes the account file that tables say, and a server's file that names it, until the server refuses no row of them:
    what it says then, and its status. The paths of both are made."""
    while True:
        text, lists = tables.text()
        made.append(written(os.path.dirname(accounts), text, accounts))
        # the server's file, but for the account file that it names
        other = ACCOUNTS.sub(lambda _: f"accounts = {json.dumps(made[0])}", server, count=1)
        made.append(written(os.path.dirname(os.path.abspath(name)), other, name))
        words = [program, "check", made[1]]
        run = subprocess.run(words, stdout=subprocess.DEVNULL, stderr=subprocess.PIPE, check=False, text=True)
        bad = BAD_REPLY.search(run.stderr)
        key = bad and (("account", string_of(bad[2])) if bad[2] else ("profile", bad[3]))
        if key not in lists:
            return run.stderr, run.returncode
        tables.refuse(lists[key], int(bad[1]), bad[4])
        while made:
            os.remove(made.pop())


def main():
    if {"--help", "-h"} & set(sys.argv[1:]):
        print(__doc__)
        return
    if len(sys.argv) not in (3, 4):
        sys.exit(__doc__)
    database, name, *rest = sys.argv[1:]
    program = rest[0] if rest else "radlimitd"
    with open(name, encoding="utf-8") as file:
        server = file.read()
    found = ACCOUNTS.search(server)
    if not found:
        sys.exit(f"{name}: it has no line: accounts = \"..\"")
    accounts = os.path.join(os.path.dirname(os.path.abspath(name)), found[1])
    tables, made = Tables(database), []
    try:
        said, status = checked(program, tables, server, accounts, name, made)
        sys.stderr.write("".join(f"{row}: {why}\n" for row, why in tables.wrong.items()) + said)
        if tables.wrong or status:
            sys.exit("the account file was left as it is")
        os.replace(made.pop(0), accounts)
        sys.exit(subprocess.run([program, "reload", name], check=False).returncode)
    finally:
        for path in made:
            os.remove(path)


if __name__ == "__main__":
    main()
