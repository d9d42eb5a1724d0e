#!/usr/bin/env python3
"""Profiles order lines that two PostgreSQL servers keep, and says what it took.

  two_servers.py [--rows N] [--seed S] [--sample ROWS] [--connections N] [--program FILE]

A third server has the table in hash partitions by order_no on the other two (postgres_fdw) and no rows itself; each is started in a folder
of its own with the memory of PostgreSQL's defaults, and ends with the run. The last line is rows, seconds to load, seconds, passes,
megabytes of the tool at most, and of the largest process of a server (its part of the shared memory counted in).
It needs psycopg2; the report goes to two_servers.report.
"""
import argparse
import os
import re
import resource
import subprocess
import sys
import time

BENCH = os.path.dirname(os.path.abspath(__file__))
TOOLS = os.path.join(os.path.dirname(BENCH), "tools")
sys.path[:0] = [BENCH, TOOLS]
import engines_for_tests  # noqa: E402
from order_lines import NAMES, csv_record, order_lines  # noqa: E402

KINDS = "integer integer text integer text text text integer text integer integer text".split()
COLUMNS = ", ".join(f"{n} {k}" for n, k in zip(NAMES, KINDS))
LOADED = 50_000  # rows at a time


def connected(server):
    import psycopg2
    connection = psycopg2.connect(f"host={server.data} user=tests dbname=postgres")
    connection.autocommit = True
    return connection


def distributed(front, others):
    """Makes the table `lines`."""
    cursor = connected(front).cursor()
    cursor.execute(f"CREATE EXTENSION postgres_fdw; CREATE TABLE lines ({COLUMNS}) PARTITION BY HASH (order_no)")
    for k, other in enumerate(others):
        connected(other).cursor().execute(f"CREATE TABLE part ({COLUMNS})")
        cursor.execute(f"CREATE SERVER s{k} FOREIGN DATA WRAPPER postgres_fdw OPTIONS (host '{other.data}', dbname 'postgres', "
                       "fetch_size '10000', batch_size '1000', async_capable 'true', use_remote_estimate 'true')")
        cursor.execute(f"CREATE USER MAPPING FOR tests SERVER s{k} OPTIONS (user 'tests', password_required 'false')")
        cursor.execute(f"CREATE FOREIGN TABLE lines{k} PARTITION OF lines FOR VALUES WITH (MODULUS {len(others)}, REMAINDER {k}) "
                       f"SERVER s{k} OPTIONS (table_name 'part')")


def load(front, others, rows, seed):
    import io
    cursor, lines = connected(front).cursor(), []

    def send():
        cursor.copy_expert("COPY lines FROM STDIN WITH (FORMAT csv, FORCE_NULL (note))", io.StringIO("".join(lines)))
        lines.clear()

    for row in order_lines(rows, seed):
        lines.append(csv_record(row))
        if len(lines) == LOADED:
            send()
    if lines:
        send()
    for other in others:
        connected(other).cursor().execute("VACUUM ANALYZE part")
    cursor.execute("ANALYZE lines")


def memory(servers):
    """The most megabytes that processes of these servers have had, those that are there now, each by itself."""
    out = 0
    for name in filter(str.isdigit, os.listdir("/proc")):
        try:
            with open(f"/proc/{name}/stat") as file:
                parent = int(file.read().rsplit(")", 1)[1].split()[1])
            if parent in {server.process.pid for server in servers}:
                with open(f"/proc/{name}/status") as file:
                    out = max(out, int(re.search(r"VmHWM:\s+(\d+)", file.read())[1]) // 1024)
        except (OSError, TypeError):
            continue
    return out


def main():
    parser = argparse.ArgumentParser(description="Profiles order lines on two PostgreSQL servers.")
    parser.add_argument("--rows", type=int, default=10_000_000)
    parser.add_argument("--seed", type=int, default=1)
    parser.add_argument("--sample", type=int)
    parser.add_argument("--connections", type=int, default=1)
    parser.add_argument("--program", default=os.path.join(os.path.dirname(BENCH), "crates", "depprof", "out", "depprof"))
    args = parser.parse_args()
    servers = []
    try:
        for _ in range(3):
            server, why = engines_for_tests.Postgres.start()
            if server is None:
                sys.exit(f"two_servers.py: {why}")
            servers.append(server)
        front, *others = servers
        began = time.monotonic()
        distributed(front, others)
        load(front, others, args.rows, args.seed)
        loaded = time.monotonic() - began
        words = [sys.executable, os.path.join(TOOLS, "profile_table.py"), "--program", args.program, "--module", "psycopg2", "--connect",
                 f"host={front.data} user=tests dbname=postgres", "--inclusions", "--connections", str(args.connections), "lines"]
        words += ["--sample", str(args.sample)] if args.sample else []
        most, told, began = 0, "", time.monotonic()
        with open("two_servers.report", "wb") as report, subprocess.Popen(words, stdout=report, stderr=subprocess.PIPE, text=True) as run:
            for line in run.stderr:
                sys.stderr.write(line)
                told, most = line, max(most, memory(servers))
        took = time.monotonic() - began
        passes = re.search(r"(\d+) passes", told)
        print(f"{args.rows} rows, loaded in {loaded:.0f} s, profiled in {took:.0f} s, {passes[1] if passes else '?'} passes, "
              f"tool {resource.getrusage(resource.RUSAGE_CHILDREN).ru_maxrss // 1024} MB, servers {most} MB a process")
        return run.returncode
    finally:
        for server in servers:
            server.end()


if __name__ == "__main__":
    sys.exit(main())
