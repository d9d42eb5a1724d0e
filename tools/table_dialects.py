"""What differs between the engines that profile_table.py asks: a class an engine at most, chosen by the module's name.

Untried are the classes that say so.
"""


class Dialect:
    """Plain SQL, as most engines take it. Of an engine that is not known nothing else is used."""
    modules = ()
    quote = '"'
    random = "RANDOM()"  # a number from 0 to 1
    text_type = "VARCHAR"
    has_grouping_sets = False  # and BIT_OR
    count_distinct = None  # counts different values of several columns that have no NULL
    by_name = False  # parameters of pyformat go by name
    session = ()  # statements for each new connection
    begin = None  # a statement that begins a transaction of which each statement sees one state
    share, join = None, None  # how another connection sees the state of the first
    catalogue = ("SELECT table_name FROM information_schema.tables WHERE table_schema = \0 AND table_type = 'BASE TABLE'")
    current_schema = "SELECT CURRENT_SCHEMA"
    foreign = None  # whether a table is kept elsewhere, so that a transaction here sees no one state of it

    def as_text(self, expression):
        return f"CAST({expression} AS {self.text_type})"

    def exact(self, expression):
        """A text that is compared by its bytes."""
        return expression

    def filled(self, expression, other):
        return f"COALESCE({expression}, {other})"

    def unique(self, schema, table):
        """A statement for the columns of the table's unique indexes that have no condition, as (index, column), and its parameters."""
        return None, ()

    def streaming(self, connection, module):
        """A cursor that does not get all rows at once."""
        return connection.cursor()


class Sqlite(Dialect):
    modules = ("sqlite3",)
    random = "(ABS(RANDOM() % 1000000000) / 1000000000.0)"
    text_type = "TEXT"
    session = ("PRAGMA cache_size = -200000",)
    begin = "BEGIN"
    catalogue = ("SELECT name FROM pragma_table_list WHERE schema = \0 AND type = 'table' AND name NOT LIKE 'sqlite\\_%' ESCAPE '\\'")
    current_schema = "SELECT 'main'"
    def unique(self, schema, table):
        return ("SELECT l.name, i.name FROM pragma_index_list(\0, \0) AS l JOIN pragma_index_info(l.name, \0) AS i "
                "WHERE l.\"unique\" = 1 AND l.partial = 0 UNION ALL SELECT NULL, name FROM pragma_table_info(\0, \0) WHERE pk > 0"), (
                    table, schema, schema, table, schema)

    def exact(self, expression):
        return f"{expression} COLLATE BINARY"  # a column may have been declared to fold its letters


class Postgres(Dialect):
    modules = ("psycopg2", "psycopg")
    has_grouping_sets = True
    session = ("SET work_mem = '128MB'", "SET jit = off", "SET enable_partitionwise_aggregate = on")
    begin = "SET TRANSACTION ISOLATION LEVEL REPEATABLE READ, READ ONLY"
    share, join = "SELECT pg_export_snapshot()", "SET TRANSACTION SNAPSHOT '{}'"
    catalogue = ("SELECT c.relname::text FROM pg_class c JOIN pg_namespace n ON n.oid = c.relnamespace "
                 "WHERE n.nspname = \0 AND c.relkind IN ('r', 'p', 'f', 'm') AND NOT c.relispartition")
    current_schema = "SELECT CURRENT_SCHEMA()::text"
    foreign = ("SELECT COUNT(*) FROM pg_class c JOIN pg_namespace n ON n.oid = c.relnamespace WHERE n.nspname = \0 AND c.relname = \0 "
               "AND (c.relkind IN ('f', 'v') OR EXISTS (SELECT 1 FROM pg_partition_tree(c.oid) t JOIN pg_foreign_table f ON f.ftrelid = t.relid))")

    def unique(self, schema, table):
        # The index of a table with heirs knows nothing of their rows; that of a table with partitions does.
        return ("SELECT i.indexrelid::text, a.attname::text FROM pg_index i JOIN pg_class c ON c.oid = i.indrelid "
                "JOIN pg_namespace n ON n.oid = c.relnamespace "
                "LEFT JOIN pg_attribute a ON a.attrelid = c.oid AND a.attnum = ANY (i.indkey[0:i.indnkeyatts - 1]) "
                "WHERE i.indisunique AND i.indisvalid AND i.indpred IS NULL AND i.indexprs IS NULL AND n.nspname = \0 AND c.relname = \0 "
                "AND (c.relkind = 'p' OR NOT EXISTS (SELECT 1 FROM pg_inherits h WHERE h.inhparent = c.oid))"), (schema, table)

    def streaming(self, connection, module):
        return connection.cursor("profile_table")


class Mysql(Dialect):
    """MariaDB. MySQL 8 itself is untried: it names the collation of bytes otherwise (`--collation utf8mb4_0900_bin`)."""
    modules = ("pymysql", "MySQLdb", "mariadb")
    quote = "`"
    random = "RAND()"
    text_type = "CHAR CHARACTER SET utf8mb4"
    collation = "utf8mb4_nopad_bin"
    count_distinct = "COUNT(DISTINCT {})"
    session = ("SET SESSION max_heap_table_size = 268435456", "SET SESSION tmp_table_size = 268435456")
    begin = "START TRANSACTION WITH CONSISTENT SNAPSHOT"
    current_schema = "SELECT DATABASE()"

    def as_text(self, expression):
        return self.exact(f"CAST({expression} AS {self.text_type})")

    def exact(self, expression):
        return f"CONVERT({expression} USING utf8mb4) COLLATE {self.collation}"  # others fold letters, or drop spaces at the end

    def unique(self, schema, table):
        return ("SELECT index_name, column_name FROM information_schema.statistics WHERE non_unique = 0 AND table_schema = \0 "
                "AND table_name = \0"), (schema, table)

    def streaming(self, connection, module):
        cursors = getattr(module, "cursors", None)
        return connection.cursor(cursors.SSCursor) if hasattr(cursors, "SSCursor") else connection.cursor()


class ClickHouse(Dialect):
    """Tried with 18.16. A key of its tables is no key of their rows."""
    modules = ("clickhouse_driver.dbapi",)
    quote = "`"
    random = "(rand() / 4294967296)"
    text_type = "String"
    count_distinct = "uniqExact({})"
    by_name = True
    catalogue = "SELECT name FROM system.tables WHERE database = \0 AND engine NOT LIKE '%View'"
    current_schema = "SELECT currentDatabase()"

    def as_text(self, expression):
        return f"toString({expression})"  # a cast takes no NULL

    def filled(self, expression, other):
        return f"ifNull({expression}, {other})"


class Spark(Dialect):
    """Untried: Spark SQL, Hive and Databricks."""
    modules = ("pyhive.hive", "databricks.sql")
    quote = "`"
    random = "RAND()"
    text_type = "STRING"


DIALECTS = {module: kind for kind in (Sqlite, Postgres, Mysql, ClickHouse, Spark) for module in kind.modules}


def dialect_of(module):
    """The dialect of a module's engine."""
    return DIALECTS.get(module, Dialect)()
