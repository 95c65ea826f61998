"""nbd_transactions: transactions of SQLite on a file, one after the other, and what the file has to hold after them.

`nbd_transactions.py FILE` makes them from the first one that is not there on, and prints the number of each once it is committed, until one fails.
"""
import hashlib, sqlite3, sys

ROWS = 40
PARTS = 3
LARGEST = 6_000


def content(number, part):
    """What a transaction puts into its row of this part: bytes of its own, of a length of its own."""
    seed = f"{number} {part}".encode()
    length = int.from_bytes(hashlib.sha256(seed).digest()[:4], "big") % LARGEST
    return hashlib.shake_128(seed).digest(length)


def rows_after(number):
    """What stands in the table after so many transactions: the last content of each row."""
    found = {}
    for last in range(max(1, number - ROWS + 1), number + 1):
        found.update({(last % ROWS, part): content(last, part) for part in range(PARTS)})
    return found


def opened(path):
    base = sqlite3.connect(path, isolation_level=None)
    # A journal that is deleted would not do: SQLite doesn't sync the folder after that, so a transaction that was answered could be taken back.
    base.execute("PRAGMA journal_mode = TRUNCATE")
    base.execute("PRAGMA synchronous = FULL")
    base.execute("CREATE TABLE IF NOT EXISTS filled (row INTEGER, part INTEGER, bytes BLOB, PRIMARY KEY (row, part))")
    base.execute("CREATE TABLE IF NOT EXISTS counted (number INTEGER)")
    return base


def number_of(base):
    return base.execute("SELECT coalesce(max(number), 0) FROM counted").fetchone()[0]


def put(base, number):
    base.execute("BEGIN IMMEDIATE")
    for part in range(PARTS):
        base.execute("REPLACE INTO filled VALUES (?, ?, ?)", (number % ROWS, part, content(number, part)))
    base.execute("DELETE FROM counted")
    base.execute("INSERT INTO counted VALUES (?)", (number,))
    base.execute("COMMIT")


def fault_of(path, acknowledged):
    """What is wrong with a file, of which so many transactions at least have to be there; and how many are."""
    base = opened(path)
    number = number_of(base)
    found = {(row, part): held for row, part, held in base.execute("SELECT row, part, bytes FROM filled")}
    sound = base.execute("PRAGMA integrity_check").fetchall()
    base.close()
    if sound != [("ok",)]:
        return f"SQLite finds {sound}", number
    if number not in (acknowledged, acknowledged + 1):
        return f"{number} transactions are there, and {acknowledged} were answered", number
    return ("" if found == rows_after(number) else f"after {number} transactions rows are wrong"), number


def main():
    base = opened(sys.argv[1])
    number = number_of(base)
    while True:
        number += 1
        put(base, number)
        print(number, flush=True)


if __name__ == "__main__":
    main()
