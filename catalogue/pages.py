"""The tables that a script writes into a page: each stands between a line with its mark and a line that ends it."""
import re

pattern = re.compile(r"(<!-- table: ([^\n]*) -->\n)(.*?)(<!-- end of table -->\n)", re.S)


def tables_of(page):
    """The rows of each table of a page, by its mark."""
    return {mark: rows.splitlines() for _, mark, rows, _ in pattern.findall(page)}


def with_tables(page, tables):
    """The page with these rows in its tables."""
    return pattern.sub(lambda m: m[1] + "".join(f"{row}\n" for row in tables[m[2]]) + m[4], page)
