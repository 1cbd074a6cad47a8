"""Terms of the prover's language: lists, names and tables, for the files of crates/cn_runs/specs that scripts write."""


def listed(items):
    """A list."""
    return " ∷ ".join([*map(str, items), "[]"])


def texts(names, indent):
    """A list of names: behind what stands in the line, or each in a line with this indent, if they are many."""
    named = [f'codes "{it}"' for it in names]
    return f" {listed(named)}" if len(listed(named)) < 87 else f"\n{' ' * indent}" + each_in_a_line(named, indent)


def each_in_a_line(items, indent):
    """A list, each item of which begins a line with this indent."""
    return f" ∷\n{' ' * indent}".join([*items, "[]"])


def table_term(table, indent):
    """A table as a record whose brackets stand at this indent."""
    margin = " " * indent
    rows = each_in_a_line([row_term(*it, margin) for it in zip(table.operations, table.rows)], indent + 6)
    return (
        "record {\n"
        f'{margin}  name = codes "{table.name}";\n'
        f"{margin}  states ={texts(table.states, indent + 6)};\n"
        f"{margin}  responses ={texts(table.responses, indent + 6)};\n"
        f"{margin}  operations =\n{margin}      {rows};\n"
        f"{margin}}}"
    )


def row_term(name, row, margin):
    responses, following = zip(*row)
    fields = [f'name = codes "{name}"', f"response = {listed(responses)}", f"next = {listed(following)}"]
    return "record {\n" + "".join(f"{margin}        {field};\n" for field in fields) + f"{margin}      }}"


def judge_lines(tally, path, wanted, is_written):
    """Counts each line of a file that has to be as wanted. With `is_written` the file is written before."""
    if is_written:
        path.write_text(wanted)
    is_now, lines = path.read_text().splitlines() if path.is_file() else [], wanted.splitlines()
    for number, line in enumerate(lines):
        tally.judge(f"{path.name}, line {number + 1}", is_now[number : number + 1] == [line], f"is not {line}")
    tally.judge(f"{path.name}, its length", len(is_now) == len(lines))
