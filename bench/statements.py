"""Writes the statements of line.sql for each line of a script, with its fields in them:

    python3 statements.py line.sql SCRIPT
"""

import sys


def main():
    with open(sys.argv[1]) as file:
        statements = "".join(line.lstrip() for line in file if not line.startswith("--"))
    with open(sys.argv[2]) as script:
        for line in script:
            _, url, visit_type, visit_date = line.rstrip("\n").split("\t")
            text = statements.replace("NEW.url", f"'{url}'")
            text = text.replace("NEW.visit_type", visit_type).replace("NEW.visit_date", visit_date)
            sys.stdout.write(text)


main()
