#!/usr/bin/env python3
"""A program on the shell: enters orders, and reads the orders of one customer to the end of the list, by what it is told.
Usage: examples/from_a_program/orders.py PROGRAM"""

import os
import re
import subprocess
import sys

SCHEMA = os.path.join(os.path.dirname(os.path.realpath(__file__)), "../shop/shop.schema")
# Customers with the orders that come in, one after the other.
ORDERS = [(7, 31), (8, 32), (7, 33), (7, 34)]


class Answer:
    """What comes back for a statement: a status, and behind 0000 a key and items, if there are any."""

    FORM = re.compile(r"\d+ \d (\d{4})(?: (.*))?")

    def __init__(self, line):
        found = self.FORM.fullmatch(line)
        if not found:
            raise ValueError(line)
        self.status, rest = found[1], found[2] or ""
        self.items = dict(re.findall(r'([A-Z0-9-]+)=("[^"]*"|\d+)', rest)) if self.status == "0000" else {}


class Shell:
    """The shell of a schema: a line is written to it, and a line is read."""

    def __init__(self, program, schema):
        self.process = subprocess.Popen([program, "shell", schema], stdin=subprocess.PIPE, stdout=subprocess.PIPE, text=True)

    def ask(self, statement):
        """Makes a statement, whatever it is told."""
        self.process.stdin.write(f"{statement}\n")
        self.process.stdin.flush()
        return Answer(self.process.stdout.readline().rstrip("\n"))

    def make(self, statement):
        """Makes a statement that has to be done."""
        answer = self.ask(statement)
        if answer.status != "0000":
            raise ValueError(f"{statement}: {answer.status}")
        return answer

    def end(self):
        self.process.stdin.close()
        return self.process.wait()


def enter(shell, customer, order):
    """Stores an order of a customer, who is stored first if there is none."""
    if shell.ask(f"STORE CUSTOMER CNO = {customer}").status == "0505":
        shell.make(f"FIND CALC CUSTOMER RECORD USING CNO = {customer}")
        print(f"customer {customer} is there")
    shell.make(f"STORE ORDR ONO = {order}")


def orders_of(shell, customer):
    """The orders of a customer, from the first to the end of the list."""
    shell.make(f"FIND CALC CUSTOMER RECORD USING CNO = {customer}")
    answer = shell.ask("FIND FIRST OF HAS SET")
    while answer.status != "0307":
        yield shell.make("GET").items["ONO"]
        answer = shell.ask("FIND NEXT OF HAS SET")


def main():
    shell = Shell(sys.argv[1], SCHEMA)
    for area in ("MAIN", "SIDE"):
        shell.make(f"OPEN AREA {area} USAGE-MODE IS UPDATE")
    for customer, order in ORDERS:
        enter(shell, customer, order)
    print("orders of customer 7:", *orders_of(shell, 7))
    sys.exit(shell.end())


main()
