"""Prints what a path selects from the document on standard input: python3 example.py PATH < DOCUMENT"""
import sys

from vozgumb import JsonPath, PathError

try:
    path = JsonPath(sys.argv[1])
except PathError as error:
    sys.exit(str(error))
for node in path.find(sys.stdin.buffer.read()):
    print(f"{node.location}\t{node.json}")
