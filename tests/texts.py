"""The project's texts, and how a check that reads them ends: with its own name, a message and exit status 1."""
import os
import sys

ROOT = os.path.dirname(os.path.dirname(os.path.abspath(__file__)))


def fail(message):
    sys.exit(os.path.splitext(os.path.basename(sys.argv[0]))[0] + ': ' + message)


def text_of(path):
    try:
        with open(os.path.join(ROOT, path), encoding='utf-8') as file:
            return file.read()
    except FileNotFoundError:
        fail(f'{path} is not there')
