"""The command, as `python3 -m saugrinte`."""
from saugrinte.command import main

if __name__ == '__main__':
    main()
