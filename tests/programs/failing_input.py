#!/usr/bin/env python3
"""failing_input.py FILE PROGRAM [ARGUMENT..]: runs a program whose standard input has the bytes of the file, and then a read that fails: that of a
terminal whose other end was closed."""
import os
import pty
import subprocess
import sys
import threading
import tty

near, far = pty.openpty()
tty.setraw(far)


def give():
    with open(sys.argv[1], "rb") as file, os.fdopen(far, "wb") as out:
        out.write(file.read())


threading.Thread(target=give, daemon=True).start()
sys.exit(subprocess.run(sys.argv[2:], stdin=near).returncode)
