"""Begins a Python program of this folder, for `tools/python`: imports the module that the first word names, and calls its `start`.

A Ctrl-C has waited until now. Until `start` takes it, it ends the script without a word.
"""

import os
import signal
import sys

if signal.getsignal(signal.SIGINT) is signal.default_int_handler:
    signal.signal(signal.SIGINT, signal.SIG_DFL)
signal.pthread_sigmask(signal.SIG_UNBLOCK, {signal.SIGINT})
# An input that is a folder is put back in its place.
if "APEI_INPUT" in os.environ:
    os.dup2(int(os.environ["APEI_INPUT"]), 0)
    os.close(int(os.environ.pop("APEI_INPUT")))
del sys.argv[0]
__import__(sys.argv[0]).start()
