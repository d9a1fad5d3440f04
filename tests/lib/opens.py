"""What a worker loads before it takes work (many.py): it logs each file that the worker opens, and waits or ends at some.

OPENS_FOLDER is the folder of these files, and OPENS_LOG gets a line for each: the process and the name. At a file `wait.yaml`
the worker waits until OPENS_GO is there, and at `deadly.yaml` it is killed.
"""

import os
import signal
import sys
import time

FOLDER, LOG, GO = (os.environ[name] for name in ("OPENS_FOLDER", "OPENS_LOG", "OPENS_GO"))
log = os.open(LOG, os.O_WRONLY | os.O_APPEND | os.O_CREAT)


def on_event(event, words):
    if event != "open" or not isinstance(words[0], (str, bytes)) or os.path.dirname(os.fsdecode(words[0])) != FOLDER:
        return
    name = os.path.basename(os.fsdecode(words[0]))
    os.write(log, f"{os.getpid()} {name}\n".encode())
    if name == "deadly.yaml":
        os.kill(os.getpid(), signal.SIGKILL)
    while name == "wait.yaml" and not os.path.exists(GO):
        time.sleep(0.01)


# a worker may load this twice, and a hook stays
if not hasattr(sys, "logs_opens"):
    sys.logs_opens = True
    sys.addaudithook(on_event)
