"""An end of a live call in a process of its own, and this side of its link over the local host."""
import contextlib
import random
import socket
import subprocess
import time

HOST = "127.0.0.1"
# below those that systems hand out by themselves, so that no link meets itself
PORTS = range(20000, 30000)


def begun(program, end, port, script, output=subprocess.DEVNULL):
    """The process of an end, which has its whole script."""
    child = subprocess.Popen([program, end, str(port)], stdin=subprocess.PIPE, stdout=output, stderr=subprocess.DEVNULL)
    child.stdin.write(script)
    child.stdin.close()
    return child


def connected(port, point):
    """This side's link to a point that is about to listen."""
    while point.poll() is None:
        try:
            return socket.create_connection((HOST, port))
        except OSError:
            time.sleep(0.005)
    raise OSError("the point's port is taken; try again")


@contextlib.contextmanager
def linked(program, end, script, output=subprocess.DEVNULL):
    """The process of an end and this side of its link; an OSError where the port is taken."""
    with socket.socket() as listener:
        listener.setsockopt(socket.SOL_SOCKET, socket.SO_REUSEADDR, 1)
        port = random.choice(PORTS)
        if end == "vehicle":
            listener.bind((HOST, port))
            listener.listen(1)
        child = begun(program, end, port, script, output)
        with listener.accept()[0] if end == "vehicle" else connected(port, child) as link:
            yield child, link
