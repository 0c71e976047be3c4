"""cut.py LINES KEEPS COMMAND ..: runs the manager, and kills it behind so many lines of its session; with KEEPS 0 the last loses its line feed."""
import os
import subprocess
import sys
import threading


def feed(to):
    """Hands over what comes, as it comes."""
    while piece := os.read(0, 65536):
        try:
            to.write(piece)
        except OSError:
            return


def main():
    left, keeps, command = int(sys.argv[1]), sys.argv[2] == "1", sys.argv[3:]
    if "apply" not in command:
        os.execvp(command[0], command)
    manager = subprocess.Popen(command, stdin=subprocess.PIPE, stdout=subprocess.PIPE, bufsize=0)
    threading.Thread(target=feed, args=(manager.stdin,), daemon=True).start()
    while left and (line := manager.stdout.readline()):
        left -= 1
        os.write(1, line if left or keeps else line[:-1])
    manager.kill()
    os._exit(1)


main()
