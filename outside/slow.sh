#!/bin/sh
# The built program beside those that are slower than it: a pipe that doesn't wait for its reader, a server that doesn't answer when a
# link is opened, and one that takes no more bytes. The last takes half a minute.
check=outside/slow
. outside/begin

command -v python3 >/dev/null 2>&1 || { echo "$check: python3 isn't installed, slow readers and servers are skipped"; exit 0; }

head -c 6000000 /dev/urandom >long

cat >pipe.py <<'END'
import os, subprocess, sys, time

reader, writer = os.pipe()
os.set_blocking(writer, False)
running = subprocess.Popen(sys.argv[1:], stdout=writer)
os.close(writer)
time.sleep(0.5)
with open(reader, 'rb') as pipe:
    sys.stdout.buffer.write(pipe.read())
sys.exit(running.wait())
END
"$program" encode --input long >wanted 2>err || complain "a file isn't encoded"
python3 pipe.py "$program" encode --input long >out 2>err || complain "a pipe that doesn't wait is status $?: $(cat err)"
cmp -s wanted out || complain "a pipe that doesn't wait gets other bytes"

cat >servers.py <<'END'
import socket, subprocess, sys, threading, time

program = sys.argv[1]


def run(words, wanted, line, least, most):
    """Runs the program, which has to end with this status and line, and within these seconds."""
    begun = time.monotonic()
    ended = subprocess.run([program] + words, capture_output=True, timeout=120)
    passed = time.monotonic() - begun
    told = ended.stderr.decode().splitlines()
    if ended.returncode != wanted or line not in told or not least <= passed <= most:
        print('outside/slow: %s: status %d after %.1f seconds: %s' % (words[0], ended.returncode, passed, told))


def no_answer():
    """A listener whose queue is full: the system drops what asks for one more connection."""
    listener = socket.create_server(('127.0.0.1', 0), backlog=0)
    fillers = []
    for _ in range(8):
        filler = socket.socket()
        filler.setblocking(False)
        filler.connect_ex(listener.getsockname())
        fillers.append(filler)
    time.sleep(0.2)
    address = '127.0.0.1:%d' % listener.getsockname()[1]
    run(['index', '--group', 'a', '--first', '1', '--last', '1', '--server', address], 5, 'usebin: no link', 9.5, 20)


def serve(listener):
    """Asks for an article, and reads none of it."""
    link, _ = listener.accept()
    link.sendall(b'200 ready\r\n')
    link.recv(6)
    link.sendall(b'340 send\r\n')
    time.sleep(100)


def no_reader():
    listener = socket.create_server(('127.0.0.1', 0))
    listener.setsockopt(socket.SOL_SOCKET, socket.SO_RCVBUF, 65536)
    threading.Thread(target=serve, args=(listener,), daemon=True).start()
    address = '127.0.0.1:%d' % listener.getsockname()[1]
    run(['post', '--input', 'long', '--from', 'me', '--group', 'a', '--token', 'one', '--domain', 'example.org', '--part-size', '6000000',
         '--server', address], 1, 'part 1 unsure', 29.5, 90)


threads = [threading.Thread(target=no_answer), threading.Thread(target=no_reader)]
for thread in threads:
    thread.start()
for thread in threads:
    thread.join()
END
python3 servers.py "$program" >wrong 2>&1 || complain "the runs ended early"
[ -s wrong ] && { head -n 20 wrong; status=1; }
[ "$status" -eq 0 ] && echo "$check: slow readers and servers are waited for, within the limits of time"
exit $status
