#!/bin/sh
# The built program where standard streams are closed: what it would write there is lost with status 4, and a news server hears none of it.
check=outside/closed
. outside/begin

command -v python3 >/dev/null 2>&1 || { echo "$check: python3 isn't installed, closed streams are skipped"; exit 0; }

printf '123456789' >d
"$program" encode --input d >body 2>err || complain "a body can't be made"
printf '<nzb></nzb>' >nzb

cat >runs.py <<'END'
import itertools, os, re, socket, subprocess, sys, threading

program = sys.argv[1]
overview = b'1\t"d" yEnc (1/1)\tme@example.org\tSat, 13 Dec 2003 16:48:02 +0000\t<1@example.org>\t\t300\t3\r\n.\r\n'
replies = {b'GROUP': b'211 1 1 1 a\r\n', b'OVER': b'224 follows\r\n' + overview, b'POST': b'340 send\r\n', b'QUIT': b'205 bye\r\n'}
listener = socket.create_server(('127.0.0.1', 0))
listener.settimeout(30)
server = '127.0.0.1:%d' % listener.getsockname()[1]
post = ['post', '--input', 'd', '--from', 'me', '--group', 'a', '--token', 'one', '--domain', 'example.org', '--server', server]
index = ['index', '--group', 'a', '--first', '1', '--last', '1', '--server', server]
cases = [['encode', '--input', 'd'], ['decode', '--input', 'body'], ['check', '--nzb', 'nzb'], post, index, ['--help'], ['post', '--help'],
         ['--version'], ['none'], ['encode', '--input', 'none'], ['check', '--nzb', 'd'], ['decode', '--input', 'd']]


def serve(heard):
    """Answers one link as a news server, and keeps every line that comes, also behind QUIT."""
    link, _ = listener.accept()
    link.settimeout(30)
    is_article = False
    try:
        link.sendall(b'200 ready\r\n')
        for line in link.makefile('rb'):
            heard.append(line)
            if is_article:
                is_article = line != b'.\r\n'
                reply = b'' if is_article else b'240 posted\r\n'
            else:
                is_article = line == b'POST\r\n'
                reply = replies.get(line.split()[0] if line.split() else b'', b'500 what\r\n')
            link.sendall(reply)
    except ConnectionError:
        pass
    link.close()


def run(words, closed):
    """Runs the program with these streams closed: its status, what it wrote, and what the server heard."""
    heard = []
    thread = threading.Thread(target=serve, args=(heard,))
    if server in words:
        thread.start()
    ended = subprocess.run([program] + words, stdin=subprocess.DEVNULL, capture_output=True, timeout=60,
                           preexec_fn=lambda: [os.close(number) for number in closed])
    if server in words:
        thread.join()
    return ended.returncode, re.sub(rb' date="\d*"', b'', ended.stdout), ended.stderr, b''.join(heard)


for words in cases:
    status, out, err, heard = run(words, ())
    for closed in itertools.chain.from_iterable(itertools.combinations((0, 1, 2), n) for n in (1, 2, 3)):
        told = 'outside/closed: %s with %s closed:' % (' '.join(words), closed)
        is_lost = 1 in closed and out != b''
        wanted = 4 if is_lost else status
        got_status, got_out, got_err, got_heard = run(words, closed)
        if got_status != wanted:
            print(told, 'status', got_status, 'in place of', wanted)
        if got_out != (b'' if 1 in closed else out):
            print(told, 'other bytes on standard output')
        if is_lost and 2 not in closed and b'usebin: output fault\n' not in got_err:
            print(told, 'the line of an output fault is missing')
        if not is_lost and got_err != (b'' if 2 in closed else err):
            print(told, 'other bytes on standard error')
        if got_heard != heard:
            print(told, 'the server heard', got_heard, 'in place of', heard)
END
python3 runs.py "$program" >wrong 2>&1 || complain "the runs ended early"
[ -s wrong ] && { head -n 20 wrong; status=1; }
[ "$status" -eq 0 ] && echo "$check: nothing that is written to a closed stream goes elsewhere"
exit $status
