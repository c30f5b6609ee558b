"""Sends `roadesk serve` requests that are refused before their bodies are read, and compares the whole responses.

    responses.py PROGRAM DATABASE

Ends with 1 where a response is another or breaks off, or the program ends otherwise than it should.
"""
import subprocess
import sys

from common import connected, exchanged, free_port, response, serve_words

# The request line, the length that is announced, how many bytes of a body are sent, and the response's first line,
# field that is its own, and body.
ROWS = [
    ("PATCH /holders/h/auths/", 30, 30, "404 Not Found", "", '{"error":404}\n'),
    ("POST /holders/gamma/imports", 1048577, 480 << 10, "413 Content Too Large", "", '{"error":413}\n'),
    ("DELETE /payloads", 1 << 20, 1 << 20, "405 Method Not Allowed", "Allow: GET\r\n", '{"error":405}\n'),
    ("GET /payloads", 0, 0, "200 OK", "", "asn,prefix,maxlength\n"),
]


def answer(port, line, announced, sent):
    """What comes until the response ends or the connection breaks."""
    client = connected(port)
    if not client:
        sys.exit("responses.py: the program does not listen")
    head = f"{line} HTTP/1.1\r\nDesk-Caller: reg\r\nContent-Length: {announced}\r\n\r\n"
    got, fault = exchanged(client, head.encode() + b"x" * sent)
    return got.decode() + (f"[{fault}]" if fault else "")


def main(program, database):
    port = free_port()
    server = subprocess.Popen([program, *serve_words(database, port, len(ROWS))], stderr=subprocess.PIPE)
    failed = False
    try:
        for line, announced, sent, status, field, body in ROWS:
            wanted = response(status, body, "text/csv" if status == "200 OK" else "application/json", field).decode()
            got = answer(port, line, announced, sent)
            print(f"{line}, {sent} bytes: {status if got == wanted else repr(got)}")
            failed |= got != wanted
        errors = server.communicate(timeout=60)[1]
    finally:
        server.kill()
    print(f"the program ended with {server.returncode}, and wrote {errors!r} to standard error")
    return 1 if failed or server.returncode or errors else 0


if __name__ == "__main__":
    sys.exit(main(*sys.argv[1:]))
