"""Drives the controller through a pipe, line by line: see docs/EMBED.md, "Through a pipe".

    python3 examples/serve.py ./memcg
"""
import subprocess
import sys

memcg = subprocess.Popen([sys.argv[1], "serve", "--frames", "64"], stdin=subprocess.PIPE, stdout=subprocess.PIPE, text=True)


def ask(line):
    """The lines of the answer to this line."""
    memcg.stdin.write(line + "\n")
    memcg.stdin.flush()
    return list(iter(lambda: memcg.stdout.readline().rstrip("\n"), ""))


ask("1 mkdir /web")
ask("1 mkdir /web/cache")
ask("1 write /web memory.max 128K")
blocks = []
while (answer := ask("1 alloc /web/cache 4")[0]).startswith("frame "):
    blocks.append(answer.removeprefix("frame "))
    ask(f"1 dirty {blocks[-1]}")  # so that it isn't reclaimed
print(f"blocks before the limit: {len(blocks)}, then {answer}")
print(f"usage of /web: {ask('1 read /web memory.current')[0]} bytes")
memcg.stdin.close()
sys.exit(memcg.wait())
