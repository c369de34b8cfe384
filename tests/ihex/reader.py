"""The reader under test: each text is one run of the program that read.c makes."""
import subprocess

PROGRAM = "target/tests/read_ihex"


def read(text, base, length, buffer):
    """Answer, line and the buffer after; of a run that faults or does not end, that alone."""
    command = [PROGRAM, *map(str, (base, length, len(text), len(buffer)))]
    try:
        run = subprocess.run(command, input=text + buffer, capture_output=True, timeout=10)
    except subprocess.TimeoutExpired:
        return "no end", None, None
    if run.returncode != 0:
        return f"exit status {run.returncode}", None, None
    answer, line, after = run.stdout.decode().split(" ")
    return int(answer), int(line), bytes.fromhex(after)
