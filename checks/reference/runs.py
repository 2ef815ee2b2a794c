"""How a program's run ended, and where a text is kept whose run is wrong. It is no program of its own."""
import os
import subprocess
import tempfile

DIFFS = os.path.join(tempfile.gettempdir(), 'coresched-fuzz', 'diffs')
# A run that takes longer is wrong.
SECONDS = 120


def ran(words, data=b''):
    """How a command ended on an input: status, standard output and standard error. One that does not end in time has the
    word timeout for its status, so it is no run that was wanted."""
    try:
        run = subprocess.run(words, input=data, capture_output=True, timeout=SECONDS)
    except subprocess.TimeoutExpired:
        return 'timeout', b'', b''
    return run.returncode, run.stdout, run.stderr


def kept(name):
    """Where a difference is kept, without an ending."""
    os.makedirs(DIFFS, exist_ok=True)
    return os.path.join(DIFFS, ''.join(c if c.isalnum() or c in '-_' else '_' for c in name)[:80])


def write(path, data):
    with open(path, 'wb') as f:
        f.write(data)
