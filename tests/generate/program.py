"""The input of a program that runs vectors or calls, and the output that it must give."""
import pathlib
import sys

CRATES = pathlib.Path(__file__).resolve().parents[2] / 'crates'


def deliver(crate, vectors, name='vectors'):
    """writes stdin and stdout of a crate, or with --check says whether they are so already; answers the bytes of stdin"""
    stdin = b''.join(vectors)
    stdout = f'{len(vectors)} {name}, 0 differ\n'.encode()
    for file, data in (('stdin', stdin), ('stdout', stdout)):
        path = CRATES / crate / file
        if '--check' not in sys.argv[1:]:
            path.write_bytes(data)
        elif not path.exists() or path.read_bytes() != data:
            sys.exit(f'{path} is not what {sys.argv[0]} writes')
    return len(stdin)
