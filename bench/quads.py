"""Lines of quads of two kinds, for scripts that measure many of them."""
import subprocess
from pathlib import Path

DOCUMENTS = Path(__file__).resolve().parent / "documents.py"


def even(program, quads):
    """The canonical lines of so many quads, five a subject."""
    rows = (f'<http://example.org/s{quad // 5}> <http://example.org/p{quad % 5}> "value {quad}" .\n' for quad in range(quads))
    return "".join(sorted(rows)).encode()


def mixed(program, quads):
    """The canonical lines of a document of mixed terms."""
    document = subprocess.run([DOCUMENTS, str(quads)], stdout=subprocess.PIPE, check=True).stdout
    return subprocess.run([program, "nquads"], input=document, stdout=subprocess.PIPE, check=True).stdout


# What they are called.
KINDS = {"five a subject": even, "of mixed terms": mixed}
