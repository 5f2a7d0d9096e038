"""The programs that the listings of examples are held to: the original, through oracle's `records`, and the listing program."""
import shutil
import subprocess
from pathlib import Path

ROOT = Path(__file__).resolve().parent.parent
RECORDS = ROOT / "oracle/target/release/records"
LISTING = ROOT / "crates/listing/out/listing"
# the lengths that the listing program lends
BUFFER, WORKSPACE = "65536", "65536"


def original(folder):
    """The original's listing: what `records` prints from the first line that begins with a semicolon."""
    printed = subprocess.run([RECORDS, folder, BUFFER, WORKSPACE], check=True, capture_output=True, text=True).stdout
    lines = printed.splitlines(keepends=True)
    return "".join(lines[next(k for k, line in enumerate(lines) if line.startswith(";")):])


def listing(folder):
    return subprocess.run([LISTING], cwd=folder, check=True, capture_output=True, text=True).stdout


def built():
    """Whether the original can be asked."""
    if not shutil.which("cargo") or not (ROOT / "../shared/docs/src").is_dir():
        return False
    subprocess.run(["cargo", "build", "--offline", "--release", "--quiet", "--manifest-path", ROOT / "oracle/Cargo.toml"], check=True)
    return True
