"""Where the benches run the program, which keeps its databases as files in the folder that it is run in, and how."""
import os
import subprocess
import tempfile

MEMORY = "/dev/shm"

# (as ./aqd runs it: a large heap in large pages, where the system gives them on request)
os.environ.setdefault("GLIBC_TUNABLES", "glibc.malloc.hugetlb=1")


def databases():
    """A new folder for the databases of a run, in memory where there is such a place: what is measured is the program, and not a disk."""
    return tempfile.TemporaryDirectory(dir=MEMORY if os.path.isdir(MEMORY) else None)


def run(program, script, out, **variables):
    """The processor seconds of a run, the most memory in bytes, and whether its status was 0."""
    with databases() as kept, open(script, "rb") as asked, open(out, "wb") as taken:
        started = subprocess.Popen([program, "run", "--serial"], stdin=asked, stdout=taken, cwd=kept, env={**os.environ, **variables})
        _, status, used = os.wait4(started.pid, 0)
        started.returncode = os.waitstatus_to_exitcode(status)
    return used.ru_utime + used.ru_stime, used.ru_maxrss * 1024, started.returncode == 0
