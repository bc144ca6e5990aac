"""Which programs the scripts run: the proved ones if `./build` has made them, else the trial builds, which are made at their first call."""
import json
import resource
import shlex
import signal
import subprocess
from pathlib import Path

ROOT = Path(__file__).resolve().parent.parent


def proved(name):
    return ROOT / "crates" / name / "out" / name


def program(name):
    """The command of `ats` or of `planner`."""
    trial = ROOT / "out" / "trial" / name
    if proved(name).exists():
        return [str(proved(name))]
    if not trial.exists():
        subprocess.run([ROOT / name], stdin=subprocess.DEVNULL, stdout=subprocess.DEVNULL)
    return [str(trial)]


def command_of(text, name):
    """The command of an option, or else the program of that name."""
    return shlex.split(text) if text else program(name)


def spent():
    """The processor seconds of all programs that have ended."""
    usage = resource.getrusage(resource.RUSAGE_CHILDREN)
    return usage.ru_utime + usage.ru_stime


def bound(seconds):
    """Lets this process take so many processor seconds; then it gets SIGXCPU, and two seconds later it is ended."""
    resource.setrlimit(resource.RLIMIT_CPU, (seconds, seconds + 2))


def called(command, text, seconds=None):
    """The exit code, what was written and said, and the processor seconds that it took: on a busy machine the clock says little. The code
    is None if the program was ended because it took more seconds than it may."""
    before = spent()
    limited = {"preexec_fn": lambda: bound(seconds)} if seconds else {}
    ran = subprocess.run(command, input=text, capture_output=True, text=True, **limited)
    is_over = seconds and ran.returncode in (-signal.SIGXCPU, -signal.SIGKILL)
    return None if is_over else ran.returncode, ran.stdout, ran.stderr.strip(), spent() - before


def compact(document):
    return json.dumps(document, separators=(",", ":")) + "\n"
