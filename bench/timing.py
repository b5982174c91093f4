"""What the scripts share that time the program, the proved one or another that takes the same words.

Each takes the words `[--rows] [PROGRAM]`. Without PROGRAM the proved program is timed, and built first where it has to be.
"""
import os
import subprocess
import sys
import time
from typing import NamedTuple

TOP = os.path.dirname(os.path.dirname(os.path.abspath(__file__)))
PROVED = os.path.join(TOP, "crates", "rcp_cli", "out", "rcp_cli")
MOTOR = os.path.join(TOP, "examples", "motor.toml")
HEADER = "frame,kind,a,b,c,d\n"
TIMING = {
    "compute": 30000,
    "broadcast": 10000,
    "vote": 4000,
    "sync": 6000,
    "skew": 50,
    "drift_ppm": 100,
    "delay_min": 100,
    "delay_max": 2000,
    "skew_limit": 500,
    "drift_limit_ppm": 500,
}
ROWS = "--rows" in sys.argv[1:]
GIVEN = [word for word in sys.argv[1:] if word != "--rows"]


def program():
    """The program that is timed."""
    if GIVEN:
        return os.path.abspath(GIVEN[0])
    subprocess.run([os.path.join(TOP, "rcp")], stdout=subprocess.DEVNULL)
    if not os.access(PROVED, os.X_OK):
        sys.exit("the program was not built")
    return PROVED


PROGRAM = program()


class Run(NamedTuple):
    """The status of a run, the processor's seconds that it took, those of them in the system's calls, and the megabytes that it
    held at most, which are 0 where it ended before they were asked for."""

    status: int
    seconds: float
    system: float
    megabytes: float


def resident(process):
    """The megabytes that a run has held so far, or 0 where it has not begun or has ended. What the system tells at its end has
    the memory of this script in it."""
    try:
        if os.path.samefile(f"/proc/{process}/exe", PROGRAM):
            with open(f"/proc/{process}/status") as status:
                return next((int(line.split()[1]) / 1024 for line in status if line.startswith("VmHWM:")), 0)
    except OSError:
        pass
    return 0


def timed(words, printed=os.devnull):
    """A run of the program, whose text goes into a file."""
    held = 0
    with open(printed, "wb") as out:
        child = subprocess.Popen([PROGRAM, *words], stdout=out, stderr=subprocess.DEVNULL)
        while True:
            ended, status, usage = os.wait4(child.pid, os.WNOHANG)
            if ended:
                break
            held = max(held, resident(child.pid))
            time.sleep(0.001)
    return Run(os.waitstatus_to_exitcode(status), usage.ru_utime + usage.ru_stime, usage.ru_stime, held)


def best(words, times, printed=os.devnull):
    """The run of several that took least."""
    return min((timed(words, printed) for _ in range(times)), key=lambda run: run.seconds)


def write(folder, name, text):
    """The path of a file with this text."""
    path = os.path.join(folder, name)
    with open(path, "w") as file:
        file.write(text)
    return path


def row(name, run, count, unit):
    """Tells a run of which so many units were asked for. A program that does not know the words has no time."""
    known = run.status != 2
    if ROWS:
        print("\t".join([name, f"{run.seconds:.6f}" if known else "", f"{run.megabytes:.1f}", str(count), unit]), flush=True)
    elif known:
        share = f", {run.system / run.seconds * 100:.0f} % of it in the system's calls" if run.system > 0 else ""
        each = f", {run.seconds / count * 1e9:.1f} ns for each {unit}" if count > 1 else ""
        held = f", {run.megabytes:.1f} MB at most" if run.megabytes > 0 else ""
        print(f"{name}: {run.seconds:.4f} s{share}{each}{held}", flush=True)
    else:
        print(f"{name}: these words are not known", flush=True)


def task_file(replicas, sensors, cells, bodies, slots, actuators):
    """A task file: names of sensors and cells, bodies of tasks, slots as (tasks, votes) by number, actuators as (name, value)."""
    lines = [f"replicas = {replicas}", "[timing]"]
    lines += [f"{key} = {value}" for key, value in TIMING.items()]
    for name in sensors:
        lines += ["[[sensor]]", f'name = "{name}"', "initial = 0"]
    for name in cells:
        lines += ["[[cell]]", f'name = "{name}"', "initial = 0"]
    for number, body in enumerate(bodies):
        lines += ["[[task]]", f'name = "t{number}"', f'body = "{body}"']
    for tasks, votes in slots:
        tasks = ", ".join(f'"t{number}"' for number in tasks)
        votes = ", ".join(f'"{cells[number]}"' for number in votes)
        lines += ["[[slot]]", f"tasks = [{tasks}]", f"votes = [{votes}]"]
    for name, value in actuators:
        lines += ["[[actuator]]", f'name = "{name}"', f'value = "{value}"']
    return "\n".join(lines) + "\n"
