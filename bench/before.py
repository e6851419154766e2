"""Proves two crates of an earlier revision over and over, beside the gate: by what they take, machines are compared."""
import contextlib
import os
import re
import signal
import subprocess
import sys
import threading
from pathlib import Path

# What they and the whole gate of that revision took on one machine, in processor seconds and minutes.
SECONDS = {"px_column": 123, "px_frame": 162}
GATE_MINUTES = 317


def kit():
    """The folder of the kit."""
    page = subprocess.run(["rt", "doc"], stdout=subprocess.PIPE, text=True, check=True).stdout
    return Path(page.strip()).parent


class Before(threading.Thread):
    """The proofs, one after another until they are stopped."""

    def __init__(self, folder):
        super().__init__(daemon=True)
        self.crates = Path(folder) / "crates"
        text = (Path(folder) / "crates.txt").read_text()
        self.below = {name: deps.split() for name, deps in re.findall(r"^(\w+):(.*)$", text, re.M)}
        self.kit = kit()
        self.took = {name: [] for name in SECONDS}
        self.spent = 0
        self.process = None
        self.is_stopped = False

    def words(self, name):
        """How the gate calls the kit's checker to prove a crate and write what the crates above it read."""
        words = ["nice", self.kit / "bin/rattle", "build", "--crate-name", name, "src/lib.rt"]
        for dep in ["std", *self.below[name]]:
            rlib = self.crates / dep / f"{dep}.rlib" if dep in self.below else self.kit / f"rlibs/{dep}.rlib"
            words += ["--extern", f"{dep}={rlib}"]
        words += ["-L", f"dependency={self.kit}/rlibs", "--antt-project", self.kit / "rattle/logic/antt-project.json"]
        words += ["--logic-built", self.kit / "logic_built", "--jobs", "2", "--links", f"{name}="]
        return [*words, "--statements", "-o", self.crates / name / f"{name}.rlib", "--empty-contracts"]

    def prove(self, name):
        """The processor seconds of a crate's proof, or None where it was stopped."""
        quiet = {"stdout": subprocess.DEVNULL, "stderr": subprocess.DEVNULL}
        self.process = subprocess.Popen(self.words(name), cwd=self.crates / name, **quiet)
        _, status, usage = os.wait4(self.process.pid, 0)
        self.process.returncode = status
        seconds = usage.ru_utime + usage.ru_stime
        self.spent += seconds
        if status and not self.is_stopped:
            print(f"{name} of the earlier revision was not proved", file=sys.stderr)
            self.is_stopped = True
        return None if status else seconds

    def run(self):
        for name in ("px_value", "px_operation"):
            self.prove(name)
        while not self.is_stopped:
            for name, took in self.took.items():
                seconds = None if self.is_stopped else self.prove(name)
                took += [seconds] if seconds else []

    def stop(self):
        """Ends the proofs; what they have taken is then known."""
        self.is_stopped = True
        while self.is_alive():
            if self.process:
                with contextlib.suppress(ProcessLookupError):
                    os.kill(self.process.pid, signal.SIGKILL)
            self.join(0.2)

    def say(self, minutes, chain_minutes):
        """Prints the gate's minutes as a share of that revision's, by the measure of the two crates."""
        if not all(self.took.values()):
            print("The gate ended before both crates of the earlier revision were proved: no measure.")
            return
        means = {name: sum(took) / len(took) for name, took in self.took.items()}
        scale = sum(means.values()) / sum(SECONDS.values())
        for name, took in self.took.items():
            print(f"{name} of the earlier revision: {', '.join(f'{it:.0f}' for it in took)} seconds, {SECONDS[name]} there.")
        share, chain = minutes / scale / GATE_MINUTES, chain_minutes / scale
        print(f"By that measure ({scale:.2f}) the gate takes {share:.2f} of that revision's, the longest chain {chain:.0f} minutes.")
