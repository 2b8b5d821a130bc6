#!/usr/bin/env python3
"""Random days of work in a checkout whose Git asks by its own sample hook, which runs the command
`watchman`: git_sample.py [STEPS] [SEED]

Railburnet's server takes the place over where the command looks for Watchman. After each step
Git's status is compared with that of Git without a hook.
"""
import os
import shutil
import sys

from peer import SAMPLE, folder, need, number, railburnet

sys.path.insert(0, os.path.dirname(os.path.dirname(os.path.realpath(__file__))))
from checkouts import KINDS, Checkout  # noqa: E402

need("command -v watchman", "watchman")
need("command -v git && command -v perl", "git")


def main():
    steps = number(1, 200)
    with folder() as at:
        os.environ["TMPDIR"] = at
        checkout = Checkout(at, number(2, 1))
        checkout.make()
        hook = os.path.join(at, "sample")
        shutil.copy(SAMPLE, hook)
        os.chmod(hook, 0o755)
        checkout.steps.git("config", "core.fsmonitor", hook)
        checkout.steps.git("config", "core.untrackedCache", "true")
        unequal = 0
        with railburnet(at, "--take-over"):
            for step in range(steps):
                kind = checkout.chance.choice(KINDS)
                checkout.happens(kind)
                lines = checkout.differs()
                if lines:
                    unequal += 1
                    print(f"step {step}, {kind}: unequal in {lines[:4]}", flush=True)
        print(
            f"Git's sample hook: {steps} steps, {unequal} unequal; Git was given paths "
            f"{checkout.given} times, and no answer {checkout.refused} times"
        )
    return unequal != 0


if __name__ == "__main__":
    sys.exit(main())
