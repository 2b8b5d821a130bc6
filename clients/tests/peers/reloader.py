#!/usr/bin/env python3
"""Django's server for development, which begins again when a file of the site was saved:
reloader.py [RELOADS] [--real]

A save before Django has subscribed is not seen, nor one while it still subscribes, by Watchman's
server either: so a save waits until Django logs no more subscriptions. --real has Watchman serve.
"""
import os
import subprocess
import sys
import threading
import time

from peer import PYTHON, folder, need, number, railburnet, watchman

need(f"{PYTHON} -c 'import django'", "python3-django")
need(f"{PYTHON} -c 'import pywatchman'", "python3-pywatchman")
REAL = "--real" in sys.argv
sys.argv = [word for word in sys.argv if word != "--real"]
SETTINGS = """SECRET_KEY, DEBUG, ROOT_URLCONF, ALLOWED_HOSTS = "x", True, "urls", ["*"]
LOGGING = {
    "version": 1,
    "handlers": {"all": {"class": "logging.StreamHandler"}},
    "loggers": {
        "django.utils.autoreload": {"handlers": ["all"], "level": "DEBUG", "propagate": False}
    },
}
"""
REST, MOST = 5.0, 120.0


class Django:
    """Django's server, and the lines that it has printed."""

    def __init__(self, top, path):
        environment = {
            **os.environ,
            "WATCHMAN_SOCK": path,
            "DJANGO_SETTINGS_MODULE": "settings",
            "DJANGO_WATCHMAN_TIMEOUT": "120",
            "PYTHONPATH": top,
            "PYTHONUNBUFFERED": "1",
        }
        self.lines = []
        self.process = subprocess.Popen(
            [PYTHON, "-m", "django", "runserver", "127.0.0.1:0"],
            cwd=top,
            env=environment,
            stdout=subprocess.PIPE,
            stderr=subprocess.STDOUT,
        )
        threading.Thread(target=self._read, daemon=True).start()

    def _read(self):
        self.lines.extend(iter(self.process.stdout.readline, b""))

    def count(self, text):
        return sum(text in line for line in list(self.lines))

    def seen(self, text, count):
        """Waits for a text, and returns whether it came so often."""
        end = time.monotonic() + MOST
        while self.count(text) < count and time.monotonic() < end:
            time.sleep(0.05)
        return self.count(text) >= count

    def has_subscribed(self, before):
        """Waits until it has subscribed more often than before, and subscribes no more."""
        last, since = before, time.monotonic()
        end = since + MOST
        while time.monotonic() < min(end, since + REST) or last == before:
            if time.monotonic() > end:
                return False
            time.sleep(0.05)
            count = self.count(b"Issuing watchman subscription")
            if count != last:
                last, since = count, time.monotonic()
        return True


def saves(django, top, reloads):
    """Saves again and again, and returns for each save that was seen how long that took."""
    took, subscribed = [], 0
    for turn in range(reloads):
        ready = django.seen(b"Quit the server", turn + 1)
        if not ready or not django.has_subscribed(subscribed):
            break
        subscribed = django.count(b"Issuing watchman subscription")
        begun = time.monotonic()
        with open(top + "/urls.py", "a", encoding="utf-8") as file:
            file.write(f"# {turn}\n")
        if not django.seen(b"changed, reloading", turn + 1):
            break
        took.append(time.monotonic() - begun)
    return took


def main():
    reloads = number(1, 3)
    with folder() as at, (watchman(at) if REAL else railburnet(at)) as (path, _):
        top = at + "/site"
        os.makedirs(top + "/.git")
        for name, text in (("settings.py", SETTINGS), ("urls.py", "urlpatterns = []\n")):
            with open(f"{top}/{name}", "w", encoding="utf-8") as file:
                file.write(text)
        django = Django(top, path)
        uses = django.seen(b"WatchmanReloader", 1)
        took = saves(django, top, reloads) if uses else []
        django.process.terminate()
        django.process.wait(60)
    if len(took) < reloads:
        sys.stdout.write(b"".join(django.lines[-60:]).decode("utf-8", "replace"))
    print(
        f"Django's reloader{' over Watchman' if REAL else ''}: {reloads} saves, "
        f"{reloads - len(took)} not seen; seen after {', '.join(f'{it:.2f}' for it in took)} s"
        + ("" if uses else "; it doesn't use Watchman")
    )
    return len(took) < reloads


if __name__ == "__main__":
    sys.exit(main())
