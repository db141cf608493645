"""A login in a browser with a window of its own: it is typed into the browser's prompt, and ends with "Log out"."""
import contextlib
import os
import subprocess
import time

from clerk_screens import FEW
from clerks import NAME, SECRET, Browser, hotel


@contextlib.contextmanager
def screen():
    """The name of a screen that nobody sees."""
    with subprocess.Popen(["Xvfb", "-displayfd", "1", "-screen", "0", "1280x900x24"], stdout=subprocess.PIPE,
                          stderr=subprocess.DEVNULL, text=True) as server:
        try:
            yield f":{server.stdout.readline().strip()}"
        finally:
            server.terminate()


class Windowed(Browser):
    """A browser with a window on this screen. A page that waits for a login holds nothing up."""

    def __init__(self, site, name):
        self.around = dict(os.environ, DISPLAY=name)
        super().__init__(site.folder.parent, ["no-first-run", f"ignore-certificate-errors-spki-list={site.key()}"],
                         around=self.around)

    def keys_typed(self, *words):
        """Types as a keyboard does, into whatever has it: also into a prompt, which no script of a page sees."""
        subprocess.run(["xdotool", *words], env=self.around, check=True)
        time.sleep(0.5)

    def logs_in(self, address):
        """Opens the page, and types the login into the prompt. How soon that is there isn't told: so it is tried with
        longer waits. Whether the page is then shown."""
        for wait in 3, 8, 20:
            self.browser.get(address)
            time.sleep(wait)
            for words in ["type", "ann"], ["key", "Tab"], ["type", SECRET], ["key", "Return"]:
                self.keys_typed(*words)
            if self.until(lambda: "Ann Lee" in self.text("main")):
                return True
        return False

    def left(self, wait):
        """What is shown once the prompt is cancelled."""
        time.sleep(wait)
        self.keys_typed("key", "Escape")
        self.until(lambda: self.text("body"))
        return self.text("body").strip()


def logged_out_of_a_window(desk):
    """After "Log out" the browser has no login: neither "Back" nor the address shows a guest, in no tab."""
    with screen() as name, hotel(desk, FEW) as (_, site), Windowed(site, name) as browser:
        address = f"https://{NAME}:{site.port}/"
        yield "logged in", True, browser.logs_in(address)
        browser.find("[href='/logout']").click()
        yield "logged out", "You are logged out.", browser.left(4)
        browser.js("history.back()")
        time.sleep(4)
        yield "back", False, "Ann Lee" in browser.text("body")
        browser.browser.get(address)
        yield "anew", "401 Authorization Required", browser.left(4).split("\n")[0]
        browser.browser.switch_to.new_window("tab")
        browser.browser.get(address)
        yield "in a new tab", "401 Authorization Required", browser.left(4).split("\n")[0]
