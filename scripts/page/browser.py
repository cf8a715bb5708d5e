"""Chromium, with the page in it."""
import os
import shutil
import sys

from place import wait_for

COMMANDS = {
    "chromium": "chromium",
    "chromedriver": "chromium-driver",
    "nginx": "nginx",
    "caddy": "caddy",
    "openssl": "openssl",
    "cargo": "cargo",
}
OPTIONS = (
    "headless=new",
    "disable-gpu",
    "disable-dev-shm-usage",
    "no-first-run",
    "disable-background-networking",
    "disable-component-update",
    "lang=en",
    "window-size=1280,900",
    "hide-scrollbars",
    "host-resolver-rules=MAP * ~NOTFOUND, EXCLUDE localhost",
)


def lacking():
    """The Debian packages that are not on this machine."""
    os.environ["PATH"] += ":/usr/sbin"
    lacks = [package for command, package in COMMANDS.items() if not shutil.which(command)]
    try:
        import selenium  # noqa: F401
    except ImportError:
        lacks.append("python3-selenium")
    return lacks


class Browser:
    """Chromium with the page."""

    def __init__(self, place):
        from selenium import webdriver
        from selenium.webdriver.chrome.service import Service

        self.place = place
        self.downloads = place.folder / "downloads"
        options = webdriver.ChromeOptions()
        options.binary_location = shutil.which("chromium")
        for word in (*OPTIONS, *(["no-sandbox"] if os.getuid() == 0 else [])):
            options.add_argument(f"--{word}")
        options.accept_insecure_certs = True
        options.add_experimental_option("prefs", {"download.default_directory": str(self.downloads)})
        options.set_capability("goog:loggingPrefs", {"browser": "ALL"})
        os.environ["TMPDIR"] = str(place.folder)
        self.driver = webdriver.Chrome(service=Service(shutil.which("chromedriver")), options=options)

    def close(self):
        self.driver.quit()

    def script(self, text, *words):
        return self.driver.execute_script(text, *words)

    def order(self, name, **words):
        """A command of the browser's own protocol."""
        return self.driver.execute_cdp_cmd(name, words)

    def resize(self, width, height):
        self.order("Emulation.setDeviceMetricsOverride", width=width, height=height, deviceScaleFactor=1, mobile=False)

    def prefer(self, scheme):
        """The reader's screen is `light` or `dark`."""
        self.order("Emulation.setEmulatedMedia", features=[{"name": "prefers-color-scheme", "value": scheme}])

    def open(self, hash=""):
        """Loads the page anew, at this place of it."""
        self.driver.get("about:blank")
        self.driver.get(f"{self.place.address}/{hash}")
        self.settle()

    def go(self, hash):
        """Goes to a place of the page, as a link does."""
        self.script("location.hash = arguments[0]", hash)
        self.settle()

    def settle(self):
        """Waits until the page asks for nothing more, behind the events that are due."""
        self.driver.execute_async_script("setTimeout(arguments[0], 30)")
        wait_for("the page is done", lambda: self.script("return document.getElementById('main').ariaBusy") == "false")

    def all(self, path):
        return [it for it in self.driver.find_elements("css selector", path) if it.is_displayed()]

    def one(self, path):
        found = self.all(path)
        if len(found) != 1:
            raise LookupError(f"{path}: there are {len(found)}")
        return found[0]

    def text(self, path):
        return " ".join(it.text for it in self.all(path))

    def texts(self, path):
        return [it.text for it in self.all(path)]

    def click(self, path):
        self.one(path).click()
        self.settle()

    def write(self, path, text):
        """Types a text in place of the one that is there."""
        self.clear(path)
        self.one(path).send_keys(text)
        self.settle()

    def clear(self, path):
        from selenium.webdriver.common.keys import Keys

        self.one(path).send_keys(Keys.CONTROL, "a")
        self.one(path).send_keys(Keys.DELETE)

    @property
    def focus(self):
        """The id of the element that has the focus."""
        return self.script("return document.activeElement.id")

    @property
    def fits(self):
        """Nothing is wider than the window."""
        return self.script("const it = document.documentElement; return it.scrollWidth <= it.clientWidth")

    def texts_within(self, path):
        """The texts of all such elements, those out of sight too, as they stand in the page."""
        return self.script("return [...document.querySelectorAll(arguments[0])].map((it) => it.textContent)", path)

    def press(self, *keys):
        """Presses keys, wherever the focus is."""
        from selenium.webdriver.common.action_chains import ActionChains

        for key in keys:
            ActionChains(self.driver).send_keys(key).perform()

    def sign_in(self, token, keep=False):
        self.one("#token").send_keys(token)
        if keep:
            self.one("#keep").click()
        self.click("#sign-in button")

    def log(self):
        """What the browser has to say since it was last asked."""
        return [it["message"] for it in self.driver.get_log("browser") if it["level"] in ("WARNING", "SEVERE")]


def end(name, message):
    print(f"{name}: {message}", file=sys.stderr)
    sys.exit(2)
