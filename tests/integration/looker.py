"""A browser without a screen that looks at a page."""
from __future__ import annotations

import contextlib
import pathlib
import time
from typing import Any, Callable

from selenium import webdriver
from selenium.webdriver.chrome.options import Options
from selenium.webdriver.chrome.service import Service
from selenium.webdriver.common.by import By
from selenium.webdriver.common.keys import Keys

# how long something may take on a machine under load
SECONDS = 120.0
# a name that is bound to this machine
REBOUND = "rebound.example"


class Looker:
    """A browser, and what it found."""

    def __init__(self, folder: pathlib.Path, address: str):
        self.folder, self.address, self.wrong = folder, address, 0
        options: Any = Options()
        for word in (
            "--headless=new",
            "--no-sandbox",
            "--disable-gpu",
            "--disable-dev-shm-usage",
            "--window-size=1400,1300",
        ):
            options.add_argument(word)
        options.add_argument(f"--host-resolver-rules=MAP {REBOUND} 127.0.0.1")
        options.add_experimental_option("prefs", {"download.default_directory": str(folder)})
        options.set_capability("goog:loggingPrefs", {"browser": "ALL"})
        self.browser: Any = webdriver.Chrome(service=Service("chromedriver"), options=options)

    def look(self, what: str, holds: Callable[[], object]) -> None:
        """Waits until something holds."""
        until, found = time.monotonic() + SECONDS, None
        while time.monotonic() < until:
            with contextlib.suppress(Exception):
                found = holds()
            if found:
                print(f"ok {what}", flush=True)
                return
            time.sleep(0.05)
        self.wrong += 1
        print(f"wrong {what}: {found!r}", flush=True)

    def by_id(self, name: str) -> Any:
        return self.browser.find_element(By.ID, name)

    def text(self, name: str) -> str:
        return str(self.by_id(name).text)

    def all(self, selector: str) -> Any:
        return self.browser.find_elements(By.CSS_SELECTOR, selector)

    def write(self, name: str, text: str) -> None:
        """Clears a field and types into it."""
        field = self.by_id(name)
        field.send_keys(Keys.CONTROL, "a")
        field.send_keys(Keys.DELETE, text)

    def keys(self, *keys: str) -> None:
        self.browser.switch_to.active_element.send_keys(*keys)

    def square(self, march: str, primitive: str) -> Any:
        return self.all(f"#coverage [data-march='{march}'][data-primitive='{primitive}']")[0]

    def saved(self, name: str) -> str:
        """The text of a file that the browser saved; nothing before it is whole, since it has another name until
        then."""
        path = self.folder / name
        return path.read_text(encoding="utf-8") if path.exists() else ""

    def complaints(self) -> Any:
        """What the browser's console says."""
        return [entry["message"] for entry in self.browser.get_log("browser")]
