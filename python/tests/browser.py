"""A page in headless Chromium, by selenium, at a width and in a scheme of colours."""
from __future__ import annotations

import shutil
from pathlib import Path
from typing import Any

from .common import installed

HAS_BROWSER = installed("selenium", "jinja2") and bool(shutil.which("chromium")) and bool(shutil.which("chromedriver"))


class Browser:
    """One browser for many pages; `close` ends it."""

    def __init__(self) -> None:
        from selenium import webdriver
        from selenium.webdriver.chrome.service import Service

        options = webdriver.ChromeOptions()
        options.binary_location = shutil.which("chromium")
        for word in ("--headless=new", "--no-sandbox", "--disable-gpu", "--disable-dev-shm-usage", "--hide-scrollbars", "--force-device-scale-factor=1"):
            options.add_argument(word)
        options.set_capability("goog:loggingPrefs", {"browser": "ALL"})
        self.driver = webdriver.Chrome(options=options, service=Service(shutil.which("chromedriver")))
        self.driver.set_script_timeout(30)

    def close(self) -> None:
        self.driver.quit()

    def open(self, page: Path, width: int = 1400, height: int = 1000, scheme: str = "light") -> None:
        """Opens a page in a window of this size, where the user likes this scheme of colours."""
        self.driver.execute_cdp_cmd("Emulation.setDeviceMetricsOverride", {"width": width, "height": height, "deviceScaleFactor": 1, "mobile": False})
        self.driver.execute_cdp_cmd("Emulation.setEmulatedMedia", {"features": [{"name": "prefers-color-scheme", "value": scheme}]})
        self.driver.get(page.resolve().as_uri())

    def run(self, script: str, *values: Any) -> Any:
        """What a script gives; `await` may stand in it."""
        told = self.driver.execute_async_script(
            "const given = Array.from(arguments), done = given.pop();"
            f"(async (...values) => {{ {script} }})(...given).then((value) => done([value]), (error) => done(String(error)));",
            *values,
        )
        if isinstance(told, str):
            raise AssertionError(told)
        return told[0]

    def click(self, selector: str) -> None:
        self.driver.find_element("css selector", selector).click()

    def point(self, selector: str, right: float = 0.5, down: float = 0.5) -> None:
        """Moves the pointer to a place of an element, in parts of its width and height."""
        from selenium.webdriver.common.action_chains import ActionChains

        element = self.driver.find_element("css selector", selector)
        self.run("values[0].scrollIntoView({block: 'center'})", element)
        size = element.size
        ActionChains(self.driver, duration=0).move_to_element_with_offset(element, int((right - 0.5) * size["width"]), int((down - 0.5) * size["height"])).perform()

    def change(self, selector: str, value: object) -> None:
        """Gives a field or a list another value, as a user does."""
        self.run("const field = document.querySelector(values[0]); field.value = values[1]; field.dispatchEvent(new Event('change'))", selector, str(value))

    def said(self) -> list[str]:
        """What stands on the console."""
        return [entry["message"] for entry in self.driver.get_log("browser")]
