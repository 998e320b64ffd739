"""A headless Chromium for tests: Debian's chromium, chromium-driver and python3-selenium. Without
them `MISSING` says what isn't there.
"""

from __future__ import annotations

import contextlib
import shutil
import tempfile
import time
from collections.abc import Iterator
from typing import Any

try:
    from selenium import webdriver
    from selenium.webdriver.chrome.service import Service
    from selenium.webdriver.common.action_chains import ActionChains
    from selenium.webdriver.common.keys import Keys
except ImportError:  # Debian: apt-get install python3-selenium
    webdriver = Service = ActionChains = Keys = None

MISSING = ', '.join(
    [name for name in ('chromium', 'chromedriver') if shutil.which(name) is None]
    + ([] if webdriver else ['python3-selenium'])
)
SECONDS = 20.0


class Browser:
    """A browser with one page, of which a test asks by JavaScript and by keys."""

    def __init__(self, driver: Any):
        self.driver = driver

    def js(self, code: str, *given: Any) -> Any:
        """What a piece of JavaScript returns."""
        return self.driver.execute_script(code, *given)

    def wait(self, code: str, seconds: float = SECONDS) -> None:
        """Waits until an expression is true; AssertionError where it never is."""
        end = time.monotonic() + seconds
        while not self.js('return Boolean(' + code + ')'):
            if time.monotonic() > end:
                raise AssertionError(f'it is never so: {code}')
            time.sleep(0.02)

    def press(self, *keys: str) -> None:
        """Presses keys, where the focus is."""
        for key in keys:
            ActionChains(self.driver).send_keys(key).perform()

    def size(self, wide: int, high: int) -> None:
        """Makes the part of the window that shows the page so large."""
        self.driver.execute_cdp_cmd(
            'Emulation.setDeviceMetricsOverride',
            {'width': wide, 'height': high, 'deviceScaleFactor': 1, 'mobile': False},
        )

    def messages(self) -> list[str]:
        """What the browser complained about."""
        return [one['message'] for one in self.driver.get_log('browser')]


@contextlib.contextmanager
def started() -> Iterator[Browser]:
    """A browser with a profile of its own, which goes with it."""
    with tempfile.TemporaryDirectory(
        prefix='yoke-chromium-', ignore_cleanup_errors=True
    ) as profile:
        options = webdriver.ChromeOptions()
        for word in (
            '--headless=new',
            '--no-sandbox',
            '--disable-gpu',
            '--disable-dev-shm-usage',
            '--window-size=1400,950',
            f'--user-data-dir={profile}',
        ):
            options.add_argument(word)
        options.set_capability('goog:loggingPrefs', {'browser': 'ALL'})
        driver = webdriver.Chrome(service=Service(shutil.which('chromedriver')), options=options)
        try:
            yield Browser(driver)
        finally:
            driver.quit()
