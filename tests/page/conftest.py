"""What the tests of the page need: the program, with which the page is compared, and a page that has nothing kept."""

from collections.abc import Iterator
from contextlib import ExitStack
from pathlib import Path

import pytest

from tests.page.driver.desk import PAGE, Desk
from tests.tools import browser

# The width and the height of a window in which the screen, the timeline and a tab are seen.
WINDOW = (1400, 900)
HAS_FAILED = pytest.StashKey[bool]()


class Running:
    """The browser of the tests that run in this process, and a new one after a test that failed."""

    def __init__(self) -> None:
        self._used = ExitStack()
        self._found: browser.Browser | None = None

    def browser(self) -> browser.Browser:
        """Returns the browser, which is begun if there is none."""
        if self._found is None:
            self._found = self._used.enter_context(browser.browser())
        return self._found

    def close(self) -> None:
        """Ends the browser."""
        self._found = None
        self._used.close()


@pytest.fixture(autouse=True, scope="session")
def built(program: object) -> None:
    """The program is there, with which the page is compared."""


@pytest.fixture(scope="session")
def given_module(pytestconfig: pytest.Config) -> Path | None:
    """The module that is built already, around which the page is built; or none."""
    given = pytestconfig.getoption("--module")
    return Path(given).resolve() if given else None


@pytest.fixture(scope="session")
def running() -> Iterator[Running]:
    """The browser of this process."""
    found = Running()
    yield found
    found.close()


@pytest.hookimpl(hookwrapper=True)
def pytest_runtest_makereport(item: pytest.Item) -> Iterator[None]:
    """Notes that a test failed, so that its pages show what they had."""
    outcome = yield
    if outcome.get_result().failed:  # type: ignore[attr-defined]
        item.stash[HAS_FAILED] = True


@pytest.fixture
def desk(running: Running, request: pytest.FixtureRequest, tmp_path: Path) -> Iterator[Desk]:
    """The page in a profile of its own, in a window of the same size for each test. If the test fails, its pages show what they had."""
    used = running.browser()
    with used.fresh(PAGE) as page:
        found = Desk(used, page, tmp_path)
        page.resize(*WINDOW)
        yield found
        if not request.node.stash.get(HAS_FAILED, False):
            found.expect_sound()
            return
        used.leave()
    running.close()
