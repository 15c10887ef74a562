"""Fixtures for pytest, which loads them by itself where the package is installed: `kbroker`, a steered broker of its own for each
test, and `kbroker_factory`, which starts brokers with settings.

    @pytest.fixture
    def kbroker_settings():
        return [super_users("bank"), user("bank", "secret"), topic("debits")]

    def test_a_transfer(kbroker):
        Service(kbroker.client_config("bank", "secret")).transfer()
"""

import contextlib
from collections.abc import Callable, Iterator

import pytest

from kbroker_testing.broker import Kbroker
from kbroker_testing.settings import Settings


@pytest.fixture
def kbroker_factory() -> Iterator[Callable[..., Kbroker]]:
    """Starts brokers, which end with the test: `kbroker_factory(settings, clock=True)`."""
    with contextlib.ExitStack() as stack:
        yield lambda *given, **named: stack.enter_context(Kbroker(*given, **named))


@pytest.fixture
def kbroker_settings() -> Settings:
    """The settings of `kbroker`: override this fixture."""
    return []


@pytest.fixture
def kbroker(kbroker_factory: Callable[..., Kbroker], kbroker_settings: Settings) -> Kbroker:
    """A broker whose time goes on by itself, and which `with kbroker.steered():` takes over."""
    return kbroker_factory(kbroker_settings, clock=True)
