"""The bank by pytest's fixtures: `kbroker` is a broker of its own for each test, with the settings of `kbroker_settings`.

    PYTHONPATH=python KBROKER=./kbroker python3 -m pytest -p kbroker_testing.pytest_plugin examples/bank

Where `kbroker_testing` is installed, pytest finds its fixtures by itself, and `-p` isn't needed.
"""

import pytest
from bank import TRANSACTIONS, Auditor, Bank, transfer
from test_bank import SETTINGS, TRANSFERS, books, order, properties


@pytest.fixture
def kbroker_settings():
    return SETTINGS


@pytest.fixture
def bank(kbroker):
    bank = Bank(properties(kbroker, "bank"))
    yield bank
    bank.close()


@pytest.fixture
def auditor(kbroker):
    auditor = Auditor(properties(kbroker, "auditor"))
    yield auditor
    auditor.close()


def test_a_commit_without_its_markers(kbroker, bank, auditor):
    order(kbroker, TRANSFERS)
    with kbroker.steered():
        bank.work()
        assert kbroker.state().transactions[TRANSACTIONS].state == "PrepareCommit"
        assert auditor.books() == books([])
        kbroker.marks()
        assert auditor.books() == books(TRANSFERS[:1])


def test_two_brokers(kbroker_factory):
    """Each bank books what its own customers order."""
    brokers = [kbroker_factory(SETTINGS, clock=True) for _ in range(2)]
    for broker, it in zip(brokers, TRANSFERS):
        order(broker, [it])
    for broker, it in zip(brokers, TRANSFERS):
        bank = Bank(properties(broker, "bank"))
        assert bank.work().value().decode() == transfer(*it)
        bank.close()
