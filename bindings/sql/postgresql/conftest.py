"""The server that the tests of the extension share."""

import pytest
from byte_unit_dev import postgresql
from byte_unit_dev.fixtures import need
from byte_unit_dev.needs import POSTGRESQL


@pytest.fixture(scope="session")
def server(library):
    need(*POSTGRESQL)
    with postgresql.running(library) as started:
        started.sql(postgresql.TRIED)
        yield started
