"""The package that users have, python/kbroker_testing."""
